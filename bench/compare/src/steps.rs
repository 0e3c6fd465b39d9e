//! Lists of steps as slices of numbers.

use twin::lists::*;
use twin::run::Script;
use twin::store::AMPLE;

#[derive(Clone, Default)]
pub struct Steps {
    kinds: Vec<u64>,
    threads: Vec<u64>,
    places: Vec<u64>,
    values: Vec<u64>,
    supplies: Vec<u64>,
}

impl Steps {
    /// A list that starts with a recover.
    pub fn recovered() -> Steps {
        Steps::default().recover()
    }

    fn add(mut self, kind: usize, thread: u64, place: u64, value: u64) -> Steps {
        self.kinds.push(kind as u64);
        self.threads.push(thread);
        self.places.push(place);
        self.values.push(value);
        self.supplies.push(AMPLE);
        self
    }

    pub fn begin(self, thread: u64) -> Steps {
        self.add(BEGIN, thread, 0, 0)
    }

    pub fn store(self, thread: u64, word: u64, value: u64) -> Steps {
        self.add(STORE, thread, word, value)
    }

    pub fn log_undo(self) -> Steps {
        self.add(LOG_UNDO, 0, 0, 0)
    }

    pub fn log_redo(self) -> Steps {
        self.add(LOG_REDO, 0, 0, 0)
    }

    pub fn evict(self, line: u64) -> Steps {
        self.add(SET_DOWN, 0, line, 0)
    }

    pub fn write_back(self, line: u64) -> Steps {
        self.add(WRITE_HOME, 0, line, 0)
    }

    pub fn commit(self, thread: u64) -> Steps {
        self.add(COMMIT, thread, 0, 0)
    }

    pub fn delete(self) -> Steps {
        self.add(DELETE, 0, 0, 0)
    }

    pub fn recover(self) -> Steps {
        self.add(RECOVER, 0, 0, 0)
    }

    /// The steps that `step` adds for each number below `count`.
    pub fn each(self, count: u64, step: impl Fn(Steps, u64) -> Steps) -> Steps {
        (0..count).fold(self, step)
    }

    pub fn len(&self) -> usize {
        self.kinds.len()
    }

    pub fn script(&self) -> Script<'_> {
        Script {
            kinds: &self.kinds,
            threads: &self.threads,
            places: &self.places,
            values: &self.values,
            supplies: &self.supplies,
        }
    }
}
