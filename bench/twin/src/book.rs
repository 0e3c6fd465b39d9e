//! The account book: what home must hold after each recover.

use crate::lists::{Event, BEGIN, COMMIT, RECOVER, STORE};

pub struct Book {
    settled: Vec<u64>,
    pending: [Vec<(usize, u64)>; 8],
}

impl Book {
    pub fn new(home: &[u64]) -> Book {
        Book {
            settled: home.to_vec(),
            pending: Default::default(),
        }
    }

    /// Enters a step; says of a done recover whether home is as it must be.
    pub fn enter(&mut self, e: &Event) -> Option<bool> {
        if e.answer != 0 {
            return None;
        }
        let thread = e.step.thread as usize;
        match e.step.kind {
            BEGIN => self.pending[thread].clear(),
            STORE => self.pending[thread].push((e.step.place as usize, e.step.value)),
            COMMIT => self.settle(thread),
            RECOVER => return Some(e.home == self.settled),
            _ => {}
        }
        None
    }

    fn settle(&mut self, thread: usize) {
        for (word, value) in self.pending[thread].drain(..) {
            self.settled[word] = value;
        }
    }
}
