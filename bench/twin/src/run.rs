//! A list of steps lent as slices of numbers, as the store's own `run` takes it.

use crate::lists::*;
use crate::store::*;

/// Kind, thread, word or line, value and supply of each step.
pub struct Script<'a> {
    pub kinds: &'a [u64],
    pub threads: &'a [u64],
    pub places: &'a [u64],
    pub values: &'a [u64],
    pub supplies: &'a [u64],
}

impl Script<'_> {
    fn runnable(&self, answers: &[u64], stores: &[u64]) -> bool {
        let lengths = [
            self.threads.len(),
            self.places.len(),
            self.values.len(),
            self.supplies.len(),
            answers.len(),
            stores.len(),
        ];
        lengths.iter().all(|&n| n == self.kinds.len())
            && self.kinds.iter().all(|&k| k <= RECOVER as u64)
    }
}

/// Runs the list from the dark state on, and writes down the answer of each
/// step and the stores it made. Lengths that differ or a kind above 8 give 1,
/// and nothing is run.
pub fn run(lent: &mut Lent, script: &Script, answers: &mut [u64], stores: &mut [u64]) -> u64 {
    if !script.runnable(answers, stores) {
        return SIZE;
    }
    let mut state = State::DARK;
    for i in 0..script.kinds.len() {
        let (thread, place) = (script.threads[i], script.places[i]);
        let supply = script.supplies[i];
        let (answer, left) = match script.kinds[i] as usize {
            BEGIN => state.begin(supply, thread),
            STORE => state.store(lent, supply, thread, place, script.values[i]),
            LOG_UNDO => state.log_undo(lent, supply),
            LOG_REDO => state.log_redo(lent, supply),
            SET_DOWN => state.set_down(lent, supply, place),
            WRITE_HOME => state.write_home(lent, supply, place),
            COMMIT => state.commit(lent, supply, thread),
            DELETE => state.delete(lent, supply),
            _ => state.recover(lent, supply),
        };
        answers[i] = answer;
        stores[i] = supply - left;
    }
    DONE
}
