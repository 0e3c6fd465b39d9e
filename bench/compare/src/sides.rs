//! The two that are compared: each runs a list of steps over three buffers.

use crate::steps::Steps;
use std::time::Instant;
use twin::run::run;
use twin::store::{Lent, DONE};

#[derive(Clone, Copy, PartialEq, Eq)]
pub enum Side {
    Twin,
    Rattle,
}

extern "C" {
    /// Each slice is a pointer and a length.
    fn rukwetid_run(
        home: *mut u64,
        home_len: usize,
        working: *mut u64,
        working_len: usize,
        log: *mut u64,
        log_len: usize,
        kinds: *const u64,
        kinds_len: usize,
        threads: *const u64,
        threads_len: usize,
        places: *const u64,
        places_len: usize,
        values: *const u64,
        values_len: usize,
        supplies: *const u64,
        supplies_len: usize,
        answers: *mut u64,
        answers_len: usize,
        stores: *mut u64,
        stores_len: usize,
    ) -> u64;
}

/// The three buffers, and what a run wrote down of each step.
#[derive(Clone, PartialEq, Eq)]
pub struct Buffers {
    pub home: Vec<u64>,
    pub working: Vec<u64>,
    pub log: Vec<u64>,
    pub answers: Vec<u64>,
    pub stores: Vec<u64>,
}

impl Buffers {
    /// Home of zeros, and a fresh log.
    pub fn fresh(words: usize, slots: usize) -> Buffers {
        Buffers {
            home: vec![0; words],
            working: vec![0; words],
            log: vec![0; 1 + 3 * slots],
            answers: Vec::new(),
            stores: Vec::new(),
        }
    }

    /// The same home and log as `start`, and room for the answers of a list.
    pub fn reset(&mut self, start: &Buffers, steps: usize) {
        self.home.copy_from_slice(&start.home);
        self.working.copy_from_slice(&start.working);
        self.log.copy_from_slice(&start.log);
        for told in [&mut self.answers, &mut self.stores] {
            told.clear();
            told.resize(steps, u64::MAX);
        }
    }

    /// Runs the list, and says how many nanoseconds that took.
    pub fn run(&mut self, side: Side, steps: &Steps) -> f64 {
        let clock = Instant::now();
        let answer = match side {
            Side::Twin => self.run_twin(steps),
            Side::Rattle => self.run_rattle(steps),
        };
        let time = clock.elapsed().as_nanos() as f64;
        assert_eq!(answer, DONE, "the list was run");
        time
    }

    fn run_twin(&mut self, steps: &Steps) -> u64 {
        let lent = &mut Lent {
            home: &mut self.home,
            working: &mut self.working,
            log: &mut self.log,
        };
        run(lent, &steps.script(), &mut self.answers, &mut self.stores)
    }

    fn run_rattle(&mut self, steps: &Steps) -> u64 {
        let s = steps.script();
        // No two of the slices overlap, and all live until the call returns.
        unsafe {
            rukwetid_run(
                self.home.as_mut_ptr(),
                self.home.len(),
                self.working.as_mut_ptr(),
                self.working.len(),
                self.log.as_mut_ptr(),
                self.log.len(),
                s.kinds.as_ptr(),
                s.kinds.len(),
                s.threads.as_ptr(),
                s.threads.len(),
                s.places.as_ptr(),
                s.places.len(),
                s.values.as_ptr(),
                s.values.len(),
                s.supplies.as_ptr(),
                s.supplies.len(),
                self.answers.as_mut_ptr(),
                self.answers.len(),
                self.stores.as_mut_ptr(),
                self.stores.len(),
            )
        }
    }
}
