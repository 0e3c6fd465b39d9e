//! A case: what a few steps cost after others, on both sides.

use crate::sides::{Buffers, Side};
use crate::steps::Steps;
use std::time::{Duration, Instant};

/// The steps timed are those of the whole list that `before` lacks, and `per`
/// of them, or of what they make up, is what the time is divided by.
pub struct Case {
    pub name: String,
    start: Buffers,
    before: Steps,
    whole: Steps,
    per: f64,
    passes: Vec<Lists>,
}

/// The shortest times of the list before on both sides, then of the whole list.
pub type Lists = [f64; 4];

/// Nanoseconds for one, on both sides.
#[derive(Clone, Copy)]
pub struct Times {
    pub twin: f64,
    pub rattle: f64,
}

impl Times {
    pub fn ratio(self) -> f64 {
        self.rattle / self.twin
    }
}

impl Case {
    /// Times what `timed` adds to the list `before`, which runs on `start`.
    pub fn new(
        name: impl Into<String>,
        start: Buffers,
        before: Steps,
        per: u64,
        timed: impl Fn(Steps) -> Steps,
    ) -> Case {
        let whole = timed(before.clone());
        Case {
            name: name.into(),
            start,
            before,
            whole,
            per: per as f64,
            passes: Vec::new(),
        }
    }

    pub fn called(self, name: impl Into<String>) -> Case {
        Case {
            name: name.into(),
            ..self
        }
    }

    /// Runs both lists on both sides in turn, for about this long.
    pub fn measure(&self, long: Duration) -> Lists {
        let clock = Instant::now();
        let (mut twins, mut ours) = (self.start.clone(), self.start.clone());
        let mut best = [f64::INFINITY; 4];
        let mut rounds = 0;
        while rounds < 5 || clock.elapsed() < long {
            for whole in [false, true] {
                let at = 2 * whole as usize;
                best[at] = best[at].min(self.time(whole, Side::Twin, &mut twins));
                best[at + 1] = best[at + 1].min(self.time(whole, Side::Rattle, &mut ours));
                assert!(twins == ours, "{}: the two differ", self.name);
                let done = ours.answers.iter().all(|&a| a == 0);
                assert!(done, "{}: a step is not done", self.name);
            }
            rounds += 1;
        }
        best
    }

    fn time(&self, whole: bool, side: Side, buffers: &mut Buffers) -> f64 {
        let steps = if whole { &self.whole } else { &self.before };
        buffers.reset(&self.start, steps.len());
        buffers.run(side, steps)
    }

    /// Takes note of what a pass measured.
    pub fn note(&mut self, lists: Lists) {
        self.passes.push(lists);
    }

    /// Of each side the median over the passes.
    pub fn times(&self) -> Times {
        Times {
            twin: self.median(|[before, _, whole, _]| whole - before),
            rattle: self.median(|[_, before, _, whole]| whole - before),
        }
    }

    /// The median of what `of` gives for each pass, for one.
    fn median(&self, of: impl Fn(Lists) -> f64) -> f64 {
        let mut all: Vec<f64> = self.passes.iter().map(|&lists| of(lists)).collect();
        all.sort_by(f64::total_cmp);
        all[all.len() / 2] / self.per
    }

    /// Runs one list on one side, to be looked at by a profiler.
    pub fn replay(&self, side: Side, whole: bool, rounds: usize) {
        let mut buffers = self.start.clone();
        for _ in 0..rounds {
            self.time(whole, side, &mut buffers);
        }
    }
}
