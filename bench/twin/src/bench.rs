//! Times of the steps in steady state, in nanoseconds per step.

use crate::store::*;
use std::hint::black_box;
use std::time::Instant;

const SLOTS: usize = 1024;
/// Each figure is the best of this many repeats.
const REPEATS: usize = 7;

/// The times per step of all batches of a name, in order of appearance.
#[derive(Default)]
struct Times(Vec<(&'static str, Vec<f64>)>);

impl Times {
    fn add(&mut self, name: &'static str, time: f64) {
        match self.0.iter_mut().find(|row| row.0 == name) {
            Some(row) => row.1.push(time),
            None => self.0.push((name, vec![time])),
        }
    }

    /// The middle time of each name, which a few disturbed batches don't move.
    fn middles(self) -> Vec<(&'static str, f64)> {
        let middle = |(name, mut times): (_, Vec<f64>)| {
            times.sort_by(f64::total_cmp);
            (name, times[times.len() / 2])
        };
        self.0.into_iter().map(middle).collect()
    }
}

struct Rig {
    home: Vec<u64>,
    working: Vec<u64>,
    log: Vec<u64>,
    state: State,
    /// What one look at the clock costs.
    tick: f64,
    times: Times,
}

impl Rig {
    fn new(words: usize) -> Rig {
        let mut rig = Rig {
            home: vec![0; words],
            working: vec![0; words],
            log: vec![0; 1 + 3 * SLOTS],
            state: State::DARK,
            tick: 0.0,
            times: Times::default(),
        };
        rig.step(|s, l| s.recover(l, AMPLE));
        (0..1000).for_each(|_| rig.batch("", 0, |_, _, _| (DONE, 0)));
        rig.tick = std::mem::take(&mut rig.times).middles()[0].1;
        rig
    }

    fn step(&mut self, step: impl Fn(&mut State, &mut Lent) -> Outcome) {
        let lent = &mut Lent {
            home: &mut self.home,
            working: &mut self.working,
            log: &mut self.log,
        };
        let (answer, _) = step(&mut self.state, lent);
        assert_eq!(answer, DONE);
    }

    /// Times a step for each number below `steps`; every one must be done.
    fn batch(
        &mut self,
        name: &'static str,
        steps: u64,
        step: impl Fn(&mut State, &mut Lent, u64) -> Outcome,
    ) {
        let lent = &mut Lent {
            home: &mut self.home,
            working: &mut self.working,
            log: &mut self.log,
        };
        let mut sum = 0;
        let clock = Instant::now();
        for number in 0..steps {
            sum |= step(&mut self.state, lent, black_box(number)).0;
        }
        let time = clock.elapsed().as_nanos() as f64 - self.tick;
        assert_eq!(black_box(sum), DONE);
        self.times.add(name, time / steps.max(1) as f64);
    }

    fn lines(&self) -> u64 {
        self.home.len() as u64 / 8
    }

    /// Every kind of step, on all threads if there are lines enough.
    fn all_kinds(&mut self, round: u64) {
        let lines = self.lines().min(8);
        let per_line = 16 / lines.max(2);
        let n = lines * per_line;
        let spot = move |i: u64| (i / per_line, 8 * (i / per_line) + i % per_line);
        let put = move |s: &mut State, l: &mut Lent, i: u64, value: u64| {
            let (thread, word) = spot(i);
            s.store(l, AMPLE, thread, word, 3 * round + value)
        };
        self.batch("begin", 8, |s, _, t| s.begin(AMPLE, t));
        self.batch("store, word Clean", n, |s, l, i| put(s, l, i, 1));
        self.batch("store, word Dirty", n, |s, l, i| put(s, l, i, 2));
        self.batch("log undo", n, |s, l, _| s.log_undo(l, AMPLE));
        self.batch("store, word URLog", n, |s, l, i| put(s, l, i, 3));
        self.batch("store, equal value", n, |s, l, i| put(s, l, i, 3));
        self.batch("set down", lines, |s, l, i| s.set_down(l, AMPLE, i));
        self.batch("log redo", n, |s, l, _| s.log_redo(l, AMPLE));
        self.batch("write home", lines, |s, l, i| s.write_home(l, AMPLE, i));
        self.batch("commit, 1 record", 8, |s, l, t| s.commit(l, AMPLE, t));
        let kept = self.state.tail - self.state.head;
        self.batch("delete", kept, |s, l, _| s.delete(l, AMPLE));
    }

    /// Short transactions with the write backs and deletes they need.
    fn transactions(&mut self, round: u64) {
        let line = round % self.lines();
        self.batch(
            "short transaction, mean of its 8 steps",
            8,
            |s, l, i| match i {
                0 => s.begin(AMPLE, 0),
                1 => s.store(l, AMPLE, 0, 8 * line, round + 1),
                2 => s.store(l, AMPLE, 0, 8 * line + 5, round + 1),
                3 => s.commit(l, AMPLE, 0),
                4 => s.write_home(l, AMPLE, line),
                _ => s.delete(l, AMPLE),
            },
        );
    }

    fn write_back_and_delete(&mut self) {
        for line in 0..self.lines() {
            self.step(|s, l| s.write_home(l, AMPLE, line));
        }
        for _ in self.state.head..self.state.tail {
            self.step(|s, l| s.delete(l, AMPLE));
        }
    }

    /// Commits of eight changed words, nine records each.
    fn wide_commits(&mut self, round: u64) {
        self.step(|s, _| s.begin(AMPLE, 0));
        for word in 0..8 {
            self.step(|s, l| s.store(l, AMPLE, 0, word, round + 1));
        }
        self.batch("commit, 9 records", 1, |s, l, _| s.commit(l, AMPLE, 0));
        self.write_back_and_delete();
    }

    /// Stores that find the undo+redo buffer full and log its oldest entry.
    fn crowded_stores(&mut self, round: u64) {
        let words = self.home.len() as u64;
        if words <= 16 {
            return;
        }
        self.step(|s, _| s.begin(AMPLE, 0));
        for word in 0..16 {
            self.step(|s, l| s.store(l, AMPLE, 0, word, round + 1));
        }
        self.batch("store, buffer full", words - 16, |s, l, i| {
            s.store(l, AMPLE, 0, 16 + i, round + 1)
        });
        self.step(|s, l| s.recover(l, AMPLE));
    }

    /// Begins, and fills all but `rest` slots with undo+redo records.
    fn fill_log(&mut self, rest: u64) {
        self.step(|s, _| s.begin(AMPLE, 0));
        let words = self.home.len() as u64;
        for number in 0..SLOTS as u64 - rest {
            let word = number % words;
            let value = self.working[word as usize] + 1;
            self.step(|s, l| s.store(l, AMPLE, 0, word, value));
            self.step(|s, l| s.log_undo(l, AMPLE));
            self.step(|s, l| s.set_down(l, AMPLE, word / 8));
        }
    }

    fn recoveries(&mut self, name: &'static str, times: u64) {
        let head = self.log[0];
        self.batch(name, times, |s, l, _| {
            l.log[0] = head;
            s.recover(l, AMPLE)
        });
    }

    fn full_logs(&mut self) {
        self.recoveries("recover, no record", 200);
        self.fill_log(0);
        self.recoveries("recover, 1024 records to undo", 50);
        self.fill_log(1);
        self.step(|s, l| s.commit(l, AMPLE, 0));
        self.recoveries("recover, 1023 records to redo", 50);
        self.fill_log(1);
        self.step(|s, l| s.commit(l, AMPLE, 0));
        for line in 0..self.lines() {
            self.step(|s, l| s.write_home(l, AMPLE, line));
        }
        let name = "delete, commit 512 records later";
        self.batch(name, SLOTS as u64, |s, l, _| s.delete(l, AMPLE));
    }

    fn run(words: usize) -> Vec<(&'static str, f64)> {
        let mut rig = Rig::new(words);
        (0..2000).for_each(|round| rig.all_kinds(round));
        (0..2000).for_each(|round| rig.wide_commits(10_000 + round));
        (0..20).for_each(|round| rig.crowded_stores(20_000 + round));
        (0..20_000).for_each(|round| rig.transactions(30_000 + round));
        (0..5).for_each(|_| rig.full_logs());
        rig.times.middles()
    }
}

/// The best of several repeats, by name.
fn best(words: usize) -> Vec<(&'static str, f64)> {
    let mut best = Rig::run(words);
    for _ in 1..REPEATS {
        for (row, other) in best.iter_mut().zip(Rig::run(words)) {
            row.1 = row.1.min(other.1);
        }
    }
    best
}

pub fn bench() {
    let small = best(8);
    let large = best(512);
    println!(
        "{:40} {:>9} {:>9}",
        "ns per step, L = 1024", "W = 8", "W = 512"
    );
    for (name, at_large) in large {
        let at_small = small.iter().find(|row| row.0 == name);
        let at_small = at_small.map_or("-".into(), |row| format!("{:.1}", row.1));
        println!("{name:40} {at_small:>9} {at_large:>9.1}");
    }
}
