//! The paper's benches, its wrong ways, the examples of request [1], and the
//! rules beside them.

use crate::book::Book;
use crate::lists::play;
use crate::store::*;

struct Rig {
    home: Vec<u64>,
    working: Vec<u64>,
    log: Vec<u64>,
    state: State,
    supply: u64,
}

const UNDO_REDO: u64 = 0x0500_0000_0000_0000;
const REDO: u64 = 0x0600_0000_0000_0000;
const LAST: u64 = 0x0700_0000_0000_0000;

impl Rig {
    fn blank(words: usize, slots: usize) -> Rig {
        Rig {
            home: vec![0; words],
            working: vec![99; words],
            log: vec![0; 1 + 3 * slots],
            state: State::DARK,
            supply: AMPLE,
        }
    }

    fn sized(words: usize, slots: usize) -> Rig {
        let mut rig = Rig::blank(words, slots);
        rig.recover(1);
        rig
    }

    fn new() -> Rig {
        Rig::sized(8, 8)
    }

    /// Recovered, and thread 0 has begun.
    fn begun() -> Rig {
        let mut rig = Rig::new();
        assert_eq!(rig.begin(0), DONE);
        rig
    }

    /// P2: one word stored and committed.
    fn p2() -> Rig {
        let mut rig = Rig::begun();
        assert_eq!(rig.store(0, 0, 7), DONE);
        rig.done(6, Rig::commit0);
        rig
    }

    /// The start of P4: word 0 logged with 7, then changed to 9.
    fn relogged() -> Rig {
        let mut rig = Rig::begun();
        assert_eq!(rig.store(0, 0, 7), DONE);
        rig.done(3, Rig::log_undo);
        assert_eq!(rig.store(0, 0, 9), DONE);
        rig
    }

    fn step(&mut self, step: impl Fn(&mut State, &mut Lent, u64) -> Outcome) -> u64 {
        let lent = &mut Lent {
            home: &mut self.home,
            working: &mut self.working,
            log: &mut self.log,
        };
        let (answer, left) = step(&mut self.state, lent, self.supply);
        self.supply = left;
        answer
    }

    fn begin(&mut self, thread: u64) -> u64 {
        self.step(|s, _, c| s.begin(c, thread))
    }
    fn store(&mut self, thread: u64, word: u64, value: u64) -> u64 {
        self.step(|s, l, c| s.store(l, c, thread, word, value))
    }
    fn log_undo(&mut self) -> u64 {
        self.step(|s, l, c| s.log_undo(l, c))
    }
    fn log_redo(&mut self) -> u64 {
        self.step(|s, l, c| s.log_redo(l, c))
    }
    fn set_down(&mut self, line: u64) -> u64 {
        self.step(|s, l, c| s.set_down(l, c, line))
    }
    fn write_home(&mut self, line: u64) -> u64 {
        self.step(|s, l, c| s.write_home(l, c, line))
    }
    fn commit(&mut self, thread: u64) -> u64 {
        self.step(|s, l, c| s.commit(l, c, thread))
    }
    fn commit0(&mut self) -> u64 {
        self.commit(0)
    }
    fn delete(&mut self) -> u64 {
        self.step(|s, l, c| s.delete(l, c))
    }
    fn recover_any(&mut self) -> u64 {
        self.step(|s, l, c| s.recover(l, c))
    }

    /// The step is done and makes this many stores.
    fn done(&mut self, stores: u64, step: impl Fn(&mut Rig) -> u64) {
        self.supply = AMPLE;
        assert_eq!(step(self), DONE);
        assert_eq!(AMPLE - self.supply, stores);
        self.supply = AMPLE;
    }

    fn recover(&mut self, stores: u64) {
        self.done(stores, Rig::recover_any);
        assert_eq!(self.home, self.working);
    }

    /// The step is refused with this number and changes nothing.
    fn refuses(&mut self, number: u64, step: impl Fn(&mut Rig) -> u64) {
        let before = (self.home.clone(), self.working.clone(), self.log.clone());
        let (state, supply) = (self.state, self.supply);
        assert_eq!(step(self), number);
        assert_eq!(self.supply, supply);
        assert_eq!(self.state, state);
        let after = (self.home.clone(), self.working.clone(), self.log.clone());
        assert_eq!(before, after);
    }

    /// With this count the step is cut.
    fn cuts(&mut self, supply: u64, step: impl Fn(&mut Rig) -> u64) {
        self.supply = supply;
        assert_eq!(step(self), CUT);
        assert_eq!(self.supply, 0);
        assert_eq!(self.state, State::DARK);
        assert!(self.working.iter().all(|&w| w == 0));
        self.supply = AMPLE;
    }

    fn slot(&self, slot: usize) -> [u64; 3] {
        [0, 1, 2].map(|i| self.log[1 + 3 * slot + i])
    }

    /// Thread 0 begins and changes this word.
    fn change(&mut self, word: u64, value: u64) {
        self.done(0, |r| r.begin(0));
        self.done(0, |r| r.store(0, word, value));
    }

    /// An open transaction changes this word, and its entry is logged.
    fn record(&mut self, thread: u64, word: u64, value: u64) {
        self.done(0, |r| r.store(thread, word, value));
        self.done(3, Rig::log_undo);
    }

    fn transaction(&mut self, value: u64) {
        self.change(0, value);
        self.done(6, Rig::commit0);
    }

    /// Four transactions of two records: with 8 slots the log is full.
    fn four(&mut self) {
        (1..=4).for_each(|value| self.transaction(value));
    }
}

// The benches P1 to P11.

#[test]
fn p1_recover_makes_one_store() {
    let mut rig = Rig::blank(8, 8);
    rig.cuts(0, Rig::recover_any);
    rig.recover(1);
}

#[test]
fn p2_commit_makes_six_stores() {
    let mut rig = Rig::p2();
    assert_eq!(rig.slot(0), [0, 7, UNDO_REDO]);
    assert_eq!(rig.slot(1), [0, 0, LAST]);
    rig.recover(2);
    assert_eq!((rig.home[0], rig.log[0]), (7, 2));
}

#[test]
fn p3_cut_commit_is_undone() {
    let mut rig = Rig::begun();
    rig.store(0, 0, 7);
    rig.cuts(5, Rig::commit0);
    rig.recover(2);
    assert_eq!((rig.home[0], rig.log[0]), (0, 1));
}

#[test]
fn p4_later_redo_wins() {
    let mut rig = Rig::relogged();
    rig.done(8, |r| r.write_home(0));
    rig.done(6, Rig::commit0);
    rig.recover(3);
    assert_eq!(rig.home[0], 9);
}

#[test]
fn p5_written_home_but_open_is_undone() {
    let mut rig = Rig::relogged();
    rig.done(8, |r| r.write_home(0));
    assert_eq!(rig.home[0], 9);
    rig.recover(2);
    assert_eq!(rig.home[0], 0);
}

#[test]
fn p6_set_down_between_two_undo_records() {
    let rig = || {
        let mut rig = Rig::relogged();
        rig.done(0, |r| r.set_down(0));
        rig.done(0, |r| r.store(0, 0, 11));
        rig
    };
    let mut closed = rig();
    closed.done(6, Rig::commit0);
    assert_eq!(closed.state.tail, 3);
    closed.recover(3);
    assert_eq!(closed.home[0], 11);
    let mut open = rig();
    open.done(3, Rig::log_undo);
    open.recover(3);
    assert_eq!(open.home[0], 0);
}

#[test]
fn p7_equal_store_claims_the_line() {
    let mut rig = Rig::begun();
    rig.done(0, |r| r.store(0, 0, 0));
    rig.done(0, |r| r.begin(1));
    rig.refuses(HELD, |r| r.store(1, 3, 5));
}

#[test]
fn p8_write_home_waits_for_the_undo() {
    let mut rig = Rig::begun();
    rig.store(0, 0, 7);
    rig.refuses(PENDING, |r| r.write_home(0));
    rig.refuses(PENDING, |r| r.set_down(0));
}

#[test]
fn p9_delete_needs_a_clean_line() {
    let mut rig = Rig::p2();
    rig.refuses(NEEDED, Rig::delete);
    rig.done(8, |r| r.write_home(0));
    rig.done(1, Rig::delete);
    rig.done(1, Rig::delete);
    rig.refuses(NOTHING, Rig::delete);
}

#[test]
fn p10_full_log_and_second_pass() {
    let mut full = Rig::new();
    full.four();
    full.change(0, 5);
    full.refuses(FULL_DIRTY, Rig::commit0);

    let mut rig = Rig::new();
    rig.four();
    rig.done(8, |r| r.write_home(0));
    rig.done(1, Rig::delete);
    rig.done(1, Rig::delete);
    rig.transaction(5);
    assert_eq!(rig.slot(0), [4, 5, 0x0100_0000_0000_0000]);
    assert_eq!(rig.slot(1), [0, 0, 0x0300_0000_0000_0000]);
    rig.recover(5);
    assert_eq!((rig.home[0], rig.log[0]), (5, 10));
}

#[test]
fn p11_numbers_end() {
    let mut rig = Rig::blank(8, 8);
    rig.log[0] = NUMBER_END;
    rig.recover(1);
    assert_eq!(rig.begin(0), DONE);
    rig.refuses(WORN, Rig::commit0);
    rig.log[0] = NUMBER_END + 1;
    assert_eq!(rig.recover_any(), HEAD);
    assert_eq!(rig.state, State::DARK);
    assert_eq!(rig.supply, AMPLE);
}

#[test]
fn sizes_and_threads_at_their_limits() {
    for (words, log, number) in [
        (7, 25, SIZE),
        (8, 25, DONE),
        (8, 24, SIZE),
        (8, 26, SIZE),
        (0, 25, SIZE),
        (512, 3073, DONE),
        (520, 25, SIZE),
        (8, 3076, SIZE),
    ] {
        let mut rig = Rig::blank(words, 8);
        rig.log = vec![0; log];
        assert_eq!(rig.recover_any(), number, "{words} {log}");
    }
    let mut rig = Rig::new();
    assert_eq!(rig.begin(7), DONE);
    rig.refuses(THREAD, |r| r.begin(8));
    rig.refuses(THREAD, |r| r.store(u64::MAX, 0, 1));
    rig.refuses(THREAD, |r| r.commit(8));
}

// The worked examples 1.1 to 1.10 of request [1]: why the log is full.

#[test]
fn v1_1_closed_and_dirty() {
    let mut rig = Rig::new();
    rig.four();
    rig.change(0, 5);
    rig.refuses(FULL_DIRTY, Rig::commit0);
    rig.refuses(FULL_DIRTY, Rig::log_undo);
    assert_eq!(rig.log[0], 0);
    assert_eq!(rig.working, [5, 0, 0, 0, 0, 0, 0, 0]);
}

#[test]
fn v1_2_oldest_may_be_deleted() {
    let mut rig = Rig::sized(16, 8);
    rig.four();
    rig.done(8, |r| r.write_home(0));
    rig.change(8, 5);
    rig.refuses(FULL, Rig::commit0);
    rig.done(1, Rig::delete);
    rig.refuses(FULL, Rig::commit0);
    rig.done(1, Rig::delete);
    rig.done(6, Rig::commit0);
    assert_eq!(rig.log[0], 2);
    assert_eq!(rig.slot(0), [0, 5, 0x0100_0000_0000_0008]);
    assert_eq!(rig.slot(1), [0, 0, 0x0300_0000_0000_0000]);
}

#[test]
fn v1_3_open_though_dirty() {
    let mut rig = Rig::sized(16, 8);
    rig.done(0, |r| r.begin(0));
    rig.record(0, 0, 1);
    rig.done(0, |r| r.begin(1));
    (8..15).for_each(|word| rig.record(1, word, 1));
    rig.refuses(FULL_OPEN, |r| r.commit(1));
    rig.done(0, |r| r.store(1, 15, 1));
    rig.refuses(FULL_OPEN, Rig::log_undo);
    rig.done(0, |r| r.store(0, 0, 2));
    rig.refuses(FULL_OPEN, Rig::commit0);
    assert_eq!(rig.log[0], 0);
}

#[test]
fn v1_4_empty_log() {
    let mut rig = Rig::begun();
    (0..8).for_each(|word| rig.done(0, |r| r.store(0, word, 1)));
    rig.refuses(FULL, Rig::commit0);
    rig.done(3, Rig::log_undo);
    rig.refuses(FULL_OPEN, Rig::commit0);
    assert_eq!(rig.log[0], 0);
}

#[test]
fn v1_5_commits_of_another_thread() {
    let mut rig = Rig::sized(16, 8);
    rig.done(0, |r| r.begin(0));
    rig.record(0, 0, 1);
    for value in 1..=4 {
        rig.done(0, |r| r.begin(1));
        rig.done(0, |r| r.store(1, 8, value));
        if value < 4 {
            rig.done(6, |r| r.commit(1));
        }
    }
    rig.refuses(FULL_OPEN, |r| r.commit(1));
}

/// Recovered with this head; no record is there, since every torn bit is 1.
fn near_the_end(head: u64) -> Rig {
    let mut rig = Rig::blank(8, 8);
    rig.log[0] = head;
    (0..8).for_each(|slot| rig.log[3 + 3 * slot] = 1 << 58);
    rig.recover(1);
    rig
}

#[test]
fn v1_6_full_before_worn() {
    let mut rig = near_the_end(0xffff_ffff_fff8);
    rig.four();
    assert_eq!(rig.state.tail, 281_474_976_710_656);
    rig.change(0, 5);
    rig.refuses(FULL_DIRTY, Rig::commit0);
    rig.refuses(FULL_DIRTY, Rig::log_undo);
}

#[test]
fn v1_7_room_but_worn() {
    let mut rig = near_the_end(0xffff_ffff_ffff);
    rig.change(0, 5);
    rig.refuses(WORN, Rig::commit0);
    rig.done(3, Rig::log_undo);
    rig.refuses(WORN, Rig::commit0);
}

#[test]
fn v1_8_dirty_again() {
    let mut rig = Rig::new();
    rig.four();
    rig.done(8, |r| r.write_home(0));
    rig.change(0, 5);
    rig.refuses(FULL_DIRTY, Rig::commit0);
    rig.refuses(NEEDED, Rig::delete);
}

#[test]
fn v1_9_oldest_is_bad() {
    let mut rig = Rig::new();
    rig.four();
    rig.log[3] = 0;
    rig.change(0, 5);
    rig.refuses(FULL, Rig::commit0);
    rig.refuses(DAMAGED, Rig::delete);
}

#[test]
fn v1_10_bad_commit_is_none() {
    let mut rig = Rig::new();
    rig.transaction(1);
    rig.done(0, |r| r.begin(0));
    (0..6).for_each(|word| rig.record(0, word, 2));
    rig.done(0, |r| r.store(0, 6, 2));
    rig.refuses(FULL_DIRTY, Rig::log_undo);
    rig.log[6] = 0x0700_0000_0000_0001;
    rig.refuses(FULL_OPEN, Rig::log_undo);
    rig.log[3] = 0x0108_0000_0000_0000;
    rig.refuses(FULL, Rig::log_undo);
}

// Plausible, and wrong.

#[test]
fn redo_entry_outlives_write_home() {
    let mut rig = Rig::relogged();
    rig.done(0, |r| r.set_down(0));
    rig.done(8, |r| r.write_home(0));
    rig.done(6, Rig::commit0);
    assert_eq!(rig.slot(1), [0, 9, REDO]);
    rig.recover(3);
    assert_eq!(rig.home[0], 9);
}

#[test]
fn entry_with_equal_halves_stays() {
    // The log has 0 to 7; the word goes back to 7 by way of 9.
    let mut rig = Rig::relogged();
    rig.set_down(0);
    rig.store(0, 0, 7);
    rig.store(0, 0, 9);
    let entry = rig.state.undo.entries()[0];
    assert_eq!((entry.undo, entry.redo), (9, 9));
    rig.done(6, Rig::commit0);
    rig.recover(3);
    assert_eq!(rig.home[0], 9);
}

#[test]
fn equal_store_keeps_others_out() {
    let mut rig = Rig::begun();
    rig.store(0, 0, 0);
    assert_eq!(rig.state.holder[0], 0);
    assert!(!rig.state.dirty[0]);
    rig.begin(1);
    rig.refuses(HELD, |r| r.store(1, 0, 1));
    rig.commit(0);
    rig.done(0, |r| r.store(1, 0, 1));
}

#[test]
fn undo_runs_backwards() {
    let mut rig = Rig::relogged();
    rig.set_down(0);
    rig.store(0, 0, 11);
    rig.log_undo();
    assert_eq!(rig.slot(1), [9, 11, UNDO_REDO]);
    rig.recover(3);
    assert_eq!(rig.home[0], 0);
}

#[test]
fn equal_home_and_working_prove_nothing() {
    // The word is back at its home value, yet its line counts as dirty.
    let mut rig = Rig::p2();
    rig.transaction(0);
    assert_eq!(rig.home, rig.working);
    rig.refuses(NEEDED, Rig::delete);
}

// Refusals.

#[test]
fn size_before_dark_before_unsound() {
    let mut rig = Rig::begun();
    let short = |r: &mut Rig| {
        let saved = r.home.pop();
        let answer = r.store(9, 99, 1);
        r.home.extend(saved);
        answer
    };
    rig.state.tail = 9;
    rig.refuses(SIZE, short);
    rig.refuses(UNSOUND, |r| r.store(9, 99, 1));
    rig.state = State::DARK;
    rig.refuses(SIZE, short);
    rig.refuses(DARK, |r| r.store(9, 99, 1));
    rig.refuses(DARK, |r| r.begin(9));
    // A dark state takes any lawful lengths.
    rig.home = vec![0; 16];
    rig.working = vec![0; 16];
    rig.refuses(DARK, Rig::log_undo);
    let mut other = Rig::sized(16, 9);
    other.state = Rig::sized(8, 9).state;
    other.refuses(SIZE, Rig::delete);
    other.state = Rig::sized(16, 8).state;
    other.refuses(SIZE, Rig::delete);
}

#[test]
fn lowest_number_first() {
    let mut rig = Rig::new();
    rig.refuses(PLACE, |r| r.store(0, 8, 1));
    rig.refuses(PLACE, |r| r.set_down(1));
    rig.refuses(PLACE, |r| r.write_home(1 << 61));
    rig.refuses(IDLE, |r| r.store(0, 0, 1));
    rig.refuses(IDLE, Rig::commit0);
    rig.refuses(NOTHING, Rig::log_undo);
    rig.refuses(NOTHING, Rig::log_redo);
    rig.refuses(NOTHING, Rig::delete);
    rig.begin(0);
    rig.refuses(BUSY, |r| r.begin(0));
    rig.store(0, 0, 1);
    rig.refuses(IDLE, |r| r.store(1, 0, 1));
    rig.begin(1);
    rig.refuses(PLACE, |r| r.store(1, 8, 1));
    rig.refuses(HELD, |r| r.store(1, 0, 1));
    rig.refuses(THREAD, |r| r.store(8, 8, 1));
}

#[test]
fn begin_does_not_see_the_log() {
    let mut rig = Rig::new();
    rig.log[0] = 5;
    rig.refuses(UNSOUND, Rig::log_undo);
    rig.supply = 0;
    assert_eq!(rig.begin(0), DONE);
    rig.supply = 3;
    rig.refuses(BUSY, |r| r.begin(0));
}

#[test]
fn full_and_worn_need_a_record() {
    let mut rig = Rig::begun();
    (0..8).for_each(|word| assert_eq!(rig.store(0, word, 1), DONE));
    (0..8).for_each(|_| rig.done(3, Rig::log_undo));
    rig.refuses(NOTHING, Rig::log_undo);
    rig.refuses(FULL_OPEN, Rig::commit0);
    rig.done(0, |r| r.store(0, 0, 2));
    rig.done(0, |r| r.set_down(0));
    rig.refuses(FULL_OPEN, Rig::log_redo);
    rig.done(8, |r| r.write_home(0));
    let mut worn = Rig::blank(8, 8);
    worn.log[0] = NUMBER_END;
    worn.recover(1);
    worn.begin(0);
    worn.refuses(NOTHING, Rig::log_undo);
    worn.done(0, |r| r.store(0, 0, 1));
    worn.refuses(WORN, Rig::log_undo);
}

#[test]
fn every_logging_step_says_why_the_log_is_full() {
    let mut rig = Rig::sized(64, 40);
    rig.begin(0);
    // 40 records; then words 0 to 31 have redo entries, 32 to 39 are ULog and
    // 40 to 55 are Dirty.
    (0..40).for_each(|word| assert_eq!(rig.store(0, word, 1), DONE));
    (0..16).for_each(|_| rig.done(3, Rig::log_undo));
    (0..40).for_each(|word| rig.done(0, |r| r.store(0, word, 2)));
    (0..4).for_each(|line| rig.done(0, |r| r.set_down(line)));
    (40..56).for_each(|word| rig.done(0, |r| r.store(0, word, 1)));
    let all_refuse = |rig: &mut Rig, number| {
        rig.refuses(number, |r| r.store(0, 56, 1));
        rig.refuses(number, Rig::log_undo);
        rig.refuses(number, Rig::log_redo);
        rig.refuses(number, |r| r.set_down(4));
        rig.refuses(number, Rig::commit0);
    };
    all_refuse(&mut rig, FULL_OPEN);
    rig.refuses(NEEDED, Rig::delete);
    rig.refuses(PENDING, |r| r.set_down(5));
    // The youngest record becomes a commit of thread 0.
    rig.log[118..].copy_from_slice(&[0, 0, LAST]);
    all_refuse(&mut rig, FULL_DIRTY);
    rig.refuses(NEEDED, Rig::delete);
    rig.log[3] ^= 1 << 63;
    all_refuse(&mut rig, FULL);
    rig.refuses(DAMAGED, Rig::delete);
    rig.log[3] ^= 1 << 63;
    rig.done(8, |r| r.write_home(0));
    all_refuse(&mut rig, FULL);
    rig.done(1, Rig::delete);
    rig.done(3, Rig::log_undo);
    rig.refuses(FULL, Rig::log_undo);
}

#[test]
fn commit_as_oldest_needs_no_later_one() {
    let mut rig = Rig::begun();
    rig.done(3, Rig::commit0);
    rig.done(0, |r| r.begin(0));
    (0..7).for_each(|word| rig.record(0, word, 1));
    rig.refuses(FULL, Rig::commit0);
    rig.done(1, Rig::delete);
    rig.done(3, Rig::commit0);
}

#[test]
fn last_number_is_used() {
    let mut rig = Rig::blank(8, 8);
    let head = NUMBER_END - 2;
    rig.log[0] = head;
    let slots: Vec<usize> = (head..NUMBER_END).map(|n| n as usize % 8).collect();
    let second_pass = (head / 8 % 2) << 58;
    slots.iter().for_each(|s| rig.log[3 + 3 * s] = second_pass);
    rig.recover(1);
    rig.transaction(7);
    assert_eq!(rig.state.tail, NUMBER_END);
    rig.begin(0);
    rig.refuses(WORN, Rig::commit0);
    rig.recover(2);
    assert_eq!((rig.home[0], rig.log[0]), (7, NUMBER_END));
}

#[test]
fn every_unsound_way() {
    let sound = || {
        let mut rig = Rig::sized(24, 40);
        rig.begin(0);
        rig.begin(1);
        // Thread 0: words 0 and 1 are Clean with redo entries.
        (0..2).for_each(|word| assert_eq!(rig.store(0, word, 1), DONE));
        (0..2).for_each(|_| rig.done(3, Rig::log_undo));
        (0..2).for_each(|word| assert_eq!(rig.store(0, word, 2), DONE));
        rig.done(0, |r| r.set_down(0));
        // Thread 1: word 8 is ULog, words 9 and 10 are Dirty.
        rig.store(1, 8, 1);
        rig.done(3, Rig::log_undo);
        rig.store(1, 8, 2);
        rig.store(1, 9, 1);
        rig.store(1, 10, 1);
        assert_eq!(rig.state.redo.entries().len(), 2);
        rig
    };
    let ways: [fn(&mut State); 28] = [
        |s| s.words = 0,
        |s| s.words = 20,
        |s| s.words = 520,
        |s| s.slots = 7,
        |s| s.slots = 1025,
        |s| s.slots = 2,
        |s| s.head = s.tail + 1,
        |s| s.head = NUMBER_END + 1,
        |s| s.tail = s.head + s.slots as u64 + 1,
        |s| (s.head, s.tail) = (NUMBER_END, NUMBER_END + 1),
        |s| s.holder[2] = 8,
        |s| s.holder[2] = 254,
        |s| s.holder[2] = 2,
        |s| s.open[1] = false,
        |s| s.holder[1] = NOBODY,
        |s| s.set_word_state(16, URLOG),
        |s| s.set_word_state(9, CLEAN),
        |s| s.set_word_state(9, ULOG),
        |s| s.set_word_state(8, DIRTY),
        |s| s.set_word_state(0, URLOG),
        |s| s.undo.entries_mut()[0].word = 10,
        |s| s.undo.entries_mut()[0].word = 24,
        |s| s.undo.entries_mut()[0].thread = 0,
        |s| s.redo.entries_mut()[0].word = 1,
        |s| s.redo.entries_mut()[0].word = 65535,
        |s| s.redo.entries_mut()[0].thread = 1,
        |s| s.holder[0] = 1,
        |s| {
            s.holder[0] = NOBODY;
            (0..2).for_each(|i| s.redo.entries_mut()[i].thread = NOBODY);
        },
    ];
    for (index, way) in ways.iter().enumerate() {
        let mut rig = sound();
        assert_eq!(rig.begin(2), DONE);
        rig.state.open[2] = false;
        way(&mut rig.state);
        assert_eq!(rig.begin(2), UNSOUND, "way {index}");
    }
    let mut rig = sound();
    rig.state.dirty[1] = false;
    rig.state.set_word_state(8, URLOG);
    rig.state.holder[2] = 1;
    rig.state.open[5] = true;
    assert_eq!(rig.begin(2), DONE);
}

#[test]
fn delete_judges_by_decoding_alone() {
    let written = || {
        let mut rig = Rig::p2();
        rig.done(8, |r| r.write_home(0));
        rig
    };
    let mut torn = written();
    torn.log[3] ^= 1 << 58;
    torn.done(1, Rig::delete);
    let mut bad = written();
    bad.log[3] ^= 1 << 59;
    bad.refuses(DAMAGED, Rig::delete);
    let mut bad_commit = written();
    bad_commit.log[4] = 1;
    bad_commit.refuses(NEEDED, Rig::delete);
    let mut others = written();
    others.log[6] |= 1 << 48;
    others.refuses(NEEDED, Rig::delete);
    let mut none_later = Rig::relogged();
    none_later.write_home(0);
    none_later.refuses(NEEDED, Rig::delete);
}

#[test]
fn every_bad_record() {
    let damages: [fn(&mut Vec<u64>); 9] = [
        |log| log[3] &= !(3 << 56),
        |log| log[3] |= 8 << 48,
        |log| log[3] |= 128 << 48,
        |log| log[3] |= 8,
        |log| log[3] |= 1 << 47,
        |log| log[3] |= 1 << 63,
        |log| log[4] = 1,
        |log| log[5] = 1,
        |log| log[6] |= 1,
    ];
    for (index, damage) in damages.iter().enumerate() {
        let mut rig = Rig::p2();
        damage(&mut rig.log);
        let before = (rig.home.clone(), rig.working.clone(), rig.log.clone());
        assert_eq!(rig.recover_any(), DAMAGED, "damage {index}");
        assert_eq!(before, (rig.home, rig.working, rig.log));
        assert_eq!((rig.state, rig.supply), (State::DARK, AMPLE));
    }
    let mut redo = Rig::p2();
    redo.log[3] = REDO;
    redo.recover(2);
    let mut redo = Rig::p2();
    redo.log[1] = 1;
    redo.log[3] = REDO;
    assert_eq!(redo.recover_any(), DAMAGED);
}

// Buffers and cuts.

#[test]
fn seventeenth_dirty_word_logs_the_oldest() {
    let mut rig = Rig::sized(24, 8);
    rig.begin(0);
    (0..16).for_each(|word| rig.done(0, |r| r.store(0, word, 1 + word)));
    rig.done(0, |r| r.store(0, 16, 0));
    rig.done(3, |r| r.store(0, 17, 1));
    assert_eq!(rig.slot(0), [0, 1, UNDO_REDO]);
    assert_eq!(rig.state.word_state(0), URLOG);
    assert_eq!(rig.state.undo.entries().len(), 16);
    rig.refuses(FULL_OPEN, Rig::commit0);
    rig.cuts(2, |r| r.store(0, 18, 1));
    rig.recover(2);
}

#[test]
fn set_down_makes_places() {
    let mut rig = Rig::sized(40, 1024);
    rig.begin(0);
    let store_all = |rig: &mut Rig, value| {
        for word in 0..40 {
            assert_eq!(rig.store(0, word, value), DONE);
        }
    };
    store_all(&mut rig, 1);
    (0..16).for_each(|_| rig.done(3, Rig::log_undo));
    store_all(&mut rig, 2);
    (0..4).for_each(|line| rig.done(0, |r| r.set_down(line)));
    assert_eq!(rig.state.redo.entries().len(), 32);
    rig.done(24, |r| r.set_down(4));
    assert_eq!(rig.state.redo.entries().len(), 32);
    assert_eq!(rig.slot(40), [0, 2, REDO]);
    assert_eq!(rig.state.holder[4], 0);
    rig.done(3, Rig::log_redo);
    assert_eq!(rig.slot(48), [0, 2, REDO | 8]);
    rig.done(3 * 32, Rig::commit0);
    rig.recover(40 + 40 + 1);
    assert!(rig.home.iter().all(|&word| word == 2));
}

#[test]
fn commit_logs_other_threads_entries() {
    let mut rig = Rig::sized(16, 8);
    rig.begin(0);
    rig.begin(1);
    rig.store(1, 8, 5);
    rig.store(0, 0, 6);
    rig.done(9, Rig::commit0);
    assert_eq!(rig.slot(0), [0, 5, UNDO_REDO | 1 << 48 | 8]);
    assert_eq!(rig.slot(1), [0, 6, UNDO_REDO]);
    assert_eq!(rig.state.word_state(8), URLOG);
    assert_eq!(rig.state.holder[1], 1);
    assert_eq!(rig.state.holder[0], NOBODY);
    rig.recover(3);
    assert_eq!((rig.home[0], rig.home[8]), (6, 0));
}

#[test]
fn every_cut_of_a_commit_recovers() {
    for supply in 0..=12 {
        let mut rig = Rig::sized(16, 8);
        rig.begin(3);
        (0..3).for_each(|word| assert_eq!(rig.store(3, 5 + word, 9), DONE));
        rig.supply = supply;
        let answer = rig.commit(3);
        assert_eq!(answer, if supply < 12 { CUT } else { DONE });
        // Recovery itself is cut at each of its stores, too.
        for again in 0..4 {
            rig.supply = again;
            rig.recover_any();
        }
        rig.supply = AMPLE;
        assert_eq!(rig.recover_any(), DONE);
        let want = if supply < 12 { 0 } else { 9 };
        assert_eq!(rig.home[5..8], [want; 3]);
    }
}

#[test]
fn cut_write_home_stores_its_first_words() {
    let mut rig = Rig::begun();
    (0..8).for_each(|word| assert_eq!(rig.store(0, word, 4), DONE));
    (0..8).for_each(|_| rig.done(3, Rig::log_undo));
    rig.cuts(3, |r| r.write_home(0));
    assert_eq!(rig.home, [4, 4, 4, 0, 0, 0, 0, 0]);
    rig.recover(9);
    assert_eq!(rig.home, [0; 8]);
}

#[test]
fn recovery_reads_a_full_log() {
    let mut rig = Rig::sized(8, 9);
    rig.four();
    rig.begin(2);
    rig.store(2, 1, 6);
    rig.done(3, Rig::log_undo);
    assert_eq!(rig.state.tail, 9);
    rig.recover(4 + 1 + 1);
    assert_eq!((rig.home[0], rig.home[1], rig.log[0]), (4, 0, 9));
}

#[test]
fn home_follows_the_account_book() {
    let mut checked = 0;
    for list in 0..400 {
        let mut book = None;
        let mut disturbed = false;
        play(list, |e| {
            disturbed |= e.step.case.is_some();
            let book = book.get_or_insert_with(|| Book::new(e.start_home));
            if let (Some(kept), false) = (book.enter(e), disturbed) {
                assert!(kept, "list {list}");
                checked += 1;
            }
        });
    }
    assert!(checked > 500);
}
