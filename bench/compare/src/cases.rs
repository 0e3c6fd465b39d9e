//! What is timed: each kind of step, recovery, transactions, and growth.

use crate::case::Case;
use crate::sides::{Buffers, Side};
use crate::steps::Steps;
use std::ops::Range;

const MANY: u64 = 32;

/// Changes words 0 to 7, with thread 0.
fn store_line(steps: Steps, value: u64) -> Steps {
    steps.each(8, |s, i| s.store(0, i, value + i))
}

/// Recovered, begun, and words 0 to 7 Dirty.
fn dirty_line() -> Steps {
    store_line(Steps::recovered().begin(0), 1)
}

/// Words 0 to 7 URLog.
fn logged_line() -> Steps {
    dirty_line().each(8, |s, _| s.log_undo())
}

/// Words 0 to 7 ULog.
fn changed_line() -> Steps {
    store_line(logged_line(), 101)
}

/// Rounds in each of which words 0 to 7 become ULog and, if asked for, their
/// line is evicted.
fn evictions(evict: bool) -> Steps {
    Steps::default().each(MANY, |s, _| {
        let s = store_line(s.recover().begin(0), 1).each(8, |s, _| s.log_undo());
        let s = store_line(s, 101);
        if evict {
            s.evict(0)
        } else {
            s
        }
    })
}

/// Each kind of step, with a log of 1,024 slots.
pub fn kinds(words: usize) -> Vec<Case> {
    let case = |name: &str, before: Steps, per: u64, timed: fn(Steps) -> Steps| {
        Case::new(name, Buffers::fresh(words, 1024), before, per, timed)
    };
    let begun = || Steps::recovered().begin(0);
    let all_begun = || Steps::recovered().each(8, |s, t| s.begin(t));
    vec![
        case("begin", Steps::recovered(), 8, |s| {
            s.each(8, |s, t| s.begin(t))
        }),
        case("store, word Clean", begun(), 8, |s| store_line(s, 1)),
        case("store, word Dirty", dirty_line(), 8 * MANY, |s| {
            s.each(MANY, |s, i| store_line(s, 2 + i))
        }),
        case("store, word URLog", logged_line(), 8, |s| store_line(s, 2)),
        case("store, word ULog", changed_line(), 8 * MANY, |s| {
            s.each(MANY, |s, i| store_line(s, 2 + i))
        }),
        case("store, equal value", dirty_line(), 8 * MANY, |s| {
            s.each(MANY, |s, _| store_line(s, 1))
        }),
        case("log undo", dirty_line(), 8, |s| {
            s.each(8, |s, _| s.log_undo())
        }),
        case("log redo", changed_line().evict(0), 8, |s| {
            s.each(8, |s, _| s.log_redo())
        }),
        case("evict, 8 words ULog", evictions(false), MANY, |_| {
            evictions(true)
        }),
        case("evict, clean line", Steps::recovered(), MANY, |s| {
            s.each(MANY, |s, _| s.evict(0))
        }),
        case("write back", dirty_line().commit(0), MANY, |s| {
            s.each(MANY, |s, _| s.write_back(0))
        }),
        case("commit, nothing stored", all_begun(), 8, |s| {
            s.each(8, |s, t| s.commit(t))
        }),
        case("commit, 1 store", begun().store(0, 0, 1), 1, |s| {
            s.commit(0)
        }),
        case(
            "commit, a pair",
            begun().store(0, 0, 1).store(0, 1, 2),
            1,
            |s| s.commit(0),
        ),
        case("commit, 8 stores", dirty_line(), 1, |s| s.commit(0)),
        case("commit, 8 words ULog", changed_line(), 1, |s| s.commit(0)),
        case(
            "delete",
            pairs(Steps::recovered(), 4, 40).write_back(0),
            120,
            |s| s.each(120, |s, _| s.delete()),
        ),
    ]
}

/// Begin, the stores of a pair and commit, as transaction `i` in `words` words.
fn pair(steps: Steps, words: u64, i: u64) -> Steps {
    let word = 2 * i % words;
    let steps = steps
        .begin(0)
        .store(0, word, i + 1)
        .store(0, word + 1, i + 2);
    steps.commit(0)
}

fn pairs(steps: Steps, words: u64, count: u64) -> Steps {
    steps.each(count, |s, i| pair(s, words, i))
}

/// A log that holds this many records: of pairs, and the last of an open one.
fn logged(words: usize, slots: usize, records: u64) -> Buffers {
    let steps = pairs(Steps::recovered(), words as u64, records / 3);
    let steps = steps.begin(1).store(1, 0, 7).store(1, 1, 7);
    let steps = steps.each(records % 3, |s, _| s.log_undo());
    let mut buffers = Buffers::fresh(words, slots);
    let start = buffers.clone();
    buffers.reset(&start, steps.len());
    buffers.run(Side::Twin, &steps);
    buffers
}

/// Recovery of this many records.
pub fn recovery(words: usize, slots: usize, records: u64) -> Case {
    let start = logged(words, slots, records);
    let name = format!("recover, {records} records");
    Case::new(name, start, Steps::default(), 1, Steps::recover)
}

/// One recovery of an empty log after the other, the buffers being in the
/// caches.
pub fn recovered_again(words: usize, slots: usize) -> Case {
    let start = Buffers::fresh(words, slots);
    let name = "recover, 0 records, again";
    Case::new(name, start, Steps::recovered(), MANY, |s| {
        s.each(MANY, |s, _| s.recover())
    })
}

/// How the log is kept from filling.
#[derive(Clone, Copy)]
pub enum Keeping {
    /// A write-back and three deletes after each transaction.
    Each,
    /// When the log is full: dirty lines written back, all records deleted.
    Batches,
    /// When the log is full: a recover, which does the same.
    Recoveries,
}

impl Keeping {
    pub fn name(self) -> &'static str {
        match self {
            Keeping::Each => "pair, each cleared",
            Keeping::Batches => "pair, cleared in batches",
            Keeping::Recoveries => "pair, recover in batches",
        }
    }

    /// Clears the log of these transactions.
    fn clear(self, steps: Steps, words: u64, transactions: Range<u64>) -> Steps {
        let mut lines: Vec<u64> = transactions.map(|i| 2 * i % words / 8).collect();
        let records = 3 * lines.len() as u64;
        lines.sort();
        lines.dedup();
        match self {
            Keeping::Recoveries => steps.recover(),
            _ => {
                let steps = lines.into_iter().fold(steps, Steps::write_back);
                steps.each(records, |s, _| s.delete())
            }
        }
    }
}

/// Transactions on a pair of words, with what keeps the log from filling.
pub fn transactions(words: usize, slots: usize, keeping: Keeping) -> Case {
    let w = words as u64;
    let batch = match keeping {
        Keeping::Each => 1,
        _ => slots as u64 / 3,
    };
    let batches = 341 / batch;
    let timed = |steps: Steps| {
        steps.each(batches, |s, b| {
            let of_batch = b * batch..(b + 1) * batch;
            let s = of_batch.clone().fold(s, |s, i| pair(s, w, i));
            keeping.clear(s, w, of_batch)
        })
    };
    let start = Buffers::fresh(words, slots);
    let per = batches * batch;
    Case::new(keeping.name(), start, Steps::recovered(), per, timed)
}

/// Deletes of a full log whose only commit is its last record, W = 512.
pub fn deletes(slots: usize) -> Case {
    let n = slots as u64;
    let steps = Steps::recovered().begin(0);
    let steps = steps.each(n - 1, |s, i| {
        let word = i % 512;
        s.store(0, word, i + 1).log_undo().evict(word / 8)
    });
    let steps = steps.commit(0).each(64, Steps::write_back);
    let start = Buffers::fresh(512, slots);
    Case::new("delete, commit at the end", start, steps, n, |s| {
        s.each(n, |s, _| s.delete())
    })
}

/// Steps with this many entries in the buffers, W = 512.
pub fn waiting(undos: u64, redos: u64) -> Vec<Case> {
    let redo_words = |steps: Steps, value: u64| steps.each(redos, |s, i| s.store(0, i, value + i));
    let steps = redo_words(Steps::recovered().begin(0), 1);
    let logged = redos.min(16);
    let steps = steps.each(logged, |s, _| s.log_undo());
    let steps = redo_words(steps, 101).each(redos.div_ceil(8), |s, line| s.evict(line));
    let steps = steps.each(undos, |s, i| s.store(0, 64 + i, 1));
    let case = |name: &str, per: u64, timed: fn(Steps) -> Steps| {
        let start = Buffers::fresh(512, 1024);
        Case::new(name, start, steps.clone(), per, timed)
    };
    vec![
        case("store, equal value", MANY, |s| {
            s.each(MANY, |s, _| s.store(0, 200, 0))
        }),
        case("store, word Clean", 8, |s| {
            s.each(8, |s, i| s.store(0, 200 + i, 1))
        }),
        case("write back", MANY, |s| {
            s.each(MANY, |s, _| s.write_back(30))
        }),
        case("commit", 1, |s| s.commit(0)),
    ]
}
