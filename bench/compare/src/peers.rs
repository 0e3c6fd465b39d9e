//! Other stores that a user could pick, each a program of its own that prints
//! the nanoseconds of its pair transaction.

use std::path::Path;
use std::process::Command;

pub struct Peer {
    name: &'static str,
    program: &'static str,
    settings: &'static [(&'static str, &'static str)],
    best: Option<f64>,
}

/// libpmemobj takes memory for persistent by the first setting, and leaves out
/// the flushes of cache lines, which the store here has none of, by the second.
const FORCE: (&str, &str) = ("PMEM_IS_PMEM_FORCE", "1");
const NO_FLUSH: (&str, &str) = ("PMEM_NO_FLUSH", "1");

pub fn peers() -> Vec<Peer> {
    let peer = |name, program, settings| Peer {
        name,
        program,
        settings,
        best: None,
    };
    vec![
        peer("libpmemobj", "pmemobj", &[FORCE]),
        peer("libpmemobj, without flushes", "pmemobj", &[FORCE, NO_FLUSH]),
        peer("LMDB, no sync, write map", "lmdb", &[]),
        peer("SQLite, WAL, synchronous off", "sqlite", &[]),
    ]
}

impl Peer {
    /// Runs the peer once, if its program is in the folder.
    pub fn measure(&mut self, folder: &Path) {
        let program = folder.join(self.program);
        if !program.exists() {
            return;
        }
        let settings = self.settings.iter().copied();
        let output = Command::new(&program).envs(settings).output();
        let output = output.expect("the peer runs");
        let text = String::from_utf8_lossy(&output.stdout);
        let time: f64 = text.trim().parse().expect("the peer prints a number");
        self.best = Some(self.best.map_or(time, |best| best.min(time)));
    }

    /// Its row, if it was measured.
    pub fn print(&self, ours: f64) {
        if let Some(time) = self.best {
            row(self.name, time, ours);
        }
    }
}

pub fn row(name: &str, time: f64, ours: f64) {
    println!("{name:36}|{time:7.0} {:14.2}", ours / time);
}
