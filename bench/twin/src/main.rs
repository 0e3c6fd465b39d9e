//! The twin's program: digests, single lists, times and readings.

use std::collections::BTreeMap;
use std::io::{stdin, stdout, Result};
use std::process::exit;
use twin::bench;
use twin::book::Book;
use twin::lists::*;
use twin::reading;

fn main() {
    let args: Vec<String> = std::env::args().skip(1).collect();
    let args: Vec<&str> = args.iter().map(String::as_str).collect();
    match args[..] {
        ["digests"] => digests(),
        ["debug"] => debug(),
        ["bench"] => bench::bench(),
        ["list", number] => list(number.parse().expect("a list number")),
        ["readings"] => piped(reading::readings(stdin().lock(), stdout().lock())),
        ["words"] => piped(reading::words(stdout().lock())),
        _ => eprintln!("usage: twin digests | debug | list NUMBER | bench | readings | words"),
    }
}

/// Says why standard input or output failed, if it did.
fn piped(result: Result<()>) {
    if let Err(error) = result {
        eprintln!("{error}");
        exit(1);
    }
}

/// Every step of one list, to find where two programs part.
fn list(number: u64) {
    play(number, |e| {
        let Step {
            kind,
            thread,
            place,
            value,
            supply,
            case,
            ..
        } = e.step;
        if let Some(case) = case {
            print!("case {case}, ");
        }
        let name = NAMES[kind];
        print!("{name} {thread} {place} {value} supply {supply}: ");
        println!("{} left {} digest {:016x}", e.answer, e.left, e.digest);
    });
}

/// One line for each group of lists, then the answers and the totals.
fn digests() {
    let mut answers = [0u64; 256];
    for group in 0..LISTS / GROUP {
        let mut digest = 0;
        for list in group * GROUP..(group + 1) * GROUP {
            let of_list = play(list, |e| answers[e.answer as usize] += 1);
            digest = fold(digest, of_list);
        }
        println!("{digest:016x}");
    }
    for answer in (0..=17).chain([255]) {
        println!("answer {answer} {}", answers[answer]);
    }
    println!("lists {LISTS}, steps {}", answers.iter().sum::<u64>());
}

type Counts = BTreeMap<String, u64>;

/// How often the interesting situations occur.
fn debug() {
    let mut counts = Counts::new();
    for list in 0..LISTS {
        play(list, |e| observe(&mut counts, e));
        check_book(list, &mut counts);
    }
    for (what, count) in counts {
        println!("{what}: {count}");
    }
}

/// Compares home with the account book until the first disturbance.
fn check_book(list: u64, counts: &mut Counts) {
    let mut count = |what: &str| *counts.entry(what.into()).or_default() += 1;
    let mut book = None;
    let mut disturbed = false;
    play(list, |e| {
        disturbed |= e.step.case.is_some();
        let book = book.get_or_insert_with(|| Book::new(e.start_home));
        match book.enter(e) {
            _ if disturbed => {}
            Some(true) => count("home as in the book"),
            Some(false) => count("home against the book"),
            None => {}
        }
    });
}

fn observe(counts: &mut Counts, e: &Event) {
    let mut count = |what: String| *counts.entry(what).or_default() += 1;
    let name = NAMES[e.step.kind];
    count(format!("answer {:3} to {name}", e.answer));
    if let Some(case) = e.step.case {
        count(format!("case {case:2} then answer {}", e.answer));
    }
    if e.answer == 255 {
        count(format!("cut of {name} after {:3} stores", e.step.supply));
    }
    let logged = e.answer == 0 && e.after.tail > e.before.tail;
    if e.step.kind == STORE && logged {
        count("store of a 17th dirty word".into());
    }
    if e.step.kind == SET_DOWN && logged {
        let records = e.after.tail - e.before.tail;
        count(format!("set down that logs {records} redo entries"));
    }
    if e.step.kind == SET_DOWN && e.answer == 0 {
        let waiting = e.after.redo.entries().len();
        count(format!("redo entries after a set down: {waiting:2}"));
    }
    if matches!(e.answer, 10 | 16 | 17) {
        count(format!("full log of {} slots", e.setup.slots));
    }
    let stores = e.step.supply - e.left;
    if e.step.kind == RECOVER && e.answer == 0 && stores > 1000 {
        count("recover with more than 1000 stores".into());
    }
}
