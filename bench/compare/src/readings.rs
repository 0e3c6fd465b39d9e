//! Readings: both sides must print and read the same, and are timed beside each
//! other.

use std::time::Instant;
use twin::lists::Rng;
use twin::reading;

extern "C" {
    fn rukwetid_reading(word: u64, text: *mut u8, size: usize, length: *mut usize) -> u64;
    fn rukwetid_reading_word(text: *const u8, size: usize, word: *mut u64) -> u64;
}

/// A few more bytes than the longest reading has.
const ROOM: usize = reading::LONGEST + 3;
const WORDS: u64 = 20_000;
const ROUNDS: usize = 50;

fn print(word: u64, text: &mut [u8]) -> (u64, usize) {
    let mut length = usize::MAX;
    // The text and the length don't overlap, and live until the call returns.
    let answer = unsafe { rukwetid_reading(word, text.as_mut_ptr(), text.len(), &mut length) };
    (answer, length)
}

fn parse(text: &[u8]) -> (u64, u64) {
    let mut word = u64::MAX;
    // As above.
    let answer = unsafe { rukwetid_reading_word(text.as_ptr(), text.len(), &mut word) };
    (answer, word)
}

/// Words of all magnitudes, every other one below zero.
fn words() -> Vec<u64> {
    let mut rng = Rng::new(1);
    let word = |number: u64| {
        let size = rng.raw() >> (1 + number / 2 % 63);
        [size, size.wrapping_neg()][number as usize % 2]
    };
    (0..WORDS).map(word).collect()
}

/// Each word in buffers around its length, then its text with one byte changed.
fn compare(words: &[u64]) {
    for &word in words {
        let mut text = [b'#'; ROOM];
        let (_, length) = reading::print(word, &mut text);
        for size in [0, length - 1, length, ROOM] {
            let (mut ours, mut theirs) = ([b'#'; ROOM], [b'#'; ROOM]);
            let answers = (
                print(word, &mut ours[..size]),
                reading::print(word, &mut theirs[..size]),
            );
            assert!(answers.0 == answers.1 && ours == theirs, "{word} in {size}");
        }
        for place in 0..length {
            for byte in *b"0123456789-+. :\n" {
                let mut changed = text;
                changed[place] = byte;
                let changed = &changed[..length];
                assert_eq!(parse(changed), reading::parse(changed), "{changed:?}");
            }
        }
    }
}

/// The shortest time of a round over all words, in nanoseconds for one.
fn best(words: &[u64], mut each: impl FnMut(u64)) -> f64 {
    let round = |_| {
        let clock = Instant::now();
        words.iter().for_each(|&word| each(word));
        clock.elapsed().as_nanos() as f64 / words.len() as f64
    };
    (0..ROUNDS).map(round).fold(f64::INFINITY, f64::min)
}

fn row(name: &str, twin: f64, rattle: f64) {
    println!("{name:36}|{twin:7.0} {rattle:7.0} {:6.2}", rattle / twin);
}

/// Compares the two sides, and prints a row for each direction.
pub fn bench() {
    let words = words();
    compare(&words);
    println!("\nReadings of words of all magnitudes, {WORDS} compared");
    println!(
        "ns for one{:26}|{:>7} {:>7} {:>6}",
        "", "twin", "Rattle", "ratio"
    );
    let mut text = [0; ROOM];
    let twin = best(&words, |word| {
        assert!(reading::print(word, &mut text).0 == 0)
    });
    let rattle = best(&words, |word| assert!(print(word, &mut text).0 == 0));
    row("print", twin, rattle);
    let back = |parse: fn(&[u8]) -> (u64, u64)| {
        let mut text = [0; ROOM];
        best(&words, |word| {
            let (_, length) = reading::print(word, &mut text);
            assert!(parse(&text[..length]).1 == word);
        })
    };
    row(
        "print by the twin, and read back",
        back(reading::parse),
        back(parse),
    );
}
