//! Readings: a word is a signed count of tenths of an amp, printed with one
//! digit behind the point. The way back, and numbers to readings line by line.

use crate::lists::Rng;
use crate::store::{DONE, SIZE};
use std::io::{BufWriter, ErrorKind, Read, Result, Write};

/// The text or the line isn't what it should be.
pub const MALFORMED: u64 = 18;
/// The length of the longest texts, the smallest word's among them.
pub const LONGEST: usize = 21;
const BLOCK: usize = 4096;

/// Prints the word's reading at the start of the buffer: done and its length.
/// A buffer too short for this text gives 1 and no length, and is untouched.
pub fn print(word: u64, text: &mut [u8]) -> (u64, usize) {
    let mut spare = [0; LONGEST];
    let made = from_behind(word as i64, &mut spare);
    match text.get_mut(..made.len()) {
        Some(place) => {
            place.copy_from_slice(made);
            (DONE, made.len())
        }
        None => (SIZE, 0),
    }
}

/// Fills the place from its end; the text is what was filled.
fn from_behind(count: i64, place: &mut [u8; LONGEST]) -> &[u8] {
    let mut start = LONGEST;
    let mut put = |byte| {
        start -= 1;
        place[start] = byte;
    };
    put(letter(count % 10));
    put(b'.');
    let mut whole = count / 10;
    put(letter(whole % 10));
    while whole / 10 != 0 {
        whole /= 10;
        put(letter(whole % 10));
    }
    if count < 0 {
        put(b'-');
    }
    &place[start..]
}

/// The letter of a digit, which is below zero where the count is.
fn letter(digit: i64) -> u8 {
    b'0' + digit.unsigned_abs() as u8
}

/// The value of a letter, if it is a digit.
fn digit(letter: u8) -> Option<u8> {
    letter.is_ascii_digit().then(|| letter - b'0')
}

/// Leads a printed reading back to its word: done and the word. A text that
/// no word prints gives 18 and 0.
pub fn parse(text: &[u8]) -> (u64, u64) {
    match tenths(text) {
        Some(count) => (DONE, count as u64),
        None => (MALFORMED, 0),
    }
}

/// Minus or nothing, whole part, point and one digit, as a count.
fn tenths(text: &[u8]) -> Option<i64> {
    let size = text.strip_prefix(b"-");
    let below = size.is_some();
    let [whole @ .., b'.', tenth] = size.unwrap_or(text) else {
        return None;
    };
    if whole.is_empty() || (whole.len() > 1 && whole[0] == b'0') {
        return None;
    }
    // Counted in the direction of the sign: the smallest word has no opposite.
    let mut count = 0i64;
    for &letter in whole.iter().chain([tenth]) {
        let unit = i64::from(digit(letter)?);
        let signed = if below { -unit } else { unit };
        count = count.checked_mul(10)?.checked_add(signed)?;
    }
    (below == (count < 0)).then_some(count)
}

/// What the bytes of a line amount to so far.
#[derive(Clone, Copy)]
enum Line {
    Empty,
    Number(u64),
    Wrong,
}

impl Line {
    fn then(self, byte: u8) -> Line {
        let high = match self {
            Line::Empty => 0,
            Line::Number(value) => value,
            Line::Wrong => return Line::Wrong,
        };
        let value = digit(byte).and_then(|d| high.checked_mul(10)?.checked_add(d.into()));
        value.map_or(Line::Wrong, Line::Number)
    }

    /// The line is over: prints its reading, or 18, on a line.
    fn finish(self, output: &mut impl Write) -> Result<()> {
        let Line::Number(word) = self else {
            return writeln!(output, "{MALFORMED}");
        };
        let mut text = [0; LONGEST + 1];
        let (_, length) = print(word, &mut text);
        text[length] = b'\n';
        output.write_all(&text[..=length])
    }
}

/// Each line of the input is a number of at most 64 bits, and its reading is
/// printed on a line; any other line prints 18. Only the last may lack its
/// line feed.
pub fn readings(mut input: impl Read, output: impl Write) -> Result<()> {
    let mut output = BufWriter::with_capacity(BLOCK, output);
    let mut block = [0; BLOCK];
    let mut line = Line::Empty;
    loop {
        let length = match input.read(&mut block) {
            Ok(0) => break,
            Ok(length) => length,
            Err(error) if error.kind() == ErrorKind::Interrupted => continue,
            Err(error) => return Err(error),
        };
        for &byte in &block[..length] {
            if byte == b'\n' {
                line.finish(&mut output)?;
                line = Line::Empty;
            } else {
                line = line.then(byte);
            }
        }
    }
    if !matches!(line, Line::Empty) {
        line.finish(&mut output)?;
    }
    output.flush()
}

/// Lines that are no numbers, or unusual ones, with bars between them.
const ODD_LINES: [&[u8]; 10] = [
    // One empty line, then two in a row.
    b"|\n",
    // Signs, spaces and line ends of other kinds.
    b"+1|-1|-0.4| 1|1 | |1 2|1\r|\r|1\r2|\t|\t1|1\t|\x0b1|1\x0c",
    b"1.0|1.|.1|1,000|1_000|1e3|0x10|ff|12x|x12|1x2",
    // NUL, the neighbours of the digits, and bytes above 127.
    b"\0|1\x002|1\0|/|:|1/|1:|/1|:1",
    b"\xff|1\xff|\xb1|\xe2\x88\x924|\xef\xbc\x91|\xef\xbb\xbf1",
    // Leading zeros, and the largest number.
    b"00|007|18446744073709551609|18446744073709551614|18446744073709551615",
    b"018446744073709551615|18446744073709551615x|18446744073709551615\r",
    // Too large, by a little and by a lot.
    b"18446744073709551616|018446744073709551616|18446744073709551619|18446744073709551620",
    b"20000000000000000000|36893488147419103232|99999999999999999999|100000000000000000000",
    b"184467440737095516150|184467440737095516160|340282366920938463463374607431768211456",
];

/// Long lines: a letter, how often, and what follows.
const LONG_LINES: [(&str, usize, &str); 8] = [
    ("0", 30, "7"),
    ("0", 300, "18446744073709551615"),
    ("0", 300, "18446744073709551616"),
    ("0", 300, " "),
    ("9", 300, ""),
    ("0", 5000, "18446744073709551606"),
    ("9", 5000, ""),
    ("x", 5000, "4"),
];

/// A stored input for `readings`: words of all kinds as plain numbers, then
/// odd and long lines, each with a plain number behind it, which shows that
/// reading goes on. The last line lacks its line feed.
pub fn words(output: impl Write) -> Result<()> {
    let mut output = BufWriter::with_capacity(BLOCK, output);
    for word in chosen_words().into_iter().chain(random_words()) {
        writeln!(output, "{word}")?;
    }
    let odd_lines = ODD_LINES
        .iter()
        .flat_map(|lines| lines.split(|&byte| byte == b'|'));
    for (number, line) in odd_lines.enumerate() {
        output.write_all(line)?;
        writeln!(output, "\n{number}")?;
    }
    for (number, (letter, times, end)) in LONG_LINES.iter().enumerate() {
        writeln!(output, "{}{end}\n{number}", letter.repeat(*times))?;
    }
    write!(output, "18446744073709551612")?;
    output.flush()
}

/// Words around zero, around the powers of ten, around two powers of two and
/// at both ends of the signed range.
fn chosen_words() -> Vec<u64> {
    let mut counts: Vec<i64> = (-25..=25).collect();
    for power in (0..=18).map(|k| 10i64.pow(k)) {
        for apart in [-11, -10, -9, -1, 0, 1, 9, 10, 11] {
            counts.extend([power + apart, -(power + apart)]);
        }
    }
    for power in [1i64 << 32, 1 << 48] {
        for apart in -20..=20 {
            counts.extend([power + apart, -(power + apart)]);
        }
    }
    counts.extend(i64::MIN..=i64::MIN + 20);
    counts.extend(i64::MAX - 20..=i64::MAX);
    counts.into_iter().map(|count| count as u64).collect()
}

/// A thousand words of all magnitudes, every other one below zero.
fn random_words() -> impl Iterator<Item = u64> {
    let mut rng = Rng::new(0);
    (0..1000).map(move |number| {
        let size = rng.raw() >> (1 + number / 2 % 63);
        if number % 2 == 0 {
            size
        } else {
            size.wrapping_neg()
        }
    })
}
