//! The examples of request [2], the way back, and the lines of numbers.

use crate::reading::*;
use crate::store::{DONE, SIZE};
use std::io::{Error, ErrorKind, Read};

/// Examples 2.1 to 2.6: word, length of a buffer full of #, answer, length of
/// the text, and the buffer afterwards.
const EXAMPLES: [(i128, usize, u64, usize, &str); 28] = [
    (-4, 21, 0, 4, "-0.4#################"),
    (4, 21, 0, 3, "0.4##################"),
    (0, 3, 0, 3, "0.0"),
    (-10, 4, 0, 4, "-1.0"),
    (-9223372036854775808, 21, 0, 21, "-922337203685477580.8"),
    (9, 4, 0, 3, "0.9#"),
    (10, 4, 0, 3, "1.0#"),
    (11, 4, 0, 3, "1.1#"),
    (-9, 4, 0, 4, "-0.9"),
    (-11, 4, 0, 4, "-1.1"),
    (-1, 4, 0, 4, "-0.1"),
    (1, 4, 0, 3, "0.1#"),
    (0xffffffffffffffff, 5, 0, 4, "-0.1#"),
    (0x8000000000000000, 22, 0, 21, "-922337203685477580.8#"),
    (0x7fffffffffffffff, 22, 0, 20, "922337203685477580.7##"),
    (18446744073709551606, 5, 0, 4, "-1.0#"),
    (0, 2, 1, 0, "##"),
    (-4, 3, 1, 0, "###"),
    (-9223372036854775808, 20, 1, 0, "####################"),
    (4, 0, 1, 0, ""),
    (100, 9, 0, 4, "10.0#####"),
    (1000, 9, 0, 5, "100.0####"),
    (-12340, 9, 0, 7, "-1234.0##"),
    (123456789, 10, 0, 10, "12345678.9"),
    (5, 6, 0, 3, "0.5###"),
    (-5, 6, 0, 4, "-0.5##"),
    (15, 6, 0, 3, "1.5###"),
    (-15, 6, 0, 4, "-1.5##"),
];

/// A few dozen words of all lengths and both signs.
fn some_words() -> Vec<u64> {
    let short = [0, 1, 4, 9, 10, 11, 90, 99, 100, 101, 1000, 12340, 90009];
    let long = [
        123456789,
        1 << 32,
        1 << 48,
        10i64.pow(18) - 1,
        10i64.pow(18),
        i64::MAX / 10,
        i64::MAX - 7,
        i64::MAX - 1,
        i64::MAX,
    ];
    let counts = short.into_iter().chain(long);
    let both = counts.flat_map(|count| [count as u64, -count as u64]);
    both.chain([i64::MIN as u64]).collect()
}

const REFUSED: (u64, u64) = (MALFORMED, 0);

/// The word's text, which must lead back to the word.
fn printed(word: u64) -> Vec<u8> {
    let mut text = vec![b'#'; LONGEST];
    let (answer, length) = print(word, &mut text);
    assert_eq!(answer, DONE);
    text.truncate(length);
    assert_eq!(parse(&text), (DONE, word));
    text
}

/// The text in wider numbers, which know no overflow.
fn by_hand(word: u64) -> String {
    let count = i128::from(word as i64);
    let sign = if count < 0 { "-" } else { "" };
    format!("{sign}{}.{}", count.abs() / 10, count.abs() % 10)
}

#[test]
fn the_papers_examples() {
    for (word, room, answer, length, after) in EXAMPLES {
        let mut text = vec![b'#'; room];
        assert_eq!(print(word as u64, &mut text), (answer, length), "{word}");
        assert_eq!(text, after.as_bytes(), "{word}");
        if answer == DONE {
            assert_eq!(parse(&text[..length]), (DONE, word as u64));
        }
    }
}

#[test]
fn every_room_is_judged_by_the_words_own_text() {
    for word in some_words() {
        let made = printed(word);
        for room in 0..2 * LONGEST {
            let mut text = vec![b'#'; room];
            let outcome = print(word, &mut text);
            let length = if room < made.len() { 0 } else { made.len() };
            let answer = if room < made.len() { SIZE } else { DONE };
            assert_eq!(outcome, (answer, length));
            assert_eq!(text[..length], made[..length]);
            assert!(text[length..].iter().all(|&byte| byte == b'#'));
        }
    }
}

#[test]
fn texts_of_a_million_words_around_zero() {
    for count in -500_000..500_000_i64 {
        let word = count as u64;
        assert_eq!(printed(word), by_hand(word).as_bytes());
    }
}

#[test]
fn texts_that_no_word_prints() {
    let texts = [
        "|-|.|0|-0|4|-4|0.|-0.|.0|.4|-.4|-0.0|00.0|-00.0|01.0|-01.0|00.4|-00.4",
        "0.00|0.40|0.04|--0.4|+0.4|-+0.4|0.-4|0-4|0,4|0.4 | 0.4|0.4\n|0.4\r|0.4\0",
        "0..4|0.4.|1 0.0|1e1.0|1x.0|0.x|0./|0.:|/.0|:.0|\u{2212}0.4|\u{ff10}.4",
    ];
    for text in texts.iter().flat_map(|texts| texts.split('|')) {
        assert_eq!(parse(text.as_bytes()), REFUSED, "{text:?}");
    }
}

#[test]
fn texts_at_the_ends_of_the_range() {
    let ends = [
        ("922337203685477580.7", i64::MAX),
        ("-922337203685477580.8", i64::MIN),
    ];
    for (text, count) in ends {
        assert_eq!(parse(text.as_bytes()), (DONE, count as u64));
    }
    let beyond = [
        "922337203685477580.8",
        "922337203685477581.0",
        "-922337203685477580.9",
        "-922337203685477581.0",
        "1000000000000000000.0",
        "1844674407370955161.5",
        "1844674407370955161.6",
        "1844674407370955162.0",
        "-1844674407370955161.6",
        "99999999999999999999999999999999999999999.9",
    ];
    for text in beyond {
        assert_eq!(parse(text.as_bytes()), REFUSED, "{text}");
    }
}

/// Every text that one byte changed, taken out or put in makes of this one.
fn neighbours(text: &[u8]) -> Vec<Vec<u8>> {
    let mut made = vec![];
    for at in 0..=text.len() {
        let (before, rest) = text.split_at(at);
        let bytes = (0..=255).map(|byte| [byte]);
        made.extend(bytes.clone().map(|byte| [before, &byte, rest].concat()));
        if let Some((_, behind)) = rest.split_first() {
            made.push([before, behind].concat());
            made.extend(bytes.map(|byte| [before, &byte, behind].concat()));
        }
    }
    made.retain(|other| other != text);
    made.sort();
    made.dedup();
    made
}

/// How many neighbours of the word's text are texts; each is another word's.
fn texts_beside(word: u64) -> usize {
    let mut texts = 0;
    for text in neighbours(&printed(word)) {
        match parse(&text) {
            (DONE, other) => {
                assert_ne!(other, word);
                assert_eq!(printed(other), text);
                texts += 1;
            }
            outcome => assert_eq!(outcome, REFUSED),
        }
    }
    texts
}

#[test]
fn a_changed_text_is_refused_or_another_words() {
    for word in some_words() {
        assert!(texts_beside(word) > 0, "{word}");
    }
}

/// 0.0: another whole part, another tenth, or a digit but 0 before it. A minus
/// before it is for 0.4 alone. -0.4: the same, less -0.0, or no minus.
#[test]
fn the_neighbours_of_short_texts() {
    assert_eq!(texts_beside(0), 9 + 9 + 9);
    assert_eq!(texts_beside(4), 9 + 9 + 9 + 1);
    assert_eq!(texts_beside(-4_i64 as u64), 9 + 8 + 9 + 1 + 9);
}

/// Hands out the bytes in small pieces, with an interruption before each.
struct Pieces<'a> {
    rest: &'a [u8],
    size: usize,
    interrupted: bool,
}

impl Read for Pieces<'_> {
    fn read(&mut self, block: &mut [u8]) -> std::io::Result<usize> {
        self.interrupted = !self.interrupted;
        if self.interrupted {
            return Err(Error::from(ErrorKind::Interrupted));
        }
        let length = self.size.min(block.len()).min(self.rest.len());
        let (piece, rest) = self.rest.split_at(length);
        block[..length].copy_from_slice(piece);
        self.rest = rest;
        Ok(length)
    }
}

/// What an input prints, which no division into pieces changes.
fn read(input: &[u8]) -> String {
    let mut whole = vec![];
    readings(input, &mut whole).unwrap();
    for size in [1, 2, 3, 7, 4096] {
        let mut output = vec![];
        let pieces = Pieces {
            rest: input,
            size,
            interrupted: false,
        };
        readings(pieces, &mut output).unwrap();
        assert!(output == whole, "in pieces of {size}");
    }
    String::from_utf8(whole).unwrap()
}

#[test]
fn lines_and_what_is_none() {
    assert_eq!(read(b""), "");
    assert_eq!(read(b"\n"), "18\n");
    assert_eq!(read(b"\n\n"), "18\n18\n");
    assert_eq!(read(b"4"), "0.4\n");
    assert_eq!(read(b"4\n"), "0.4\n");
    assert_eq!(read(b"4\n\n"), "0.4\n18\n");
    assert_eq!(read(b"\n4"), "18\n0.4\n");
    assert_eq!(read(b"x"), "18\n");
    assert_eq!(read(b"4\nx\n10"), "0.4\n18\n1.0\n");
    assert_eq!(read(b"4\r\n10\r\n"), "18\n18\n");
}

/// The line alone, without its line feed, and between two others.
fn prints(line: &[u8], answer: &str) {
    assert_eq!(read(&[line, b"\n"].concat()), format!("{answer}\n"));
    assert_eq!(
        read(&[b"4\n", line, b"\n10\n"].concat()),
        format!("0.4\n{answer}\n1.0\n")
    );
    if !line.is_empty() {
        assert_eq!(read(line), format!("{answer}\n"));
    }
}

#[test]
fn lines_that_are_no_numbers() {
    let lines: [&[u8]; 4] = [
        b"|+1|-1|-0.4| 1|1 | |1 2|1\r|\r|1\r2|\t|\t1|1\t|1.0|0x10|12x|x12|1x2",
        b"\0|1\x002|\xff|1\xff|\xb1|/|:|1/|/1|1:|:1",
        b"18446744073709551616|018446744073709551616|18446744073709551620",
        b"99999999999999999999|184467440737095516160|18446744073709551615x",
    ];
    for line in lines
        .iter()
        .flat_map(|lines| lines.split(|&byte| byte == b'|'))
    {
        prints(line, "18");
    }
    prints(&[b'9'; 300], "18");
    prints(&[b'9'; 10_000], "18");
    prints(&[b' '; 10_000], "18");
}

#[test]
fn lines_that_are_numbers() {
    let zeros = |times| "0".repeat(times);
    let numbers = [
        ("0".to_string(), "0.0"),
        ("00".to_string(), "0.0"),
        ("007".to_string(), "0.7"),
        ("18446744073709551615".to_string(), "-0.1"),
        ("9223372036854775807".to_string(), "922337203685477580.7"),
        ("9223372036854775808".to_string(), "-922337203685477580.8"),
        (zeros(30) + "7", "0.7"),
        (zeros(300) + "18446744073709551615", "-0.1"),
        (zeros(10_000) + "18446744073709551606", "-1.0"),
    ];
    for (line, reading) in numbers {
        prints(line.as_bytes(), reading);
    }
}

#[test]
fn one_byte_alone_is_a_number_only_if_a_digit() {
    for byte in (0..=255).filter(|&byte| byte != b'\n') {
        match byte {
            b'0'..=b'9' => prints(&[byte], &format!("0.{}", byte - b'0')),
            _ => prints(&[byte], "18"),
        }
    }
}

/// What a line should print, by plain arithmetic on the whole line.
fn expected(line: &[u8]) -> String {
    let digits = !line.is_empty() && line.iter().all(u8::is_ascii_digit);
    let number = std::str::from_utf8(line).ok().filter(|_| digits);
    match number.and_then(|number| number.parse().ok()) {
        Some(word) => by_hand(word),
        None => MALFORMED.to_string(),
    }
}

#[test]
fn the_stored_input() {
    let mut input = vec![];
    words(&mut input).unwrap();
    assert!(input.len() < 60_000, "{}", input.len());
    assert!(!input.ends_with(b"\n"));
    let lines: Vec<String> = input.split(|&byte| byte == b'\n').map(expected).collect();
    assert_eq!(read(&input), lines.join("\n") + "\n");
    assert!(lines.iter().filter(|&line| line == "18").count() > 50);
    for line in lines.iter().filter(|&line| line != "18") {
        let (answer, word) = parse(line.as_bytes());
        assert_eq!(answer, DONE);
        assert_eq!(printed(word), line.as_bytes());
    }
}
