//! Rows of letters of every length, and lines right beside them.

use crate::random::Random;

const ROW: u8 = 4;

/// How many letters a row has: often 1, 2, 31 or 32, else mostly a few.
pub fn length(random: &mut Random) -> usize {
    match random.below(20) {
        0..=1 => 1,
        2..=4 => 2,
        5 => 31,
        6..=7 => 32,
        8..=17 => 3 + random.below(8),
        _ => 1 + random.below(32),
    }
}

/// The bytes of a row.
pub fn row(house: u8, letters: &[u8]) -> Vec<u8> {
    row_of(house, letters.len(), letters)
}

/// The same with any count.
fn row_of(house: u8, count: usize, letters: &[u8]) -> Vec<u8> {
    [&[house, ROW, count as u8], letters].concat()
}

/// A line that is no frame, right beside the row of these letters. Other ones of
/// them are made longer or have a letter changed.
pub fn damaged_line(random: &mut Random, house: u8, letters: &[u8]) -> Vec<u8> {
    let count = letters.len();
    match random.below(14) {
        0 => digits(&row_of(house, 0, &[])),
        1 => digits(&row_of(house, 0, letters)),
        2 => digits(&row_of(house, 33, &cycled(letters, 33))),
        3 => digits(&row_of(house, count + 1, letters)),
        4 => digits(&row_of(house, count - 1, letters)),
        5 => digits(&row_of(house, random.below(256), letters)),
        6..=7 => digits(&row(house, &with_a_wrong_one(random, letters))),
        8 => with_a_digit_more_or_less(random, digits(&row(house, letters))),
        9 => with_a_small_digit(random, house, letters),
        10 => digits(&[house, ROW]),
        11 => digits(&row(random.one_of([0, 3, 0xFF]), letters)),
        _ => longer_than_any(random, house, letters),
    }
}

/// Each byte as two capital hexadecimal digits.
pub fn digits(bytes: &[u8]) -> Vec<u8> {
    let digits: String = bytes.iter().map(|byte| format!("{byte:02X}")).collect();
    digits.into_bytes()
}

/// So many letters, these over and over.
fn cycled(letters: &[u8], count: usize) -> Vec<u8> {
    letters.iter().copied().cycle().take(count).collect()
}

/// A byte beside the letters for one of these, often the last.
fn with_a_wrong_one(random: &mut Random, letters: &[u8]) -> Vec<u8> {
    let mut letters = letters.to_vec();
    let last = letters.len() - 1;
    let place = if random.percent(50) { last } else { random.below(letters.len()) };
    letters[place] = random.one_of([0x40, 0x5B, 0x61, 0x7A, 0x00, 0xFF]);
    letters
}

fn with_a_digit_more_or_less(random: &mut Random, mut line: Vec<u8>) -> Vec<u8> {
    if random.percent(50) {
        line.pop();
    } else {
        line.push(b'4');
    }
    line
}

/// One of J to O for the last letter, its second digit small.
fn with_a_small_digit(random: &mut Random, house: u8, letters: &[u8]) -> Vec<u8> {
    let mut letters = letters.to_vec();
    letters.pop();
    letters.push(random.one_of(*b"JKLMNO"));
    let mut line = digits(&row(house, &letters));
    line.iter_mut().rev().take(1).for_each(|digit| digit.make_ascii_lowercase());
    line
}

/// A whole row of 32, and something behind it.
fn longer_than_any(random: &mut Random, house: u8, letters: &[u8]) -> Vec<u8> {
    let mut line = digits(&row(house, &cycled(letters, 32)));
    line.extend(random.one_of([&b"4"[..], b"5", b"\r", b" ", b"55", b"\0", b"0"]));
    if random.percent(3) {
        line.resize(line.len() + random.below(100_000), b'5');
    }
    line
}
