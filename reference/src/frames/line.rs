//! The line of a frame: capital hexadecimal digits, and what they say.

use crate::harmony::{House, HouseKey};
use crate::state::Key;
use crate::text::tree::Letter;

/// "A count from 1 to 32".
pub const LONGEST_ROW: usize = 32;

/// The digits of the longest frame: house, kind, count and 32 letters.
pub const LONGEST_FRAME: usize = 2 * (3 + LONGEST_ROW);

#[derive(Clone, Copy, Debug, PartialEq, Eq)]
pub enum Frame {
    Play(Action),
    Row(Row),
    Pitch(Key),
    Dump,
}

/// What may call something.
#[derive(Clone, Copy, Debug, PartialEq, Eq)]
pub enum Action {
    Letter(Letter),
    Down(HouseKey),
    Up(HouseKey),
}

/// The presses of a row of letters, as many as its count says.
#[derive(Clone, Copy, Debug, PartialEq, Eq)]
pub struct Row {
    presses: [Action; LONGEST_ROW],
    count: usize,
}

impl Row {
    pub fn presses(&self) -> &[Action] {
        self.presses.get(..self.count).unwrap_or_default()
    }
}

/// The bytes of a line, two digits for each; `None` for what is no byte.
fn bytes(line: &[u8]) -> impl Iterator<Item = Option<u8>> + '_ {
    line.chunks(2).map(|digits| match *digits {
        [high, low] => Some(16 * digit(high)? + digit(low)?),
        _ => None,
    })
}

fn digit(byte: u8) -> Option<u8> {
    match byte {
        b'0'..=b'9' => Some(byte - b'0'),
        b'A'..=b'F' => Some(byte - b'A' + 10),
        _ => None,
    }
}

/// The bytes of a line that is made of pairs of digits alone.
pub fn frame_bytes(line: &[u8]) -> Option<Vec<u8>> {
    bytes(line).collect()
}

/// "Byte 1: house, 01 or 02." Then the kind; three bytes, but for a row.
pub fn frame(line: &[u8]) -> Option<Frame> {
    let mut bytes = bytes(line);
    let mut next = || bytes.next().flatten();
    let [house, kind, data] = [next()?, next()?, next()?];
    let house = match house {
        1 => House::First,
        2 => House::Second,
        _ => return None,
    };
    if kind == 4 {
        return row(data.into(), bytes).map(Frame::Row);
    }
    match bytes.next() {
        None => frame_of_three(house, kind, data),
        Some(_) => None,
    }
}

/// "Byte 2 and 3: 01 and a letter 41 to 5A; 02 and a key 00 to 7F; 03 and 00."
/// "Frames of kind 05 and 06 say that a key goes down or up in that house."
fn frame_of_three(house: House, kind: u8, data: u8) -> Option<Frame> {
    let key = HouseKey { house, key: data };
    match (kind, data) {
        (1, _) => letter(data).map(Frame::Play),
        (2, 0..=127) => Some(Frame::Pitch(Key(data.into()))),
        (3, 0) => Some(Frame::Dump),
        (5, 0..=127) => Some(Frame::Play(Action::Down(key))),
        (6, 0..=127) => Some(Frame::Play(Action::Up(key))),
        _ => None,
    }
}

/// "A frame of kind 04 shall carry a count from 1 to 32 and that many letters."
fn row(count: usize, mut letters: impl Iterator<Item = Option<u8>>) -> Option<Row> {
    let mut row = Row { presses: [Action::Letter(Letter(b'A')); LONGEST_ROW], count };
    if count == 0 {
        return None;
    }
    for press in row.presses.get_mut(..count)? {
        *press = letter(letters.next()??)?;
    }
    letters.next().is_none().then_some(row)
}

fn letter(byte: u8) -> Option<Action> {
    byte.is_ascii_uppercase().then_some(Action::Letter(Letter(byte)))
}
