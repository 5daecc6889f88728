//! Pairs of a text and a stream of frames for it. Most texts are right, and
//! their letters and harmonies really move the state.

use super::compose::{compose, Plan};
use super::examples::{EXAMPLES, LIMITS, PLACEHOLDERS};
use super::faults;
use super::fingers::Fingers;
use super::letter_rows::{self, digits};
use super::sketch::render;
use crate::frames::Desk;
use crate::playable::is_at_an_end;
use crate::random::Random;
use crate::state::Key;
use crate::text;
use crate::text::tree::Trigger;

pub struct Pair {
    pub text: Vec<u8>,
    pub frames: Vec<u8>,
}

/// One pair of a seed.
pub fn pair(seed: u64, index: u64) -> Pair {
    let mut random = Random::for_case(seed ^ 0x5EED_0F57_2EA4, index);
    let random = &mut random;
    let text = match random.below(100) {
        0..=3 => damaged_text(random),
        4..=7 => random.one_of(EXAMPLES).as_bytes().to_vec(),
        8..=10 => LIMITS.as_bytes().to_vec(),
        11..=13 => PLACEHOLDERS.as_bytes().to_vec(),
        _ => right_text(random),
    };
    let frames = frames(random, &text);
    Pair { text, frames }
}

/// A stream of frames that plays on this text.
pub fn frames(random: &mut Random, text: &[u8]) -> Vec<u8> {
    Player::new(random, text).frames(random)
}

fn damaged_text(random: &mut Random) -> Vec<u8> {
    let plan = plan(random);
    let mut tokens = compose(random, plan);
    faults::put_in(random, &mut tokens);
    render(random, &tokens)
}

/// A text that is accepted; should none come in a few attempts, the empty one.
fn right_text(random: &mut Random) -> Vec<u8> {
    let mut compose_one = || {
        let plan = plan(random);
        let tokens = compose(random, plan);
        render(random, &tokens)
    };
    let attempts = (0..8).map(|_| compose_one());
    attempts.into_iter().find(|text| text::read(text).is_ok()).unwrap_or_default()
}

fn plan(random: &mut Random) -> Plan {
    let large = random.percent(10);
    let mut between = |low: usize, high: usize| low + random.below(high - low + 1);
    if large {
        return Plan {
            intervals: between(20, 60),
            tones: between(20, 60),
            systems: between(2, 12),
            retunings: between(40, 100),
            harmonies: between(0, 64),
            logics: between(8, 32),
            orders: 14,
            positions: [12, 16, 24, 60][between(0, 3)],
            terms: 6,
            musical: true,
            far: true,
            first_muted: true,
            placeholders: 50 * between(0, 1) as u32,
        };
    }
    Plan {
        intervals: between(3, 12),
        tones: between(2, 12),
        systems: between(1, 4),
        retunings: between(5, 30),
        harmonies: between(0, 10).saturating_sub(2),
        logics: between(1, 6),
        orders: 14,
        positions: between(1, 14),
        terms: between(1, 6),
        musical: between(0, 4) > 0,
        far: true,
        first_muted: true,
        placeholders: 50 * between(0, 1) as u32,
    }
}

/// Plays on a text: follows it with a desk, so that it knows which letters and
/// harmonies are bound at each moment. A refused text is followed as if it were
/// empty.
struct Player {
    desk: Desk,
    lines: Vec<u8>,
    fingers: Fingers,
    /// How many in a hundred frames are those of keys.
    keys: u32,
    /// How many in a hundred of the others are rows of letters.
    rows: u32,
}

impl Player {
    fn new(random: &mut Random, text: &[u8]) -> Self {
        let desk = Desk::new(text::read(text).unwrap_or_default());
        let keys = if desk.program().declared.harmonies.is_empty() {
            random.one_of([0, 0, 0, 20])
        } else {
            random.one_of([0, 20, 50, 80])
        };
        let rows = random.one_of([0, 5, 10, 40]);
        Player { desk, lines: Vec::new(), fingers: Fingers::default(), keys, rows }
    }

    /// The frames of a stream; the last line may lack its line feed.
    fn frames(mut self, random: &mut Random) -> Vec<u8> {
        let most = random.one_of([5, 30, 60, 120, 240]);
        for _ in 0..=random.below(most) {
            let line = self.played_line(random);
            self.lines.extend(line);
            self.lines.push(b'\n');
        }
        if random.percent(30) {
            self.lines.pop();
        }
        self.lines
    }

    /// The next line; the desk has taken it.
    fn played_line(&mut self, random: &mut Random) -> Vec<u8> {
        let house = 1 + random.below(2) as u8;
        let line = if random.percent(self.keys) {
            digits(&self.fingers.frame(random, &self.desk))
        } else if !random.percent(self.rows) {
            self.line(random, house)
        } else if random.percent(25) {
            self.damaged_row(random, house)
        } else {
            return self.played_row(random, house);
        };
        self.desk.answer(&line, &mut Vec::new());
        line
    }

    fn line(&mut self, random: &mut Random, house: u8) -> Vec<u8> {
        match random.below(100) {
            0..=64 => digits(&[house, 1, self.letter(random)]),
            65..=83 => digits(&[house, 2, self.key(random)]),
            84..=89 => digits(&[house, 3, 0]),
            90..=93 => digits(&near_frame(random)),
            _ => damaged_line(random),
        }
    }

    /// A row whose letters are played singly as they are chosen, so that each is
    /// one for the logic that is active then.
    fn played_row(&mut self, random: &mut Random, house: u8) -> Vec<u8> {
        let mut letters = Vec::new();
        for _ in 0..letter_rows::length(random) {
            let letter = self.letter(random);
            self.desk.answer(&digits(&[house, 1, letter]), &mut Vec::new());
            letters.push(letter);
        }
        digits(&letter_rows::row(house, &letters))
    }

    fn damaged_row(&mut self, random: &mut Random, house: u8) -> Vec<u8> {
        let length = letter_rows::length(random);
        let letters: Vec<_> = (0..length).map(|_| self.letter(random)).collect();
        letter_rows::damaged_line(random, house, &letters)
    }

    /// Any key, or one at an end of what an instrument has, or one past it.
    fn key(&self, random: &mut Random) -> u8 {
        let any = random.below(128) as u8;
        if random.percent(50) {
            return any;
        }
        let at_an_end = |key: &u8| is_at_an_end(self.desk.state().pitch(Key((*key).into())));
        random.pick(&(0..128).filter(at_an_end).collect::<Vec<_>>(), any)
    }

    /// Mostly a letter of the active logic's orders, else one of a logic, else
    /// any.
    fn letter(&self, random: &mut Random) -> u8 {
        let any = b'A' + random.below(26) as u8;
        let logics = &self.desk.program().declared.logics;
        let active = self.desk.active().and_then(|i| logics.get(i));
        let orders = active.map_or(&[][..], |logic| &logic.form.orders);
        let orders = letters(orders.iter().map(|order| &order.trigger));
        let logics = letters(logics.iter().map(|logic| &logic.form.trigger));
        match random.below(100) {
            0..=74 if !orders.is_empty() => random.pick(&orders, any),
            0..=94 => random.pick(&logics, any),
            _ => any,
        }
    }
}

/// The letters among these triggers.
fn letters<'a>(triggers: impl Iterator<Item = &'a Trigger<usize>>) -> Vec<u8> {
    let letter = |trigger: &Trigger<usize>| match trigger {
        Trigger::Letter(letter) => Some(letter.0),
        Trigger::Harmony(_) => None,
    };
    triggers.filter_map(letter).collect()
}

/// Three bytes right beside those of a frame.
fn near_frame(random: &mut Random) -> [u8; 3] {
    let house = random.one_of([0, 1, 2, 3, 0xFF]);
    let kind = random.one_of([0, 1, 2, 3, 4, 5, 6, 7]);
    let last = random.one_of([0x00, 0x01, 0x40, 0x41, 0x5A, 0x5B, 0x61, 0x7F, 0x80, 0xFF]);
    [house, kind, last]
}

/// Lines that are no frames: too short or long, with small digits or other
/// bytes.
const DAMAGED: &str =
    "||0|0201|01023|0102450|01024a|01014d| 10245|010245 |010245\r|01 02 45|0x0245|\
    01014G|\u{0}0245|\u{ff}\u{ff}";

fn damaged_line(random: &mut Random) -> Vec<u8> {
    let lines: Vec<_> = DAMAGED.split('|').collect();
    let mut line = random.pick(&lines, "").as_bytes().to_vec();
    if random.percent(3) {
        line.resize(line.len() + random.below(100_000), b'0');
    }
    line
}

#[cfg(test)]
mod tests {
    use super::*;

    /// Most texts are accepted, and most letters that are played are taken.
    #[test]
    fn streams_move_the_state() {
        let (mut accepted, mut made, mut taken) = (0, 0, 0);
        for index in 0..60 {
            let pair = pair(11, index);
            let Ok(program) = text::read(&pair.text) else {
                continue;
            };
            accepted += 1;
            let mut desk = Desk::new(program);
            for line in pair.frames.split(|&byte| byte == b'\n') {
                desk.answer(line, &mut Vec::new());
                for effect in desk.effects() {
                    made += u32::from(effect.made.is_some());
                    taken += u32::from(effect.is_taken());
                }
            }
        }
        assert!(accepted > 50);
        assert!(made > 500 && 3 * taken > 2 * made, "{taken} of {made} calls were taken");
    }
}
