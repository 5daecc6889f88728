//! `stream-counts`: how often the streams of a seed play keys, and how often a
//! harmony then matches; the ends of their anchor and width calls; the keys asked
//! at the ends of what an instrument has; the calls that hand over an n; and the
//! rows of letters.

use super::{note, output, verdict, Outcome};
use crate::cases::streams::{self, Pair};
use crate::ends::Ends;
use crate::frames::{frame_bytes, Desk, Effect};
use crate::handed::Handed;
use crate::letter_rows::LetterRows;
use crate::numbers;
use crate::playable::Limits;
use crate::state::Key;
use crate::text;
use std::io::Write;

/// One in so many streams with key frames shall contain a match.
const STREAMS_TO_A_MATCH: u64 = 3;

/// In so many streams each way to end a distance shall come once, each place at
/// the ends of what an instrument has, each way to hand over an n, and each sort
/// of row.
const STREAMS_TO_EACH_WAY: u64 = 200;

/// Answers the streams of a seed and counts; fails if too few have a match, or
/// if a way to end a distance, a place at those ends, a way to hand over an n or
/// a sort of row is rare.
pub fn count(seed: u64, count: u64) -> Outcome {
    let mut tally = Tally::default();
    for index in 0..count {
        tally.follow(&streams::pair(seed, index));
    }
    let mut output = output();
    writeln!(output, "{tally}")?;
    output.flush()?;
    if !tally.has_each_row() {
        let (count, sort) = tally.rows.rarest();
        note(format_args!("rare among the rows of letters: {sort}, {count} times"));
    }
    Ok(verdict(tally.has_enough_matches() && tally.has_each_way() && tally.has_each_row()))
}

#[derive(Default)]
struct Tally {
    streams: u64,
    with_keys: u64,
    with_match: u64,
    frames: u64,
    matches: u64,
    refused_calls: u64,
    held: u64,
    not_held: u64,
    above: u64,
    ends: Ends,
    limits: Limits,
    handed: Handed,
    rows: LetterRows,
}

impl Tally {
    /// Key frames for a refused text match nothing, and count all the same.
    fn follow(&mut self, pair: &Pair) {
        let (frames, matches) = (self.frames, self.matches);
        self.handed.begin_stream();
        let mut desk = text::read(&pair.text).ok().map(Desk::new);
        let lines = pair.frames.strip_suffix(b"\n").unwrap_or(&pair.frames);
        for line in lines.split(|&byte| byte == b'\n') {
            self.take(desk.as_mut(), line);
        }
        self.streams += 1;
        self.with_keys += u64::from(self.frames > frames);
        self.with_match += u64::from(self.matches > matches);
    }

    fn take(&mut self, desk: Option<&mut Desk>, line: &[u8]) {
        let effects = desk.map_or(&[][..], |desk| self.answer(desk, line));
        let Some([1 | 2, 5 | 6, _]) = frame_bytes(line).as_deref() else {
            return;
        };
        self.frames += 1;
        let [effect] = effects else {
            return;
        };
        match effect.number {
            _ if effect.is_triggered() => {
                self.matches += 1;
                self.refused_calls += u64::from(effect.number != numbers::DONE);
            }
            numbers::KEY_HELD => self.held += 1,
            numbers::KEY_NOT_HELD => self.not_held += 1,
            numbers::BAD_FRAME => self.above += 1,
            _ => {}
        }
    }

    /// Answers a line and counts the ends of its calls and what they hand over,
    /// the row that it is, or the key that it asks.
    fn answer<'a>(&mut self, desk: &'a mut Desk, line: &[u8]) -> &'a [Effect] {
        let (before, active) = (desk.state().clone(), desk.active());
        desk.answer(line, &mut Vec::new());
        for step in desk.steps_from(before) {
            self.ends.note(&step.on, &step.call, step.number);
            self.limits.note_call(&step.on, &step.call, step.number);
        }
        desk.effects().iter().for_each(|effect| self.handed.note(desk.program(), effect));
        self.rows.note(line, active, desk);
        if let Some([1 | 2, 2, key @ 0..=127]) = frame_bytes(line).as_deref() {
            self.limits.note_key(desk.state().pitch(Key((*key).into())));
        }
        desk.effects()
    }

    fn is_frequent(&self, count: u64) -> bool {
        STREAMS_TO_EACH_WAY * count >= self.streams
    }

    fn has_each_way(&self) -> bool {
        self.is_frequent(self.ends.rarest().min(self.limits.rarest()).min(self.handed.rarest()))
    }

    fn has_each_row(&self) -> bool {
        self.is_frequent(self.rows.rarest().0)
    }

    fn has_enough_matches(&self) -> bool {
        STREAMS_TO_A_MATCH * self.with_match >= self.with_keys
    }
}

impl std::fmt::Display for Tally {
    fn fmt(&self, f: &mut std::fmt::Formatter) -> std::fmt::Result {
        writeln!(
            f,
            "{} streams, {} with key frames, {} of these with a match",
            self.streams, self.with_keys, self.with_match
        )?;
        writeln!(
            f,
            "{} key frames: {} matches ({} with a refused call), number 17: {}, 18: {}, 22: {}",
            self.frames, self.matches, self.refused_calls, self.held, self.not_held, self.above
        )?;
        writeln!(f, "{}", self.ends)?;
        writeln!(f, "{}", self.limits)?;
        writeln!(f, "{}", self.handed)?;
        write!(f, "{}", self.rows)
    }
}

#[cfg(test)]
mod tests {
    use super::*;

    #[test]
    fn keys_often_match_and_are_often_refused() {
        let mut tally = Tally::default();
        (0..500).for_each(|index| tally.follow(&streams::pair(11, index)));
        assert!(tally.has_enough_matches() && tally.has_each_way(), "{tally}");
        assert!(tally.has_each_row(), "{tally}");
        let refused = [tally.refused_calls, tally.held, tally.not_held, tally.above];
        assert!(refused.into_iter().all(|count| count >= 30), "{tally}");
    }
}
