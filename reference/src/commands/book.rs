//! `book`: streams answered by the desk and kept in the exact book, side by
//! side.

use super::{note, output, verdict, Outcome};
use crate::book::{Book, Halt};
use crate::cases::streams;
use crate::comparison::{Comparison, Distance, Logarithms, Page, Sizes};
use crate::ends::Ends;
use crate::frames::{frame_bytes, Desk};
use crate::handed::Handed;
use crate::measure::{Pitch, CONCERT_PITCH};
use crate::numbers::{self, Number};
use crate::playable::PLAYABLE;
use crate::state::{Key, State};
use crate::text;
use std::io::Write;

const KEYS: i64 = 128;

/// Follows the streams of a seed and checks demand 3 at every key, at the start
/// and after every frame, by document 01's bound and by request 10/13's.
pub fn check(seed: u64, count: u64) -> Outcome {
    let mut logarithms = Logarithms::new();
    let mut tally = Tally::default();
    for index in 0..count {
        tally.stream = index;
        let pair = streams::pair(seed, index);
        match follow(&pair.text, &pair.frames, &mut logarithms, &mut tally) {
            Ok(()) => tally.streams += 1,
            Err(Halt::TooLarge) => tally.too_large += 1,
            Err(Halt::Impossible) => tally.fail("the book met what the rules exclude"),
        }
    }
    let mut output = output();
    writeln!(output, "{tally}")?;
    output.flush()?;
    if tally.past_half == 0 {
        note(format_args!("no key is past 0.5 w: 51 hundredths could not be told from 50"));
    }
    if tally.ends.taken() == 0 {
        note(format_args!("no call goes by whole periods from a muted first position"));
    }
    if tally.unplayable == 0 {
        note(format_args!("no key is unplayable"));
    }
    if tally.handed.taken() == 0 || tally.handed.zeros() == 0 {
        note(format_args!("no call that hands over an n is taken, or none divides by zero"));
    }
    if tally.long_rows == 0 {
        note(format_args!("no row of letters has more than one call that is taken"));
    }
    let handed = tally.handed.taken().min(tally.handed.zeros());
    let met = [tally.past_half, tally.ends.taken(), tally.unplayable, handed, tally.long_rows];
    Ok(verdict(tally.failed == 0 && !met.contains(&0)))
}

fn follow(
    text: &[u8],
    frames: &[u8],
    logarithms: &mut Logarithms,
    tally: &mut Tally,
) -> Result<(), Halt> {
    let Ok(program) = text::read(text) else {
        tally.refused += 1;
        return Ok(());
    };
    let tree = program.declared.clone();
    let mut book = Book::new(&tree)?;
    let sizes = Sizes::of(&tree, &book.numbers, logarithms);
    let mut desk = Desk::new(program);
    compare_keys(&mut desk, &Page::new(&book, &sizes), tally)?;
    let lines = frames.strip_suffix(b"\n").unwrap_or(frames);
    for line in lines.split(|&byte| byte == b'\n') {
        let before = desk.state().clone();
        desk.answer(line, &mut Vec::new());
        tally.note_calls(line, before, &desk);
        for made in desk.effects().iter().filter_map(|effect| effect.made) {
            book.take(made)?;
        }
        compare_keys(&mut desk, &Page::new(&book, &sizes), tally)?;
        tally.frames += 1;
    }
    Ok(())
}

fn compare_keys(desk: &mut Desk, page: &Page, tally: &mut Tally) -> Result<(), Halt> {
    for key in 0..KEYS {
        let pitch = sounding_pitch(desk, key, tally);
        let d = pitch.map(|pitch| pitch - CONCERT_PITCH);
        let comparison = page.compare(key, d.unwrap_or_default())?;
        tally.note(key, pitch, comparison);
    }
    Ok(())
}

/// The pitch of a key as its answer gives it; of an unplayable one the unlimited
/// pitch, which the distance holds for all the same.
fn sounding_pitch(desk: &mut Desk, key: i64, tally: &mut Tally) -> Option<Pitch> {
    let (number, given) = asked(desk, key)?;
    let within = |pitch: Option<Pitch>| pitch.is_some_and(|pitch| PLAYABLE.contains(&pitch.0));
    let sounding = desk.state().pitch(Key(key));
    let right = match number {
        numbers::SILENT_KEY => given.is_none() && sounding.is_none(),
        numbers::UNPLAYABLE_KEY => given.is_none() && sounding.is_some() && !within(sounding),
        _ => number == numbers::DONE && within(given),
    };
    if !right {
        tally.fail(&format!("key {key} at {sounding:?} answers {number} and {given:?}"));
    }
    if number != numbers::UNPLAYABLE_KEY {
        return given;
    }
    tally.unplayable += 1;
    sounding
}

/// What a frame of kind 02 answers: its number is the fourth of eight bytes, its
/// pitch the last four.
fn asked(desk: &mut Desk, key: i64) -> Option<(Number, Option<Pitch>)> {
    let mut answer = Vec::with_capacity(32);
    desk.answer(format!("0102{key:02X}").as_bytes(), &mut answer);
    let digits = std::str::from_utf8(answer.get(6..16)?).ok()?;
    let number = Number::from_str_radix(digits.get(..2)?, 16).ok()?;
    let bytes = u32::from_str_radix(digits.get(2..)?, 16).ok()?;
    Some((number, (bytes != 1 << 31).then_some(Pitch((bytes as i32).into()))))
}

#[derive(Default)]
struct Tally {
    stream: u64,
    streams: u64,
    refused: u64,
    too_large: u64,
    frames: u64,
    calls: u64,
    /// Those of the calls that a harmony made.
    by_harmonies: u64,
    /// Those of the calls that rows of letters made, and the rows in which more
    /// than one is taken.
    in_rows: u64,
    long_rows: u64,
    ends: Ends,
    handed: Handed,
    silent: u64,
    /// Those that sound, but not where an instrument does.
    unplayable: u64,
    exact: u64,
    apart: u64,
    /// Those that half a thousandth for each power would not have held.
    past_half: u64,
    failed: u64,
    worst: f64,
}

impl Tally {
    /// Counts the calls of the frame that the desk has answered.
    fn note_calls(&mut self, line: &[u8], before: State, desk: &Desk) {
        desk.effects().iter().for_each(|effect| self.handed.note(desk.program(), effect));
        for step in desk.steps_from(before) {
            self.ends.note(&step.on, &step.call, step.number);
        }
        let taken = desk.effects().iter().filter(|effect| effect.is_taken()).count() as u64;
        self.calls += taken;
        match frame_bytes(line).as_deref() {
            Some([_, 5 | 6, _]) => self.by_harmonies += taken,
            Some([_, 4, ..]) => {
                self.in_rows += taken;
                self.long_rows += u64::from(taken > 1);
            }
            _ => {}
        }
    }

    fn note(&mut self, key: i64, pitch: Option<Pitch>, comparison: Comparison) {
        let holds = match comparison {
            Comparison::Silent => {
                self.silent += 1;
                pitch.is_none()
            }
            Comparison::Exactly(holds) => {
                self.exact += 1;
                holds && pitch.is_some()
            }
            Comparison::Apart(Distance { within, sharper, share }) => {
                self.apart += 1;
                self.past_half += u64::from(share > 0.5);
                self.worst = self.worst.max(share);
                within && sharper && pitch.is_some()
            }
        };
        if !holds {
            self.fail(&format!("key {key} answers {pitch:?}, which is {comparison:?}"));
        }
    }

    fn fail(&mut self, what: &str) {
        self.failed += 1;
        note(format_args!("stream {}: {what}", self.stream));
    }
}

impl std::fmt::Display for Tally {
    fn fmt(&self, f: &mut std::fmt::Formatter) -> std::fmt::Result {
        writeln!(
            f,
            "{} streams followed ({} of them with refused texts), {} left for too large powers",
            self.streams, self.refused, self.too_large
        )?;
        writeln!(
            f,
            "{} frames, {} calls taken, {} of these by harmonies, {} in rows of letters ({} rows \
             with more than one), {} with an n handed over, {} by whole periods from a muted first \
             position; {} divisions by zero",
            self.frames,
            self.calls,
            self.by_harmonies,
            self.in_rows,
            self.long_rows,
            self.handed.taken(),
            self.ends.taken(),
            self.handed.zeros()
        )?;
        writeln!(
            f,
            "keys: {} silent in both, {} exact (w = 0), {} within w and within 0.51 w, \
             {} of these past 0.5 w; worst distance {:.6} w; {} of the sounding ones unplayable",
            self.silent, self.exact, self.apart, self.past_half, self.worst, self.unplayable
        )?;
        write!(f, "{} failed", self.failed)
    }
}

#[cfg(test)]
mod tests {
    use super::*;

    #[test]
    fn a_few_streams_hold() {
        let mut tally = Tally::default();
        for index in 0..12 {
            let pair = streams::pair(9, index);
            let mut logarithms = Logarithms::new();
            follow(&pair.text, &pair.frames, &mut logarithms, &mut tally).unwrap();
        }
        assert_eq!(tally.failed, 0);
        assert!(tally.exact > 0 && tally.apart > 0 && tally.unplayable > 0);
        assert!(tally.by_harmonies > 0 && tally.long_rows > 0);
        assert!(tally.calls > tally.by_harmonies + tally.in_rows);
    }
}
