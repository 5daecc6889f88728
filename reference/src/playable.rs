//! Request 6/13: "A key answer shall give a pitch only from 0 to 12,799,999.
//! Below or above it, the key counts as unplayable." And how often streams came
//! to the ends of that range.

use crate::ends::other_end;
use crate::measure::Pitch;
use crate::numbers::{self, Number};
use crate::state::{Call, Key, State};
use std::ops::RangeInclusive;

pub const PLAYABLE: RangeInclusive<i64> = 0..=12_799_999;

/// What a key's frame is answered: "15 after 20, pitch bytes 80000000".
pub fn key_answer(pitch: Option<Pitch>) -> (Number, Option<Pitch>) {
    match pitch {
        None => (numbers::SILENT_KEY, None),
        Some(pitch) if PLAYABLE.contains(&pitch.0) => (numbers::DONE, Some(pitch)),
        Some(_) => (numbers::UNPLAYABLE_KEY, None),
    }
}

/// Whether a pitch is the first or the last of the range, or right past it.
pub fn is_at_an_end(pitch: Option<Pitch>) -> bool {
    let (least, most) = (*PLAYABLE.start(), *PLAYABLE.end());
    pitch.is_some_and(|pitch| [least - 1, least, most, most + 1].contains(&pitch.0))
}

/// How often keys were asked at each end of the range and past it, and how often
/// an anchor or width call was taken by a pitch that no answer gives.
#[derive(Clone, Copy, Debug, Default, PartialEq, Eq)]
pub struct Limits {
    below: u64,
    just_below: u64,
    lowest: u64,
    highest: u64,
    just_above: u64,
    above: u64,
    far_ends: u64,
}

impl Limits {
    /// Counts a key that was asked, by its unlimited pitch.
    pub fn note_key(&mut self, pitch: Option<Pitch>) {
        let Some(Pitch(pitch)) = pitch else {
            return;
        };
        let (least, most) = (*PLAYABLE.start(), *PLAYABLE.end());
        let count = match pitch {
            _ if pitch == least => &mut self.lowest,
            _ if pitch == most => &mut self.highest,
            _ if pitch == least - 1 => &mut self.just_below,
            _ if pitch == most + 1 => &mut self.just_above,
            _ if pitch < least => &mut self.below,
            _ if pitch > most => &mut self.above,
            _ => return,
        };
        *count += 1;
    }

    /// Counts a call on this state, by the number that it got: "Anchor and width
    /// retunings keep using the unlimited pitch."
    pub fn note_call(&mut self, state: &State, call: &Call, number: Number) {
        let Some(key) = other_end(state, call) else {
            return;
        };
        let by_a_pitch = state.place_of(key).1 != 0 && number == numbers::DONE;
        self.far_ends += u64::from(by_a_pitch && is_unplayable(state, key));
    }

    /// How often the rarest of all came.
    pub fn rarest(&self) -> u64 {
        let Limits { below, just_below, lowest, highest, just_above, above, far_ends } = *self;
        let counts = [below, just_below, lowest, highest, just_above, above, far_ends];
        counts.into_iter().min().unwrap_or_default()
    }
}

fn is_unplayable(state: &State, key: Key) -> bool {
    key_answer(state.pitch(key)).0 == numbers::UNPLAYABLE_KEY
}

impl std::fmt::Display for Limits {
    fn fmt(&self, f: &mut std::fmt::Formatter) -> std::fmt::Result {
        write!(
            f,
            "keys asked at 0: {}, at -1: {}, lower: {}, at 12,799,999: {}, at 12,800,000: {}, \
             higher: {}; anchors and widths taken by an unplayable key: {}",
            self.lowest,
            self.just_below,
            self.below,
            self.highest,
            self.just_above,
            self.above,
            self.far_ends
        )
    }
}

#[cfg(test)]
mod tests {
    use super::*;

    #[test]
    fn both_ends_belong_to_the_range() {
        let answer = |pitch| key_answer(Some(Pitch(pitch)));
        assert_eq!(answer(-1), (15, None));
        assert_eq!(answer(0), (0, Some(Pitch(0))));
        assert_eq!(answer(12_799_999), (0, Some(Pitch(12_799_999))));
        assert_eq!(answer(12_800_000), (15, None));
        assert_eq!(key_answer(None), (20, None));
    }

    #[test]
    fn one_of_each() {
        let mut limits = Limits::default();
        for pitch in [-2, -1, 0, 1, 12_799_998, 12_799_999, 12_800_000, 12_800_001] {
            limits.note_key(Some(Pitch(pitch)));
        }
        limits.note_key(None);
        let expected = Limits {
            below: 1,
            just_below: 1,
            lowest: 1,
            highest: 1,
            just_above: 1,
            above: 1,
            far_ends: 0,
        };
        assert_eq!(limits, expected);
    }
}
