//! Anchor and width calls by the two ends of their distance: how often the rule
//! of request 2/13 was met, and each way to number 13.

use crate::numbers::{self, Number};
use crate::state::{Call, Key, State, ANCHORS, WIDTHS};

/// How often a call met each.
#[derive(Clone, Copy, Debug, Default, PartialEq, Eq)]
pub struct Ends {
    /// From a muted first position by whole periods: taken, and refused.
    pub down: u64,
    pub nowhere: u64,
    pub up: u64,
    pub refused: u64,
    /// 13: the first position alone is muted, the other end alone is silent,
    /// or both are.
    pub first: u64,
    pub other: u64,
    pub both: u64,
}

impl Ends {
    /// Counts a call on this state, by the number that it got.
    pub fn note(&mut self, state: &State, call: &Call, number: Number) {
        let Some(key) = other_end(state, call) else {
            return;
        };
        let (q, r) = state.place_of(key);
        let muted = (state.tones[0].is_none(), state.pitch(key).is_none());
        let count = match (r, number, muted) {
            (0, numbers::DONE, (true, _)) if q < 0 => &mut self.down,
            (0, numbers::DONE, (true, _)) if q > 0 => &mut self.up,
            (0, numbers::DONE, (true, _)) => &mut self.nowhere,
            (0, _, (true, _)) => &mut self.refused,
            (_, numbers::MUTED, (true, true)) => &mut self.both,
            (_, numbers::MUTED, (true, false)) => &mut self.first,
            (_, numbers::MUTED, (false, true)) => &mut self.other,
            _ => return,
        };
        *count += 1;
    }

    /// Those by whole periods that were taken.
    pub fn taken(&self) -> u64 {
        self.down + self.nowhere + self.up
    }

    /// How often the rarest of all came.
    pub fn rarest(&self) -> u64 {
        let Ends { down, nowhere, up, refused, first, other, both } = *self;
        [down, nowhere, up, refused, first, other, both].into_iter().min().unwrap_or_default()
    }
}

/// The key at the other end, of an anchor or width in its range.
pub fn other_end(state: &State, call: &Call) -> Option<Key> {
    match call {
        Call::Anchor(change) => {
            let anchor = change.of(state.anchor.0).ok()?;
            ANCHORS.contains(&anchor).then_some(Key(anchor))
        }
        Call::Width(change) => {
            let width = change.of(state.width as i64).ok()?;
            WIDTHS.contains(&width).then_some(Key(state.anchor.0 + width))
        }
        Call::Period(_) | Call::Tones(_) | Call::System(_) => None,
    }
}

impl std::fmt::Display for Ends {
    fn fmt(&self, f: &mut std::fmt::Formatter) -> std::fmt::Result {
        write!(
            f,
            "from a muted first position by whole periods: {} down, {} by none, {} up, {} refused; \
             13 with the first position muted: {}, with the other end silent: {}, with both: {}",
            self.down, self.nowhere, self.up, self.refused, self.first, self.other, self.both
        )
    }
}

#[cfg(test)]
mod tests {
    use super::*;
    use crate::state::{Change, Position};

    #[test]
    fn one_of_each() {
        let mute =
            |positions: Vec<Position>| State::start().called(&Call::Tones(positions)).unwrap();
        let first = mute(vec![Position::Muted]);
        let second = mute(vec![Position::By(Default::default()), Position::Muted]);
        let two = mute(vec![Position::Muted, Position::Muted]);
        let mut ends = Ends::default();
        for (state, call) in [
            (&first, Call::Anchor(Change::Minus(12))),
            (&first, Call::Width(Change::Kept)),
            (&first, Call::Anchor(Change::Kept)),
            (&first, Call::Width(Change::Times(5))),
            (&first, Call::Anchor(Change::Plus(1))),
            (&second, Call::Width(Change::To(13))),
            (&two, Call::Anchor(Change::Plus(1))),
            (&second, Call::Anchor(Change::Plus(2))),
            (&first, Call::Anchor(Change::To(128))),
        ] {
            ends.note(state, &call, state.called(&call).err().unwrap_or(numbers::DONE));
        }
        let expected = Ends { down: 1, nowhere: 1, up: 2, refused: 0, first: 1, other: 1, both: 1 };
        assert_eq!(ends, expected);
    }
}
