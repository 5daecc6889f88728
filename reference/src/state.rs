//! Section "State and retunings" of document 01, as requests 1/13 and 2/13 of
//! document 02 mend it: the four parts of a tuning, the pitch of a key, and what
//! each call makes of them.

use crate::measure::{Interval, Pitch};
use crate::numbers::{self, Number};
use std::ops::RangeInclusive;

/// "positions in one list | 60", which is the greatest width too.
pub const POSITIONS: usize = 60;

pub const ANCHORS: RangeInclusive<i64> = 0..=127;
pub const WIDTHS: RangeInclusive<i64> = 1..=60;

/// "n in anchor and width retunings".
pub const CHANGES: RangeInclusive<u16> = 0..=9_999;

/// No sum in a text passes these: a tone and sixteen terms, each 999 times an
/// interval at the end of its range.
pub const SUMS: RangeInclusive<i64> = -1_598_500_000_000..=1_598_500_000_000;

/// "interval and tone values, tones of a state".
pub const VALUES: RangeInclusive<i64> = -100_000_000..=100_000_000;
pub const PERIODS: RangeInclusive<i64> = 0..=12_000_000;

/// The number of a key; in sums it may pass 127.
#[derive(Clone, Copy, Debug, PartialEq, Eq)]
pub struct Key(pub i64);

/// "A state is anchor a, width w, tones t(0) to t(w-1), each a pitch or muted,
/// and period P." Places beyond the width hold nothing.
#[derive(Clone, Debug, PartialEq, Eq)]
pub struct State {
    pub anchor: Key,
    pub width: usize,
    pub tones: [Option<Pitch>; POSITIONS],
    pub period: Interval,
}

/// A new number, absolute or from the old one, by an n that is a number or will
/// be one. Anchors are changed by the first four only.
#[derive(Clone, Copy, Debug, PartialEq, Eq)]
pub enum Change<N = u16> {
    To(N),
    Kept,
    Plus(N),
    Minus(N),
    Times(N),
    Over(N),
}

impl Change {
    /// "`/` takes the whole part"; the old number is from zero upward. "At the
    /// call 25, before 10 to 14, for division by zero".
    pub fn of(self, old: i64) -> Result<i64, Number> {
        Ok(match self {
            Change::To(n) => n.into(),
            Change::Kept => old,
            Change::Plus(n) => old + i64::from(n),
            Change::Minus(n) => old - i64::from(n),
            Change::Times(n) => old * i64::from(n),
            Change::Over(0) => return Err(numbers::DIVISION_BY_ZERO),
            Change::Over(n) => old / i64::from(n),
        })
    }
}

impl<N> Change<N> {
    /// What stands for n, if there is one.
    pub fn amount(&self) -> Option<&N> {
        match self {
            Change::Kept => None,
            Change::To(n)
            | Change::Plus(n)
            | Change::Minus(n)
            | Change::Times(n)
            | Change::Over(n) => Some(n),
        }
    }

    /// The same with a number for n, if there is one for it.
    pub fn filled(&self, number: impl Fn(&N) -> Option<u16>) -> Option<Change> {
        Some(match self {
            Change::Kept => Change::Kept,
            Change::To(n) => Change::To(number(n)?),
            Change::Plus(n) => Change::Plus(number(n)?),
            Change::Minus(n) => Change::Minus(number(n)?),
            Change::Times(n) => Change::Times(number(n)?),
            Change::Over(n) => Change::Over(number(n)?),
        })
    }
}

/// A new period, absolute or from the old one.
#[derive(Clone, Copy, Debug, PartialEq, Eq)]
pub enum PeriodChange {
    To(Interval),
    By(Interval),
}

/// A position of a tones retuning: nothing, a tone, or `@` with terms.
#[derive(Clone, Copy, Debug, PartialEq, Eq)]
pub enum Position {
    Muted,
    At(Pitch),
    By(Interval),
}

#[derive(Clone, Debug, PartialEq, Eq)]
pub struct ToneSystem {
    pub anchor: u8,
    pub tones: Vec<Option<Pitch>>,
    pub period: Interval,
}

/// A call of a retuning of one of the four kinds, or of a tone system.
#[derive(Clone, Debug, PartialEq, Eq)]
pub enum Call<N = u16> {
    Anchor(Change<N>),
    Width(Change<N>),
    Period(PeriodChange),
    Tones(Vec<Position>),
    System(ToneSystem),
}

impl<N> Call<N> {
    /// The same with a number for n, if there is one for it.
    pub fn filled(&self, number: impl Fn(&N) -> Option<u16>) -> Option<Call> {
        Some(match self {
            Call::Anchor(change) => Call::Anchor(change.filled(number)?),
            Call::Width(change) => Call::Width(change.filled(number)?),
            Call::Period(change) => Call::Period(*change),
            Call::Tones(positions) => Call::Tones(positions.clone()),
            Call::System(system) => Call::System(system.clone()),
        })
    }
}

impl State {
    /// "At the start: anchor 60, width 12, t(i) = 6,000,000 + 100,000·i, P =
    /// 1,200,000".
    pub fn start() -> Self {
        let tone = |i| Pitch(6_000_000) + Interval(100_000) * i as i64;
        State {
            anchor: Key(60),
            width: 12,
            tones: std::array::from_fn(|i| (i < 12).then(|| tone(i))),
            period: Interval(1_200_000),
        }
    }

    /// "Key x has x - a = q·w + r with r from 0 to w-1; its pitch is t(r) +
    /// q·P, silent if t(r) is muted."
    pub fn pitch(&self, key: Key) -> Option<Pitch> {
        let (q, r) = self.place_of(key);
        let tone = self.tones.get(r).copied().flatten();
        tone.map(|tone| tone + self.period * q)
    }

    /// q and r of a key.
    pub fn place_of(&self, key: Key) -> (i64, usize) {
        let distance = key.0 - self.anchor.0;
        let width = self.width.max(1) as i64;
        (distance.div_euclid(width), distance.rem_euclid(width) as usize)
    }

    /// The state after a call that is taken, or the number of its refusal.
    pub fn called(&self, call: &Call) -> Result<State, Number> {
        match call {
            Call::Anchor(change) => self.with_anchor(change.of(self.anchor.0)?),
            Call::Width(change) => self.with_width(change.of(self.width as i64)?),
            Call::Period(PeriodChange::To(period)) => self.with_period(*period),
            Call::Period(PeriodChange::By(by)) => self.with_period(self.period + *by),
            Call::Tones(positions) => self.with_tones(positions),
            Call::System(system) => Ok(Self::of_system(system)),
        }
    }

    /// "Anchor to b: every sounding tone shifts by pitch(b) - t(0). Checks: 10,
    /// 13, 14."
    fn with_anchor(&self, b: i64) -> Result<State, Number> {
        if !ANCHORS.contains(&b) {
            return Err(numbers::BAD_ANCHOR);
        }
        let shift = self.distance_to(Key(b))?;
        let mut new = self.clone();
        new.anchor = Key(b);
        for tone in new.tones.iter_mut().flatten() {
            *tone = *tone + shift;
        }
        new.with_tones_in_range()
    }

    /// "Width to v: new t(i) is the old pitch of key a+i; the new period is
    /// pitch(a+v) - t(0). Checks: 11, 13, 14, 12."
    fn with_width(&self, v: i64) -> Result<State, Number> {
        if !WIDTHS.contains(&v) {
            return Err(numbers::BAD_WIDTH);
        }
        let key = |i: i64| Key(self.anchor.0 + i);
        let period = self.distance_to(key(v))?;
        let tone = |i: i64| self.pitch(key(i)).filter(|_| i < v);
        State {
            anchor: self.anchor,
            width: v as usize,
            tones: std::array::from_fn(|i| tone(i as i64)),
            period: self.period,
        }
        .with_tones_in_range()?
        .with_period(period)
    }

    /// "Period: P alone changes. Check: 12."
    fn with_period(&self, period: Interval) -> Result<State, Number> {
        if !PERIODS.contains(&period.0) {
            return Err(numbers::BAD_PERIOD);
        }
        Ok(State { period, ..self.clone() })
    }

    /// "Tones: positions beyond the width have no effect, tones beyond the
    /// list stay. `@` with terms on a muted tone stays muted. Check: 14."
    fn with_tones(&self, positions: &[Position]) -> Result<State, Number> {
        let mut new = self.clone();
        let within = new.tones.iter_mut().take(self.width);
        for (tone, position) in within.zip(positions) {
            *tone = match *position {
                Position::Muted => None,
                Position::At(pitch) => Some(pitch),
                Position::By(by) => tone.map(|old| old + by),
            };
        }
        new.with_tones_in_range()
    }

    /// "Calling a tone system sets all four parts."
    fn of_system(system: &ToneSystem) -> State {
        State {
            anchor: Key(system.anchor.into()),
            width: system.tones.len(),
            tones: std::array::from_fn(|i| system.tones.get(i).copied().flatten()),
            period: system.period,
        }
    }

    /// "Where the key at the other end falls on position 0, the distance shall
    /// be q times the period, muted or not." Elsewhere it is pitch(key) - t(0),
    /// and 13 is "r other than 0 with either end silent".
    fn distance_to(&self, key: Key) -> Result<Interval, Number> {
        let (q, r) = self.place_of(key);
        if r == 0 {
            return Ok(self.period * q);
        }
        match (self.tones[0], self.pitch(key)) {
            (Some(first), Some(pitch)) => Ok(pitch - first),
            _ => Err(numbers::MUTED),
        }
    }

    /// 14 is "a resulting tone not in its range".
    fn with_tones_in_range(self) -> Result<State, Number> {
        let mut sounding = self.tones.iter().flatten();
        if sounding.all(|tone| VALUES.contains(&tone.0)) {
            Ok(self)
        } else {
            Err(numbers::BAD_TONE)
        }
    }
}

#[cfg(test)]
mod tests {
    use super::*;

    const OCTAVE: Interval = Interval(1_200_000);

    fn pitch(state: &State, key: i64) -> i64 {
        state.pitch(Key(key)).unwrap().0
    }

    fn refusal(state: &State, call: Call) -> Number {
        state.called(&call).unwrap_err()
    }

    fn two() -> State {
        let tones = vec![Some(Pitch(6_900_000)), Some(Pitch(7_601_955))];
        let system = ToneSystem { anchor: 69, tones, period: OCTAVE };
        State::start().called(&Call::System(system)).unwrap()
    }

    #[test]
    fn keys_above_and_below_the_anchor_of_two() {
        assert_eq!(pitch(&two(), 70), 7_601_955);
        assert_eq!(pitch(&two(), 68), 6_401_955);
        assert_eq!(pitch(&two(), 69), 6_900_000);
    }

    #[test]
    fn widths_from_the_start() {
        let start = State::start();
        let wide = start.called(&Call::Width(Change::Times(5))).unwrap();
        assert_eq!((wide.width, wide.period), (60, Interval(6_000_000)));
        assert_eq!(pitch(&wide, 127), pitch(&start, 127));
        assert_eq!(refusal(&start, Call::Width(Change::To(61))), 11);
        let one = start.called(&Call::Width(Change::To(1))).unwrap();
        assert_eq!(refusal(&one, Call::Width(Change::Over(2))), 11);
    }

    /// Request 1/13: 25 comes before 11 and 13, and of `/` alone.
    #[test]
    fn a_zero_as_number() {
        let silent = two().called(&Call::Tones(vec![Position::Muted])).unwrap();
        for state in [State::start(), two(), silent] {
            assert_eq!(refusal(&state, Call::Width(Change::Over(0))), 25);
            assert_eq!(refusal(&state, Call::Width(Change::Times(0))), 11);
            assert_eq!(refusal(&state, Call::Width(Change::To(0))), 11);
            assert_eq!(state.called(&Call::Width(Change::Plus(0))).unwrap(), state);
        }
    }

    #[test]
    fn periods_down_to_nothing_and_up_to_ten_octaves() {
        let down = Call::Period(PeriodChange::By(-OCTAVE));
        let none = State::start().called(&down).unwrap();
        assert_eq!(none.period, Interval(0));
        assert_eq!(refusal(&none, down), 12);
        let octaves = |n| Call::Period(PeriodChange::To(OCTAVE * n));
        assert!(none.called(&octaves(10)).is_ok());
        assert_eq!(refusal(&none, octaves(11)), 12);
    }

    #[test]
    fn the_anchor_moves_with_its_key() {
        let up = two().called(&Call::Anchor(Change::Plus(1))).unwrap();
        assert_eq!(pitch(&up, 70), 7_601_955);
        assert_eq!(pitch(&up, 71), 8_303_910);
        assert_eq!(refusal(&up, Call::Anchor(Change::To(128))), 10);
        assert_eq!(refusal(&up, Call::Anchor(Change::Minus(71))), 10);
    }

    #[test]
    fn muted_tones() {
        let mute = Call::Tones(vec![Position::Muted]);
        let silent = two().called(&mute).unwrap();
        assert_eq!(silent.pitch(Key(69)), None);
        assert_eq!(refusal(&silent, Call::Anchor(Change::Plus(1))), 13);
        assert_eq!(refusal(&silent, Call::Width(Change::To(3))), 13);
        let still = Call::Tones(vec![Position::By(Interval(i64::from(i32::MAX)))]);
        assert_eq!(silent.called(&still).unwrap(), silent);
        let beyond = vec![Position::By(Interval(0)), Position::Muted, Position::Muted];
        let both = two().called(&Call::Tones(beyond)).unwrap();
        assert_eq!((both.pitch(Key(69)), both.pitch(Key(70))), (Some(Pitch(6_900_000)), None));
    }

    /// Request 2/13, with the first of `Two`'s positions muted.
    #[test]
    fn whole_periods_from_a_muted_first_position() {
        let silent = two().called(&Call::Tones(vec![Position::Muted])).unwrap();
        let call = |call: Call| silent.called(&call).unwrap();
        assert_eq!(call(Call::Anchor(Change::Kept)), silent);
        assert_eq!(call(Call::Width(Change::Kept)), silent);
        let up = call(Call::Anchor(Change::Plus(4)));
        assert_eq!((up.anchor, up.tones[1]), (Key(73), Some(Pitch(7_601_955 + 2 * 1_200_000))));
        let down = call(Call::Anchor(Change::Minus(6)));
        assert_eq!((down.anchor, down.tones[1]), (Key(63), Some(Pitch(7_601_955 - 3 * 1_200_000))));
        let wide = call(Call::Width(Change::Times(3)));
        assert_eq!((wide.width, wide.period), (6, OCTAVE * 3));
        for state in [up, down, wide] {
            assert!((0..128).all(|key| state.pitch(Key(key)) == silent.pitch(Key(key))));
        }
        let far = silent.called(&Call::Period(PeriodChange::To(OCTAVE * 6))).unwrap();
        assert_eq!(refusal(&far, Call::Width(Change::Times(2))), 12);
    }

    /// Where position 0 sounds, q periods are pitch(b) - t(0) as before.
    #[test]
    fn whole_periods_from_a_sounding_first_position() {
        let first = two().tones[0].unwrap();
        for key in (1..=127).step_by(2).map(Key) {
            let distance = two().pitch(key).unwrap() - first;
            assert_eq!(two().distance_to(key), Ok(distance));
        }
    }

    #[test]
    fn tones_out_of_range() {
        let far = |by| Call::Tones(vec![Position::By(Interval(by))]);
        assert!(two().called(&far(100_000_000 - 6_900_000)).is_ok());
        assert_eq!(refusal(&two(), far(100_000_001 - 6_900_000)), 14);
    }
}
