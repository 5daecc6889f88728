//! Sequences of tuning calls. The generator follows each sequence with a state
//! of its own, so that it can aim at the limits from both sides.

use crate::call_records::Step;
use crate::measure::{Interval, Pitch};
use crate::random::Random;
use crate::state::{
    Call, Change, PeriodChange, Position, State, ToneSystem, PERIODS, POSITIONS, SUMS, VALUES,
};

/// The longest sequence of calls.
const LONGEST: usize = 20;

/// The first `count` sequences of a seed, each begun by a reset.
pub fn steps(seed: u64, count: usize) -> impl Iterator<Item = Step> {
    (0..count).flat_map(move |index| sequence(&mut Random::for_case(seed, index as u64)))
}

fn sequence(random: &mut Random) -> Vec<Step> {
    let mut state = State::start();
    let mut steps = vec![Step::Reset];
    for _ in 0..=random.below(LONGEST) {
        let call = call(random, &state);
        if let Ok(new) = state.called(&call) {
            state = new;
        }
        steps.push(Step::Call(call));
    }
    steps
}

fn call(random: &mut Random, state: &State) -> Call {
    if random.percent(60) {
        if random.percent(50) {
            Call::Anchor(anchor_change(random, state))
        } else {
            Call::Width(width_change(random, state))
        }
    } else {
        match random.below(10) {
            0..=3 => Call::Period(period_change(random, state)),
            4..=7 => Call::Tones(positions(random, state)),
            _ => Call::System(system(random)),
        }
    }
}

fn anchor_change(random: &mut Random, state: &State) -> Change {
    let old = state.anchor.0;
    let (up, down) = (127 - old, old);
    match random.below(16) {
        0 => Change::Kept,
        1 => Change::To(n(random.between(0, 130))),
        2 => Change::To(random.one_of([0, 1, 127, 128, 9_999])),
        3 => Change::To(random.below(10_000) as u16),
        4 => Change::Plus(n(up + random.between(-1, 1))),
        5 => Change::Minus(n(down + random.between(-1, 1))),
        6 | 7 => Change::Plus(n(random.between(0, up))),
        8 | 9 => Change::Minus(n(random.between(0, down))),
        10 => Change::Plus(random.below(140) as u16),
        11 => Change::Minus(random.below(140) as u16),
        12 | 13 => Change::Plus(n(whole_widths(random, state, up))),
        _ => Change::Minus(n(whole_widths(random, state, down))),
    }
}

/// Whole widths, at most one past the keys that are left; now and then a key
/// beside them.
fn whole_widths(random: &mut Random, state: &State, left: i64) -> i64 {
    let width = state.width as i64;
    width * random.between(0, left / width + 1) + random.one_of([0, 0, 0, 0, -1, 1])
}

fn width_change(random: &mut Random, state: &State) -> Change {
    let old = state.width as i64;
    match random.below(15) {
        0 => Change::Kept,
        1 | 2 => Change::To(n(random.between(0, 61))),
        3 => Change::To(random.one_of([0, 1, 60, 61, 9_999])),
        4 => Change::Plus(n(random.between(0, 61 - old))),
        5 => Change::Plus(n(60 - old + random.between(-1, 1))),
        6 => Change::Minus(n(random.between(0, old))),
        7 => Change::Minus(n(old + random.between(-2, 1))),
        8 => Change::Times(n(random.between(0, 61 / old.max(1) + 1))),
        9 => Change::Times(random.one_of([0, 1, 2, 5, 60, 61, 9_999])),
        10 => Change::Over(n(random.between(1, old + 1))),
        11 | 12 => Change::To(n(whole_widths(random, state, 60))),
        13 => Change::Over(random.one_of([1, 2, 3, 12, 61, 9_999])),
        _ => Change::Over(0),
    }
}

/// A number for an anchor or width retuning.
fn n(value: i64) -> u16 {
    value.clamp(0, 9_999) as u16
}

fn period_change(random: &mut Random, state: &State) -> PeriodChange {
    let old = state.period.0;
    let wanted = period(random);
    match random.below(6) {
        0 | 1 => PeriodChange::To(Interval(wanted)),
        2 => PeriodChange::To(Interval(sum(random))),
        3 | 4 => PeriodChange::By(Interval(wanted - old)),
        _ => PeriodChange::By(Interval(sum(random))),
    }
}

/// A period in its range or right beside it, or so that several of it are.
fn period(random: &mut Random) -> i64 {
    match random.below(7) {
        0 => random.between(-2, 2),
        1 => PERIODS.end() + random.between(-2, 2),
        2 => 1_200_000,
        3 => random.between(0, 2_400_000),
        4 => PERIODS.end() / random.between(1, 6) + random.between(0, 1),
        _ => random.between(*PERIODS.start(), *PERIODS.end()),
    }
}

fn positions(random: &mut Random, state: &State) -> Vec<Position> {
    let count = match random.below(4) {
        0 => 1 + random.below(POSITIONS),
        1 => (state.width + random.below(3)).clamp(1, POSITIONS),
        _ => 1 + random.below(4),
    };
    // Few lists go out of range, and then at one place or two.
    let wild = if random.percent(30) { 100 / count as u32 + 1 } else { 0 };
    let old = |i: usize| state.tones.get(i).copied().flatten();
    let mut positions: Vec<_> = (0..count).map(|i| position(random, wild, old(i))).collect();
    if random.percent(20) {
        positions[0] = Position::Muted;
    }
    positions
}

fn position(random: &mut Random, wild: u32, old: Option<Pitch>) -> Position {
    let pitch = if random.percent(wild) { wild_tone(random) } else { tone(random) };
    match random.below(16) {
        0 => Position::Muted,
        1..=5 => Position::At(Pitch(pitch)),
        6..=8 => Position::By(Interval(within_sums(old.map_or(pitch, |old| pitch - old.0)))),
        9 => Position::By(Interval(0)),
        _ => Position::By(Interval(random.between(-50_000, 50_000))),
    }
}

/// A tone in its range.
fn tone(random: &mut Random) -> i64 {
    match random.below(16) {
        0 => random.between(*VALUES.start(), *VALUES.end()),
        1 => VALUES.end() - random.between(0, 2),
        2 => VALUES.start() + random.between(0, 2),
        3 => VALUES.end() - random.between(0, 24_000_000),
        4 => VALUES.start() + random.between(0, 24_000_000),
        5 => random.between(-2, 2),
        _ => random.between(4_800_000, 8_400_000),
    }
}

/// A tone right beside its range, or far beyond it.
fn wild_tone(random: &mut Random) -> i64 {
    match random.below(3) {
        0 => VALUES.end() + random.between(1, 2),
        1 => VALUES.start() - random.between(1, 2),
        _ => sum(random),
    }
}

/// Any whole sum that a text can give.
fn sum(random: &mut Random) -> i64 {
    let size = random.of_any_length(41).min(*SUMS.end() as u64) as i64;
    random.one_of([size, -size, 0, 1_200_000, -1_200_000, *SUMS.start(), *SUMS.end()])
}

fn within_sums(value: i64) -> i64 {
    value.clamp(*SUMS.start(), *SUMS.end())
}

fn system(random: &mut Random) -> ToneSystem {
    let count = if random.percent(25) { 1 + random.below(POSITIONS) } else { 1 + random.below(13) };
    let muted = random.one_of([0, 10, 50]);
    let sounding = |random: &mut Random| (!random.percent(muted)).then(|| Pitch(tone(random)));
    ToneSystem {
        anchor: random.below(128) as u8,
        tones: (0..count).map(|_| sounding(random)).collect(),
        period: Interval(period(random).clamp(*PERIODS.start(), *PERIODS.end())),
    }
}

#[cfg(test)]
mod tests {
    use super::*;

    #[test]
    fn each_number_is_frequent() {
        let mut counts = [0; 26];
        let mut state = State::start();
        for step in steps(11, 500) {
            let new = match step {
                Step::Reset => Ok(State::start()),
                Step::Call(call) => state.called(&call),
            };
            counts[new.as_ref().err().map_or(0, |&number| usize::from(number))] += 1;
            state = new.unwrap_or(state);
        }
        for number in [0, 10, 11, 12, 13, 14, 25] {
            assert!(counts[number] >= 100, "{counts:?}");
        }
    }
}
