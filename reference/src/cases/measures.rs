//! Cases for the measure: the extremes first, then random numbers of all
//! magnitudes.

use crate::measure::{Degree, TenThousandths};
use crate::random::Random;
use crate::records::MeasureCase;
use std::num::NonZeroU32;

/// The first `count` cases of a seed.
pub fn cases(seed: u64, count: usize) -> impl Iterator<Item = MeasureCase> {
    let mut random = Random::new(seed);
    let endless = std::iter::repeat_with(move || random_case(&mut random));
    extremes().into_iter().chain(endless).take(count)
}

/// The ends of the range, each power of two and its neighbours, and round
/// numbers, as they stand in ten-thousandths.
fn edges() -> Vec<NonZeroU32> {
    let powers = (0..32).map(|k| 1u32 << k);
    let around = powers.flat_map(|p| [p - 1, p, p.saturating_add(1)]);
    let round = [
        9_999,
        10_000,
        10_001,
        15_000,
        20_000,
        30_000,
        40_000,
        50_000,
        120_000,
        655_350_000,
        4_399_999,
        4_400_000,
        4_400_001,
        4_294_960_000,
        u32::MAX - 1,
        u32::MAX,
    ];
    around.chain(round).filter_map(NonZeroU32::new).collect()
}

const DEGREES: [u16; 8] = [1, 2, 3, 12, 1200, 32_768, 65_534, 65_535];

fn extremes() -> Vec<MeasureCase> {
    let edges = edges();
    let mut cases: Vec<_> = edges.iter().copied().map(MeasureCase::L).collect();
    cases.extend(edges.iter().copied().map(MeasureCase::Frequency));
    for &p in &edges {
        for q in [1, 10_000, u32::MAX, p.get()].into_iter().filter_map(NonZeroU32::new) {
            cases.push(MeasureCase::Ratio(p, q));
            cases.push(MeasureCase::Ratio(q, p));
        }
        let degrees = DEGREES.into_iter().filter_map(Degree::new);
        cases.extend(degrees.map(|degree| MeasureCase::Root(degree, p)));
    }
    cases
}

fn random_case(random: &mut Random) -> MeasureCase {
    match random.below(8) {
        0 => MeasureCase::L(any_number(random)),
        1 => MeasureCase::Frequency(any_number(random)),
        2 | 3 => MeasureCase::Ratio(any_number(random), any_number(random)),
        4 => MeasureCase::Ratio(small_whole(random), small_whole(random)),
        5 => near_ratio(random),
        6 => MeasureCase::Root(any_degree(random), small_whole(random)),
        _ => MeasureCase::Root(any_degree(random), any_number(random)),
    }
}

fn any_number(random: &mut Random) -> TenThousandths {
    number(random.of_any_length(32))
}

fn any_degree(random: &mut Random) -> Degree {
    Degree::new(random.of_any_length(16) as u16).unwrap_or(Degree::MIN)
}

/// A whole number as the examples have it, such as the 3 and the 2 of `3 : 2`.
fn small_whole(random: &mut Random) -> TenThousandths {
    number(10_000 * random.of_any_length(8))
}

/// Two numbers that are nearly equal.
fn near_ratio(random: &mut Random) -> MeasureCase {
    let p = any_number(random);
    let step = 1 + random.below(16) as u32;
    let q = NonZeroU32::new(p.get().wrapping_sub(step)).unwrap_or(p);
    if random.percent(50) {
        MeasureCase::Ratio(p, q)
    } else {
        MeasureCase::Ratio(q, p)
    }
}

fn number(n: u64) -> TenThousandths {
    u32::try_from(n).ok().and_then(NonZeroU32::new).unwrap_or(NonZeroU32::MAX)
}
