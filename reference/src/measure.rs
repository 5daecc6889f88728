//! Section "Measure" of document 01: the whole-number logarithm L and the
//! measures of `p : q`, `A ROOT B` and a frequency.
//!
//! "Pitches and intervals are whole thousandths of a cent; a pitch is a place,
//! an interval a distance": the two have types of their own here, and adding a
//! distance to a place or taking the distance of two places are the only ways
//! from one to the other.

use std::num::NonZeroU32;
use std::ops::{Add, AddAssign, Mul, Neg, Sub};

/// A place, in thousandths of a cent.
#[derive(Clone, Copy, Debug, PartialEq, Eq, PartialOrd, Ord)]
pub struct Pitch(pub i64);

/// A distance between two places, in thousandths of a cent.
#[derive(Clone, Copy, Debug, Default, PartialEq, Eq, PartialOrd, Ord)]
pub struct Interval(pub i64);

/// A number of a text in ten-thousandths, from 0.0001 to 429496.7295.
pub type TenThousandths = NonZeroU32;

/// The degree A of `A ROOT B`.
pub type Degree = std::num::NonZeroU16;

/// An octave, in thousandths of a cent.
pub const OCTAVE: i64 = 1_200_000;

/// The place of 440 hertz.
pub const CONCERT_PITCH: Pitch = Pitch(6_900_000);

/// The number 1, in ten-thousandths.
pub const ONE: TenThousandths = known(10_000);

/// 440 hertz, in ten-thousandths.
pub const CONCERT_FREQUENCY: TenThousandths = known(4_400_000);

/// A number written in this program. (Zero, which is no such number, would
/// become the least one; no caller writes it.)
const fn known(n: u32) -> TenThousandths {
    match NonZeroU32::new(n) {
        Some(n) => n,
        None => NonZeroU32::MIN,
    }
}

impl Add<Interval> for Pitch {
    type Output = Pitch;
    fn add(self, by: Interval) -> Pitch {
        Pitch(self.0 + by.0)
    }
}

impl Sub for Pitch {
    type Output = Interval;
    fn sub(self, from: Pitch) -> Interval {
        Interval(self.0 - from.0)
    }
}

impl Add for Interval {
    type Output = Interval;
    fn add(self, other: Interval) -> Interval {
        Interval(self.0 + other.0)
    }
}

impl AddAssign for Interval {
    fn add_assign(&mut self, other: Interval) {
        self.0 += other.0;
    }
}

impl Neg for Interval {
    type Output = Interval;
    fn neg(self) -> Interval {
        Interval(-self.0)
    }
}

impl Mul<i64> for Interval {
    type Output = Interval;
    fn mul(self, times: i64) -> Interval {
        Interval(self.0 * times)
    }
}

/// L(n): "k be the place of its highest one bit and m = n·2^(31-k). Thirty
/// times: m becomes m·m divided by 2^31, whole part; if that is 2^32 or more,
/// halve it, whole part, and write bit 1, else bit 0. L(n) is k·2^30 plus
/// those bits read as a number, first bit highest."
pub fn l(n: NonZeroU32) -> u64 {
    let k = u64::from(31 - n.leading_zeros());
    let mut m = u64::from(n.get()) << (31 - k);
    let mut bits = 0;
    for _ in 0..30 {
        m = (m * m) >> 31;
        let bit = m >> 32;
        m >>= bit;
        bits = 2 * bits + bit;
    }
    (k << 30) + bits
}

/// `p : q` measures 1,200,000·(L(p)-L(q))/2^30.
pub fn ratio(p: TenThousandths, q: TenThousandths) -> Interval {
    Interval(octaves(p, q, 1))
}

/// `A ROOT B` measures 1,200,000·(L(B)-L(10000))/(A·2^30).
pub fn root(degree: Degree, radicand: TenThousandths) -> Interval {
    Interval(octaves(radicand, ONE, degree.get()))
}

/// "A frequency f stands at 6,900,000 + 1,200,000·(L(f)-L(4400000))/2^30."
pub fn frequency(f: TenThousandths) -> Pitch {
    CONCERT_PITCH + ratio(f, CONCERT_FREQUENCY)
}

/// 1,200,000·(L(p)-L(q))/(A·2^30), rounded "once, at the end".
fn octaves(p: TenThousandths, q: TenThousandths, degree: u16) -> i64 {
    let numerator = i128::from(OCTAVE) * (i128::from(l(p)) - i128::from(l(q)));
    nearest(numerator, i128::from(degree) << 30)
}

/// "Each fraction goes to the nearest whole number, a half upward": the whole
/// part, rounded down, of the fraction plus one half. The denominator is above
/// zero, and every measure lies far within 64 bits.
fn nearest(numerator: i128, denominator: i128) -> i64 {
    (2 * numerator + denominator).div_euclid(2 * denominator) as i64
}

#[cfg(test)]
mod tests {
    use super::*;

    fn n(n: u32) -> NonZeroU32 {
        NonZeroU32::new(n).unwrap()
    }

    fn whole_ratio(p: u32, q: u32) -> i64 {
        ratio(n(p * 10_000), n(q * 10_000)).0
    }

    fn whole_root(degree: u16, radicand: u32) -> i64 {
        root(Degree::new(degree).unwrap(), n(radicand * 10_000)).0
    }

    #[test]
    fn small_sums() {
        assert_eq!(whole_ratio(2, 1), 1_200_000);
        assert_eq!(whole_ratio(1, 1), 0);
        assert_eq!(whole_ratio(3, 2), 701_955);
        assert_eq!(whole_ratio(2, 3), -701_955);
        assert_eq!(whole_ratio(5, 4), 386_314);
        assert_eq!(whole_root(12, 2), 100_000);
        assert_eq!(whole_root(1200, 2), 1_000);
        assert_eq!(frequency(CONCERT_FREQUENCY), Pitch(6_900_000));
    }

    #[test]
    fn powers_of_two_are_exact() {
        for k in 0u32..32 {
            assert_eq!(l(n(1 << k)), u64::from(k) << 30);
        }
    }

    #[test]
    fn halves_go_upward() {
        assert_eq!(nearest(1, 2), 1);
        assert_eq!(nearest(-1, 2), 0);
        assert_eq!(nearest(-3, 2), -1);
        assert_eq!(nearest(-5, 4), -1);
        assert_eq!(nearest(-7, 4), -2);
    }
}
