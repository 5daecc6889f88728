//! Whole numbers of a fixed, large size, for logarithms with many digits.

use std::cmp::Ordering;
use std::ops::{Add, Mul, Neg, Sub};

/// A whole number of 64·N bits in two's complement, lowest word first. Sums
/// and products are taken without their overflow; who uses them chooses N so
/// that there is none.
#[derive(Clone, Copy, Debug, PartialEq, Eq)]
pub struct Wide<const N: usize>([u64; N]);

impl<const N: usize> Wide<N> {
    pub const ZERO: Self = Wide([0; N]);

    /// 2^bits.
    pub fn power_of_two(bits: usize) -> Self {
        let mut words = [0; N];
        if let Some(word) = words.get_mut(bits / 64) {
            *word = 1 << (bits % 64);
        }
        Wide(words)
    }

    pub fn is_negative(&self) -> bool {
        self.0.last().is_some_and(|highest| highest >> 63 == 1)
    }

    pub fn is_zero(&self) -> bool {
        self.0.iter().all(|&word| word == 0)
    }

    pub fn magnitude(self) -> Self {
        if self.is_negative() {
            -self
        } else {
            self
        }
    }

    pub fn times_word(self, factor: u64) -> Self {
        let mut words = self.0;
        let mut carry = 0;
        for word in &mut words {
            let product = u128::from(*word) * u128::from(factor) + carry;
            *word = product as u64;
            carry = product >> 64;
        }
        Wide(words)
    }

    /// The whole part of a number from zero upward, divided by a word above
    /// zero.
    pub fn over_word(self, divisor: u64) -> Self {
        let divisor = u128::from(divisor.max(1));
        let mut words = self.0;
        let mut rest = 0;
        for word in words.iter_mut().rev() {
            let dividend = (rest << 64) | u128::from(*word);
            *word = (dividend / divisor) as u64;
            rest = dividend % divisor;
        }
        Wide(words)
    }

    /// The whole part, rounded down, of this number divided by 2^bits.
    pub fn shifted_right(self, bits: usize) -> Self {
        let sign = if self.is_negative() { u64::MAX } else { 0 };
        let word = |i: usize| self.0.get(i + bits / 64).copied().unwrap_or(sign);
        Wide(std::array::from_fn(|i| {
            let pair = (u128::from(word(i + 1)) << 64) | u128::from(word(i));
            (pair >> (bits % 64)) as u64
        }))
    }

    /// The first `bits` binary places of a fraction between 0 and 1, both its
    /// parts from zero upward, by long division.
    pub fn fraction(numerator: Self, denominator: Self, bits: usize) -> Self {
        let mut rest = numerator;
        let mut places = Self::ZERO;
        for _ in 0..bits {
            rest = rest + rest;
            places = places + places;
            if rest >= denominator {
                rest = rest - denominator;
                places.0[0] |= 1;
            }
        }
        places
    }

    /// This number divided by 2^bits, for people to read.
    pub fn to_f64(self, bits: i32) -> f64 {
        let magnitude = self.magnitude();
        let sum =
            magnitude.0.iter().rev().fold(0.0, |sum, &word| sum * 2f64.powi(64) + word as f64);
        let value = sum / 2f64.powi(bits);
        if self.is_negative() {
            -value
        } else {
            value
        }
    }
}

impl<const N: usize> From<i128> for Wide<N> {
    fn from(value: i128) -> Self {
        Wide(std::array::from_fn(|i| (value >> (64 * i).min(127)) as u64))
    }
}

impl<const N: usize> Add for Wide<N> {
    type Output = Self;
    fn add(self, other: Self) -> Self {
        let mut words = self.0;
        let mut carry = false;
        for (word, &addend) in words.iter_mut().zip(&other.0) {
            let (sum, first) = word.overflowing_add(addend);
            let (sum, second) = sum.overflowing_add(u64::from(carry));
            *word = sum;
            carry = first || second;
        }
        Wide(words)
    }
}

impl<const N: usize> Neg for Wide<N> {
    type Output = Self;
    fn neg(self) -> Self {
        let mut one = Self::ZERO;
        one.0[0] = 1;
        Wide(self.0.map(|word| !word)) + one
    }
}

impl<const N: usize> Sub for Wide<N> {
    type Output = Self;
    fn sub(self, other: Self) -> Self {
        self + -other
    }
}

impl<const N: usize> Mul for Wide<N> {
    type Output = Self;
    fn mul(self, other: Self) -> Self {
        let mut words = [0; N];
        for (shift, &factor) in other.0.iter().enumerate() {
            let mut carry = 0;
            for (word, &digit) in words[shift..].iter_mut().zip(&self.0) {
                let product = u128::from(digit) * u128::from(factor) + u128::from(*word) + carry;
                *word = product as u64;
                carry = product >> 64;
            }
        }
        Wide(words)
    }
}

impl<const N: usize> Ord for Wide<N> {
    fn cmp(&self, other: &Self) -> Ordering {
        other
            .is_negative()
            .cmp(&self.is_negative())
            .then_with(|| self.0.iter().rev().cmp(other.0.iter().rev()))
    }
}

impl<const N: usize> PartialOrd for Wide<N> {
    fn partial_cmp(&self, other: &Self) -> Option<Ordering> {
        Some(self.cmp(other))
    }
}

#[cfg(test)]
mod tests {
    use super::*;

    type W = Wide<3>;

    const SAMPLES: [i128; 9] = [
        0,
        1,
        -1,
        7,
        -1_000_003,
        i64::MAX as i128,
        i64::MIN as i128,
        (1 << 90) + 12345,
        -(1 << 91) - 9,
    ];

    #[test]
    fn agrees_with_whole_numbers_of_128_bits() {
        for a in SAMPLES {
            for b in SAMPLES {
                assert_eq!(W::from(a) + W::from(b), W::from(a + b));
                assert_eq!(W::from(a) - W::from(b), W::from(a - b));
                assert_eq!(W::from(a).cmp(&W::from(b)), a.cmp(&b));
                if let Some(product) = a.checked_mul(b) {
                    assert_eq!(W::from(a) * W::from(b), W::from(product));
                }
            }
            assert_eq!(W::from(a).shifted_right(7), W::from(a >> 7));
            assert_eq!(W::from(a).shifted_right(64), W::from(a >> 64));
            assert_eq!(W::from(a).magnitude(), W::from(a.abs()));
            assert_eq!(W::from(a.abs()).over_word(97), W::from(a.abs() / 97));
            assert_eq!(W::from(a).to_f64(3), a as f64 / 8.0);
        }
        assert_eq!(W::power_of_two(90), W::from(1 << 90));
    }

    #[test]
    fn long_division_gives_binary_places() {
        let third = W::fraction(W::from(1), W::from(3), 8);
        assert_eq!(third, W::from(256 / 3));
    }
}
