//! A logarithm of base 2 of its own, with as many binary places as asked for.
//! It shares nothing with L of `measure.rs`: it sums the series of the inverse
//! hyperbolic tangent, log2 x = k + artanh((x-2^k)/(x+2^k)) / artanh(1/3).

use crate::wide::Wide;
use std::num::NonZeroU32;

/// Places computed beyond those handed out. A series loses less than two units
/// of its last place with each term, and no series here has 2^10 terms.
const GUARD: usize = 32;

/// Logarithms of base 2, in units of 2^-places.
pub struct Logarithm<const N: usize> {
    places: usize,
    /// artanh(1/3), half the natural logarithm of 2, with the guard places.
    base: Wide<N>,
}

impl<const N: usize> Logarithm<N> {
    /// Room is needed for the places, the guard places and thirty-two bits more.
    pub fn new(places: usize) -> Self {
        let base = artanh(1, 3, places + GUARD);
        Logarithm { places, base }
    }

    /// log2 n, less than one unit of the last place from the truth; exact for
    /// powers of two.
    pub fn of(&self, n: NonZeroU32) -> Wide<N> {
        let (n, k) = (u64::from(n.get()), nearest_power(n));
        let power = 1 << k;
        let bits = self.places + GUARD;
        let part = artanh(n.abs_diff(power), n + power, bits);
        let part = Wide::fraction(part, self.base, bits);
        let whole = Wide::power_of_two(bits).times_word(k);
        let sum = if n < power { whole - part } else { whole + part };
        sum.shifted_right(GUARD)
    }
}

/// The k whose 2^k is within a factor of the root of 2 from n.
fn nearest_power(n: NonZeroU32) -> u64 {
    let k = 31 - n.leading_zeros();
    let square = u64::from(n.get()) * u64::from(n.get());
    u64::from(k) + u64::from(square >> (2 * k + 1) != 0)
}

/// artanh(p/q) = p/q + (p/q)^3/3 + (p/q)^5/5 + .., in units of 2^-bits.
fn artanh<const N: usize>(p: u64, q: u64, bits: usize) -> Wide<N> {
    let step = |power: Wide<N>| power.times_word(p).over_word(q);
    let mut power = step(Wide::power_of_two(bits));
    let mut sum = Wide::ZERO;
    let mut odd = 1;
    while !power.is_zero() {
        sum = sum + power.over_word(odd);
        power = step(step(power));
        odd += 2;
    }
    sum
}

#[cfg(test)]
mod tests {
    use super::*;

    fn log2(n: u32, places: usize) -> Wide<7> {
        Logarithm::new(places).of(NonZeroU32::new(n).unwrap())
    }

    #[test]
    fn powers_of_two_are_exact() {
        for k in 0u32..32 {
            let exact = Wide::power_of_two(128).times_word(u64::from(k));
            assert_eq!(log2(1 << k, 128), exact);
        }
    }

    /// The first binary places of log2 3, log2 5 and log2 10 in hexadecimal.
    #[test]
    fn known_digits() {
        assert_eq!(log2(3, 64), Wide::from(0x1_95C0_1A39_FBD6_879F));
        assert_eq!(log2(5, 64), Wide::from(0x2_5269_E12F_346E_2BF9));
        assert_eq!(log2(10, 64), Wide::from(0x3_5269_E12F_346E_2BF9));
    }

    /// log2 3 with 248 binary places, in words of 64 bits.
    #[test]
    fn many_known_digits() {
        let words = [0x0195_C01A_39FB_D687, 0x9FA0_0B12_0A06_8BAD, 0xD124_F3E6_A3A2_59B0];
        let word_up = |sum: Wide<7>| sum * Wide::power_of_two(64);
        let high = words.into_iter().fold(Wide::ZERO, |sum, word| word_up(sum) + Wide::from(word));
        let digits = word_up(high) + Wide::from(0x407B_E590_4D25_FA41);
        assert_eq!(log2(3, 248), digits);
    }

    #[test]
    fn products_become_sums() {
        let apart = log2(65_521, 256) + log2(65_519, 256) - log2(65_521 * 65_519, 256);
        assert!(apart.magnitude() <= Wide::from(3));
    }
}
