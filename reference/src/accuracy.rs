//! Each measure against the true logarithm. Document 01: "Then 2^L(n) ≤
//! n^(2^30) < 2^(L(n)+2)", and after the rounding a measure is at most 0.503
//! thousandths of a cent from the truth.

use crate::logarithm::Logarithm;
use crate::measure::{self, OCTAVE};
use crate::records::MeasureCase;
use crate::wide::Wide;
use std::num::NonZeroU32;

/// Three words hold 128 binary places, and beyond them 63 bits for the sums
/// below, which need 10 + 16 + 27.
type Real = Wide<3>;

const PLACES: usize = 128;

pub struct Accuracy {
    logarithm: Logarithm<3>,
    one: Real,
    concert: Real,
}

/// What was found of one case: whether it holds, and how far the value is from
/// the truth (for L in units of L, else in thousandths of a cent).
pub struct Finding {
    pub holds: bool,
    pub distance: f64,
}

impl Accuracy {
    pub fn new() -> Self {
        let logarithm = Logarithm::new(PLACES);
        let one = logarithm.of(measure::ONE);
        let concert = logarithm.of(measure::CONCERT_FREQUENCY);
        Accuracy { logarithm, one, concert }
    }

    pub fn judge(&self, case: MeasureCase) -> Finding {
        let value = case.value();
        match case {
            MeasureCase::L(n) => self.judge_l(n, value),
            MeasureCase::Ratio(p, q) => {
                let octaves = self.logarithm.of(p) - self.logarithm.of(q);
                judge_measure(value, octaves, 1)
            }
            MeasureCase::Root(degree, radicand) => {
                let octaves = self.logarithm.of(radicand) - self.one;
                judge_measure(value, octaves, degree.get())
            }
            MeasureCase::Frequency(f) => {
                let octaves = self.logarithm.of(f) - self.concert;
                judge_measure(value - measure::CONCERT_PITCH.0, octaves, 1)
            }
        }
    }

    /// 0 ≤ 2^30·log2 n - L(n) < 2.
    fn judge_l(&self, n: NonZeroU32, value: i64) -> Finding {
        let truth = self.logarithm.of(n).times_word(1 << 30);
        let apart = truth - fixed(value.into());
        Finding {
            holds: !apart.is_negative() && apart < fixed(2),
            distance: apart.to_f64(PLACES as i32),
        }
    }
}

/// |A·value - 1,200,000·octaves| ≤ 0.503·A, taken a thousandfold.
fn judge_measure(value: i64, octaves: Real, degree: u16) -> Finding {
    let truth = octaves * Real::from(i128::from(OCTAVE));
    let apart = (fixed(i128::from(value) * i128::from(degree)) - truth).magnitude();
    Finding {
        holds: apart.times_word(1000) <= fixed(503 * i128::from(degree)),
        distance: apart.to_f64(PLACES as i32) / f64::from(degree),
    }
}

/// A whole number in units of 2^-PLACES.
fn fixed(whole: i128) -> Real {
    Real::from(whole) * Real::power_of_two(PLACES)
}

#[cfg(test)]
mod tests {
    use super::*;
    use crate::cases::measures;

    #[test]
    fn a_thousand_cases_hold() {
        let accuracy = Accuracy::new();
        for case in measures::cases(1, 4_000) {
            let finding = accuracy.judge(case);
            assert!(finding.holds, "{case:?} is off by {}", finding.distance);
        }
    }

    #[test]
    fn a_value_one_beside_the_truth_is_found() {
        let octave = fixed(1);
        assert!(judge_measure(1_200_000, octave, 1).holds);
        assert!(!judge_measure(1_200_001, octave, 1).holds);
        assert!(!judge_measure(1_199_999, octave, 1).holds);
    }
}
