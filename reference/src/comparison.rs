//! The exact comparison for demand 3, section "Measure" of document 01. With
//! x = u/v a key's exact frequency divided by 440, raised to N, the powers
//!
//!   2^(N·(d-w))·v^1200000 ≤ u^1200000 ≤ 2^(N·(d+w))·v^1200000
//!
//! say the same as |1,200,000·log2(u/v)/N - d| ≤ w, and that is checked with
//! logarithms of more than sixty decimal digits. Request 10/13 of document 02
//! takes the exponents a hundred times and 51 of the hundred for each power:
//! the distance is at most 0.51·w.

use crate::book::{Book, Declaration, Entry, Halt};
use crate::logarithm::Logarithm;
use crate::measure::{self, Interval, TenThousandths, OCTAVE};
use crate::text::tree::{IntervalForm, Resolved, ToneForm};
use crate::wide::Wide;
use std::collections::HashMap;

/// Binary places of the exact values. Seven words leave 191 bits above them:
/// 26 for the greatest value, 127 for its power, and the rest for sums.
const PLACES: usize = 256;

/// A distance in thousandths of a cent, in units of 2^-PLACES.
type Exact = Wide<7>;

/// A logarithm is off by less than one unit, a measure by less than 2^23.
const SLACK: i128 = 1 << 23;

/// "51 hundredths of a thousandth suffice for each power".
const HUNDREDTHS: u64 = 51;

/// Logarithms, each computed once.
pub struct Logarithms {
    logarithm: Logarithm<7>,
    known: HashMap<TenThousandths, Exact>,
}

impl Logarithms {
    pub fn new() -> Self {
        Logarithms { logarithm: Logarithm::new(PLACES), known: HashMap::new() }
    }

    fn of(&mut self, number: TenThousandths) -> Exact {
        let logarithm = &self.logarithm;
        *self.known.entry(number).or_insert_with(|| logarithm.of(number))
    }

    /// 1,200,000·log2(p/q)/degree.
    fn measure(&mut self, p: TenThousandths, q: TenThousandths, degree: u16) -> Exact {
        let octaves = self.of(p) - self.of(q);
        let size = octaves.magnitude().times_word(OCTAVE as u64).over_word(degree.into());
        if octaves.is_negative() {
            -size
        } else {
            size
        }
    }
}

/// The exact sizes of a book's declared numbers and of the start's 440.
pub struct Sizes {
    declared: Vec<Exact>,
    four_forty: Exact,
}

impl Sizes {
    pub fn of(tree: &Resolved, numbers: &[Declaration], logarithms: &mut Logarithms) -> Self {
        let mut size = |number: &Declaration| match *number {
            Declaration::Interval(i) => match tree.intervals.get(i).map(|d| &d.form) {
                Some(IntervalForm::Ratio(p, q)) => logarithms.measure(*p, *q, 1),
                Some(IntervalForm::Root(degree, radicand)) => {
                    logarithms.measure(*radicand, measure::ONE, degree.get())
                }
                _ => Exact::ZERO,
            },
            Declaration::Tone(i) => match tree.tones.get(i).map(|d| &d.form) {
                Some(ToneForm::Frequency(f)) => logarithms.measure(*f, measure::ONE, 1),
                _ => Exact::ZERO,
            },
        };
        let declared = numbers.iter().map(&mut size).collect();
        let four_forty = logarithms.measure(measure::CONCERT_FREQUENCY, measure::ONE, 1);
        Sizes { declared, four_forty }
    }

    /// The exact size of an entry; a twelfth root of 2 has 100,000.
    fn of_entry(&self, entry: &Entry) -> Exact {
        let declared = entry.declared.iter().zip(&self.declared);
        let sounding = declared.filter(|(&power, _)| power != 0);
        let sum =
            sounding.fold(Exact::ZERO, |sum, (&power, &size)| sum + Exact::from(power) * size);
        sum + Exact::from(entry.four_forty) * self.four_forty
            + Exact::from(entry.root_of_two) * whole(100_000)
    }
}

/// A whole number in units of 2^-PLACES.
fn whole(number: i128) -> Exact {
    Exact::from(number) * Exact::power_of_two(PLACES)
}

/// A book's present entries by their exact sizes.
pub struct Page<'a> {
    book: &'a Book,
    tones: Vec<Option<Exact>>,
    period: Exact,
    four_forty: Exact,
}

/// What the comparison says of one key.
#[derive(Clone, Copy, Debug, PartialEq)]
pub enum Comparison {
    /// Silent in the book.
    Silent,
    /// w = 0: the pitch is, or is not, exactly that of the book.
    Exactly(bool),
    /// w is not 0: how far the pitch is from the book.
    Apart(Distance),
}

/// A distance, held against both bounds.
#[derive(Clone, Copy, Debug, PartialEq)]
pub struct Distance {
    /// At most w: document 01.
    pub within: bool,
    /// At most 51 hundredths of w: document 02, 10/13.
    pub sharper: bool,
    /// How large a part of w it is.
    pub share: f64,
}

impl<'a> Page<'a> {
    pub fn new(book: &'a Book, sizes: &Sizes) -> Self {
        let tones = book.tones().iter();
        Page {
            book,
            tones: tones.map(|tone| tone.as_ref().map(|entry| sizes.of_entry(entry))).collect(),
            period: sizes.of_entry(book.period()),
            four_forty: sizes.four_forty,
        }
    }

    /// Compares a key's entry with d, "the pitch that kind 02 then answers,
    /// less 6,900,000".
    pub fn compare(&self, key: i64, d: Interval) -> Result<Comparison, Halt> {
        let Some(entry) = self.book.entry(key)? else {
            return Ok(Comparison::Silent);
        };
        let w = entry.weight()?;
        if w == 0 {
            return Ok(Comparison::Exactly(is_exactly(&entry, d)));
        }
        let (q, r) = self.book.place_of(key);
        let tone = self.tones.get(r as usize).copied().flatten().unwrap_or(Exact::ZERO);
        let size = tone + Exact::from(i128::from(q)) * self.period - self.four_forty;
        let apart = (size - whole(d.0.into())).magnitude();
        // The distance and all that the logarithms can be off: the declared
        // numbers' powers, and as many of 440 again.
        let most = apart + Exact::from(w) * Exact::from(2 * SLACK) + Exact::from(SLACK);
        let bound = Exact::from(w) * whole(1);
        Ok(Comparison::Apart(Distance {
            within: most <= bound,
            sharper: most.times_word(100) <= bound.times_word(HUNDREDTHS),
            share: apart.to_f64(PLACES as i32) / w as f64,
        }))
    }
}

/// With all declared powers zero nothing but 440, once, and roots of 2 are
/// left, and both sides are whole: d = 100,000 times the root's power.
fn is_exactly(entry: &Entry, d: Interval) -> bool {
    let pitch = entry.root_of_two.checked_mul(100_000);
    entry.four_forty == 1 && pitch == Some(d.0.into())
}

#[cfg(test)]
mod tests {
    use super::*;
    use crate::frames::tests::made;
    use crate::text::tree::Target;
    use crate::text::{self, tests::CASE_S};

    fn compare(book: &Book, tree: &Resolved, key: i64, pitch: i64) -> Comparison {
        let sizes = Sizes::of(tree, &book.numbers, &mut Logarithms::new());
        Page::new(book, &sizes).compare(key, Interval(pitch - 6_900_000)).unwrap()
    }

    #[test]
    fn the_start_is_exact() {
        let tree = text::read(b"").unwrap().declared;
        let book = Book::new(&tree).unwrap();
        assert_eq!(compare(&book, &tree, 61, 6_100_000), Comparison::Exactly(true));
        assert_eq!(compare(&book, &tree, 61, 6_100_001), Comparison::Exactly(false));
    }

    fn bounds(comparison: Comparison) -> (bool, bool) {
        let Comparison::Apart(distance) = comparison else {
            panic!("{comparison:?} where powers of declared numbers stand");
        };
        (distance.within, distance.sharper)
    }

    /// A fifth above 440 is 701,955.0009 exactly, and w is 2 there: what is one
    /// off lies within 1.02, and two more within 2, but not two less.
    #[test]
    fn a_fifth() {
        let tree = text::read(CASE_S.as_bytes()).unwrap().declared;
        let mut book = Book::new(&tree).unwrap();
        book.take(made(Target::System(0), &[], 0)).unwrap();
        let Comparison::Apart(distance) = compare(&book, &tree, 70, 7_601_955) else {
            panic!("the fifth has no distance");
        };
        assert!((distance.share - 0.000_43).abs() < 0.000_01);
        for (pitch, within, sharper) in [
            (7_601_953, false, false),
            (7_601_954, true, true),
            (7_601_955, true, true),
            (7_601_956, true, true),
            (7_601_957, true, false),
            (7_601_958, false, false),
        ] {
            assert_eq!(bounds(compare(&book, &tree, 70, pitch)), (within, sharper), "{pitch}");
        }
    }

    /// 1153 hertz lie 1,667,780.50095 above 440, and are measured as 1,667,780:
    /// with w = 1 half a thousandth would not do. One higher is nearer, one
    /// lower too far.
    #[test]
    fn past_a_half() {
        let text = b"INTERVAL o = 2 : 1 TONE d = 1153 TONESYSTEM One = 69 [ d ] o";
        let tree = text::read(text).unwrap().declared;
        let mut book = Book::new(&tree).unwrap();
        book.take(made(Target::System(0), &[], 0)).unwrap();
        let Comparison::Apart(distance) = compare(&book, &tree, 69, 8_567_780) else {
            panic!("the tone has no distance");
        };
        assert!(distance.sharper && (distance.share - 0.500_95).abs() < 0.000_01);
        assert_eq!(bounds(compare(&book, &tree, 69, 8_567_781)), (true, true));
        assert_eq!(bounds(compare(&book, &tree, 69, 8_567_782)), (false, false));
        assert_eq!(bounds(compare(&book, &tree, 69, 8_567_779)), (false, false));
    }
}
