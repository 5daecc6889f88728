//! Binary records on standard input and output.

use crate::measure::{self, Degree, TenThousandths};
use std::io::{self, Read};
use std::num::NonZeroU32;

/// Reads the next record of exactly N bytes; none at the end of the input.
pub fn next_record<const N: usize>(input: &mut impl Read) -> io::Result<Option<[u8; N]>> {
    let mut record = [0; N];
    let mut filled = 0;
    while let Some(room) = record.get_mut(filled..).filter(|room| !room.is_empty()) {
        match input.read(room) {
            Ok(0) if filled == 0 => return Ok(None),
            Ok(0) => return Err(bad_record("the last record is cut short")),
            Ok(count) => filled += count,
            Err(error) if error.kind() == io::ErrorKind::Interrupted => {}
            Err(error) => return Err(error),
        }
    }
    Ok(Some(record))
}

pub fn bad_record(what: &str) -> io::Error {
    io::Error::new(io::ErrorKind::InvalidData, what)
}

/// One question about the measure.
#[derive(Clone, Copy, Debug, PartialEq, Eq)]
pub enum MeasureCase {
    L(NonZeroU32),
    Ratio(TenThousandths, TenThousandths),
    Root(Degree, TenThousandths),
    Frequency(TenThousandths),
}

pub const MEASURE_RECORD: usize = 9;

impl MeasureCase {
    /// The value asked for.
    pub fn value(self) -> i64 {
        match self {
            MeasureCase::L(n) => measure::l(n) as i64,
            MeasureCase::Ratio(p, q) => measure::ratio(p, q).0,
            MeasureCase::Root(degree, radicand) => measure::root(degree, radicand).0,
            MeasureCase::Frequency(f) => measure::frequency(f).0,
        }
    }

    pub fn encode(self) -> [u8; MEASURE_RECORD] {
        let (kind, first, second) = match self {
            MeasureCase::L(n) => (0, n.get(), 0),
            MeasureCase::Ratio(p, q) => (1, p.get(), q.get()),
            MeasureCase::Root(degree, radicand) => (2, degree.get().into(), radicand.get()),
            MeasureCase::Frequency(f) => (3, f.get(), 0),
        };
        let (first, second) = (first.to_be_bytes(), second.to_be_bytes());
        let mut record = [kind; MEASURE_RECORD];
        record[1..5].copy_from_slice(&first);
        record[5..9].copy_from_slice(&second);
        record
    }

    pub fn decode(record: [u8; MEASURE_RECORD]) -> io::Result<Self> {
        let [kind, a, b, c, d, e, f, g, h] = record;
        let first = NonZeroU32::new(u32::from_be_bytes([a, b, c, d]));
        let second = NonZeroU32::new(u32::from_be_bytes([e, f, g, h]));
        let degree = first.and_then(|first| Degree::try_from(first).ok());
        let case = match (kind, first, second) {
            (0, Some(n), None) => Some(MeasureCase::L(n)),
            (1, Some(p), Some(q)) => Some(MeasureCase::Ratio(p, q)),
            (2, _, Some(radicand)) => degree.map(|a| MeasureCase::Root(a, radicand)),
            (3, Some(f), None) => Some(MeasureCase::Frequency(f)),
            _ => None,
        };
        case.ok_or_else(|| bad_record("a measure record that none of the kinds has"))
    }
}

#[cfg(test)]
mod tests {
    use super::*;

    #[test]
    fn a_record_comes_back() {
        let n = NonZeroU32::new(30_000).unwrap();
        let degree = Degree::new(65_535).unwrap();
        for case in [
            MeasureCase::L(n),
            MeasureCase::Ratio(n, measure::ONE),
            MeasureCase::Root(degree, n),
            MeasureCase::Frequency(n),
        ] {
            assert_eq!(MeasureCase::decode(case.encode()).unwrap(), case);
        }
        assert!(MeasureCase::decode([2, 0, 1, 0, 0, 0, 0, 0, 1]).is_err());
    }

    #[test]
    fn a_record_cut_short_is_an_error() {
        let mut input: &[u8] = &[1, 2, 3, 4, 5];
        assert_eq!(next_record::<4>(&mut input).unwrap(), Some([1, 2, 3, 4]));
        assert!(next_record::<4>(&mut input).is_err());
    }
}
