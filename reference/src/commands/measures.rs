//! `measure-cases`, `measure` and `measure-accuracy`.

use super::{input, note, output, verdict, Outcome, Verdict};
use crate::accuracy::{Accuracy, Finding};
use crate::cases::measures;
use crate::records::{next_record, MeasureCase};
use std::io::{self, Write};

/// Writes the cases of a seed, one record each.
pub fn write_cases(seed: u64, count: usize) -> Outcome {
    let mut output = output();
    for case in measures::cases(seed, count) {
        output.write_all(&case.encode())?;
    }
    output.flush()?;
    Ok(Verdict::Passed)
}

/// Answers each record with its value in eight bytes.
pub fn answer() -> Outcome {
    let mut output = output();
    for_each_case(|case| output.write_all(&case.value().to_be_bytes()))?;
    output.flush()?;
    Ok(Verdict::Passed)
}

/// Holds each record's value against the true logarithm.
pub fn check() -> Outcome {
    let accuracy = Accuracy::new();
    let mut l_tally = Tally::default();
    let mut measure_tally = Tally::default();
    for_each_case(|case| {
        let finding = accuracy.judge(case);
        let tally = match case {
            MeasureCase::L(_) => &mut l_tally,
            _ => &mut measure_tally,
        };
        tally.note(case, finding);
        Ok(())
    })?;
    let mut output = output();
    writeln!(output, "L: {l_tally}, in units of L (from 0, below 2)")?;
    writeln!(output, "measures: {measure_tally}, in thousandths of a cent (at most 0.503)")?;
    output.flush()?;
    Ok(verdict(l_tally.failed + measure_tally.failed == 0))
}

fn for_each_case(mut act: impl FnMut(MeasureCase) -> io::Result<()>) -> io::Result<()> {
    let mut input = input();
    while let Some(record) = next_record(&mut input)? {
        act(MeasureCase::decode(record)?)?;
    }
    Ok(())
}

#[derive(Default)]
struct Tally {
    count: u64,
    failed: u64,
    worst: f64,
    worst_case: Option<MeasureCase>,
}

impl Tally {
    fn note(&mut self, case: MeasureCase, finding: Finding) {
        self.count += 1;
        if !finding.holds {
            self.failed += 1;
            note(format_args!("{case:?} is off by {}", finding.distance));
        }
        if finding.distance > self.worst {
            self.worst = finding.distance;
            self.worst_case = Some(case);
        }
    }
}

impl std::fmt::Display for Tally {
    fn fmt(&self, f: &mut std::fmt::Formatter) -> std::fmt::Result {
        write!(f, "{} checked, {} failed", self.count, self.failed)?;
        match self.worst_case {
            Some(case) => write!(f, ", worst distance {:.9} at {case:?}", self.worst),
            None => Ok(()),
        }
    }
}
