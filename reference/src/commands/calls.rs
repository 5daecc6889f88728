//! `call-cases`, `calls` and `call-counts`.

use super::{input, note, output, verdict, Outcome, Verdict};
use crate::call_records::{state_bytes, Step};
use crate::cases::calls;
use crate::ends::Ends;
use crate::numbers::{self, Counts, Number};
use crate::records::next_record;
use crate::state::State;
use std::io::Write;

/// Writes the sequences of a seed, one record for each step.
pub fn write_cases(seed: u64, count: usize) -> Outcome {
    let mut output = output();
    for step in calls::steps(seed, count) {
        output.write_all(&step.encode())?;
    }
    output.flush()?;
    Ok(Verdict::Passed)
}

/// Answers each record with its number and the state after it.
pub fn answer() -> Outcome {
    let (mut input, mut output) = (input(), output());
    let mut counts = Counts::default();
    let mut state = State::start();
    while let Some(record) = next_record(&mut input)? {
        let number = take(&Step::decode(&record)?, &mut state);
        counts.note(number);
        output.write_all(&state_bytes(number, &state))?;
    }
    output.flush()?;
    note(format_args!("calls: {counts}"));
    Ok(Verdict::Passed)
}

/// In so many sequences each way to end a distance shall come once, and a
/// division by zero.
const SEQUENCES_TO_EACH_WAY: u64 = 40;

/// Follows the sequences of a seed and counts the ends of their distances and
/// the divisions by zero; fails if one of these is rare.
pub fn count(seed: u64, count: usize) -> Outcome {
    let tally = Tally::of(seed, count);
    let mut output = output();
    writeln!(output, "calls {}; divisions by zero: {}", tally.ends, tally.zeros)?;
    output.flush()?;
    Ok(verdict(tally.has_each_way(count)))
}

#[derive(Default)]
struct Tally {
    ends: Ends,
    zeros: u64,
}

impl Tally {
    fn of(seed: u64, count: usize) -> Self {
        let (mut state, mut tally) = (State::start(), Tally::default());
        for step in calls::steps(seed, count) {
            let before = state.clone();
            let number = take(&step, &mut state);
            tally.zeros += u64::from(number == numbers::DIVISION_BY_ZERO);
            if let Step::Call(call) = &step {
                tally.ends.note(&before, call, number);
            }
        }
        tally
    }

    fn has_each_way(&self, sequences: usize) -> bool {
        let rarest = self.ends.rarest().min(self.zeros);
        SEQUENCES_TO_EACH_WAY * rarest >= sequences as u64
    }
}

/// Makes one step; a refused call leaves the state unchanged.
fn take(step: &Step, state: &mut State) -> Number {
    let new = match step {
        Step::Reset => Ok(State::start()),
        Step::Call(call) => state.called(call),
    };
    match new {
        Ok(new) => {
            *state = new;
            numbers::DONE
        }
        Err(number) => number,
    }
}

#[cfg(test)]
mod tests {
    use super::*;

    #[test]
    fn each_way_is_frequent() {
        let tally = Tally::of(11, 500);
        assert!(tally.has_each_way(500), "{}, {} by zero", tally.ends, tally.zeros);
    }
}
