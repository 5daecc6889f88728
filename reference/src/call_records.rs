//! Records of tuning calls, and of the states after them.

use crate::measure::{Interval, Pitch};
use crate::numbers::Number;
use crate::records::bad_record;
use crate::state::{
    Call, Change, PeriodChange, Position, State, ToneSystem, ANCHORS, CHANGES, PERIODS, POSITIONS,
    SUMS, VALUES,
};
use std::io;

const HEAD: usize = 12;
const PLACE: usize = 9;

pub const CALL_RECORD: usize = HEAD + POSITIONS * PLACE;

/// One step of a sequence: back to the start state, or a call.
#[derive(Clone, Debug, PartialEq, Eq)]
pub enum Step {
    Reset,
    Call(Call),
}

/// A record in plain numbers: opcode, n, value and positions of kind and
/// value.
#[derive(Default)]
struct Raw {
    opcode: u8,
    n: u16,
    value: i64,
    positions: Vec<(u8, i64)>,
}

impl Step {
    pub fn encode(&self) -> [u8; CALL_RECORD] {
        let mut record = [0; CALL_RECORD];
        let bytes = match self {
            Step::Reset => Vec::new(),
            Step::Call(call) => call_bytes(call),
        };
        for (place, byte) in record.iter_mut().zip(bytes) {
            *place = byte;
        }
        record
    }

    pub fn decode(record: &[u8; CALL_RECORD]) -> io::Result<Self> {
        let raw = Raw::read(record);
        if raw.opcode == 0 {
            return Ok(Step::Reset);
        }
        let call = raw.call().ok_or_else(|| bad_record("a call record of no known call"))?;
        Ok(Step::Call(call))
    }
}

/// The bytes of a call's record, without the unused positions.
pub fn call_bytes(call: &Call) -> Vec<u8> {
    Raw::of(call).bytes()
}

impl Raw {
    fn of(call: &Call) -> Self {
        match call {
            Call::Anchor(change) => Self::of_change(*change, 1),
            Call::Width(change) => Self::of_change(*change, 5),
            Call::Period(PeriodChange::To(period)) => Self::of_period(11, *period),
            Call::Period(PeriodChange::By(by)) => Self::of_period(12, *by),
            Call::Tones(positions) => Raw {
                opcode: 13,
                positions: positions.iter().copied().map(position_pair).collect(),
                ..Raw::default()
            },
            Call::System(system) => Raw {
                opcode: 14,
                n: system.anchor.into(),
                value: system.period.0,
                positions: system.tones.iter().copied().map(tone_pair).collect(),
            },
        }
    }

    fn of_change(change: Change, first: u8) -> Self {
        let (offset, n) = match change {
            Change::To(n) => (0, n),
            Change::Kept => (1, 0),
            Change::Plus(n) => (2, n),
            Change::Minus(n) => (3, n),
            Change::Times(n) => (4, n),
            Change::Over(n) => (5, n),
        };
        Raw { opcode: first + offset, n, ..Raw::default() }
    }

    fn of_period(opcode: u8, period: Interval) -> Self {
        Raw { opcode, value: period.0, ..Raw::default() }
    }

    fn bytes(&self) -> Vec<u8> {
        let mut bytes = vec![self.opcode];
        bytes.extend(self.n.to_be_bytes());
        bytes.extend(self.value.to_be_bytes());
        bytes.push(self.positions.len() as u8);
        for (kind, value) in &self.positions {
            bytes.push(*kind);
            bytes.extend(value.to_be_bytes());
        }
        bytes
    }

    fn read(record: &[u8; CALL_RECORD]) -> Self {
        let long =
            |at: usize| record[at..at + 8].iter().fold(0, |n, &byte| n << 8 | i64::from(byte));
        let count = usize::from(record[11]).min(POSITIONS);
        let starts = (0..count).map(|i| HEAD + i * PLACE);
        Raw {
            opcode: record[0],
            n: u16::from_be_bytes([record[1], record[2]]),
            value: long(3),
            positions: starts.map(|at| (record[at], long(at + 1))).collect(),
        }
    }

    /// The call, if there is such a one with these numbers.
    fn call(&self) -> Option<Call> {
        let period = Interval(self.value);
        let mut values = self.positions.iter().map(|&(_, value)| value).chain([self.value]);
        if !CHANGES.contains(&self.n) || !values.all(|value| SUMS.contains(&value)) {
            return None;
        }
        Some(match self.opcode {
            1..=4 => Call::Anchor(change(self.opcode - 1, self.n)?),
            5..=10 => Call::Width(change(self.opcode - 5, self.n)?),
            11 => Call::Period(PeriodChange::To(period)),
            12 => Call::Period(PeriodChange::By(period)),
            13 => Call::Tones(self.positions.iter().map(position).collect::<Option<_>>()?),
            14 => Call::System(self.system()?),
            _ => return None,
        })
    }

    fn system(&self) -> Option<ToneSystem> {
        let fits = !self.positions.is_empty()
            && ANCHORS.contains(&self.n.into())
            && PERIODS.contains(&self.value)
            && self.positions.iter().all(|(_, value)| VALUES.contains(value));
        fits.then_some(ToneSystem {
            anchor: self.n as u8,
            tones: self.positions.iter().map(tone).collect::<Option<_>>()?,
            period: Interval(self.value),
        })
    }
}

fn change(offset: u8, n: u16) -> Option<Change> {
    Some(match offset {
        0 => Change::To(n),
        1 => Change::Kept,
        2 => Change::Plus(n),
        3 => Change::Minus(n),
        4 => Change::Times(n),
        5 => Change::Over(n),
        _ => return None,
    })
}

fn position_pair(position: Position) -> (u8, i64) {
    match position {
        Position::Muted => (0, 0),
        Position::At(pitch) => (1, pitch.0),
        Position::By(by) => (2, by.0),
    }
}

fn tone_pair(tone: Option<Pitch>) -> (u8, i64) {
    position_pair(tone.map_or(Position::Muted, Position::At))
}

fn position(&(kind, value): &(u8, i64)) -> Option<Position> {
    match kind {
        0 => Some(Position::Muted),
        1 => Some(Position::At(Pitch(value))),
        2 => Some(Position::By(Interval(value))),
        _ => None,
    }
}

fn tone(pair: &(u8, i64)) -> Option<Option<Pitch>> {
    match position(pair)? {
        Position::Muted => Some(None),
        Position::At(pitch) => Some(Some(pitch)),
        Position::By(_) => None,
    }
}

/// A call's number and the state after it: number, anchor, width, period, the
/// sixty positions, line feed.
pub fn state_bytes(number: Number, state: &State) -> Vec<u8> {
    let mut bytes = vec![number, state.anchor.0 as u8, state.width as u8];
    bytes.extend((state.period.0 as i32).to_be_bytes());
    for tone in state.tones {
        bytes.push(tone.is_some().into());
        bytes.extend((tone.map_or(0, |pitch| pitch.0) as i32).to_be_bytes());
    }
    bytes.push(b'\n');
    bytes
}

#[cfg(test)]
mod tests {
    use super::*;
    use crate::cases::calls;

    #[test]
    fn a_record_comes_back() {
        for step in calls::steps(3, 50) {
            assert_eq!(Step::decode(&step.encode()).unwrap(), step);
        }
    }

    #[test]
    fn a_state_has_its_size() {
        assert_eq!(state_bytes(0, &State::start()).len(), 308);
        assert_eq!(CALL_RECORD, 552);
    }

    #[test]
    fn damaged_records_are_refused() {
        let mut record = [0; CALL_RECORD];
        record[0] = 14;
        assert!(Step::decode(&record).is_err());
        record[0] = 15;
        assert!(Step::decode(&record).is_err());
    }
}
