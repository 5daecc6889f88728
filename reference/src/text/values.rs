//! Values: the numbers 7 and 8, and the program that a text becomes.

use super::tree::{
    Amount, Called, Declared, IntervalForm, PositionForm, Resolved, Retuning, RetuningForm, Sum,
    SystemForm, Target, ToneForm,
};
use super::{at_earliest, Refusal};
use crate::measure::{self, Interval, Pitch};
use crate::numbers;
use crate::state::{Call, PeriodChange, Position, ToneSystem, PERIODS, VALUES};

/// An accepted text: its declarations and their values, in declared order.
#[derive(Clone, Debug, Default, PartialEq, Eq)]
pub struct Program {
    pub declared: Resolved,
    pub intervals: Vec<Interval>,
    pub tones: Vec<Pitch>,
    pub systems: Vec<Call>,
    /// The retunings, with placeholders where numbers are handed over.
    pub retunings: Vec<Call<Amount>>,
}

impl Program {
    /// What a call of a tone system or retuning does: "it must act as the same
    /// retuning with those numbers written in". None of a logic.
    pub fn call(&self, called: &Called<Target>) -> Option<Call> {
        match called.target {
            Target::Retuning(i) => {
                let placeholders = &self.declared.retunings.get(i)?.form.placeholders;
                let number = |n: &Amount| n.number(placeholders, &called.numbers);
                self.retunings.get(i)?.filled(number)
            }
            Target::System(i) => self.systems.get(i).cloned(),
            Target::Logic(_) => None,
        }
    }

    /// Whether the n of what is called is a placeholder.
    pub fn hands_over_n(&self, called: &Called<Target>) -> bool {
        let Target::Retuning(i) = called.target else {
            return false;
        };
        self.retunings.get(i).is_some_and(|retuning| retuning.filled(Amount::written).is_none())
    }
}

/// 7 is "interval or tone that depends on itself; its declared name".
pub fn check_no_cycles(tree: &Resolved) -> Result<(), Refusal> {
    let of_interval = |i: usize| match tree.intervals.get(i).map(|declared| &declared.form) {
        Some(IntervalForm::Sum(sum)) => sum.iter().map(|term| term.interval).collect(),
        _ => Vec::new(),
    };
    let of_tone = |i: usize| match tree.tones.get(i).map(|declared| &declared.form) {
        Some(ToneForm::From(tone, _)) => vec![*tone],
        _ => Vec::new(),
    };
    let intervals = depending_on_themselves(&tree.intervals, of_interval);
    let tones = depending_on_themselves(&tree.tones, of_tone);
    at_earliest(numbers::DEPENDS_ON_ITSELF, intervals.into_iter().chain(tones))
}

/// The places of those declarations that are reached from themselves.
fn depending_on_themselves<F>(
    declared: &[Declared<F>],
    uses: impl Fn(usize) -> Vec<usize>,
) -> Vec<usize> {
    let uses: Vec<_> = (0..declared.len()).map(uses).collect();
    let numbered = declared.iter().enumerate();
    let cyclic = numbered.filter(|&(i, _)| is_reached(&uses, i));
    cyclic.map(|(_, declaration)| declaration.name.place).collect()
}

fn is_reached(uses: &[Vec<usize>], goal: usize) -> bool {
    let mut reached = vec![false; uses.len()];
    let mut open = vec![goal];
    while let Some(next) = open.pop() {
        for &used in uses.get(next).into_iter().flatten() {
            match reached.get_mut(used) {
                _ if used == goal => return true,
                Some(known) if !*known => {
                    *known = true;
                    open.push(used);
                }
                _ => {}
            }
        }
    }
    false
}

/// The program of a text without cycles. 8 is "interval, tone or tone system's
/// period out of range; its name".
pub fn program(tree: Resolved) -> Result<Program, Refusal> {
    let intervals = interval_values(&tree);
    let tones = tone_values(&tree, &intervals);
    let periods: Vec<_> = tree
        .systems
        .iter()
        .map(|system| sum_value(&system.form.period, &intervals))
        .map(|period| period.filter(|period| PERIODS.contains(&period.0)))
        .collect();
    let places = unfit(&tree.intervals, &intervals)
        .chain(unfit(&tree.tones, &tones))
        .chain(unfit(&tree.systems, &periods));
    at_earliest(numbers::VALUE_OUT_OF_RANGE, places)?;
    let intervals: Vec<_> = intervals.into_iter().flatten().collect();
    let tones: Vec<_> = tones.into_iter().flatten().collect();
    Ok(Program {
        systems: system_calls(&tree, &tones, periods),
        retunings: retuning_calls(&tree, &intervals, &tones),
        declared: tree,
        intervals,
        tones,
    })
}

/// The places of the declarations that have no value in range.
fn unfit<'a, F, V>(
    declared: &'a [Declared<F>],
    values: &'a [Option<V>],
) -> impl Iterator<Item = usize> + 'a {
    let pairs = declared.iter().zip(values);
    pairs.filter(|(_, value)| value.is_none()).map(|(declaration, _)| declaration.name.place)
}

/// A value not yet known, or known to be in range or out of it.
type Known<V> = Option<Option<V>>;

fn interval_values(tree: &Resolved) -> Vec<Option<Interval>> {
    let mut known = vec![None; tree.intervals.len()];
    (0..tree.intervals.len()).map(|i| interval_value(tree, i, &mut known)).collect()
}

/// An interval's value, by way of the ones it uses; none if it is out of range
/// or uses one that is, "even 0 times".
fn interval_value(tree: &Resolved, i: usize, known: &mut [Known<Interval>]) -> Option<Interval> {
    if let Some(Some(value)) = known.get(i) {
        return *value;
    }
    let value = match &tree.intervals.get(i)?.form {
        IntervalForm::Ratio(p, q) => Some(measure::ratio(*p, *q)),
        IntervalForm::Root(degree, radicand) => Some(measure::root(*degree, *radicand)),
        IntervalForm::Sum(sum) => {
            let used = |i| interval_value(tree, i, known);
            add_up(sum, used).filter(|value| VALUES.contains(&value.0))
        }
    };
    if let Some(place) = known.get_mut(i) {
        *place = Some(value);
    }
    value
}

fn tone_values(tree: &Resolved, intervals: &[Option<Interval>]) -> Vec<Option<Pitch>> {
    let mut known = vec![None; tree.tones.len()];
    (0..tree.tones.len()).map(|i| tone_value(tree, i, intervals, &mut known)).collect()
}

fn tone_value(
    tree: &Resolved,
    i: usize,
    intervals: &[Option<Interval>],
    known: &mut [Known<Pitch>],
) -> Option<Pitch> {
    if let Some(Some(value)) = known.get(i) {
        return *value;
    }
    let value = match &tree.tones.get(i)?.form {
        ToneForm::Frequency(frequency) => Some(measure::frequency(*frequency)),
        ToneForm::From(tone, sum) => {
            let from = tone_value(tree, *tone, intervals, known);
            let by = sum_value(sum, intervals);
            let value = from.zip(by).map(|(from, by)| from + by);
            value.filter(|value| VALUES.contains(&value.0))
        }
    };
    if let Some(place) = known.get_mut(i) {
        *place = Some(value);
    }
    value
}

/// "Sequences add factor times measure." None if one of the intervals has no
/// value in range.
fn add_up(sum: &Sum<usize>, mut value: impl FnMut(usize) -> Option<Interval>) -> Option<Interval> {
    sum.iter().try_fold(Interval::default(), |total, term| {
        Some(total + value(term.interval)? * term.times)
    })
}

fn sum_value(sum: &Sum<usize>, intervals: &[Option<Interval>]) -> Option<Interval> {
    add_up(sum, |i| intervals.get(i).copied().flatten())
}

fn system_calls(tree: &Resolved, tones: &[Pitch], periods: Vec<Option<Interval>>) -> Vec<Call> {
    let system = |(declared, period): (&Declared<SystemForm<usize>>, _)| {
        let tone = |tone: &Option<usize>| tone.and_then(|i| tones.get(i).copied());
        Call::System(ToneSystem {
            anchor: declared.form.anchor,
            tones: declared.form.tones.iter().map(tone).collect(),
            period,
        })
    };
    tree.systems.iter().zip(periods.into_iter().flatten()).map(system).collect()
}

fn retuning_calls(tree: &Resolved, intervals: &[Interval], tones: &[Pitch]) -> Vec<Call<Amount>> {
    // In an accepted text every interval and tone has its value.
    let sum = |sum: &Sum<usize>| add_up(sum, |i| intervals.get(i).copied()).unwrap_or_default();
    let position = |form: &PositionForm<usize>| match form {
        PositionForm::Muted => Position::Muted,
        PositionForm::By(by) => Position::By(sum(by)),
        PositionForm::At(tone, by) => match tones.get(*tone) {
            Some(tone) => Position::At(*tone + sum(by)),
            None => Position::Muted,
        },
    };
    let call = |declared: &Declared<Retuning<usize>>| match &declared.form.form {
        RetuningForm::Anchor(change) => Call::Anchor(change.clone()),
        RetuningForm::Width(change) => Call::Width(change.clone()),
        RetuningForm::PeriodTo(period) => Call::Period(PeriodChange::To(sum(period))),
        RetuningForm::PeriodBy(by) => Call::Period(PeriodChange::By(sum(by))),
        RetuningForm::Tones(positions) => Call::Tones(positions.iter().map(position).collect()),
    };
    tree.retunings.iter().map(call).collect()
}
