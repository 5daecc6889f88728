//! Names: the numbers 5 and 6, and what each use stands for.

use super::tree::{
    Called, Declared, Draft, IntervalForm, LogicForm, Name, Order, PositionForm, Resolved,
    Retuning, RetuningForm, Sum, SystemForm, Target, Term, ToneForm, Trigger,
};
use super::{at_earliest, Refusal};
use crate::numbers;
use std::collections::{HashMap, HashSet};

/// 5 is "name used twice in a kind; the second". "A name may serve once for
/// each kind."
pub fn check_declared_once(draft: &Draft) -> Result<(), Refusal> {
    let seconds = [
        first_second(&draft.intervals),
        first_second(&draft.tones),
        first_second(&draft.systems),
        first_second(&draft.retunings),
        first_second(&draft.harmonies),
        first_second(&draft.logics),
    ];
    at_earliest(numbers::USED_TWICE, seconds.into_iter().flatten())
}

/// The place of the first name of a kind that has stood before.
fn first_second<F>(declared: &[Declared<F>]) -> Option<usize> {
    let mut seen = HashSet::new();
    let names = declared.iter().map(|declaration| &declaration.name);
    let mut seconds = names.filter(|name| !seen.insert(name.text.as_str()));
    seconds.next().map(|name| name.place)
}

/// Resolves all uses, but for those of placeholders, which are names of their
/// own. 6 is "name not declared; the use".
pub fn resolve(draft: Draft) -> Result<Resolved, Refusal> {
    let kinds = Kinds::of(&draft);
    let mut missing = Vec::new();
    let resolved = Resolved {
        intervals: each(draft.intervals, &mut missing, |form| kinds.interval_form(form)),
        tones: each(draft.tones, &mut missing, |form| kinds.tone_form(form)),
        systems: each(draft.systems, &mut missing, |form| kinds.system_form(form)),
        retunings: each(draft.retunings, &mut missing, |form| kinds.retuning(form)),
        harmonies: draft.harmonies,
        logics: each(draft.logics, &mut missing, |form| kinds.logic_form(form)),
    };
    at_earliest(numbers::NOT_DECLARED, missing.into_iter())?;
    Ok(resolved)
}

/// A thing resolved, or the place of the first use that could not be.
type Found<T> = Result<T, usize>;

/// Resolves each declaration of a kind; what could not be is left out, and its
/// place noted.
fn each<F, G>(
    declared: Vec<Declared<F>>,
    missing: &mut Vec<usize>,
    resolve: impl Fn(F) -> Found<G>,
) -> Vec<Declared<G>> {
    let mut resolved = Vec::with_capacity(declared.len());
    for Declared { name, form } in declared {
        match resolve(form) {
            Ok(form) => resolved.push(Declared { name, form }),
            Err(place) => missing.push(place),
        }
    }
    resolved
}

type Index = HashMap<String, usize>;

fn index<F>(declared: &[Declared<F>]) -> Index {
    let names = declared.iter().map(|declaration| declaration.name.text.clone());
    names.zip(0..).collect()
}

/// The declared names of each kind.
struct Kinds {
    intervals: Index,
    tones: Index,
    systems: Index,
    retunings: Index,
    harmonies: Index,
    logics: Index,
}

impl Kinds {
    fn of(draft: &Draft) -> Self {
        Kinds {
            intervals: index(&draft.intervals),
            tones: index(&draft.tones),
            systems: index(&draft.systems),
            retunings: index(&draft.retunings),
            harmonies: index(&draft.harmonies),
            logics: index(&draft.logics),
        }
    }

    fn sum(&self, sum: Sum<Name>) -> Found<Sum<usize>> {
        let term = |term: Term<Name>| {
            let interval = find(&self.intervals, &term.interval)?;
            Ok(Term { times: term.times, interval })
        };
        sum.into_iter().map(term).collect()
    }

    fn interval_form(&self, form: IntervalForm<Name>) -> Found<IntervalForm<usize>> {
        Ok(match form {
            IntervalForm::Ratio(p, q) => IntervalForm::Ratio(p, q),
            IntervalForm::Root(degree, radicand) => IntervalForm::Root(degree, radicand),
            IntervalForm::Sum(sum) => IntervalForm::Sum(self.sum(sum)?),
        })
    }

    fn tone_form(&self, form: ToneForm<Name>) -> Found<ToneForm<usize>> {
        Ok(match form {
            ToneForm::Frequency(frequency) => ToneForm::Frequency(frequency),
            ToneForm::From(tone, sum) => ToneForm::From(find(&self.tones, &tone)?, self.sum(sum)?),
        })
    }

    fn system_form(&self, form: SystemForm<Name>) -> Found<SystemForm<usize>> {
        let tone = |tone: Option<Name>| tone.map(|name| find(&self.tones, &name)).transpose();
        Ok(SystemForm {
            anchor: form.anchor,
            tones: form.tones.into_iter().map(tone).collect::<Found<_>>()?,
            period: self.sum(form.period)?,
        })
    }

    fn retuning(&self, retuning: Retuning<Name>) -> Found<Retuning<usize>> {
        let form = self.retuning_form(retuning.form)?;
        Ok(Retuning { placeholders: retuning.placeholders, form })
    }

    fn retuning_form(&self, form: RetuningForm<Name>) -> Found<RetuningForm<usize>> {
        Ok(match form {
            RetuningForm::Anchor(change) => RetuningForm::Anchor(change),
            RetuningForm::Width(change) => RetuningForm::Width(change),
            RetuningForm::PeriodTo(sum) => RetuningForm::PeriodTo(self.sum(sum)?),
            RetuningForm::PeriodBy(sum) => RetuningForm::PeriodBy(self.sum(sum)?),
            RetuningForm::Tones(positions) => {
                let positions = positions.into_iter().map(|form| self.position_form(form));
                RetuningForm::Tones(positions.collect::<Found<_>>()?)
            }
        })
    }

    fn position_form(&self, form: PositionForm<Name>) -> Found<PositionForm<usize>> {
        Ok(match form {
            PositionForm::Muted => PositionForm::Muted,
            PositionForm::At(tone, sum) => {
                PositionForm::At(find(&self.tones, &tone)?, self.sum(sum)?)
            }
            PositionForm::By(sum) => PositionForm::By(self.sum(sum)?),
        })
    }

    /// Trigger, start and orders in the order of the text, so that the first
    /// that is missing is the earliest.
    fn logic_form(&self, form: LogicForm<Name, Name>) -> Found<LogicForm<usize, Target>> {
        let trigger = self.trigger(form.trigger)?;
        let start = form.start.map(|called| self.call(called, Self::start)).transpose()?;
        let order = |order: Order<Name, Name>| {
            let trigger = self.trigger(order.trigger)?;
            Ok(Order { trigger, called: self.call(order.called, Self::ordered)? })
        };
        let orders = form.orders.into_iter().map(order).collect::<Found<_>>()?;
        Ok(LogicForm { trigger, start, orders })
    }

    fn trigger(&self, trigger: Trigger<Name>) -> Found<Trigger<usize>> {
        Ok(match trigger {
            Trigger::Letter(letter) => Trigger::Letter(letter),
            Trigger::Harmony(name) => Trigger::Harmony(find(&self.harmonies, &name)?),
        })
    }

    fn call(
        &self,
        Called { target, place, numbers }: Called<Name>,
        meaning: fn(&Self, &Name) -> Found<Target>,
    ) -> Found<Called<Target>> {
        Ok(Called { target: meaning(self, &target)?, place, numbers })
    }

    /// "A called name means the retuning of that name, else the tone system".
    fn start(&self, name: &Name) -> Found<Target> {
        find(&self.retunings, name)
            .map(Target::Retuning)
            .or_else(|_| find(&self.systems, name).map(Target::System))
    }

    /// "else (orders only) the logic (house)".
    fn ordered(&self, name: &Name) -> Found<Target> {
        self.start(name).or_else(|_| find(&self.logics, name).map(Target::Logic))
    }
}

fn find(index: &Index, name: &Name) -> Found<usize> {
    index.get(&name.text).copied().ok_or(name.place)
}
