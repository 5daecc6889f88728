//! What the triggers of a text are bound to, in logics and in orders.

use crate::harmony::{Chord, Harmony};
use crate::text::tree::{Called, Declared, Letter, Target, Trigger};
use crate::text::Program;

const LETTERS: usize = 26;

/// What a frame looks for among the triggers: a letter among `KEY letter`
/// alone, a chord among harmonies alone.
#[derive(Clone, Copy, Debug, PartialEq, Eq)]
pub enum Sought {
    Letter(Letter),
    Chord(Chord),
}

/// What is found: a logic by its own trigger, or the call of an order.
#[derive(Clone, Copy, Debug, PartialEq, Eq)]
pub enum Found {
    Logic(usize),
    Order(Called<Target>),
}

pub struct Bindings {
    logics: Bound<usize>,
    /// For each logic, what its orders call.
    orders: Vec<Bound<Called<Target>>>,
}

impl Bindings {
    pub fn of(program: &Program) -> Self {
        let harmonies = &program.declared.harmonies;
        let logics = program.declared.logics.iter().map(|logic| &logic.form);
        let triggers = logics.clone().zip(0..).map(|(form, i)| (&form.trigger, i));
        let orders = logics.map(|form| {
            let called = form.orders.iter().map(|order| (&order.trigger, order.called));
            Bound::of(harmonies, called)
        });
        Bindings { orders: orders.collect(), logics: Bound::of(harmonies, triggers) }
    }

    /// "Triggers are tried in declared order, logics first."
    pub fn find(&self, sought: Sought, active: Option<usize>) -> Option<Found> {
        if let Some(logic) = self.logics.first(sought) {
            return Some(Found::Logic(logic));
        }
        active.and_then(|logic| self.orders.get(logic)?.first(sought)).map(Found::Order)
    }
}

/// Triggers of one kind and what each of them calls: for a letter "the first
/// with this letter", and harmonies in declared order.
struct Bound<T> {
    letters: [Option<T>; LETTERS],
    harmonies: Vec<(Harmony, T)>,
}

impl<T: Copy> Bound<T> {
    fn of<'a>(
        declared: &[Declared<Harmony>],
        triggers: impl Iterator<Item = (&'a Trigger<usize>, T)>,
    ) -> Self {
        let mut bound = Bound { letters: [None; LETTERS], harmonies: Vec::new() };
        for (trigger, called) in triggers {
            match trigger {
                Trigger::Letter(letter) => {
                    bound.letters[place_of(*letter)].get_or_insert(called);
                }
                Trigger::Harmony(i) => bound.harmonies.push((declared[*i].form, called)),
            }
        }
        bound
    }

    fn first(&self, sought: Sought) -> Option<T> {
        match sought {
            Sought::Letter(letter) => self.letters[place_of(letter)],
            Sought::Chord(chord) => {
                let mut matching = self.harmonies.iter().filter(|(h, _)| h.matches(&chord));
                matching.next().map(|(_, called)| *called)
            }
        }
    }
}

/// A capital's place in the alphabet, from 0.
fn place_of(letter: Letter) -> usize {
    usize::from(letter.0 - b'A')
}
