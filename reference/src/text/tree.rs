//! The declarations of a text. They refer to each other by `R` (terms, tones
//! and triggers) and `T` (what logics call): by names as they are written
//! first, by number once the names are resolved.

use crate::harmony::Harmony;
use crate::measure::{Degree, TenThousandths};
use crate::state::Change;
use std::fmt::{self, Display, Formatter};

/// A name and its place, declared or used.
#[derive(Clone, Debug, PartialEq, Eq)]
pub struct Name {
    pub text: String,
    pub place: usize,
}

#[derive(Clone, Debug, PartialEq, Eq)]
pub struct Declared<F> {
    pub name: Name,
    pub form: F,
}

/// A factor with its sign, and an interval.
#[derive(Clone, Debug, PartialEq, Eq)]
pub struct Term<R> {
    pub times: i64,
    pub interval: R,
}

pub type Sum<R> = Vec<Term<R>>;

#[derive(Clone, Debug, PartialEq, Eq)]
pub enum IntervalForm<R> {
    Ratio(TenThousandths, TenThousandths),
    Root(Degree, TenThousandths),
    Sum(Sum<R>),
}

#[derive(Clone, Debug, PartialEq, Eq)]
pub enum ToneForm<R> {
    Frequency(TenThousandths),
    From(R, Sum<R>),
}

#[derive(Clone, Debug, PartialEq, Eq)]
pub struct SystemForm<R> {
    pub anchor: u8,
    pub tones: Vec<Option<R>>,
    pub period: Sum<R>,
}

#[derive(Clone, Debug, PartialEq, Eq)]
pub enum PositionForm<R> {
    Muted,
    At(R, Sum<R>),
    By(Sum<R>),
}

/// A retuning and the placeholders that its brackets name; without brackets
/// there are none.
#[derive(Clone, Debug, PartialEq, Eq)]
pub struct Retuning<R> {
    pub placeholders: Vec<Name>,
    pub form: RetuningForm<R>,
}

#[derive(Clone, Debug, PartialEq, Eq)]
pub enum RetuningForm<R> {
    Anchor(Change<Amount>),
    Width(Change<Amount>),
    PeriodTo(Sum<R>),
    PeriodBy(Sum<R>),
    Tones(Vec<PositionForm<R>>),
}

/// What stands for n in anchor and width retunings.
#[derive(Clone, Debug, PartialEq, Eq)]
pub enum Amount {
    Written(u16),
    Placeholder(Name),
}

impl Amount {
    /// The number that is written there.
    pub fn written(&self) -> Option<u16> {
        match self {
            Amount::Written(n) => Some(*n),
            Amount::Placeholder(_) => None,
        }
    }

    /// The number that it is in a call that hands these over.
    pub fn number(&self, placeholders: &[Name], handed: &Numbers) -> Option<u16> {
        match self {
            Amount::Written(n) => Some(*n),
            Amount::Placeholder(name) => {
                let place = placeholders.iter().position(|known| known.text == name.text)?;
                handed.as_slice().get(place).copied()
            }
        }
    }
}

impl Display for Amount {
    fn fmt(&self, f: &mut Formatter) -> fmt::Result {
        match self {
            Amount::Written(n) => write!(f, "{n}"),
            Amount::Placeholder(name) => write!(f, "{}", name.text),
        }
    }
}

/// "One to four placeholder names", and as many numbers.
pub const PLACEHOLDERS: usize = 4;

/// The numbers that a call hands over, in the order of the placeholders; none
/// without brackets.
#[derive(Clone, Copy, Debug, Default, PartialEq, Eq)]
pub struct Numbers {
    numbers: [u16; PLACEHOLDERS],
    count: usize,
}

impl Numbers {
    pub fn as_slice(&self) -> &[u16] {
        self.numbers.get(..self.count).unwrap_or_default()
    }
}

impl FromIterator<u16> for Numbers {
    /// No more than four are kept.
    fn from_iter<I: IntoIterator<Item = u16>>(all: I) -> Self {
        let mut numbers = Numbers::default();
        for (place, number) in numbers.numbers.iter_mut().zip(all) {
            *place = number;
            numbers.count += 1;
        }
        numbers
    }
}

/// A call in a logic: what is called, where its name stands, and what is handed
/// over.
#[derive(Clone, Copy, Debug, PartialEq, Eq)]
pub struct Called<T> {
    pub target: T,
    pub place: usize,
    pub numbers: Numbers,
}

#[derive(Clone, Debug, PartialEq, Eq)]
pub struct Order<R, T> {
    pub trigger: Trigger<R>,
    pub called: Called<T>,
}

#[derive(Clone, Debug, PartialEq, Eq)]
pub struct LogicForm<R, T> {
    pub trigger: Trigger<R>,
    pub start: Option<Called<T>>,
    pub orders: Vec<Order<R, T>>,
}

/// "Its bare name is a trigger beside `KEY letter`, in logics and orders."
#[derive(Clone, Debug, PartialEq, Eq)]
pub enum Trigger<R> {
    Letter(Letter),
    Harmony(R),
}

/// "A letter is a one-letter name from a to z"; held as the capital that
/// frames have.
#[derive(Clone, Copy, Debug, PartialEq, Eq)]
pub struct Letter(pub u8);

/// What a name in a logic stands for.
#[derive(Clone, Copy, Debug, PartialEq, Eq)]
pub enum Target {
    Retuning(usize),
    System(usize),
    Logic(usize),
}

#[derive(Clone, Debug, PartialEq, Eq)]
pub struct Tree<R, T> {
    pub intervals: Vec<Declared<IntervalForm<R>>>,
    pub tones: Vec<Declared<ToneForm<R>>>,
    pub systems: Vec<Declared<SystemForm<R>>>,
    pub retunings: Vec<Declared<Retuning<R>>>,
    pub harmonies: Vec<Declared<Harmony>>,
    pub logics: Vec<Declared<LogicForm<R, T>>>,
}

/// A text as it is written.
pub type Draft = Tree<Name, Name>;

/// A text whose names are resolved.
pub type Resolved = Tree<usize, Target>;

impl<R, T> Default for Tree<R, T> {
    fn default() -> Self {
        Tree {
            intervals: Vec::new(),
            tones: Vec::new(),
            systems: Vec::new(),
            retunings: Vec::new(),
            harmonies: Vec::new(),
            logics: Vec::new(),
        }
    }
}
