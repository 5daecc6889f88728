//! What frames did, for those who follow a desk.

use crate::numbers::{self, Number};
use crate::state::{Call, State};
use crate::text::tree::{Called, Target};
use crate::text::Program;

/// A call of a tone system or retuning that a frame has made, and its number.
#[derive(Clone, Copy, Debug, PartialEq, Eq)]
pub struct Made {
    pub called: Called<Target>,
    pub caller: Caller,
    pub number: Number,
}

/// Where a call stands: "calls from orders and logic starts".
#[derive(Clone, Copy, Debug, PartialEq, Eq)]
pub enum Caller {
    Start,
    Order,
}

/// What a frame did, or one press of a row: its number, the logic that became
/// active, and the call if it made one.
#[derive(Clone, Copy, Debug, PartialEq, Eq)]
pub struct Effect {
    pub number: Number,
    pub activated: Option<usize>,
    pub made: Option<Made>,
}

impl Effect {
    pub fn nothing(number: Number) -> Self {
        Effect { number, activated: None, made: None }
    }

    /// Whether a trigger was found.
    pub fn is_triggered(&self) -> bool {
        self.activated.is_some() || self.made.is_some()
    }

    /// Whether it made a call that was taken.
    pub fn is_taken(&self) -> bool {
        self.made.is_some_and(|made| made.number == numbers::DONE)
    }
}

/// A call that a frame has made, its numbers filled in, on the state that it
/// met.
pub struct Step {
    pub on: State,
    pub call: Call,
    pub number: Number,
}

/// The steps of a frame that met this state: each call meets what those before
/// it left.
pub fn steps(program: &Program, mut state: State, effects: &[Effect]) -> Vec<Step> {
    let mut steps = Vec::new();
    for made in effects.iter().filter_map(|effect| effect.made) {
        let Some(call) = program.call(&made.called) else {
            continue;
        };
        let after = state.called(&call).unwrap_or_else(|_| state.clone());
        let on = std::mem::replace(&mut state, after);
        steps.push(Step { on, call, number: made.number });
    }
    steps
}
