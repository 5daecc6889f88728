//! The reader: from the bytes of a text to a program, or to the number and
//! place of its refusal.

mod grammar;
mod names;
mod placeholders;
mod symbols;
pub mod tree;
mod values;

use crate::numbers::{self, Number};
pub use placeholders::Cause;
use tree::Resolved;
pub use values::Program;

/// "text | 0 to 32,768 bytes".
pub const LONGEST_TEXT: usize = 32_768;

/// Why a text is refused. Places count the bytes before.
#[derive(Clone, Copy, Debug, PartialEq, Eq)]
pub struct Refusal {
    pub number: Number,
    pub place: usize,
}

impl Refusal {
    fn new(number: Number, place: usize) -> Self {
        Refusal { number, place }
    }
}

/// Reads a text. "Among 2, 3, 4 and 9 the first place wins .. Then the
/// earliest 5, the earliest 6, the earliest 7, the earliest 8"; and "24, after 6
/// and before 7".
pub fn read(text: &[u8]) -> Result<Program, Refusal> {
    if text.len() > LONGEST_TEXT {
        return Err(Refusal::new(numbers::TEXT_TOO_LONG, 0));
    }
    let tree = resolved(text)?;
    placeholders::check(&tree)?;
    values::check_no_cycles(&tree)?;
    values::program(tree)
}

fn resolved(text: &[u8]) -> Result<Resolved, Refusal> {
    let draft = grammar::parse(text)?;
    names::check_declared_once(&draft)?;
    names::resolve(draft)
}

/// Why a text that gives 24 does.
pub fn cause_of_24(text: &[u8]) -> Option<Cause> {
    let tree = resolved(text).ok()?;
    placeholders::earliest(&tree).map(|(_, cause)| cause)
}

/// The refusal at the earliest of these places, if there is one.
fn at_earliest(number: Number, places: impl Iterator<Item = usize>) -> Result<(), Refusal> {
    match places.min() {
        Some(place) => Err(Refusal::new(number, place)),
        None => Ok(()),
    }
}

#[cfg(test)]
pub mod tests;
