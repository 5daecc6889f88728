//! The table "Numbers returned" of document 01, and what requests 1/13, 5/13 and
//! 6/13 add.

pub type Number = u8;

pub const DONE: Number = 0;
pub const TEXT_TOO_LONG: Number = 1;
pub const NO_SYMBOL: Number = 2;
pub const NOT_ALLOWED: Number = 3;
pub const OUT_OF_RANGE: Number = 4;
pub const USED_TWICE: Number = 5;
pub const NOT_DECLARED: Number = 6;
pub const DEPENDS_ON_ITSELF: Number = 7;
pub const VALUE_OUT_OF_RANGE: Number = 8;
pub const ONE_TOO_MANY: Number = 9;
pub const BAD_ANCHOR: Number = 10;
pub const BAD_WIDTH: Number = 11;
pub const BAD_PERIOD: Number = 12;
pub const MUTED: Number = 13;
pub const BAD_TONE: Number = 14;
pub const UNPLAYABLE_KEY: Number = 15;
pub const KEY_HELD: Number = 17;
pub const KEY_NOT_HELD: Number = 18;
pub const SILENT_KEY: Number = 20;
pub const UNBOUND_LETTER: Number = 21;
pub const BAD_FRAME: Number = 22;
pub const BAD_PLACEHOLDER: Number = 24;
pub const DIVISION_BY_ZERO: Number = 25;

/// How often each number was given, for people to read.
#[derive(Default)]
pub struct Counts([u64; 32]);

impl Counts {
    pub fn note(&mut self, number: Number) {
        if let Some(count) = self.0.get_mut(usize::from(number)) {
            *count += 1;
        }
    }
}

impl std::fmt::Display for Counts {
    fn fmt(&self, f: &mut std::fmt::Formatter) -> std::fmt::Result {
        write!(f, "{} in all", self.0.iter().sum::<u64>())?;
        let given = self.0.iter().enumerate().filter(|(_, &count)| count > 0);
        given.into_iter().try_for_each(|(number, count)| write!(f, ", number {number}: {count}"))
    }
}
