//! What a text declares as rows in the order of the text, behind them a row for
//! each call that hands over an n, and the tones, changes and orders that the
//! rows refer to: the desk's tables, without their unused places. The README has
//! the format.

use crate::harmony::{Harmony, Positions};
use crate::measure::Pitch;
use crate::state::{Call, Change, PeriodChange, Position};
use crate::text::tree::{Amount, Called, Target, Trigger};
use crate::text::Program;

/// A sum beyond this, which leads no tone and no period back into its range,
/// is written as this.
pub const FARTHEST_SUM: i64 = 200_000_001;

pub const INTERVAL: u8 = 1;
pub const TONE: u8 = 2;
pub const SYSTEM: u8 = 3;
pub const ANCHOR: u8 = 4;
pub const WIDTH: u8 = 5;
pub const PERIOD: u8 = 6;
pub const TONES: u8 = 7;
pub const LOGIC: u8 = 8;
pub const HARMONY: u8 = 9;
/// A retuning whose n is a placeholder; calls name rows of their own for it.
pub const PATTERN: u8 = 10;

/// How many key numbers stand in one number of a harmony's row.
pub const KEYS_IN_NUMBER: usize = 30;

/// A harmony's code as a trigger is this and its declaration's number; below
/// it a code is a letter.
pub const FIRST_HARMONY_CODE: u16 = 256;

/// A declaration by its kind and its number there.
#[derive(Clone, Copy, PartialEq, Eq)]
enum Declaration {
    Interval(usize),
    Tone(usize),
    Harmony(usize),
    Called(Target),
}

/// The five numbers of a row: its form, two numbers of its own, and from where
/// to where its tones, changes or orders stand; a harmony has four numbers of
/// its own.
pub type Row = [i32; 5];

/// A tone of a tone system or a change of a tones retuning: its kind and its
/// number.
pub type Pair = (u8, i32);

/// A trigger's code, and the number of the declaration that it calls.
pub type Order = (u16, u16);

/// What the rows and lists of a program hold.
#[derive(Default)]
pub struct Lists {
    pub rows: Vec<Row>,
    pub tones: Vec<Pair>,
    pub changes: Vec<Pair>,
    pub orders: Vec<Order>,
}

impl Lists {
    pub fn of(program: &Program) -> Self {
        let mut writer = Writer {
            program,
            order: in_order(program),
            filled: Vec::new(),
            lists: Lists::default(),
        };
        for declaration in writer.order.clone() {
            writer.put(declaration);
        }
        for call in std::mem::take(&mut writer.filled) {
            writer.put_call(&call);
        }
        writer.lists
    }

    /// How many rows, tones, changes and orders there are.
    pub fn counts(&self) -> [u32; 4] {
        let lengths = [self.rows.len(), self.tones.len(), self.changes.len(), self.orders.len()];
        lengths.map(|length| length as u32)
    }
}

/// Counts, rows, tones, changes and orders, one after the other.
pub fn bytes(program: &Program) -> Vec<u8> {
    let lists = Lists::of(program);
    let mut bytes: Vec<u8> = lists.counts().iter().flat_map(|count| count.to_be_bytes()).collect();
    for [form, numbers @ ..] in &lists.rows {
        bytes.push(*form as u8);
        bytes.extend(numbers.iter().flat_map(|number| number.to_be_bytes()));
    }
    for (kind, number) in lists.tones.iter().chain(&lists.changes) {
        bytes.push(*kind);
        bytes.extend(number.to_be_bytes());
    }
    for (trigger, number) in &lists.orders {
        bytes.extend(trigger.to_be_bytes());
        bytes.extend(number.to_be_bytes());
    }
    bytes
}

/// What a refused text leaves: all counts zero.
pub fn none() -> Vec<u8> {
    vec![0; 16]
}

fn capped(sum: i64) -> i32 {
    sum.clamp(-FARTHEST_SUM, FARTHEST_SUM) as i32
}

/// The declarations in the order of the text.
fn in_order(program: &Program) -> Vec<Declaration> {
    let tree = &program.declared;
    let intervals = tree.intervals.iter().map(|d| d.name.place);
    let tones = tree.tones.iter().map(|d| d.name.place);
    let systems = tree.systems.iter().map(|d| d.name.place);
    let retunings = tree.retunings.iter().map(|d| d.name.place);
    let harmonies = tree.harmonies.iter().map(|d| d.name.place);
    let logics = tree.logics.iter().map(|d| d.name.place);
    let called = Declaration::Called;
    let mut placed: Vec<(usize, Declaration)> = Vec::new();
    placed.extend(intervals.enumerate().map(|(i, at)| (at, Declaration::Interval(i))));
    placed.extend(tones.enumerate().map(|(i, at)| (at, Declaration::Tone(i))));
    placed.extend(systems.enumerate().map(|(i, at)| (at, called(Target::System(i)))));
    placed.extend(retunings.enumerate().map(|(i, at)| (at, called(Target::Retuning(i)))));
    placed.extend(harmonies.enumerate().map(|(i, at)| (at, Declaration::Harmony(i))));
    placed.extend(logics.enumerate().map(|(i, at)| (at, called(Target::Logic(i)))));
    placed.sort_by_key(|(place, _)| *place);
    placed.into_iter().map(|(_, declaration)| declaration).collect()
}

struct Writer<'a> {
    program: &'a Program,
    order: Vec<Declaration>,
    /// What the calls so far that hand over an n do.
    filled: Vec<Call>,
    lists: Lists,
}

impl Writer<'_> {
    /// The number of a declaration in the order of the text.
    fn number(&self, wanted: Declaration) -> u16 {
        self.order.iter().position(|d| *d == wanted).unwrap_or_default() as u16
    }

    /// A letter's capital, or the code of the harmony's declaration.
    fn code(&self, trigger: &Trigger<usize>) -> u16 {
        match trigger {
            Trigger::Letter(letter) => letter.0.into(),
            Trigger::Harmony(i) => FIRST_HARMONY_CODE + self.number(Declaration::Harmony(*i)),
        }
    }

    fn put(&mut self, declaration: Declaration) {
        let program = self.program;
        match declaration {
            Declaration::Interval(i) => {
                self.row(INTERVAL, program.intervals[i].0 as i32, 0, (0, 0))
            }
            Declaration::Tone(i) => self.row(TONE, program.tones[i].0 as i32, 0, (0, 0)),
            Declaration::Harmony(i) => self.put_harmony(&program.declared.harmonies[i].form),
            Declaration::Called(Target::System(i)) => self.put_call(&program.systems[i]),
            Declaration::Called(Target::Retuning(i)) => {
                match program.retunings[i].filled(Amount::written) {
                    Some(call) => self.put_call(&call),
                    None => self.row(PATTERN, 0, 0, (0, 0)),
                }
            }
            Declaration::Called(Target::Logic(i)) => self.put_logic(i),
        }
    }

    fn row(&mut self, form: u8, first: i32, second: i32, part: (usize, usize)) {
        self.lists.rows.push([form.into(), first, second, part.0 as i32, part.1 as i32]);
    }

    fn put_call(&mut self, call: &Call) {
        match call {
            Call::Anchor(change) => self.put_change(ANCHOR, *change),
            Call::Width(change) => self.put_change(WIDTH, *change),
            Call::Period(PeriodChange::To(to)) => self.row(PERIOD, 0, capped(to.0), (0, 0)),
            Call::Period(PeriodChange::By(by)) => self.row(PERIOD, 1, capped(by.0), (0, 0)),
            Call::Tones(positions) => {
                let from = self.lists.changes.len();
                self.lists.changes.extend(positions.iter().map(|position| match position {
                    Position::Muted => (0, 0),
                    Position::By(by) => (1, capped(by.0)),
                    Position::At(pitch) => (2, capped(pitch.0)),
                }));
                self.row(TONES, 0, 0, (from, from + positions.len()));
            }
            Call::System(system) => {
                let from = self.lists.tones.len();
                let pair = |tone: &Option<Pitch>| tone.map_or((0, 0), |pitch| (1, pitch.0 as i32));
                self.lists.tones.extend(system.tones.iter().map(pair));
                let part = (from, from + system.tones.len());
                self.row(SYSTEM, system.anchor.into(), system.period.0 as i32, part);
            }
        }
    }

    fn put_change(&mut self, form: u8, change: Change) {
        let (code, n) = match change {
            Change::Kept => (0, 0),
            Change::To(n) => (1, n),
            Change::Plus(n) => (2, n),
            Change::Minus(n) => (3, n),
            Change::Times(n) => (4, n),
            Change::Over(n) => (5, n),
        };
        self.row(form, code, n.into(), (0, 0));
    }

    fn put_logic(&mut self, i: usize) {
        let form = &self.program.declared.logics[i].form;
        let trigger = self.code(&form.trigger);
        let start = form.start.map_or(0, |start| 1 + i32::from(self.called_row(&start)));
        let from = self.lists.orders.len();
        for order in &form.orders {
            let order = (self.code(&order.trigger), self.called_row(&order.called));
            self.lists.orders.push(order);
        }
        self.row(LOGIC, trigger.into(), start, (from, from + form.orders.len()));
    }

    /// The number of the row that a call names: the declaration's, or, where a
    /// placeholder is n, one of its own behind all declarations.
    fn called_row(&mut self, called: &Called<Target>) -> u16 {
        if !self.program.hands_over_n(called) {
            return self.number(Declaration::Called(called.target));
        }
        let row = self.order.len() + self.filled.len();
        self.filled.extend(self.program.call(called));
        row as u16
    }

    /// The needed and then all named key numbers, each in two sums.
    fn put_harmony(&mut self, harmony: &Harmony) {
        let [low_needed, high_needed] = sums(harmony.needed);
        let [low_named, high_named] = sums(harmony.named);
        let form = HARMONY.into();
        self.lists.rows.push([form, low_needed, high_needed, low_named, high_named]);
    }
}

/// The sum of 2^key of the keys 0 to 29, and that of 2^(key-30) of 30 to 59.
fn sums(keys: Positions) -> [i32; 2] {
    let mut sums = [0; 2];
    for key in keys.all() {
        sums[key / KEYS_IN_NUMBER] += 1 << (key % KEYS_IN_NUMBER);
    }
    sums
}

#[cfg(test)]
mod tests {
    use super::*;
    use crate::text;
    use crate::text::tests::CASE_S;

    #[test]
    fn case_s() {
        let bytes = bytes(&text::read(CASE_S.as_bytes()).unwrap());
        let counts = [0, 0, 0, 7, 0, 0, 0, 2, 0, 0, 0, 0, 0, 0, 0, 1];
        assert_eq!(bytes[..16], counts);
        // Octave, the first row
        assert_eq!(bytes[16..33], [1, 0, 0x12, 0x4F, 0x80, 0, 0, 0, 0, 0, 0, 0, 0, 0, 0, 0, 0]);
        // the order U -> Up, which is declaration 5
        assert_eq!(bytes[bytes.len() - 4..], [0, b'U', 0, 5]);
        assert_eq!(bytes.len(), 16 + 7 * 17 + 2 * 5 + 4);
    }

    /// Request 1/13: a row of its own for each call of a retuning whose n is a
    /// placeholder, behind the declarations, a start's before its orders'.
    #[test]
    fn placeholders() {
        let text = "LOGIC l KEY a = p ( 7, 0 ) [ KEY b -> q ( 9 ) KEY c -> p ( 1, 2 ) ] \
            RETUNING q ( x ) = @ - 3 [ ] p ( x, y ) = [ << @ / y >> ] r ( x ) = x [ ] \
            LOGIC m KEY m = r ( 62 ) [ KEY z -> p ( 7, 0 ) KEY y -> l ]";
        let lists = Lists::of(&text::read(text.as_bytes()).unwrap());
        let rows = [
            [8, 65, 1 + 5, 0, 2],
            [4, 3, 3, 0, 0],
            [10, 0, 0, 0, 0],
            [10, 0, 0, 0, 0],
            [8, 77, 1 + 7, 2, 4],
            [5, 5, 0, 0, 0],
            [5, 5, 2, 0, 0],
            [4, 1, 62, 0, 0],
            [5, 5, 0, 0, 0],
        ];
        assert_eq!(lists.rows, rows);
        assert_eq!(lists.orders, [(66, 1), (67, 6), (90, 8), (89, 0)]);
        assert_eq!(lists.counts(), [9, 0, 0, 4]);
    }

    #[test]
    fn harmonies() {
        let text = "LOGIC l b = [ KEY x -> l a -> l ] HARMONY a = { 59, *30, 29, *0 } b = { 1 }";
        let lists = Lists::of(&text::read(text.as_bytes()).unwrap());
        let rows = [
            [8, 256 + 2, 0, 0, 2],
            [9, 1 << 29, 1 << 29, (1 << 29) + 1, (1 << 29) + 1],
            [9, 2, 0, 2, 0],
        ];
        assert_eq!(lists.rows, rows);
        assert_eq!(lists.orders, [(b'X'.into(), 0), (256 + 1, 0)]);
    }
}
