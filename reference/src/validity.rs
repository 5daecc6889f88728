//! Number 23 of document 01: "a table's or state's number out of range, or a
//! reference beyond its count", "Unused places of tables and states are zero,
//! else 23". The tables are of full size, as the desk is lent them. A text that
//! was read never has such a number; the test is here to be timed.

use crate::frames::Desk;
use crate::rows::{self, Lists, Order, Pair, Row, FARTHEST_SUM};
use crate::state::{State, ANCHORS, CHANGES, PERIODS, POSITIONS, VALUES, WIDTHS};
use crate::text::Program;

/// "intervals, tones | 256 each", "tone systems, logics | 32 each", "retunings |
/// 128", "positions in one list | 60", "orders in all logics together | 512";
/// "at most 64 harmonies". Beside the declared retunings stands one more for
/// each start and each order, which may hand over an n.
const MOST: [usize; 6] = [256, 256, 32, 128 + 32 + ORDERS, 32, 64];
const ROWS: usize = MOST[0] + MOST[1] + MOST[2] + MOST[3] + MOST[4] + MOST[5];
const TONES: usize = 32 * POSITIONS;
const CHANGES_IN_ALL: usize = 128 * POSITIONS;
const ORDERS: usize = 512;

const UNUSED: Row = [0; 5];

/// Tables of full size: what is not used is zero.
pub struct Tables {
    lists: Lists,
    used: [usize; 4],
}

impl Tables {
    pub fn of(program: &Program) -> Self {
        let mut lists = Lists::of(program);
        let used = lists.counts().map(|count| count as usize);
        lists.rows.resize(ROWS, UNUSED);
        lists.tones.resize(TONES, (0, 0));
        lists.changes.resize(CHANGES_IN_ALL, (0, 0));
        lists.orders.resize(ORDERS, (0, 0));
        Tables { lists, used }
    }

    fn is_valid(&self) -> bool {
        let Lists { rows, tones, changes, orders } = &self.lists;
        let [row_count, tone_count, change_count, order_count] = self.used;
        let has_sizes = rows.len() == ROWS
            && tones.len() == TONES
            && changes.len() == CHANGES_IN_ALL
            && orders.len() == ORDERS;
        let has_room = row_count <= ROWS
            && tone_count <= TONES
            && change_count <= CHANGES_IN_ALL
            && order_count <= ORDERS;
        has_sizes
            && has_room
            && rows.iter().take(row_count).all(|row| self.is_row(row))
            && self.is_laid_out()
            && rows.iter().skip(row_count).all(|row| *row == UNUSED)
            && is_list(tones, tone_count, 1, |number| VALUES.contains(&number.into()))
            && is_list(changes, change_count, 2, is_sum)
            && orders.iter().take(order_count).all(|order| self.is_order(order))
            && orders.iter().skip(order_count).all(|order| *order == (0, 0))
    }

    /// No more declarations of a kind than allowed; and the positions and orders
    /// of rows stand one row's after the other's, none left over.
    fn is_laid_out(&self) -> bool {
        let mut kinds = [0; 6];
        let mut ends = [0; 3];
        for &[form, _, _, from, to] in self.lists.rows.iter().take(self.used[0]) {
            let (kind, list) = match u8::try_from(form) {
                Ok(rows::INTERVAL) => (0, None),
                Ok(rows::TONE) => (1, None),
                Ok(rows::SYSTEM) => (2, Some(0)),
                Ok(rows::TONES) => (3, Some(1)),
                Ok(rows::LOGIC) => (4, Some(2)),
                Ok(rows::HARMONY) => (5, None),
                _ => (3, None),
            };
            kinds[kind] += 1;
            let Some(list) = list else { continue };
            if from != ends[list] {
                return false;
            }
            ends[list] = to;
        }
        let counts = self.used.map(|count| count as i32);
        kinds.iter().zip(MOST).all(|(count, most)| *count <= most) && counts[1..] == ends
    }

    fn is_row(&self, row: &Row) -> bool {
        let &[form, first, second, from, to] = row;
        let [_, tones, changes, orders] = self.used;
        let has_none = from == 0 && to == 0;
        let has = |least: usize, most: usize, count: usize| {
            let (Ok(from), Ok(to)) = (usize::try_from(from), usize::try_from(to)) else {
                return false;
            };
            from + least <= to && to <= from + most && to <= count
        };
        match u8::try_from(form) {
            Ok(rows::INTERVAL | rows::TONE) => {
                VALUES.contains(&first.into()) && second == 0 && has_none
            }
            Ok(rows::SYSTEM) => {
                ANCHORS.contains(&first.into())
                    && PERIODS.contains(&second.into())
                    && has(1, POSITIONS, tones)
            }
            Ok(rows::ANCHOR) => is_amount(3, first, second) && has_none,
            Ok(rows::WIDTH) => is_amount(5, first, second) && has_none,
            Ok(rows::PERIOD) => (0..=1).contains(&first) && is_sum(second) && has_none,
            Ok(rows::TONES) => first == 0 && second == 0 && has(1, POSITIONS, changes),
            Ok(rows::LOGIC) => {
                self.is_trigger(first)
                    && (second == 0 || self.has_form(second - 1, rows::SYSTEM, rows::TONES))
                    && has(0, ORDERS, orders)
            }
            Ok(rows::HARMONY) => [first, second, from, to].into_iter().all(is_set),
            Ok(rows::PATTERN) => first == 0 && second == 0 && has_none,
            _ => false,
        }
    }

    fn is_order(&self, &(trigger, called): &Order) -> bool {
        self.is_trigger(trigger.into()) && self.has_form(called.into(), rows::SYSTEM, rows::LOGIC)
    }

    /// A letter, or the code of a harmony's declaration.
    fn is_trigger(&self, code: i32) -> bool {
        let harmony = code - i32::from(rows::FIRST_HARMONY_CODE);
        is_letter(code) || self.has_form(harmony, rows::HARMONY, rows::HARMONY)
    }

    /// A reference to a used row of a form from one to another.
    fn has_form(&self, number: i32, first: u8, last: u8) -> bool {
        let mut used = self.lists.rows.iter().take(self.used[0]);
        let row = usize::try_from(number).ok().and_then(|number| used.nth(number));
        row.is_some_and(|row| (i32::from(first)..=i32::from(last)).contains(&row[0]))
    }
}

/// The used ones have a kind and a number in its range, 0 where the kind is 0;
/// the others are zero.
fn is_list(list: &[Pair], used: usize, last: u8, is_number: impl Fn(i32) -> bool) -> bool {
    let is_pair =
        |(kind, number): &Pair| *kind <= last && is_number(*number) && (*kind != 0 || *number == 0);
    list.iter().take(used).all(is_pair) && list.iter().skip(used).all(|pair| *pair == (0, 0))
}

fn is_amount(last: i32, code: i32, n: i32) -> bool {
    (0..=last).contains(&code)
        && u16::try_from(n).is_ok_and(|n| CHANGES.contains(&n))
        && (code != 0 || n == 0)
}

fn is_sum(number: i32) -> bool {
    i64::from(number).abs() <= FARTHEST_SUM
}

/// A sum of powers of two, one for each key number.
fn is_set(number: i32) -> bool {
    (0..1 << rows::KEYS_IN_NUMBER).contains(&number)
}

fn is_letter(number: i32) -> bool {
    u8::try_from(number).is_ok_and(|letter| letter.is_ascii_uppercase())
}

pub fn is_valid(tables: &Tables, desk: &Desk) -> bool {
    let logics = desk.program().declared.logics.len();
    tables.is_valid()
        && is_valid_state(desk.state())
        && desk.active().is_none_or(|logic| logic < logics)
}

fn is_valid_state(state: &State) -> bool {
    let unused = state.tones.iter().skip(state.width);
    ANCHORS.contains(&state.anchor.0)
        && WIDTHS.contains(&(state.width as i64))
        && state.tones.iter().flatten().all(|pitch| VALUES.contains(&pitch.0))
        && unused.into_iter().all(Option::is_none)
        && PERIODS.contains(&state.period.0)
}

#[cfg(test)]
mod tests {
    use super::*;
    use crate::text;
    use crate::text::tests::CASE_S;

    #[test]
    fn tables_of_a_text_are_valid_until_damaged() {
        let mut tables = Tables::of(&text::read(CASE_S.as_bytes()).unwrap());
        assert!(tables.is_valid());
        tables.lists.changes[CHANGES_IN_ALL - 1].1 = 1;
        assert!(!tables.is_valid());
        tables.lists.changes[CHANGES_IN_ALL - 1].1 = 0;
        tables.lists.rows[4][4] = 3;
        assert!(!tables.is_valid());
    }

    #[test]
    fn harmonies_and_triggers_are_valid_until_damaged() {
        let text = "HARMONY a = { 0, *59 } LOGIC l a = [ a -> l KEY x -> l ] INTERVAL o = 2:1";
        let sound = || Tables::of(&text::read(text.as_bytes()).unwrap());
        assert!(sound().is_valid());
        let damages: [fn(&mut Tables); 9] = [
            |tables| tables.lists.rows[0][1] = -1,
            |tables| tables.lists.rows[0][4] = 1 << 30,
            |tables| tables.lists.rows[1][1] = 256 + 2,
            |tables| tables.lists.rows[1][1] = 256 + 3,
            |tables| tables.lists.rows[1][2] = 1,
            |tables| tables.lists.orders[0].0 = 255,
            |tables| tables.lists.orders[0].0 = 256 + 1,
            |tables| tables.lists.orders[1].1 = 0,
            |tables| tables.lists.orders[2].0 = 256,
        ];
        for (i, damage) in damages.into_iter().enumerate() {
            let mut tables = sound();
            damage(&mut tables);
            assert!(!tables.is_valid(), "damage {i}");
        }
    }

    #[test]
    fn a_harmony_too_many_is_damage() {
        let mut tables = Tables::of(&text::read(b"").unwrap());
        tables.lists.rows[..65].fill([9, 0, 0, 1, 0]);
        tables.used[0] = 65;
        assert!(!tables.is_valid());
        tables.lists.rows[64] = UNUSED;
        tables.used[0] = 64;
        assert!(tables.is_valid());
    }

    #[test]
    fn patterns_are_valid_until_damaged() {
        let text =
            "RETUNING a ( x ) = [ << @ / x >> ] LOGIC l KEY l = a ( 0 ) [ KEY m -> a ( 9999 ) ]";
        let sound = || Tables::of(&text::read(text.as_bytes()).unwrap());
        assert!(sound().is_valid());
        let damages: [fn(&mut Tables); 9] = [
            |tables| tables.lists.rows[0][1] = 1,
            |tables| tables.lists.rows[0][2] = 1,
            |tables| tables.lists.rows[0][3] = 1,
            |tables| tables.lists.rows[0][4] = 1,
            |tables| tables.lists.rows[0][0] = 11,
            |tables| tables.lists.rows[1][2] = 1,
            |tables| tables.lists.orders[0].1 = 0,
            |tables| tables.lists.rows[2][2] = -1,
            |tables| tables.lists.rows[3][2] = 10_000,
        ];
        for (i, damage) in damages.into_iter().enumerate() {
            let mut tables = sound();
            damage(&mut tables);
            assert!(!tables.is_valid(), "damage {i}");
        }
    }

    /// 128 declared retunings and 544 filled in, patterns among them.
    #[test]
    fn a_retuning_too_many_is_damage() {
        for row in [[10, 0, 0, 0, 0], [5, 5, 0, 0, 0], [6, 1, 0, 0, 0]] {
            let mut tables = Tables::of(&text::read(b"").unwrap());
            tables.lists.rows[..672].fill(row);
            tables.used[0] = 672;
            assert!(tables.is_valid());
            tables.lists.rows[672] = row;
            tables.used[0] = 673;
            assert!(!tables.is_valid());
        }
    }

    /// All that a text can declare, and each start and order with a row of its
    /// own.
    #[test]
    fn tables_without_an_unused_row_are_valid() {
        let declared = |count: usize, form: &str| -> String {
            (0..count).map(|i| format!("n{i}{form} ")).collect()
        };
        let orders = "KEY b->n1(2)".repeat(16);
        let text = format!(
            "INTERVAL {}TONE {}TONESYSTEM {}RETUNING {}HARMONY {}LOGIC {}",
            declared(256, "=1:1"),
            declared(256, "=440"),
            declared(32, "=0[,]n0"),
            declared(128, "(x)=@+x[]"),
            declared(64, "={0}"),
            declared(32, &format!(" KEY a=n0(1)[{orders}]")),
        );
        let tables = Tables::of(&text::read(text.as_bytes()).unwrap());
        assert_eq!((tables.used[0], tables.used[3]), (1_312, 512));
        assert_eq!(tables.lists.rows[1_311], [4, 2, 2, 0, 0]);
        assert!(tables.is_valid());
    }

    #[test]
    fn a_logic_too_many_and_orders_of_two_logics_are_damage() {
        let mut tables = Tables::of(&text::read(CASE_S.as_bytes()).unwrap());
        let used = tables.used[0];
        let empty = [i32::from(rows::LOGIC), 65, 0, 1, 1];
        for row in &mut tables.lists.rows[used..used + 31] {
            *row = empty;
        }
        tables.used[0] = used + 31;
        assert!(tables.is_valid());
        tables.lists.rows[used][3] = 0;
        assert!(!tables.is_valid());
        tables.lists.rows[used][3] = 1;
        tables.lists.rows[used + 31] = empty;
        tables.used[0] = used + 32;
        assert!(!tables.is_valid());
    }
}
