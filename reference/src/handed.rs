//! Request 1/13: how often calls handed over an n, and what came of it.

use crate::frames::{Caller, Effect, Made};
use crate::numbers;
use crate::state::{Call, Change};
use crate::text::Program;

/// How often each came, of calls of retunings whose n is a placeholder.
#[derive(Clone, Copy, Debug, Default, PartialEq, Eq)]
pub struct Handed {
    /// Those taken, by each of the eight forms that have an n.
    taken: [u64; FORMS.len()],
    starts: u64,
    orders: u64,
    /// Division by zero.
    zero_starts: u64,
    zero_orders: u64,
    /// Calls of orders taken in a logic whose start was a division by zero.
    orders_after: u64,
    /// Whether the active logic's start was one.
    divided: bool,
}

const FORMS: [&str; 8] =
    ["n [ ]", "@+n [ ]", "@-n [ ]", "<<n>>", "<<@+n>>", "<<@-n>>", "<<@*n>>", "<<@/n>>"];

impl Handed {
    /// From the start state no logic is active.
    pub fn begin_stream(&mut self) {
        self.divided = false;
    }

    /// Counts what a frame did, or a press of a row.
    pub fn note(&mut self, program: &Program, effect: &Effect) {
        match effect.made {
            Some(made) => self.note_made(program, made),
            // A logic without a start.
            None if effect.activated.is_some() => self.divided = false,
            None => {}
        }
    }

    fn note_made(&mut self, program: &Program, made: Made) {
        let (is_taken, is_zero) =
            (made.number == numbers::DONE, made.number == numbers::DIVISION_BY_ZERO);
        if made.caller == Caller::Start {
            self.divided = is_zero;
        } else {
            self.orders_after += u64::from(self.divided && is_taken);
        }
        if !program.hands_over_n(&made.called) {
            return;
        }
        let (taken, zero) = match made.caller {
            Caller::Start => (&mut self.starts, &mut self.zero_starts),
            Caller::Order => (&mut self.orders, &mut self.zero_orders),
        };
        *taken += u64::from(is_taken);
        *zero += u64::from(is_zero);
        let form = program.call(&made.called).and_then(|call| form_of(&call));
        if let Some(count) = form.and_then(|form| self.taken.get_mut(form)) {
            *count += u64::from(is_taken);
        }
    }

    /// Those taken.
    pub fn taken(&self) -> u64 {
        self.starts + self.orders
    }

    /// Divisions by zero.
    pub fn zeros(&self) -> u64 {
        self.zero_starts + self.zero_orders
    }

    /// How often the rarest of all came.
    pub fn rarest(&self) -> u64 {
        let Handed { starts, orders, zero_starts, zero_orders, orders_after, .. } = *self;
        let counts = [starts, orders, zero_starts, zero_orders, orders_after];
        counts.into_iter().chain(self.taken).min().unwrap_or_default()
    }
}

/// Which of the eight forms a call has.
fn form_of(call: &Call) -> Option<usize> {
    match call {
        Call::Anchor(Change::To(_)) => Some(0),
        Call::Anchor(Change::Plus(_)) => Some(1),
        Call::Anchor(Change::Minus(_)) => Some(2),
        Call::Width(Change::To(_)) => Some(3),
        Call::Width(Change::Plus(_)) => Some(4),
        Call::Width(Change::Minus(_)) => Some(5),
        Call::Width(Change::Times(_)) => Some(6),
        Call::Width(Change::Over(_)) => Some(7),
        _ => None,
    }
}

impl std::fmt::Display for Handed {
    fn fmt(&self, f: &mut std::fmt::Formatter) -> std::fmt::Result {
        let forms = FORMS.iter().zip(self.taken).map(|(form, count)| format!("{form} {count}"));
        write!(
            f,
            "calls with an n handed over, taken: {} by starts, {} by orders ({}); 25: {} at starts, \
             {} at orders; orders taken after 25 at the start: {}",
            self.starts,
            self.orders,
            forms.collect::<Vec<_>>().join(", "),
            self.zero_starts,
            self.zero_orders,
            self.orders_after
        )
    }
}

#[cfg(test)]
mod tests {
    use super::*;
    use crate::frames::Desk;
    use crate::text;

    #[test]
    fn one_of_each() {
        let text = "RETUNING A ( x ) = x [ ] P ( x ) = @ + x [ ] M ( x ) = @ - x [ ] \
            W ( x ) = [ << x >> ] U ( x ) = [ << @ + x >> ] D ( x ) = [ << @ - x >> ] \
            T ( x ) = [ << @ * x >> ] O ( x ) = [ << @ / x >> ] N ( x ) = @ [ ] \
            LOGIC L KEY L = O ( 0 ) [ KEY B -> P ( 1 ) KEY C -> M ( 1 ) KEY D -> W ( 12 ) \
            KEY E -> U ( 1 ) KEY F -> D ( 1 ) KEY G -> T ( 1 ) KEY H -> O ( 1 ) KEY I -> O ( 0 ) \
            KEY J -> N ( 0 ) ] M KEY M = A ( 62 ) [ KEY B -> P ( 2 ) ] N KEY N = [ ]";
        let mut desk = Desk::new(text::read(text.as_bytes()).unwrap());
        let mut handed = Handed::default();
        for letter in "LBCDEFGHIJMBLNB".bytes() {
            desk.answer(format!("0101{letter:02X}").as_bytes(), &mut Vec::new());
            desk.effects().iter().for_each(|effect| handed.note(desk.program(), effect));
        }
        let expected = Handed {
            taken: [1, 2, 1, 1, 1, 1, 1, 1],
            starts: 1,
            orders: 8,
            zero_starts: 2,
            zero_orders: 1,
            orders_after: 8,
            divided: false,
        };
        assert_eq!(handed, expected);
        assert_eq!((handed.taken(), handed.zeros(), handed.rarest()), (9, 3, 1));
    }
}
