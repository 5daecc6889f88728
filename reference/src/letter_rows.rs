//! Request 3/13: how often rows of letters came, good ones and bad ones, and what
//! was in them.

use crate::frames::{frame_bytes, Caller, Desk, Effect, LONGEST_FRAME, LONGEST_ROW};
use crate::numbers::{self, Number};

/// How often each came, of lines of kind 04.
#[derive(Clone, Copy, Debug, Default, PartialEq, Eq)]
pub struct LetterRows {
    good: [u64; GOOD.len()],
    bad: [u64; BAD.len()],
}

/// What is counted of rows that are frames.
const GOOD: [&str; 12] = [
    "of house 1",
    "of house 2",
    "of 1 letter",
    "of 2",
    "of 31",
    "of 32",
    "with 21 before a taken press",
    "with 10 to 14 before one",
    "with 25 before one",
    "with an order of a logic that became active in them",
    "with two calls taken",
    "with held keys that an analysis would find bound",
];

/// Why the others are none.
#[derive(Clone, Copy, Debug, PartialEq, Eq)]
enum Fault {
    Odd,
    NoDigit,
    NoCount,
    Zero,
    Above,
    Few,
    Many,
    Letter,
    House,
    /// A whole row of 32 and something behind it.
    Longer,
}

/// The faults in words, in their order.
const BAD: [&str; 10] = [
    "an odd number of digits",
    "a byte that is no digit",
    "no count",
    "count 0",
    "count above 32 and so many letters",
    "too few letters",
    "too many letters",
    "a wrong letter",
    "a wrong house",
    "32 letters and something behind them",
];

impl LetterRows {
    /// Counts a line that the desk has answered. `before` is the logic that was
    /// active before it.
    pub fn note(&mut self, line: &[u8], before: Option<usize>, desk: &Desk) {
        if !is_of_kind_04(line) {
            return;
        }
        if let Some(fault) = fault_of(line) {
            self.bad[fault as usize] += 1;
            return;
        }
        let effects = desk.effects();
        let (letters, house) = (effects.len(), line.get(1));
        let met = [
            house == Some(&b'1'),
            house == Some(&b'2'),
            letters == 1,
            letters == 2,
            letters == 31,
            letters == 32,
            has_before_taken(effects, |number| number == numbers::UNBOUND_LETTER),
            has_before_taken(effects, |number| {
                (numbers::BAD_ANCHOR..=numbers::BAD_TONE).contains(&number)
            }),
            has_before_taken(effects, |number| number == numbers::DIVISION_BY_ZERO),
            has_order_of_new_logic(effects, before),
            effects.iter().filter(|effect| effect.is_taken()).count() > 1,
            desk.held().all().next().is_some() && desk.has_bound_chord(),
        ];
        for (count, met) in self.good.iter_mut().zip(met) {
            *count += u64::from(met);
        }
    }

    /// All good rows: each is one of the two houses'.
    fn good(&self) -> u64 {
        self.good[0] + self.good[1]
    }

    /// The rarest of all, and how often it came.
    pub fn rarest(&self) -> (u64, &'static str) {
        let counts = self.good.into_iter().chain(self.bad);
        let all = counts.zip(GOOD.into_iter().chain(BAD));
        all.min().unwrap_or_default()
    }
}

/// Whether a line's second byte is 04, whatever the others are.
fn is_of_kind_04(line: &[u8]) -> bool {
    line.get(2..4) == Some(b"04")
}

/// "22 for a wrong count or letter": why a line of kind 04 is no frame.
fn fault_of(line: &[u8]) -> Option<Fault> {
    let full = line.get(..LONGEST_FRAME).filter(|_| line.len() > LONGEST_FRAME);
    if full.is_some_and(|full| fault_of(full).is_none()) {
        return Some(Fault::Longer);
    }
    if line.len() % 2 == 1 {
        return Some(Fault::Odd);
    }
    let Some(bytes) = frame_bytes(line) else {
        return Some(Fault::NoDigit);
    };
    let [house, _, count, ref letters @ ..] = bytes[..] else {
        return Some(Fault::NoCount);
    };
    let count = usize::from(count);
    match letters.len() {
        _ if count == 0 => Some(Fault::Zero),
        length if length < count => Some(Fault::Few),
        length if length > count => Some(Fault::Many),
        _ if count > LONGEST_ROW => Some(Fault::Above),
        _ if !letters.iter().all(u8::is_ascii_uppercase) => Some(Fault::Letter),
        _ if !(1..=2).contains(&house) => Some(Fault::House),
        _ => None,
    }
}

/// Whether a press has such a number, and one behind it makes a call that is
/// taken.
fn has_before_taken(effects: &[Effect], is_such: impl Fn(Number) -> bool) -> bool {
    let behind = effects.iter().skip_while(|effect| !is_such(effect.number));
    behind.skip(1).any(Effect::is_taken)
}

/// Whether another logic than before the row becomes active, and then an order
/// of it makes a call.
fn has_order_of_new_logic(effects: &[Effect], before: Option<usize>) -> bool {
    let mut active = before;
    effects.iter().any(|effect| {
        active = effect.activated.or(active);
        let is_order = effect.made.is_some_and(|made| made.caller == Caller::Order);
        is_order && active != before
    })
}

impl std::fmt::Display for LetterRows {
    fn fmt(&self, f: &mut std::fmt::Formatter) -> std::fmt::Result {
        let listed = |names: &[&str], counts: &[u64]| {
            let pairs = names.iter().zip(counts).map(|(name, count)| format!("{name}: {count}"));
            pairs.collect::<Vec<_>>().join(", ")
        };
        writeln!(f, "{} rows of letters, {}", self.good(), listed(&GOOD, &self.good))?;
        write!(f, "bad rows, by cause: {}", listed(&BAD, &self.bad))
    }
}

#[cfg(test)]
mod tests {
    use super::*;
    use crate::cases::streams;
    use crate::text;

    #[test]
    fn each_cause() {
        let row = |count: usize, letters: &str| format!("0104{count:02X}{letters}");
        let full = row(32, &"55".repeat(32));
        for (line, fault) in [
            (row(1, "55"), None),
            (full.clone(), None),
            (row(2, "555"), Some(Fault::Odd)),
            (row(1, "4d"), Some(Fault::NoDigit)),
            ("0104".to_string(), Some(Fault::NoCount)),
            (row(0, ""), Some(Fault::Zero)),
            (row(0, "55"), Some(Fault::Zero)),
            (row(33, &"55".repeat(33)), Some(Fault::Above)),
            (row(33, &"55".repeat(32)), Some(Fault::Few)),
            (row(31, &"55".repeat(32)), Some(Fault::Many)),
            (row(2, "5540"), Some(Fault::Letter)),
            (row(2, "5B55"), Some(Fault::Letter)),
            ("03040155".to_string(), Some(Fault::House)),
            (format!("{full}5"), Some(Fault::Longer)),
            (format!("{full}\r"), Some(Fault::Longer)),
            (format!("{full}55"), Some(Fault::Longer)),
        ] {
            assert_eq!(fault_of(line.as_bytes()), fault, "{line}");
            assert!(is_of_kind_04(line.as_bytes()));
        }
        assert!(!is_of_kind_04(b"010104") && !is_of_kind_04(b"010"));
    }

    /// A row is refused for one of these causes, or taken.
    #[test]
    fn causes_and_answers() {
        let mut desk = Desk::new(text::read(b"").unwrap());
        let mut refused = [0; 2];
        for index in 0..200 {
            let frames = streams::pair(11, index).frames;
            for line in frames.split(|&byte| byte == b'\n').filter(|line| is_of_kind_04(line)) {
                desk.answer(line, &mut Vec::new());
                let is_bad = desk.effects()[0].number == numbers::BAD_FRAME;
                assert_eq!(fault_of(line).is_some(), is_bad, "{line:?}");
                refused[usize::from(is_bad)] += 1;
            }
        }
        assert!(refused[0] > 300 && refused[1] > 100, "{refused:?}");
    }

    #[test]
    fn what_is_in_a_row() {
        let text = "HARMONY C = { 0 } RETUNING Far = 200 [ ] Up = @ + 12 [ ] Down = @ - 12 [ ] \
            O ( n ) = [ << @ / n >> ] LOGIC L KEY L = Far [ KEY U -> Up KEY O -> O ( 0 ) C -> Up ] \
            M KEY M = [ KEY U -> Up KEY D -> Down ]";
        let mut desk = Desk::new(text::read(text.as_bytes()).unwrap());
        let mut rows = LetterRows::default();
        for line in [
            "0104014C",
            "0104034C5555",
            "01053C",
            "0204034F554F",
            "0204024D55",
            "0204025844",
            "0104024D40",
        ] {
            let before = desk.active();
            desk.answer(line.as_bytes(), &mut Vec::new());
            rows.note(line.as_bytes(), before, &desk);
        }
        assert_eq!(rows.good, [2, 3, 1, 2, 0, 0, 1, 1, 1, 1, 1, 1]);
        assert_eq!((rows.good(), rows.bad[Fault::Letter as usize]), (5, 1));
        assert_eq!(rows.rarest().0, 0);
    }
}
