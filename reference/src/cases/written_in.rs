//! "So called it must act as the same retuning with those numbers written in":
//! composed texts with placeholders, beside the same texts in which each call has
//! a retuning of its own without any. Both are answered alike; what is written
//! in, is written into the symbols of the text.

use super::compose::{compose, Plan};
use super::sketch::{render, Kind, Part, Token};
use super::streams;
use crate::desk;
use crate::numbers;
use crate::random::Random;
use crate::text;
use std::collections::HashMap;

const PLAN: Plan = Plan {
    intervals: 6,
    tones: 6,
    systems: 2,
    retunings: 10,
    harmonies: 4,
    logics: 4,
    orders: 10,
    positions: 12,
    terms: 3,
    musical: true,
    far: false,
    first_muted: true,
    placeholders: 80,
};

/// A retuning's placeholders, and the symbols behind its `=`.
struct Pattern {
    placeholders: Vec<Vec<u8>>,
    form: Vec<Token>,
}

impl Pattern {
    /// The form with the numbers for the placeholders.
    fn filled(&self, numbers: &[Token]) -> Vec<Token> {
        let number = |used: &Token| {
            let place = self.placeholders.iter().position(|name| *name == used.bytes)?;
            numbers.get(place).cloned()
        };
        let written = |token: &Token| match token.part {
            Part::Amount => number(token).unwrap(),
            _ => token.clone(),
        };
        self.form.iter().map(written).collect()
    }
}

/// The symbols in brackets at the front of these, without their commas.
fn bracketed(tokens: &[Token]) -> Option<Vec<Token>> {
    let inside = tokens.strip_prefix(&[Token::mark("(")])?;
    let inside = inside.iter().take_while(|token| token.bytes != b")");
    Some(inside.filter(|token| token.bytes != b",").cloned().collect())
}

/// The symbols of a text with placeholders, written without them.
struct Writer<'a> {
    tokens: &'a [Token],
    patterns: HashMap<Vec<u8>, Pattern>,
    text: Vec<Token>,
    /// The retunings that calls have of their own.
    own: Vec<Token>,
    calls: usize,
}

impl<'a> Writer<'a> {
    fn new(tokens: &'a [Token]) -> Self {
        let (text, own) = (Vec::new(), vec![Token::word("RETUNING")]);
        let mut writer = Writer { tokens, patterns: HashMap::new(), text, own, calls: 0 };
        for (place, token) in tokens.iter().enumerate() {
            if token.part == Part::Declared(Kind::Retuning) {
                writer.keep_pattern(token, &tokens[place + 1..]);
            }
        }
        writer
    }

    fn keep_pattern(&mut self, name: &Token, behind: &[Token]) {
        let Some(names) = bracketed(behind) else {
            return;
        };
        let form = behind.iter().skip_while(|token| token.bytes != b"=").skip(1);
        let form = form.take_while(|token| !matches!(token.part, Part::Declared(_) | Part::Word));
        let placeholders = names.into_iter().map(|name| name.bytes).collect();
        let pattern = Pattern { placeholders, form: form.cloned().collect() };
        self.patterns.insert(name.bytes.clone(), pattern);
    }

    fn write(mut self) -> Vec<Token> {
        let mut place = 0;
        while let Some(token) = self.tokens.get(place) {
            place += match (token.part, bracketed(&self.tokens[place + 1..])) {
                (Part::Declared(Kind::Retuning), Some(_)) => self.put_unused(token),
                (Part::Called, Some(numbers)) => self.put_call(token, &numbers),
                _ => {
                    self.text.push(token.clone());
                    1
                }
            };
        }
        if self.calls > 0 {
            self.text.append(&mut self.own);
        }
        self.text
    }

    /// Nothing calls what had placeholders any more; tells how many symbols it
    /// had.
    fn put_unused(&mut self, name: &Token) -> usize {
        let pattern = &self.patterns[&name.bytes];
        self.text.push(name.clone());
        self.text.extend(["=", "@", "[", "]"].map(Token::mark));
        let brackets = 2 * pattern.placeholders.len() + 1;
        1 + brackets + 1 + pattern.form.len()
    }

    /// A call of a retuning of its own; tells how many symbols the call had.
    fn put_call(&mut self, name: &Token, numbers: &[Token]) -> usize {
        let own = format!("own{}", self.calls);
        self.calls += 1;
        self.text.push(Token::new(Part::Called, &own));
        self.own.extend([Token::declared(Kind::Retuning, &own), Token::mark("=")]);
        self.own.extend(self.patterns[&name.bytes].filled(numbers));
        1 + 2 * numbers.len() + 1
    }
}

/// How a seeded text fared, with its calls.
#[derive(Default)]
struct Fared {
    alike: usize,
    /// Those with a zero for `/`, which can't be written in.
    zeros: usize,
    calls: usize,
}

impl Fared {
    fn compare(&mut self, random: &mut Random) {
        let tokens = compose(random, PLAN);
        let handing = render(random, &tokens);
        if text::read(&handing).is_err() {
            return;
        }
        let tokens = Writer::new(&tokens).write();
        let written = render(random, &tokens);
        if let Err(refusal) = text::read(&written) {
            assert_eq!(refusal.number, numbers::OUT_OF_RANGE);
            let before = String::from_utf8_lossy(&written[..refusal.place]).into_owned();
            let symbols: String = before.split('"').step_by(2).collect();
            assert!(symbols.trim_end().ends_with('/'), "{symbols}");
            self.zeros += 1;
            return;
        }
        assert!(tokens.iter().all(|token| token.bytes != b"("));
        let frames = streams::frames(random, &handing);
        // Going over all tables before each frame takes its time.
        let validate = random.percent(5);
        assert_eq!(answers(&handing, &frames, validate), answers(&written, &frames, validate));
        self.alike += 1;
        self.calls += tokens.iter().filter(|token| token.bytes.starts_with(b"own")).count() / 2;
    }
}

fn answers(text: &[u8], frames: &[u8], validate: bool) -> String {
    let mut answers = Vec::new();
    desk::run(text, validate, frames, &mut answers).unwrap();
    String::from_utf8(answers).unwrap()
}

#[test]
fn calls_act_as_if_their_numbers_were_written_in() {
    let mut fared = Fared::default();
    for index in 0..400 {
        fared.compare(&mut Random::for_case(11, index));
    }
    let Fared { alike, zeros, calls } = fared;
    assert!(alike > 300 && zeros > 20 && calls > 3_000, "{alike} {zeros} {calls}");
}
