//! Texts that are right: declarations of all kinds, composed at random with
//! their values in view, so that most stay in range.

use super::harmonies::{self, Item};
use super::shuffle;
use super::sketch::{kind_word, Kind, Part, Quantity, Token, KINDS};
use crate::measure::{self, Degree, Interval, Pitch, TenThousandths};
use crate::random::Random;
use crate::state::{PERIODS, VALUES};
use std::collections::HashMap;
use std::num::NonZeroU32;
use std::ops::Range;

/// Numbers whose measure is more than half a thousandth of a cent from the
/// truth: in hertz, above it, and as a ratio, above it or below it.
const FAR_FREQUENCIES: [u64; 4] = [11_530_000, 23_060_000, 46_120_000, 52_690_000];
const FAR_RATIOS: [(u64, u64); 4] = [(77, 69), (69, 77), (123, 14), (14, 123)];

/// "At the start: anchor 60, width 12".
const START_WIDTH: usize = 12;

/// How many in a hundred first positions are muted where a plan wants that.
const FIRST_MUTED: u32 = 12;

/// How many declarations of each kind a text shall have, and orders in each
/// logic, at most.
#[derive(Clone, Copy, Debug)]
pub struct Plan {
    pub intervals: usize,
    pub tones: usize,
    pub systems: usize,
    pub retunings: usize,
    pub harmonies: usize,
    pub logics: usize,
    pub orders: usize,
    /// The longest list of positions and the longest sum.
    pub positions: usize,
    pub terms: usize,
    /// Whether numbers are such as make music, rather than any.
    pub musical: bool,
    /// Whether those that are measured worst are among them.
    pub far: bool,
    /// Whether first positions are often muted, and anchors moved by whole
    /// widths.
    pub first_muted: bool,
    /// How many in a hundred retunings have placeholders.
    pub placeholders: u32,
}

/// The symbols of a text by this plan.
pub fn compose(random: &mut Random, plan: Plan) -> Vec<Token> {
    let mut composer = Composer::new(random, plan);
    let kinds = [
        composer.intervals(),
        composer.tones(),
        composer.systems(),
        composer.retunings(),
        composer.harmonies(),
        composer.logics(),
    ];
    arrange(random, kinds)
}

type Declaration = Vec<Token>;

/// Parts the declarations of each kind into blocks and puts these in some
/// order: "names may be used before they are declared".
fn arrange(random: &mut Random, kinds: [Vec<Declaration>; KINDS.len()]) -> Vec<Token> {
    let shuffled = random.percent(50);
    let mut blocks = Vec::new();
    for (kind, mut declarations) in KINDS.into_iter().zip(kinds) {
        if shuffled {
            shuffle(random, &mut declarations);
        }
        while !declarations.is_empty() {
            let most = declarations.len();
            let count = if random.percent(70) { most } else { 1 + random.below(most) };
            let rest = declarations.split_off(count);
            let mut block = vec![kind_word(random, kind)];
            block.extend(declarations.into_iter().flatten());
            blocks.push(block);
            declarations = rest;
        }
    }
    if shuffled {
        shuffle(random, &mut blocks);
    }
    blocks.into_iter().flatten().collect()
}

/// A declared name and its value.
#[derive(Clone, Debug)]
struct Known<V> {
    name: String,
    value: V,
}

/// A placeholder, and the numbers that its retuning is made for.
#[derive(Clone, Debug)]
struct Placeholder {
    name: String,
    fits: Range<u64>,
}

struct Composer<'a> {
    random: &'a mut Random,
    plan: Plan,
    intervals: Vec<Known<Interval>>,
    tones: Vec<Known<Pitch>>,
    systems: Vec<String>,
    /// The start's width and those of the tone systems.
    widths: Vec<usize>,
    retunings: Vec<String>,
    /// The placeholders of the retuning under way, and those of earlier ones.
    brackets: Vec<Placeholder>,
    earlier_brackets: HashMap<String, Vec<Placeholder>>,
    harmonies: Vec<String>,
    logics: Vec<String>,
}

const NAMES: &str = "Octave Fifth Third Quinte Terz Oktave Halbton cent Syn_Komma c cis d e f' a \
    h'' _ Tontaube Two Up Distance keys L zz";

/// The names of a kind: the first ones without, the others with their number,
/// so that none stands twice.
fn fresh_names(random: &mut Random, count: usize) -> Vec<String> {
    let mut names: Vec<&str> = NAMES.split_whitespace().collect();
    shuffle(random, &mut names);
    let short = random.percent(30);
    let name = |number: usize| match names.get(number) {
        _ if short => format!("x{number}"),
        Some(name) => name.to_string(),
        None => format!("{}{number}", random.pick(&names, "x")),
    };
    (0..count).map(name).collect()
}

/// Numbers as they are written.
impl Composer<'_> {
    /// A whole number, now and then with zeros in front or in hexadecimal.
    fn whole(&mut self, quantity: Quantity, value: u64) -> Token {
        let text = match self.random.below(20) {
            0 => format!("#{value:x}"),
            1 => format!("#{value:X}"),
            2 => format!("000{value}"),
            _ => value.to_string(),
        };
        Token::number(quantity, &text)
    }

    /// A number in ten-thousandths; whole ones may be written as such.
    fn decimal(&mut self, value: TenThousandths) -> Token {
        let (whole, fraction) = (value.get() / 10_000, value.get() % 10_000);
        if fraction == 0 && !self.random.percent(5) {
            return self.whole(Quantity::Decimal, whole.into());
        }
        let mut text = format!("{whole}.{fraction:04}");
        if !self.random.percent(10) {
            let least = text.find('.').map_or(0, |point| point + 2);
            while text.len() > least && text.ends_with('0') {
                text.pop();
            }
        }
        Token::number(Quantity::Decimal, &text)
    }

    fn any_decimal(&mut self) -> TenThousandths {
        let value = match self.random.below(8) {
            0 => self.random.of_any_length(32),
            1 => 10_000 * self.random.of_any_length(18),
            2 => self.random.one_of([1, 9_999, 10_001, u64::from(u32::MAX), 4_294_960_000]),
            _ => 10_000 * (1 + self.random.below(32) as u64),
        };
        decimal_of(value)
    }
}

/// Everything here lies in the range of such numbers; whatever does not
/// becomes 1.
fn decimal_of(value: u64) -> TenThousandths {
    u32::try_from(value).ok().and_then(NonZeroU32::new).unwrap_or(measure::ONE)
}

/// Intervals, sums and tones.
impl<'a> Composer<'a> {
    fn new(random: &'a mut Random, plan: Plan) -> Self {
        Composer {
            random,
            plan,
            intervals: Vec::new(),
            tones: Vec::new(),
            systems: Vec::new(),
            widths: vec![START_WIDTH],
            retunings: Vec::new(),
            brackets: Vec::new(),
            earlier_brackets: HashMap::new(),
            harmonies: Vec::new(),
            logics: Vec::new(),
        }
    }

    fn intervals(&mut self) -> Vec<Declaration> {
        let names = fresh_names(self.random, self.plan.intervals);
        let mut declarations = Vec::new();
        for name in names {
            let (form, value) = self.interval_form();
            declarations.push(declaration(Kind::Interval, &name, form));
            self.intervals.push(Known { name, value });
        }
        declarations
    }

    fn interval_form(&mut self) -> (Vec<Token>, Interval) {
        if self.intervals.len() > 2 && self.random.percent(40) {
            let range = *VALUES.start()..=*VALUES.end();
            if let Some(sum) = self.sum(false, |value| range.contains(&value.0)) {
                return sum;
            }
        }
        if self.random.percent(40) {
            self.root()
        } else {
            self.ratio()
        }
    }

    fn root(&mut self) -> (Vec<Token>, Interval) {
        let (degree, radicand) = match self.random.below(8) {
            0..=2 => (self.random.one_of([5, 12, 18, 24, 1200]), decimal_of(20_000)),
            3 => (1 + self.random.below(1200) as u16, decimal_of(20_000)),
            // Too small to be measured, and exactly one thousandth of a cent.
            4 => (65_535, decimal_of(self.random.one_of([10_001, 10_386]))),
            5 => (self.random.of_any_length(16) as u16, decimal_of(15_000)),
            _ => (self.random.of_any_length(16) as u16, self.any_decimal()),
        };
        let degree = Degree::new(degree).unwrap_or(Degree::MIN);
        let word = self.random.one_of(["ROOT", "WURZEL", "root", "Wurzel"]);
        let tokens = vec![
            self.whole(Quantity::Degree, degree.get().into()),
            Token::word(word),
            self.decimal(radicand),
        ];
        (tokens, measure::root(degree, radicand))
    }

    fn ratio(&mut self) -> (Vec<Token>, Interval) {
        let known = [(2, 1), (3, 2), (5, 4), (6, 5), (7, 4), (81, 80), (64, 63), (1, 1), (2, 3)];
        let of_wholes = |(p, q)| (decimal_of(10_000 * p), decimal_of(10_000 * q));
        let (p, q) = if self.plan.far && self.random.percent(5) {
            of_wholes(self.random.one_of(FAR_RATIOS))
        } else if self.random.percent(if self.plan.musical { 80 } else { 30 }) {
            of_wholes(self.random.one_of(known))
        } else {
            (self.any_decimal(), self.any_decimal())
        };
        let tokens = vec![self.decimal(p), Token::mark(":"), self.decimal(q)];
        (tokens, measure::ratio(p, q))
    }

    /// A sum of declared intervals whose value fits, or none if there is none
    /// at hand. With `signed`, each term has its sign and there may be none.
    fn sum(
        &mut self,
        signed: bool,
        fits: impl Fn(Interval) -> bool,
    ) -> Option<(Vec<Token>, Interval)> {
        for _ in 0..8 {
            let sum = self.any_sum(signed)?;
            if fits(sum.1) {
                return Some(sum);
            }
        }
        None
    }

    fn any_sum(&mut self, signed: bool) -> Option<(Vec<Token>, Interval)> {
        let most = if self.random.percent(90) { self.plan.terms.min(3) } else { self.plan.terms };
        let count = self.random.below(most) + usize::from(!signed || self.random.percent(70));
        let mut tokens = Vec::new();
        let mut total = Interval::default();
        for i in 0..count {
            let minus = (signed || i > 0) && self.random.percent(50);
            if signed || i > 0 {
                tokens.push(Token::mark(if minus { "-" } else { "+" }));
            }
            let value = self.term(&mut tokens)?;
            total += if minus { -value } else { value };
        }
        Some((tokens, total))
    }

    fn term(&mut self, tokens: &mut Vec<Token>) -> Option<Interval> {
        let place = self.random.below(self.intervals.len());
        let Known { name, value } = self.intervals.get(place)?.clone();
        let factor = match self.random.below(10) {
            0 => Some(self.random.below(1000) as u64),
            1 => Some(self.random.one_of([0, 1, 999])),
            2..=4 => Some(self.random.below(13) as u64),
            _ => None,
        };
        // Intervals too small to be measured may well be taken many times.
        let factor = if value.0 == 0 && self.random.percent(50) { Some(999) } else { factor };
        if let Some(factor) = factor {
            let token = self.whole(Quantity::Factor, factor);
            tokens.push(token);
        }
        tokens.push(Token::used(Kind::Interval, &name));
        Some(value * factor.map_or(1, |factor| factor as i64))
    }

    fn tones(&mut self) -> Vec<Declaration> {
        let names = fresh_names(self.random, self.plan.tones);
        let mut declarations = Vec::new();
        for name in names {
            let (form, value) = self.tone_form();
            declarations.push(declaration(Kind::Tone, &name, form));
            self.tones.push(Known { name, value });
        }
        declarations
    }

    fn tone_form(&mut self) -> (Vec<Token>, Pitch) {
        if !self.random.percent(30) {
            if let Some(moved) = self.moved_tone(|value| VALUES.contains(&value.0)) {
                return moved;
            }
        }
        let frequency = match self.random.below(4) {
            _ if self.plan.far && self.random.percent(20) => {
                decimal_of(self.random.one_of(FAR_FREQUENCIES))
            }
            0 if !self.plan.musical => self.any_decimal(),
            0 | 1 => measure::CONCERT_FREQUENCY,
            _ => decimal_of(self.random.between(1_000_000, 9_000_000) as u64),
        };
        (vec![self.decimal(frequency)], measure::frequency(frequency))
    }

    /// A declared tone with signed terms, if there is one whose value fits.
    fn moved_tone(&mut self, fits: impl Fn(Pitch) -> bool) -> Option<(Vec<Token>, Pitch)> {
        let place = self.random.below(self.tones.len());
        let Known { name, value } = self.tones.get(place)?.clone();
        let (terms, by) = self.sum(true, |by| fits(value + by))?;
        let mut tokens = vec![Token::used(Kind::Tone, &name)];
        tokens.extend(terms);
        Some((tokens, value + by))
    }
}

fn declaration(kind: Kind, name: &str, form: Vec<Token>) -> Declaration {
    let mut tokens = vec![Token::declared(kind, name), Token::mark("=")];
    tokens.extend(form);
    tokens
}

/// Tone systems, retunings, harmonies and logics.
impl Composer<'_> {
    fn systems(&mut self) -> Vec<Declaration> {
        let names = fresh_names(self.random, self.plan.systems);
        let mut declarations = Vec::new();
        for name in names {
            // Without an interval there is no period, and no tone system.
            let Some((period, _)) = self.sum(false, |value| PERIODS.contains(&value.0)) else {
                continue;
            };
            let anchor = self.random.below(128) as u64;
            let mut form = vec![self.whole(Quantity::Anchor, anchor)];
            form.extend(self.system_positions());
            form.extend(period);
            declarations.push(declaration(Kind::System, &name, form));
            self.systems.push(name);
        }
        declarations
    }

    fn system_positions(&mut self) -> Vec<Token> {
        let muted = self.random.one_of([0, 0, 10, 50]);
        let count = 1 + self.random.below(self.plan.positions);
        let mut positions = Vec::new();
        for _ in 0..count {
            let name = self.random.pick(&self.tones, NO_TONE).name;
            let named = !name.is_empty() && !self.random.percent(muted);
            let token = Token::used(Kind::Tone, &name);
            positions.push(if named { vec![token] } else { Vec::new() });
        }
        // `[ ]` alone is refused: a single position has to be named.
        if count == 1 && positions.iter().all(Vec::is_empty) {
            positions.push(Vec::new());
        }
        self.widths.push(positions.len());
        bracketed(positions)
    }

    fn retunings(&mut self) -> Vec<Declaration> {
        let names = fresh_names(self.random, self.plan.retunings);
        let mut declarations = Vec::new();
        for name in names {
            self.brackets = self.any_brackets();
            // Placeholders are of use in anchor and width retunings.
            let open = !self.brackets.is_empty() && self.random.percent(60);
            let form = match self.random.below(if open { 5 } else { 10 }) {
                0..=2 => self.anchor_form(),
                3..=4 => self.width_form(),
                5..=6 => self.period_form(),
                _ => self.tones_form(),
            };
            let mut tokens = declaration(Kind::Retuning, &name, form);
            tokens.splice(1..1, self.bracket_tokens());
            declarations.push(tokens);
            self.earlier_brackets.insert(name.clone(), std::mem::take(&mut self.brackets));
            self.retunings.push(name);
        }
        declarations
    }

    /// None to four placeholders; their names are often those of other things.
    fn any_brackets(&mut self) -> Vec<Placeholder> {
        if !self.random.percent(self.plan.placeholders) {
            return Vec::new();
        }
        let count = self.random.one_of([1, 1, 1, 2, 2, 3, 4]);
        let names = fresh_names(self.random, count);
        names.into_iter().map(|name| Placeholder { name, fits: ANY_N }).collect()
    }

    fn bracket_tokens(&self) -> Vec<Token> {
        let name = |placeholder: &Placeholder| Token::new(Part::Placeholder, &placeholder.name);
        in_brackets(self.brackets.iter().map(name).collect())
    }

    /// n, one of these numbers or a placeholder for one of them; for a divisor 0
    /// may be handed over, too.
    fn n(&mut self, quantity: Quantity, fits: Range<u64>) -> Token {
        let place = self.random.below(self.brackets.len());
        if let Some(placeholder) = self.brackets.get_mut(place) {
            if self.random.percent(PLACEHOLDERS_FOR_N) {
                let least = if quantity == Quantity::Divisor { 0 } else { fits.start };
                placeholder.fits = least..fits.end;
                return Token::new(Part::Amount, &placeholder.name);
            }
        }
        let n = self.one_in(&fits);
        self.whole(quantity, n)
    }

    fn one_in(&mut self, numbers: &Range<u64>) -> u64 {
        numbers.start + self.random.below((numbers.end - numbers.start) as usize) as u64
    }

    fn anchor_form(&mut self) -> Vec<Token> {
        let mut form = match self.random.below(8) {
            _ if self.plan.first_muted && self.random.percent(40) => self.by_whole_widths(),
            0 => vec![Token::mark("@")],
            1 => vec![self.change(128)],
            2 => vec![self.change(10_000)],
            _ => {
                let sign = self.random.one_of(["+", "-"]);
                let most = if self.random.percent(90) { 12 } else { 10_000 };
                vec![Token::mark("@"), Token::mark(sign), self.change(most)]
            }
        };
        form.extend([Token::mark("["), Token::mark("]")]);
        form
    }

    fn by_whole_widths(&mut self) -> Vec<Token> {
        let width = self.random.pick(&self.widths, START_WIDTH);
        let steps = (width * (1 + self.random.below(3))) as u64;
        let sign = self.random.one_of(["+", "-"]);
        vec![Token::mark("@"), Token::mark(sign), self.n(Quantity::Change, steps..steps + 1)]
    }

    fn change(&mut self, below: u64) -> Token {
        self.n(Quantity::Change, 0..below)
    }

    fn width_form(&mut self) -> Vec<Token> {
        let mut form = vec![Token::mark("["), Token::mark("<<")];
        if self.random.percent(40) {
            let most = if self.random.percent(90) { 40 } else { 10_000 };
            form.push(self.change(most));
        } else {
            form.push(Token::mark("@"));
            form.extend(self.width_change());
        }
        form.extend([Token::mark(">>"), Token::mark("]")]);
        form
    }

    fn width_change(&mut self) -> Vec<Token> {
        let rare = self.random.percent(5);
        let operator = self.random.one_of(["", "+", "-", "*", "/"]);
        let n = match operator {
            "" => return Vec::new(),
            "/" => self.n(Quantity::Divisor, 1..if rare { 10_000 } else { 5 }),
            "*" => self.change(if rare { 10_000 } else { 4 }),
            _ => self.change(if rare { 10_000 } else { 8 }),
        };
        vec![Token::mark(operator), n]
    }

    fn period_form(&mut self) -> Vec<Token> {
        let mut form = vec![Token::mark("["), Token::mark("]")];
        let strict = self.random.percent(80);
        let fits = |value: Interval| !strict || PERIODS.contains(&value.0);
        let small = |value: Interval| !strict || value.0.abs() < 1_300_000;
        let absolute = if self.random.percent(40) { self.sum(false, fits) } else { None };
        match absolute {
            Some((sum, _)) => form.extend(sum),
            None => {
                form.push(Token::mark("@"));
                form.extend(self.sum(true, small).unwrap_or_default().0);
            }
        }
        form
    }

    fn tones_form(&mut self) -> Vec<Token> {
        let count = 1 + self.random.below(self.plan.positions);
        let muted = self.random.one_of([2, 2, 20]);
        let strict = !self.random.percent(15);
        let mut positions: Vec<Vec<Token>> = Vec::new();
        for i in 0..count {
            // Without the first position anchors move by whole periods alone.
            let chance = match i {
                0 if self.plan.first_muted => muted.max(FIRST_MUTED),
                0 => muted / 2,
                _ => muted,
            };
            let empty = self.random.percent(chance);
            positions.push(if empty { Vec::new() } else { self.position(strict) });
        }
        if count == 1 && positions.iter().all(Vec::is_empty) {
            positions.push(Vec::new());
        }
        bracketed(positions)
    }

    fn position(&mut self, strict: bool) -> Vec<Token> {
        if self.random.percent(30) {
            let fits = |value: Pitch| !strict || VALUES.contains(&value.0);
            if let Some((tokens, _)) = self.moved_tone(fits) {
                return tokens;
            }
        }
        let mut tokens = vec![Token::mark("@")];
        if self.random.percent(60) {
            let small = |value: Interval| !strict || value.0.abs() < 2_500_000;
            tokens.extend(self.sum(true, small).unwrap_or_default().0);
        }
        tokens
    }

    fn harmonies(&mut self) -> Vec<Declaration> {
        self.harmonies = fresh_names(self.random, self.plan.harmonies);
        let mut earlier: Vec<Vec<Item>> = Vec::new();
        let mut declarations = Vec::new();
        for name in self.harmonies.clone() {
            let items = harmonies::items(self.random, &earlier);
            let tokens = items.iter().map(|item| self.harmony_item(*item)).collect();
            declarations.push(declaration(Kind::Harmony, &name, listed("{", tokens, "}")));
            earlier.push(items);
        }
        declarations
    }

    fn harmony_item(&mut self, (number, starred): Item) -> Vec<Token> {
        let number = self.whole(Quantity::KeyNumber, number.into());
        if starred {
            vec![Token::mark("*"), number]
        } else {
            vec![number]
        }
    }

    /// Logics have letters from the front of the alphabet, orders mostly from
    /// its end, so that they are reached.
    fn logics(&mut self) -> Vec<Declaration> {
        let names = fresh_names(self.random, self.plan.logics);
        self.logics = names.clone();
        let front = (self.plan.logics + 1).min(13);
        let mut declarations = Vec::new();
        for (i, name) in names.iter().enumerate() {
            let letter = if self.random.percent(80) { i % front } else { self.random.below(26) };
            let mut tokens = vec![Token::declared(Kind::Logic, name)];
            tokens.extend(self.trigger(letter, LOGICS_BY_HARMONIES));
            tokens.push(Token::mark("="));
            tokens.extend(self.called(false).unwrap_or_default());
            tokens.push(Token::mark("["));
            for _ in 0..self.random.below(self.plan.orders + 1) {
                tokens.extend(self.order(front));
            }
            tokens.push(Token::mark("]"));
            declarations.push(tokens);
        }
        declarations
    }

    fn order(&mut self, front: usize) -> Vec<Token> {
        let Some(called) = self.called(true) else {
            return Vec::new();
        };
        let behind = front + self.random.below(26 - front);
        let letter = if self.random.percent(90) { behind } else { self.random.below(26) };
        let mut tokens = self.trigger(letter, ORDERS_BY_HARMONIES);
        tokens.push(Token::mark("->"));
        tokens.extend(called);
        tokens
    }

    /// A harmony's name, so often in a hundred times, or this letter.
    fn trigger(&mut self, letter: usize, chance: u32) -> Vec<Token> {
        if self.harmonies.is_empty() || !self.random.percent(chance) {
            return self.key(letter);
        }
        let name = self.random.pick(&self.harmonies, String::new());
        vec![Token::used(Kind::Harmony, &name)]
    }

    fn key(&mut self, letter: usize) -> Vec<Token> {
        let letter = b'A' + letter.min(25) as u8;
        let word = self.random.one_of(["KEY", "TASTE", "key", "Taste"]);
        vec![Token::word(word), Token { part: Part::Letter, bytes: vec![letter] }]
    }

    /// A name to call, with what it is handed: a retuning, a tone system or, in
    /// orders, a logic.
    fn called(&mut self, in_order: bool) -> Option<Vec<Token>> {
        let list = match self.random.below(20) {
            0..=1 if in_order => &self.logics,
            0..=1 => return None,
            2..=6 => &self.systems,
            _ => &self.retunings,
        };
        let name = self.random.pick(list, String::new());
        (!name.is_empty()).then(|| self.call_of(&name))
    }

    /// If a retuning has this name too, that is what is called.
    fn call_of(&mut self, name: &str) -> Vec<Token> {
        let brackets = self.earlier_brackets.get(name).cloned().unwrap_or_default();
        let numbers = brackets.iter().map(|placeholder| self.handed(&placeholder.fits)).collect();
        let mut tokens = vec![Token::new(Part::Called, name)];
        tokens.extend(in_brackets(numbers));
        tokens
    }

    /// A number for a placeholder, now and then one at a limit or past it.
    fn handed(&mut self, fits: &Range<u64>) -> Token {
        let n = if self.random.percent(AT_LIMITS) {
            self.random.one_of([0, 0, 0, 1, 60, 61, 127, 128, 9_999])
        } else {
            self.one_in(fits)
        };
        self.whole(Quantity::Handed, n)
    }
}

/// How often in a hundred a placeholder stands for n where there are some, and a
/// call hands over a number at a limit.
const PLACEHOLDERS_FOR_N: u32 = 85;
const AT_LIMITS: u32 = 18;

/// "n in anchor and width retunings".
const ANY_N: Range<u64> = 0..10_000;

/// How many in a hundred triggers are harmonies, if there are any.
const LOGICS_BY_HARMONIES: u32 = 25;
const ORDERS_BY_HARMONIES: u32 = 50;

const NO_TONE: Known<Pitch> = Known { name: String::new(), value: measure::CONCERT_PITCH };

/// Nothing where there is no item.
fn in_brackets(items: Vec<Token>) -> Vec<Token> {
    if items.is_empty() {
        return items;
    }
    listed("(", items.into_iter().map(|item| vec![item]).collect(), ")")
}

fn bracketed(positions: Vec<Vec<Token>>) -> Vec<Token> {
    listed("[", positions, "]")
}

/// Items parted by commas between two marks.
fn listed(open: &str, items: Vec<Vec<Token>>, close: &str) -> Vec<Token> {
    let mut tokens = vec![Token::mark(open)];
    for (i, item) in items.into_iter().enumerate() {
        if i > 0 {
            tokens.push(Token::mark(","));
        }
        tokens.extend(item);
    }
    tokens.push(Token::mark(close));
    tokens
}

#[cfg(test)]
mod tests {
    use super::*;
    use crate::accuracy::Accuracy;
    use crate::records::MeasureCase;

    #[test]
    fn far_numbers_are_past_a_half() {
        let ratio = |(p, q)| MeasureCase::Ratio(decimal_of(10_000 * p), decimal_of(10_000 * q));
        let frequencies = FAR_FREQUENCIES.map(|f| MeasureCase::Frequency(decimal_of(f)));
        let accuracy = Accuracy::new();
        for case in frequencies.into_iter().chain(FAR_RATIOS.map(ratio)) {
            let finding = accuracy.judge(case);
            assert!(finding.holds && finding.distance > 0.5, "{case:?}: {}", finding.distance);
        }
    }
}
