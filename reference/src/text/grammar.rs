//! Section "Declarations" of document 01, the harmonies and triggers of request
//! 5/13, the placeholders of 1/13, and the numbers 2, 3, 4 and 9:
//! "Reading goes symbol by symbol, so among 2, 3, 4 and 9 the first place
//! wins". No symbol is looked at before all before it is judged, but for "an
//! interval's first number", which "is judged once `:`, ROOT or a name
//! follows".

use super::symbols::{next_symbol, Mark, Number, Placed, Symbol, Word};
use super::tree::{
    Amount, Called, Declared, Draft, IntervalForm, Letter, LogicForm, Name, Order, PositionForm,
    Retuning, RetuningForm, Sum, SystemForm, Term, ToneForm, Trigger, PLACEHOLDERS,
};
use super::Refusal;
use crate::harmony::{Harmony, Wish};
use crate::measure::{Degree, TenThousandths};
use crate::numbers;
use crate::state::{Change, CHANGES, POSITIONS};
use std::ops::RangeInclusive;

const INTERVALS: usize = 256;
const TONES: usize = 256;
const SYSTEMS: usize = 32;
const RETUNINGS: usize = 128;
const HARMONIES: usize = 64;
const LOGICS: usize = 32;
const ORDERS: usize = 512;
const TERMS: usize = 16;
const HARMONY_KEYS: usize = 60;

const DEGREES: RangeInclusive<u16> = 1..=65_535;
const FACTORS: RangeInclusive<u16> = 0..=999;
const SYSTEM_ANCHORS: RangeInclusive<u16> = 0..=127;
const DIVISORS: RangeInclusive<u16> = 1..=9_999;
const KEY_NUMBERS: RangeInclusive<u16> = 0..=59;

type Parsed<T> = Result<T, Refusal>;

/// "A text is any sequence of blocks, an empty one too: a kind word and one or
/// more declarations."
pub fn parse(text: &[u8]) -> Parsed<Draft> {
    let mut parser = Parser { text, place: 0, ahead: None, orders: 0 };
    let mut draft = Draft::default();
    loop {
        let next = parser.take()?;
        match next.symbol {
            Symbol::End => return Ok(draft),
            Symbol::Word(Word::Interval) => {
                parser.block(&mut draft.intervals, INTERVALS, Parser::interval)?
            }
            Symbol::Word(Word::Tone) => parser.block(&mut draft.tones, TONES, Parser::tone)?,
            Symbol::Word(Word::ToneSystem) => {
                parser.block(&mut draft.systems, SYSTEMS, Parser::system)?
            }
            Symbol::Word(Word::Retuning) => {
                parser.block(&mut draft.retunings, RETUNINGS, Parser::retuning)?
            }
            Symbol::Word(Word::Harmony) => {
                parser.block(&mut draft.harmonies, HARMONIES, Parser::harmony)?
            }
            Symbol::Word(Word::Logic) => parser.block(&mut draft.logics, LOGICS, Parser::logic)?,
            _ => return Err(not_allowed(&next)),
        }
    }
}

struct Parser<'a> {
    text: &'a [u8],
    place: usize,
    ahead: Option<Placed>,
    /// Orders so far, "in all logics together".
    orders: usize,
}

fn not_allowed(symbol: &Placed) -> Refusal {
    Refusal::new(numbers::NOT_ALLOWED, symbol.place)
}

fn one_too_many(symbol: &Placed) -> Refusal {
    Refusal::new(numbers::ONE_TOO_MANY, symbol.place)
}

fn out_of_range(place: usize) -> Refusal {
    Refusal::new(numbers::OUT_OF_RANGE, place)
}

fn one_of(name: Name) -> Term<Name> {
    Term { times: 1, interval: name }
}

/// Single symbols.
impl Parser<'_> {
    fn take(&mut self) -> Parsed<Placed> {
        let next = self.next()?;
        self.place = next.after;
        Ok(next)
    }

    fn peek(&mut self) -> Parsed<&Placed> {
        let next = self.next()?;
        Ok(self.ahead.insert(next))
    }

    /// The symbol looked at before, or the one after all that is taken.
    fn next(&mut self) -> Parsed<Placed> {
        match self.ahead.take() {
            Some(placed) => Ok(placed),
            None => next_symbol(self.text, self.place),
        }
    }

    fn expect(&mut self, wanted: Symbol) -> Parsed<()> {
        let next = self.take()?;
        if next.symbol == wanted {
            Ok(())
        } else {
            Err(not_allowed(&next))
        }
    }

    fn mark(&mut self, mark: Mark) -> Parsed<()> {
        self.expect(Symbol::Mark(mark))
    }

    fn name(&mut self) -> Parsed<Name> {
        let next = self.take()?;
        match next.symbol {
            Symbol::Name(text) => Ok(Name { text, place: next.place }),
            _ => Err(not_allowed(&next)),
        }
    }

    fn number(&mut self) -> Parsed<(Number, usize)> {
        let next = self.take()?;
        match next.symbol {
            Symbol::Number(number) => Ok((number, next.place)),
            _ => Err(not_allowed(&next)),
        }
    }

    fn whole(&mut self, range: RangeInclusive<u16>) -> Parsed<u16> {
        let (number, place) = self.number()?;
        number.whole(range).ok_or(out_of_range(place))
    }

    /// n of an anchor or width retuning: a number in this range, or the name of
    /// a placeholder.
    fn amount(&mut self, range: RangeInclusive<u16>) -> Parsed<Amount> {
        match self.peek()?.symbol {
            Symbol::Name(_) => Ok(Amount::Placeholder(self.name()?)),
            _ => Ok(Amount::Written(self.whole(range)?)),
        }
    }

    fn decimal(&mut self) -> Parsed<TenThousandths> {
        let (number, place) = self.number()?;
        number.ten_thousandths().ok_or(out_of_range(place))
    }

    /// "A letter is a one-letter name from a to z."
    fn letter(&mut self) -> Parsed<Letter> {
        let next = self.take()?;
        match &next.symbol {
            Symbol::Name(name) => match name.as_bytes() {
                [letter @ b'a'..=b'z'] => Ok(Letter(letter.to_ascii_uppercase())),
                _ => Err(not_allowed(&next)),
            },
            _ => Err(not_allowed(&next)),
        }
    }
}

/// Declarations.
impl Parser<'_> {
    /// One or more declarations; each has `most` as the count allowed of its
    /// kind in the whole text, and its name as first symbol.
    fn block<F>(
        &mut self,
        declared: &mut Vec<Declared<F>>,
        most: usize,
        form: fn(&mut Self) -> Parsed<F>,
    ) -> Parsed<()> {
        loop {
            let next = self.peek()?;
            if matches!(next.symbol, Symbol::Name(_)) && declared.len() == most {
                return Err(one_too_many(next));
            }
            let name = self.name()?;
            let form = form(self)?;
            declared.push(Declared { name, form });
            if !matches!(self.peek()?.symbol, Symbol::Name(_)) {
                return Ok(());
            }
        }
    }

    /// "`p : q`, or `A ROOT B`, or a sequence".
    fn interval(&mut self) -> Parsed<IntervalForm<Name>> {
        self.mark(Mark::Equals)?;
        let Symbol::Number(_) = self.peek()?.symbol else {
            return Ok(IntervalForm::Sum(self.sequence()?));
        };
        let (first, place) = self.number()?;
        let next = self.take()?;
        let unfit = out_of_range(place);
        match next.symbol {
            Symbol::Mark(Mark::Colon) => {
                let p = first.ten_thousandths().ok_or(unfit)?;
                Ok(IntervalForm::Ratio(p, self.decimal()?))
            }
            Symbol::Word(Word::Root) => {
                let degree = first.whole(DEGREES).and_then(Degree::new).ok_or(unfit)?;
                Ok(IntervalForm::Root(degree, self.decimal()?))
            }
            Symbol::Name(text) => {
                let times = first.whole(FACTORS).ok_or(unfit)?.into();
                let interval = Name { text, place: next.place };
                Ok(IntervalForm::Sum(self.signed_terms(vec![Term { times, interval }])?))
            }
            _ => Err(not_allowed(&next)),
        }
    }

    /// "A frequency in hertz, or a tone name followed by any number of signed
    /// terms."
    fn tone(&mut self) -> Parsed<ToneForm<Name>> {
        self.mark(Mark::Equals)?;
        match self.peek()?.symbol {
            Symbol::Number(_) => Ok(ToneForm::Frequency(self.decimal()?)),
            _ => Ok(ToneForm::From(self.name()?, self.signed_terms(Vec::new())?)),
        }
    }

    /// "Anchor key, `[` positions parted by commas, each a tone name or nothing
    /// `]`, period as a sequence. `[ ]` alone is refused here (house)."
    fn system(&mut self) -> Parsed<SystemForm<Name>> {
        self.mark(Mark::Equals)?;
        let anchor = self.whole(SYSTEM_ANCHORS)? as u8;
        self.mark(Mark::Open)?;
        let next = self.peek()?;
        if next.symbol == Symbol::Mark(Mark::Close) {
            return Err(not_allowed(next));
        }
        let name = |parser: &mut Self| parser.name().map(Some);
        let tones = self.positions(|_| false, || None, name)?;
        let period = self.sequence()?;
        Ok(SystemForm { anchor, tones, period })
    }

    /// "With one to four placeholder names in brackets after any retuning's
    /// name, parted by commas".
    fn retuning(&mut self) -> Parsed<Retuning<Name>> {
        let placeholders = self.in_brackets(Self::placeholder)?;
        self.mark(Mark::Equals)?;
        Ok(Retuning { placeholders, form: self.retuning_form()? })
    }

    /// "Anchor: `n [ ]`, `@ [ ]`, `@ + n [ ]`, `@ - n [ ]`", or one of the forms
    /// that begin with a bracket.
    fn retuning_form(&mut self) -> Parsed<RetuningForm<Name>> {
        let next = self.peek()?;
        let change = match next.symbol {
            Symbol::Number(_) | Symbol::Name(_) => Change::To(self.amount(CHANGES)?),
            Symbol::Mark(Mark::At) => self.relative_anchor()?,
            Symbol::Mark(Mark::Open) => return self.bracketed_retuning(),
            _ => return Err(not_allowed(next)),
        };
        self.mark(Mark::Open)?;
        self.mark(Mark::Close)?;
        Ok(RetuningForm::Anchor(change))
    }

    fn relative_anchor(&mut self) -> Parsed<Change<Amount>> {
        self.mark(Mark::At)?;
        let change = match self.peek()?.symbol {
            Symbol::Mark(Mark::Plus) => Change::Plus,
            Symbol::Mark(Mark::Minus) => Change::Minus,
            _ => return Ok(Change::Kept),
        };
        self.take()?;
        Ok(change(self.amount(CHANGES)?))
    }

    /// Width, period or tones; "a bare `[ ]` is refused", for a sequence or `@`
    /// has to follow it.
    fn bracketed_retuning(&mut self) -> Parsed<RetuningForm<Name>> {
        self.mark(Mark::Open)?;
        match self.peek()?.symbol {
            Symbol::Mark(Mark::OpenWidth) => self.width(),
            Symbol::Mark(Mark::Close) => self.period(),
            _ => {
                let at = |symbol: &Symbol| *symbol == Symbol::Mark(Mark::At);
                let positions = self.positions(at, || PositionForm::Muted, Self::position)?;
                Ok(RetuningForm::Tones(positions))
            }
        }
    }

    /// "Width: `[ << n >> ]`, `@` or `@` with `+ - * /` and n inside."
    fn width(&mut self) -> Parsed<RetuningForm<Name>> {
        self.mark(Mark::OpenWidth)?;
        let change = match self.peek()?.symbol {
            Symbol::Mark(Mark::At) => self.relative_width()?,
            _ => Change::To(self.amount(CHANGES)?),
        };
        self.mark(Mark::CloseWidth)?;
        self.mark(Mark::Close)?;
        Ok(RetuningForm::Width(change))
    }

    /// "n .. after `/` from 1", where it is written.
    fn relative_width(&mut self) -> Parsed<Change<Amount>> {
        self.mark(Mark::At)?;
        let Symbol::Mark(mark) = self.peek()?.symbol else {
            return Ok(Change::Kept);
        };
        let (change, range): (fn(Amount) -> Change<Amount>, _) = match mark {
            Mark::Plus => (Change::Plus, CHANGES),
            Mark::Minus => (Change::Minus, CHANGES),
            Mark::Times => (Change::Times, CHANGES),
            Mark::Over => (Change::Over, DIVISORS),
            _ => return Ok(Change::Kept),
        };
        self.take()?;
        Ok(change(self.amount(range)?))
    }

    /// "Period: `[ ]` then a sequence, or `@` with any signed terms."
    fn period(&mut self) -> Parsed<RetuningForm<Name>> {
        self.mark(Mark::Close)?;
        if self.peek()?.symbol == Symbol::Mark(Mark::At) {
            self.take()?;
            Ok(RetuningForm::PeriodBy(self.signed_terms(Vec::new())?))
        } else {
            Ok(RetuningForm::PeriodTo(self.sequence()?))
        }
    }

    /// A position of a tones retuning: "`@` or a tone name, with signed terms".
    fn position(&mut self) -> Parsed<PositionForm<Name>> {
        if self.peek()?.symbol == Symbol::Mark(Mark::At) {
            self.take()?;
            Ok(PositionForm::By(self.signed_terms(Vec::new())?))
        } else {
            Ok(PositionForm::At(self.name()?, self.signed_terms(Vec::new())?))
        }
    }

    /// "As `HARMONY C = { 0, 4, *7 }` .. by key numbers from 0 to 59 in braces";
    /// "3 also for empty braces or a number named twice".
    fn harmony(&mut self) -> Parsed<Harmony> {
        self.mark(Mark::Equals)?;
        self.mark(Mark::OpenBrace)?;
        let mut harmony = Harmony::default();
        loop {
            self.harmony_key(&mut harmony)?;
            let next = self.take()?;
            match next.symbol {
                Symbol::Mark(Mark::Comma) => {}
                Symbol::Mark(Mark::CloseBrace) => return Ok(harmony),
                _ => return Err(not_allowed(&next)),
            }
        }
    }

    /// One key number, with a star before it or not. One too many can only be
    /// seen at its star: a number itself is then named twice or out of range.
    fn harmony_key(&mut self, harmony: &mut Harmony) -> Parsed<()> {
        let next = self.peek()?;
        let starred = next.symbol == Symbol::Mark(Mark::Times);
        if starred && harmony.count() == HARMONY_KEYS {
            return Err(one_too_many(next));
        }
        if starred {
            self.take()?;
        }
        let (number, place) = self.number()?;
        let key = number.whole(KEY_NUMBERS).ok_or(out_of_range(place))? as u8;
        if harmony.wish(key).is_some() {
            return Err(Refusal::new(numbers::NOT_ALLOWED, place));
        }
        harmony.add(key, if starred { Wish::Either } else { Wish::Held });
        Ok(())
    }

    /// "`name KEY letter = start [ orders ]`; start is a tone system or
    /// retuning name or nothing", and other triggers beside `KEY letter`.
    fn logic(&mut self) -> Parsed<LogicForm<Name, Name>> {
        let trigger = self.trigger()?;
        self.mark(Mark::Equals)?;
        let start = match self.peek()?.symbol {
            Symbol::Name(_) => Some(self.called()?),
            _ => None,
        };
        self.mark(Mark::Open)?;
        let mut orders = Vec::new();
        while self.peek()?.symbol != Symbol::Mark(Mark::Close) {
            orders.push(self.order()?);
        }
        self.mark(Mark::Close)?;
        Ok(LogicForm { trigger, start, orders })
    }

    /// "`KEY letter -> name`", or another trigger. One too many has the first
    /// symbol of its trigger as place.
    fn order(&mut self) -> Parsed<Order<Name, Name>> {
        let full = self.orders == ORDERS;
        let next = self.peek()?;
        if full && matches!(next.symbol, Symbol::Word(Word::Key) | Symbol::Name(_)) {
            return Err(one_too_many(next));
        }
        self.orders += 1;
        let trigger = self.trigger()?;
        self.mark(Mark::Arrow)?;
        Ok(Order { trigger, called: self.called()? })
    }

    /// A called name, "giving as many whole numbers from 0 to 9,999".
    fn called(&mut self) -> Parsed<Called<Name>> {
        let target = self.name()?;
        let numbers = self.in_brackets(Self::handed)?.into_iter().collect();
        Ok(Called { place: target.place, target, numbers })
    }

    /// "Its bare name is a trigger beside `KEY letter`, in logics and orders."
    fn trigger(&mut self) -> Parsed<Trigger<Name>> {
        let next = self.take()?;
        match next.symbol {
            Symbol::Word(Word::Key) => Ok(Trigger::Letter(self.letter()?)),
            Symbol::Name(text) => Ok(Trigger::Harmony(Name { text, place: next.place })),
            _ => Err(not_allowed(&next)),
        }
    }
}

/// Brackets of placeholders and of the numbers handed to them.
impl Parser<'_> {
    /// One or more items in brackets, parted by commas; none without brackets.
    /// An item is told whether it is one too many.
    fn in_brackets<T>(&mut self, item: fn(&mut Self, bool) -> Parsed<T>) -> Parsed<Vec<T>> {
        let mut items = Vec::new();
        if self.peek()?.symbol != Symbol::Mark(Mark::OpenBracket) {
            return Ok(items);
        }
        self.take()?;
        loop {
            items.push(item(self, items.len() == PLACEHOLDERS)?);
            let next = self.take()?;
            match next.symbol {
                Symbol::Mark(Mark::Comma) => {}
                Symbol::Mark(Mark::CloseBracket) => return Ok(items),
                _ => return Err(not_allowed(&next)),
            }
        }
    }

    /// "9 for a fifth name".
    fn placeholder(&mut self, full: bool) -> Parsed<Name> {
        let name = self.name()?;
        if full {
            return Err(Refusal::new(numbers::ONE_TOO_MANY, name.place));
        }
        Ok(name)
    }

    /// "9 for a fifth .. number"; out of range it is 4, "at one place the lower
    /// number".
    fn handed(&mut self, full: bool) -> Parsed<u16> {
        let (number, place) = self.number()?;
        let n = number.whole(CHANGES).ok_or(out_of_range(place))?;
        if full {
            return Err(Refusal::new(numbers::ONE_TOO_MANY, place));
        }
        Ok(n)
    }
}

/// Terms and positions.
impl Parser<'_> {
    /// "Terms joined by `+` or `-`, each an optional whole factor and an
    /// interval name. No sign leads."
    fn sequence(&mut self) -> Parsed<Sum<Name>> {
        let first = self.term()?;
        self.signed_terms(vec![first])
    }

    fn term(&mut self) -> Parsed<Term<Name>> {
        if !matches!(self.peek()?.symbol, Symbol::Number(_)) {
            return Ok(one_of(self.name()?));
        }
        let times = self.whole(FACTORS)?.into();
        Ok(Term { times, interval: self.name()? })
    }

    /// Signed terms after the ones that stand there already. "A sign belongs to
    /// its term": it is the first symbol of one too many.
    fn signed_terms(&mut self, mut sum: Sum<Name>) -> Parsed<Sum<Name>> {
        loop {
            let next = self.peek()?;
            let sign = match next.symbol {
                Symbol::Mark(Mark::Plus) => 1,
                Symbol::Mark(Mark::Minus) => -1,
                _ => return Ok(sum),
            };
            if sum.len() == TERMS {
                return Err(one_too_many(next));
            }
            self.take()?;
            let term = self.term()?;
            sum.push(Term { times: sign * term.times, ..term });
        }
    }

    /// Positions parted by commas, and the closing bracket. A position is empty
    /// or begins with a name or another symbol that `begins` knows; one too many
    /// has its first symbol as place, "empty: the mark after".
    fn positions<P>(
        &mut self,
        begins: impl Fn(&Symbol) -> bool,
        muted: impl Fn() -> P,
        position: impl Fn(&mut Self) -> Parsed<P>,
    ) -> Parsed<Vec<P>> {
        let mut positions = Vec::new();
        loop {
            let next = self.peek()?;
            let empty = matches!(next.symbol, Symbol::Mark(Mark::Comma | Mark::Close));
            if !empty && !matches!(next.symbol, Symbol::Name(_)) && !begins(&next.symbol) {
                return Err(not_allowed(next));
            }
            if positions.len() == POSITIONS {
                return Err(one_too_many(next));
            }
            positions.push(if empty { muted() } else { position(self)? });
            let next = self.take()?;
            match next.symbol {
                Symbol::Mark(Mark::Comma) => {}
                Symbol::Mark(Mark::Close) => return Ok(positions),
                _ => return Err(not_allowed(&next)),
            }
        }
    }
}
