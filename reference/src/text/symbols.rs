//! Section "Symbols of the text" of document 01, with the braces of request
//! 5/13 and the brackets of 1/13.

use super::Refusal;
use crate::measure::TenThousandths;
use crate::numbers;
use std::num::NonZeroU32;
use std::ops::RangeInclusive;

#[derive(Clone, Debug, PartialEq, Eq)]
pub enum Symbol {
    Number(Number),
    /// A name in small letters.
    Name(String),
    Word(Word),
    Mark(Mark),
    End,
}

/// "Marks: `= : + - * / [ ] , @ << >> ->`", the braces of harmonies, and the
/// brackets of placeholders and of the numbers handed to them.
#[derive(Clone, Copy, Debug, PartialEq, Eq)]
pub enum Mark {
    Equals,
    Colon,
    Plus,
    Minus,
    Times,
    Over,
    Open,
    Close,
    OpenBrace,
    CloseBrace,
    OpenBracket,
    CloseBracket,
    Comma,
    At,
    OpenWidth,
    CloseWidth,
    Arrow,
}

/// Marks of two bytes stand before those of one, so the longest is found.
const MARKS: [(&[u8], Mark); 17] = [
    (b"<<", Mark::OpenWidth),
    (b">>", Mark::CloseWidth),
    (b"->", Mark::Arrow),
    (b"=", Mark::Equals),
    (b":", Mark::Colon),
    (b"+", Mark::Plus),
    (b"-", Mark::Minus),
    (b"*", Mark::Times),
    (b"/", Mark::Over),
    (b"[", Mark::Open),
    (b"]", Mark::Close),
    (b"{", Mark::OpenBrace),
    (b"}", Mark::CloseBrace),
    (b"(", Mark::OpenBracket),
    (b")", Mark::CloseBracket),
    (b",", Mark::Comma),
    (b"@", Mark::At),
];

#[derive(Clone, Copy, Debug, PartialEq, Eq)]
pub enum Word {
    Interval,
    Tone,
    ToneSystem,
    Retuning,
    Harmony,
    Logic,
    Key,
    Root,
    /// A reserved word that no text may use for now.
    Unused,
}

/// "All words of both tables of reserved words in 001 are reserved, with
/// HARMONY (house)."
const WORDS: [(&str, Word); 25] = [
    ("interval", Word::Interval),
    ("intervall", Word::Interval),
    ("tone", Word::Tone),
    ("ton", Word::Tone),
    ("tonesystem", Word::ToneSystem),
    ("tonsystem", Word::ToneSystem),
    ("retuning", Word::Retuning),
    ("umstimmung", Word::Retuning),
    ("harmony", Word::Harmony),
    ("harmonie", Word::Harmony),
    ("logic", Word::Logic),
    ("logik", Word::Logic),
    ("key", Word::Key),
    ("taste", Word::Key),
    ("root", Word::Root),
    ("wurzel", Word::Root),
    ("else", Word::Unused),
    ("shifted", Word::Unused),
    ("pattern", Word::Unused),
    ("midiin", Word::Unused),
    ("midichannel", Word::Unused),
    ("midiout", Word::Unused),
    ("ansonsten", Word::Unused),
    ("form", Word::Unused),
    ("midikanal", Word::Unused),
];

/// A number as it is written: its whole part (with no upper limit; what is too
/// great stays so), the digits after its point as ten-thousandths, and their
/// count, 0 without a point.
#[derive(Clone, Copy, Debug, PartialEq, Eq)]
pub struct Number {
    whole: u64,
    fraction: u64,
    places: usize,
}

const MOST_PLACES: usize = 4;

impl Number {
    /// The number, if it is whole and in this range; "a point where whole is
    /// asked" is out of place whatever follows it.
    pub fn whole(&self, range: RangeInclusive<u16>) -> Option<u16> {
        let value = u16::try_from(self.whole).ok()?;
        (self.places == 0 && range.contains(&value)).then_some(value)
    }

    /// The number in ten-thousandths: "0.0001 to 429496.7295, at most four
    /// places".
    pub fn ten_thousandths(&self) -> Option<TenThousandths> {
        let value = self.whole.checked_mul(10_000)?.checked_add(self.fraction)?;
        let value = u32::try_from(value).ok().and_then(NonZeroU32::new);
        value.filter(|_| self.places <= MOST_PLACES)
    }
}

/// A symbol, where it begins and where the text goes on.
#[derive(Clone, Debug, PartialEq, Eq)]
pub struct Placed {
    pub symbol: Symbol,
    pub place: usize,
    pub after: usize,
}

/// The symbol at or after a place.
pub fn next_symbol(text: &[u8], from: usize) -> Result<Placed, Refusal> {
    let place = skip_parting(text, from)?;
    let rest = text.get(place..).unwrap_or_default();
    let (symbol, length) = read_symbol(rest).ok_or(Refusal::new(numbers::NO_SYMBOL, place))?;
    Ok(Placed { symbol, place, after: place + length })
}

/// "Blanks, tabs, vertical tabs, line and page feeds, carriage returns (house)
/// and comments of any bytes between two `"` part symbols."
fn skip_parting(text: &[u8], from: usize) -> Result<usize, Refusal> {
    let mut place = from;
    loop {
        match text.get(place) {
            Some(b' ' | b'\t' | 11 | b'\n' | 12 | b'\r') => place += 1,
            Some(b'"') => place = after_comment(text, place)?,
            _ => return Ok(place),
        }
    }
}

fn after_comment(text: &[u8], quote: usize) -> Result<usize, Refusal> {
    let inside = text.get(quote + 1..).unwrap_or_default();
    match inside.iter().position(|&byte| byte == b'"') {
        Some(length) => Ok(quote + length + 2),
        None => Err(Refusal::new(numbers::NO_SYMBOL, quote)),
    }
}

/// The longest symbol that these bytes begin with, and its length.
fn read_symbol(rest: &[u8]) -> Option<(Symbol, usize)> {
    match rest.first() {
        None => Some((Symbol::End, 0)),
        Some(b'#') => read_hexadecimal(rest),
        Some(byte) if byte.is_ascii_digit() => read_decimal(rest),
        Some(&byte) if is_letter(byte) => Some(read_name(rest)),
        Some(_) => read_mark(rest),
    }
}

/// "`_` and `'` are letters."
fn is_letter(byte: u8) -> bool {
    byte.is_ascii_alphabetic() || byte == b'_' || byte == b'\''
}

/// How many bytes at the front are such ones.
fn run(rest: &[u8], fits: impl Fn(u8) -> bool) -> usize {
    rest.iter().take_while(|&&byte| fits(byte)).count()
}

/// "Capitals count as small."
fn read_name(rest: &[u8]) -> (Symbol, usize) {
    let length = run(rest, |byte| is_letter(byte) || byte.is_ascii_digit());
    let small = |&byte: &u8| char::from(byte.to_ascii_lowercase());
    let name: String = rest.iter().take(length).map(small).collect();
    let word = WORDS.iter().find(|(word, _)| *word == name);
    let symbol = word.map(|&(_, word)| Symbol::Word(word));
    (symbol.unwrap_or(Symbol::Name(name)), length)
}

/// "Decimal digits, optionally a point and at least one digit"; a point
/// without a digit makes it a number lacking digits.
fn read_decimal(rest: &[u8]) -> Option<(Symbol, usize)> {
    let length = run(rest, |byte| byte.is_ascii_digit());
    let (digits, rest) = rest.split_at(length);
    let after_point = rest.strip_prefix(b".").unwrap_or_default();
    let places = run(after_point, |byte| byte.is_ascii_digit());
    if rest.first() == Some(&b'.') && places == 0 {
        return None;
    }
    let written = after_point.iter().take(places).chain(b"0000");
    let fraction = written.take(MOST_PLACES).fold(0, |sum, &digit| 10 * sum + value(digit));
    let number = Number { whole: value_of_digits(digits, 10), fraction, places };
    let point = usize::from(places > 0);
    Some((Symbol::Number(number), length + point + places))
}

/// "`#` and at least one hexadecimal digit, no point."
fn read_hexadecimal(rest: &[u8]) -> Option<(Symbol, usize)> {
    let digits = rest.strip_prefix(b"#")?;
    let length = run(digits, |byte| byte.is_ascii_hexdigit());
    let whole = value_of_digits(digits.get(..length)?, 16);
    let number = Number { whole, fraction: 0, places: 0 };
    (length > 0).then_some((Symbol::Number(number), 1 + length))
}

fn value_of_digits(digits: &[u8], base: u64) -> u64 {
    digits.iter().fold(0u64, |sum, &digit| sum.saturating_mul(base).saturating_add(value(digit)))
}

/// The value of a digit, hexadecimal ones included.
fn value(digit: u8) -> u64 {
    char::from(digit).to_digit(16).unwrap_or_default().into()
}

fn read_mark(rest: &[u8]) -> Option<(Symbol, usize)> {
    let (bytes, mark) = MARKS.iter().find(|(bytes, _)| rest.starts_with(bytes))?;
    Some((Symbol::Mark(*mark), bytes.len()))
}
