//! A text in the making: its symbols, each with the part it plays, so that
//! faults can be put in where they are wanted; and the way from symbols to
//! bytes.

use crate::random::Random;

#[derive(Clone, Copy, Debug, PartialEq, Eq)]
pub enum Kind {
    Interval,
    Tone,
    System,
    Retuning,
    Harmony,
    Logic,
}

pub const KINDS: [Kind; 6] =
    [Kind::Interval, Kind::Tone, Kind::System, Kind::Retuning, Kind::Harmony, Kind::Logic];

/// What a number stands for.
#[derive(Clone, Copy, Debug, PartialEq, Eq)]
pub enum Quantity {
    /// A ratio's part, a radicand or a frequency.
    Decimal,
    Degree,
    Factor,
    Anchor,
    Change,
    Divisor,
    /// A number that a harmony names.
    KeyNumber,
    /// A number that a call hands over.
    Handed,
}

/// The part that a symbol plays.
#[derive(Clone, Copy, Debug, PartialEq, Eq)]
pub enum Part {
    Word,
    Mark,
    Letter,
    Number(Quantity),
    Declared(Kind),
    Used(Kind),
    /// A name in a logic, which may be of several kinds.
    Called,
    /// A placeholder as a retuning's brackets name it, and where n stands.
    Placeholder,
    Amount,
}

#[derive(Clone, Debug, PartialEq, Eq)]
pub struct Token {
    pub part: Part,
    pub bytes: Vec<u8>,
}

impl Token {
    pub fn new(part: Part, text: &str) -> Self {
        Token { part, bytes: text.as_bytes().to_vec() }
    }

    pub fn mark(text: &str) -> Self {
        Token::new(Part::Mark, text)
    }

    pub fn word(text: &str) -> Self {
        Token::new(Part::Word, text)
    }

    pub fn declared(kind: Kind, name: &str) -> Self {
        Token::new(Part::Declared(kind), name)
    }

    pub fn used(kind: Kind, name: &str) -> Self {
        Token::new(Part::Used(kind), name)
    }

    pub fn number(quantity: Quantity, text: &str) -> Self {
        Token::new(Part::Number(quantity), text)
    }
}

/// Plain symbols parted by blanks, for blocks that are put in as a whole.
/// Numbers are those of harmonies, of calls, or factors, and names are uses of
/// this kind.
pub fn tokens(text: &str, kind: Kind) -> Vec<Token> {
    let number = match kind {
        Kind::Harmony => Quantity::KeyNumber,
        Kind::Logic => Quantity::Handed,
        _ => Quantity::Factor,
    };
    let part = |symbol: &str| match symbol.bytes().next() {
        Some(b'0'..=b'9' | b'#') => Part::Number(number),
        Some(byte) if byte.is_ascii_lowercase() => Part::Used(kind),
        Some(byte) if byte.is_ascii_uppercase() => Part::Word,
        _ => Part::Mark,
    };
    text.split_whitespace().map(|symbol| Token::new(part(symbol), symbol)).collect()
}

/// The word that begins a block, in one of its two languages.
pub fn kind_word(random: &mut Random, kind: Kind) -> Token {
    let words = match kind {
        Kind::Interval => ["INTERVAL", "INTERVALL"],
        Kind::Tone => ["TONE", "TON"],
        Kind::System => ["TONESYSTEM", "TONSYSTEM"],
        Kind::Retuning => ["RETUNING", "UMSTIMMUNG"],
        Kind::Harmony => ["HARMONY", "HARMONIE"],
        Kind::Logic => ["LOGIC", "LOGIK"],
    };
    Token::word(random.one_of(words))
}

/// How a text is written: chances of a hundred for a gap that is not needed,
/// for comments in gaps, and for letters of the other size.
struct Style {
    gaps: u32,
    comments: u32,
    other_size: u32,
}

impl Style {
    fn any(random: &mut Random) -> Self {
        Style {
            gaps: random.one_of([0, 10, 60, 100]),
            comments: random.one_of([0, 0, 2, 10]),
            other_size: random.one_of([0, 0, 5, 50]),
        }
    }
}

/// Writes the symbols down, in a style of its own each time.
pub fn render(random: &mut Random, tokens: &[Token]) -> Vec<u8> {
    let style = Style::any(random);
    let mut text = Vec::new();
    let mut last: &[u8] = b"";
    for token in tokens {
        if needs_gap(last, &token.bytes) || random.percent(style.gaps) {
            put_gap(random, &style, &mut text);
        }
        for &byte in &token.bytes {
            let other = byte.is_ascii_alphabetic() && random.percent(style.other_size);
            text.push(if other { byte ^ 32 } else { byte });
        }
        last = &token.bytes;
    }
    if random.percent(50) {
        put_gap(random, &style, &mut text);
    }
    text
}

/// Whether two symbols would run into one.
fn needs_gap(left: &[u8], right: &[u8]) -> bool {
    let (Some(first), Some(end), Some(next)) = (left.first(), left.last(), right.first()) else {
        return false;
    };
    let is_letter = |byte: &u8| byte.is_ascii_alphabetic() || *byte == b'_' || *byte == b'\'';
    let is_of_name = |byte: &u8| is_letter(byte) || byte.is_ascii_digit();
    match first {
        b'#' => next.is_ascii_hexdigit(),
        b'0'..=b'9' => next.is_ascii_digit() || *next == b'.',
        first if is_letter(first) => is_of_name(next),
        _ => *end == b'-' && *next == b'>',
    }
}

fn put_gap(random: &mut Random, style: &Style, text: &mut Vec<u8>) {
    let blanks: [&[u8]; 8] = [b" ", b" ", b" ", b"\n", b"\r\n", b"\t", b"\x0b", b"\x0c"];
    text.extend(random.one_of(blanks));
    if random.percent(style.comments) {
        put_comment(random, text);
    }
}

/// A comment "of any bytes between two `\"`".
pub fn put_comment(random: &mut Random, text: &mut Vec<u8>) {
    text.push(b'"');
    for _ in 0..random.below(12) {
        let byte = random.next() as u8;
        text.push(if byte == b'"' { b'\'' } else { byte });
    }
    text.push(b'"');
}
