//! Faults for texts that are right, at least one way to each of the numbers 1
//! to 9 and to 24; some only go up to a limit, and leave the text right.

use super::misuses;
use super::sketch::{kind_word, put_comment, tokens, Kind, Part, Quantity, Token, KINDS};
use crate::random::Random;
use crate::text::LONGEST_TEXT;

/// Puts one fault into the symbols of a text.
pub fn put_in(random: &mut Random, text: &mut Vec<Token>) {
    match random.below(30) {
        0 | 1 => put_unreadable(random, text),
        2..=4 => disorder(random, text),
        5..=7 => unfit_number(random, text),
        8 | 9 => declare_twice(random, text),
        10..=12 => use_undeclared(random, text),
        13 | 14 => put_cycle(random, text),
        15 | 16 => put_great_value(random, text),
        17 => name_number_twice(random, text),
        18 | 19 => put_harmony(random, text),
        20..=25 => misuses::put_in(random, text),
        26 => put_several(random, text),
        _ => put_too_many(random, text),
    }
}

/// Two or three of the faults that are looked for once all symbols are read, so
/// that their order shows: 5, 6, 24, 7, 8.
fn put_several(random: &mut Random, text: &mut Vec<Token>) {
    for _ in 0..2 + random.below(2) {
        match random.below(5) {
            0 => declare_twice(random, text),
            1 => use_undeclared(random, text),
            2 => misuses::misuse(random, text),
            3 => put_cycle(random, text),
            _ => put_great_value(random, text),
        }
    }
}

/// Bytes that no symbol begins with, and numbers lacking digits.
const UNREADABLE: &str = "~ ! ; $ < > . .5 3. 3..5 # #.5 \" \u{0} \u{1a} \u{7f} \u{f6}";

/// 2: something where no symbol begins, or a number lacking digits.
fn put_unreadable(random: &mut Random, text: &mut Vec<Token>) {
    let unreadable: Vec<_> = UNREADABLE.split(' ').collect();
    let token = Token::mark(random.pick(&unreadable, "~"));
    put_at_random(random, text, token);
}

fn put_at_random(random: &mut Random, text: &mut Vec<Token>, token: Token) {
    let place = random.below(text.len() + 1);
    text.insert(place, token);
}

/// 3: symbols left out, doubled, exchanged or put in.
fn disorder(random: &mut Random, text: &mut Vec<Token>) {
    if text.is_empty() {
        return;
    }
    let (place, other) = (random.below(text.len()), random.below(text.len()));
    match random.below(6) {
        0 => drop(text.remove(place)),
        1 => text.insert(place, text[place].clone()),
        2 => text.swap(place, other),
        3 => text.truncate(place),
        4 => text.insert(place, text[other].clone()),
        _ => {
            let token = any_token(random);
            put_at_random(random, text, token);
        }
    }
}

/// Symbols to put in where they may not belong, reserved words among them.
const SYMBOLS: &str =
    "= : + - * / [ ] { } ( ) , @ << >> -> x 12 0.5 #7F KEY ROOT TONE LOGIK ELSE SHIFTED \
    PATTERN MIDIIN MIDICHANNEL MIDIOUT ANSONSTEN FORM HARMONIE MIDIKANAL HARMONY";

fn any_token(random: &mut Random) -> Token {
    let symbols: Vec<_> = SYMBOLS.split_whitespace().collect();
    Token::mark(random.pick(&symbols, "="))
}

/// 4: a number out of range, with too many places, or with a point where a
/// whole one is asked for.
fn unfit_number(random: &mut Random, text: &mut [Token]) {
    let is_number = |token: &Token| matches!(token.part, Part::Number(_));
    let Some(place) = random_place(random, text, is_number) else {
        return;
    };
    let token = &mut text[place];
    if let Part::Number(quantity) = token.part {
        token.bytes = unfit(random, quantity).as_bytes().to_vec();
    }
}

fn unfit(random: &mut Random, quantity: Quantity) -> &'static str {
    let everywhere = ["1.00000", "99999999999999999999999", "#FFFFFFFFFFFFFFFFFFFF", "0.00001"];
    if random.percent(20) {
        return random.one_of(everywhere);
    }
    match quantity {
        Quantity::Decimal => random.one_of(["0", "0.0", "429496.7296", "429497", "#68DB9", "#0"]),
        Quantity::Degree => random.one_of(["0", "65536", "12.0", "#10000"]),
        Quantity::Factor => random.one_of(["1000", "2.5", "3.0", "#3E8"]),
        Quantity::Anchor => random.one_of(["128", "60.0", "#80", "0128"]),
        Quantity::Change => random.one_of(["10000", "7.5", "#2710", "1.0"]),
        Quantity::Divisor => random.one_of(["0", "10000", "2.0", "#0"]),
        Quantity::Handed => random.one_of(["10000", "7.5", "#2710", "0.0", "9999.0", "010000"]),
        Quantity::KeyNumber => random.one_of(["60", "0.0", "#3C", "4.0", "0060", "59.5", "127"]),
    }
}

pub fn random_place(
    random: &mut Random,
    text: &[Token],
    wanted: impl Fn(&Token) -> bool,
) -> Option<usize> {
    let numbered = text.iter().enumerate();
    let places: Vec<_> = numbered.filter(|(_, token)| wanted(token)).map(|(i, _)| i).collect();
    places.get(random.below(places.len())).copied()
}

fn count(text: &[Token], kind: Kind) -> usize {
    text.iter().filter(|token| token.part == Part::Declared(kind)).count()
}

/// 5: a name declared twice in its kind.
fn declare_twice(random: &mut Random, text: &mut [Token]) {
    let kind = random.one_of(KINDS);
    let is_declared = |token: &Token| token.part == Part::Declared(kind);
    let one = random_place(random, text, is_declared);
    let other = random_place(random, text, is_declared);
    if let Some((one, other)) = one.zip(other) {
        text[one] = text[other].clone();
    }
}

/// 6: a name that is not declared, or not in the kind that is wanted.
fn use_undeclared(random: &mut Random, text: &mut [Token]) {
    let is_trigger = |token: &Token| token.part == Part::Used(Kind::Harmony);
    let is_use = |token: &Token| matches!(token.part, Part::Used(_) | Part::Called);
    let is_declared = |token: &Token| matches!(token.part, Part::Declared(_));
    let trigger = random_place(random, text, is_trigger).filter(|_| random.percent(25));
    let Some(place) = trigger.or_else(|| random_place(random, text, is_use)) else {
        return;
    };
    let another = random_place(random, text, is_declared);
    text[place].bytes = match another {
        Some(another) if random.percent(70) => text[another].bytes.clone(),
        _ => b"nix".to_vec(),
    };
}

/// 7: intervals or tones in a ring, and others that use it.
fn put_cycle(random: &mut Random, text: &mut Vec<Token>) {
    if random.percent(30) {
        // Any use of an interval or tone put in for another may close a ring.
        let kind = random.one_of([Kind::Interval, Kind::Tone]);
        let used = random_place(random, text, |token| token.part == Part::Used(kind));
        let declared = random_place(random, text, |token| token.part == Part::Declared(kind));
        if let Some((used, declared)) = used.zip(declared) {
            text[used].bytes = text[declared].bytes.clone();
        }
        return;
    }
    let length = if random.percent(90) { 1 + random.below(4) } else { 1 + random.below(60) };
    let kind = random.one_of([Kind::Interval, Kind::Tone]);
    let factor = if kind == Kind::Interval { random.one_of(["", "0 ", "3 "]) } else { "" };
    let links = (0..length).map(|i| format!("qc{i} = {factor}qc{} ", (i + 1) % length));
    let users = ["", "qx = qc0 ", "qx = qy qy = qc0 "];
    let before: String = random.one_of(users).to_string() + &links.collect::<String>();
    put_block(random, text, kind, &before);
}

/// Puts a whole block in front of the text or behind it.
pub fn put_block(random: &mut Random, text: &mut Vec<Token>, kind: Kind, declarations: &str) {
    let mut block = vec![kind_word(random, kind)];
    block.extend(tokens(declarations, kind));
    if random.percent(50) {
        text.extend(block);
    } else {
        text.splice(0..0, block);
    }
}

/// 8: values right at their limits or beyond by one. `qh` is 100,000, `qu` is
/// 1 and `qt` stands at 6,900,000.
fn put_great_value(random: &mut Random, text: &mut Vec<Token>) {
    let beyond = random.percent(70);
    let (more, less) = if beyond { ("+ qu", "- qu") } else { ("", "") };
    let intervals = "qo = 2 : 1 qh = 12 ROOT 2 qu = 65535 ROOT 1.0386";
    put_block(random, text, Kind::Interval, intervals);
    put_block(random, text, Kind::Tone, "qt = 440");
    let (kind, declarations) = match random.below(7) {
        0 => (Kind::Interval, format!("qb = 999 qh + qh {more}")),
        1 => (Kind::Interval, format!("qb = 0 qh - 999 qh - qh {less}")),
        2 => (Kind::Tone, format!("qs = qt + 931 qh {more}")),
        3 => (Kind::Tone, format!("qs = qt - 999 qh - 70 qh {less}")),
        4 => (Kind::System, format!("qp = 0 [ , ] 10 qo {more}")),
        5 => (Kind::System, format!("qp = 0 [ , ] 0 qo {less}")),
        _ => (Kind::Interval, format!("qb = 999 qo - {} qo", if beyond { 915 } else { 916 })),
    };
    put_block(random, text, kind, &declarations);
    put_users(random, text, kind);
}

/// "An interval, tone or period using one out of range is out of range too,
/// even 0 times."
fn put_users(random: &mut Random, text: &mut Vec<Token>, kind: Kind) {
    let users: &[(Kind, &str)] = match kind {
        Kind::Interval => &[
            (Kind::Interval, "qz = qo + 0 qb"),
            (Kind::Tone, "qy = qt - 0 qb"),
            (Kind::System, "qw = 1 [ , ] qo - 0 qb"),
            (Kind::Retuning, "qv = [ ] 3 qb"),
        ],
        Kind::Tone => &[(Kind::Tone, "qy = qs - qo"), (Kind::Retuning, "qv = [ qs ]")],
        _ => &[],
    };
    for (kind, user) in users {
        if random.percent(40) {
            put_block(random, text, *kind, user);
        }
    }
}

/// 3: a number that a harmony has named already, once more at its end, as it
/// was written or in another way.
fn name_number_twice(random: &mut Random, text: &mut Vec<Token>) {
    let is_number = |token: &Token| token.part == Part::Number(Quantity::KeyNumber);
    let Some(place) = random_place(random, text, is_number) else {
        return;
    };
    let number = String::from_utf8_lossy(&text[place].bytes).into_owned();
    let value = match number.strip_prefix('#') {
        Some(digits) => u8::from_str_radix(digits, 16),
        None => number.parse(),
    };
    let value = value.unwrap_or_default();
    let again =
        random.one_of([number, value.to_string(), format!("0{value}"), format!("#{value:x}")]);
    let star = random.one_of(["", "*"]);
    let end = text.iter().skip(place).position(|token| token.bytes == b"}");
    let end = end.map_or(text.len(), |length| place + length);
    text.splice(end..end, tokens(&format!(", {star} {again}"), Kind::Harmony));
}

/// Braces that are refused with 3 or 4, and a few that are right.
const BRACES: &str = "{ }|{ 0 , }|{ , 0 }|{ * }|{ * * 0 }|{ * , 4 }|{ 0 , , 4 }|{ 0 4 }|{ 0 , * }|\
    { 0 , 4 , 0 }|{ 0 , * 4 , 4 }|{ 0 , 4 , * #4 }|{ * 007 , * 7 }|{ #3b , 59 }|\
    { 60 }|{ * 60 }|{ 0 , 0.0 }|{ 59 , 60 , 59 }|{ 7 , * 7.0 }|{ #3C }|{ 0060 }|\
    { 99999999999999999999999 }|{ x }|{ @ }|{ - 1 }|{ + 1 }|{ 0 - 4 }|{ 0 ]|[ 0 ]|{ 0|{ 0 ,|{|\
    { { 0 } }|{ 0 } }|0|{ 1 : 2 }|{ KEY }|{ 59 }|{ * 59 , 0 }|{ 00 , * #3B }";

/// 3, 4 and 9: a harmony with faulty braces, or with sixty numbers and one
/// more.
fn put_harmony(random: &mut Random, text: &mut Vec<Token>) {
    let braces: Vec<_> = BRACES.split('|').collect();
    let form = match random.below(3) {
        0 => full_braces(random),
        _ => random.pick(&braces, "{ }").to_string(),
    };
    put_block(random, text, Kind::Harmony, &format!("qk = {form}"));
}

/// Sixty numbers, and perhaps one more: "at most .. 60 keys".
fn full_braces(random: &mut Random) -> String {
    let star = random.one_of(["", "* "]);
    let numbers: Vec<_> = (0..60).map(|number| format!("{star}{number}")).collect();
    let last =
        random.one_of(["}", ", * 0 }", ", * 60 }", ", * 0.5 }", ", * }", ", 0 }", ", 60 }", ", }"]);
    format!("{{ {} {last}", numbers.join(" , "))
}

/// 9: one more item than allowed, or just as many.
fn put_too_many(random: &mut Random, text: &mut Vec<Token>) {
    let over = usize::from(random.percent(70));
    match random.below(10) {
        0..=4 => fill_kind(random, text, over),
        5 => fill_orders(random, text, over),
        8 => fill_all(random, text),
        6 => put_positions(random, text, over),
        _ => put_terms(random, text, over),
    }
}

fn fill_kind(random: &mut Random, text: &mut Vec<Token>, over: usize) {
    let kinds = [
        (Kind::Interval, 256, "= 1 : 1"),
        (Kind::Tone, 256, "= 440"),
        (Kind::System, 32, "= 0 [ , ] qo"),
        (Kind::Retuning, 128, random.one_of(["= @ [ ]", "( qx ) = qx [ ]"])),
        (Kind::Harmony, 64, "= { 0 , * 7 }"),
        (Kind::Logic, 32, "KEY Q = [ ]"),
    ];
    let (kind, most, form) = random.one_of(kinds);
    if kind == Kind::System {
        put_block(random, text, Kind::Interval, "qo = 2 : 1");
    }
    let missing = (most + over).saturating_sub(count(text, kind));
    if missing > 0 {
        put_block(random, text, kind, &numbered(missing, form));
    }
}

/// So many declarations of one form, each with a name of its own.
fn numbered(count: usize, form: &str) -> String {
    (0..count).map(|i| format!("q{i} {form} ")).collect()
}

/// Instead of the text one that has just as many of all as allowed, and hands
/// over an n in each start and order: no row of the tables is left unused.
fn fill_all(random: &mut Random, text: &mut Vec<Token>) {
    text.clear();
    let orders = "KEY Z -> q127 ( 9999 ) KEY Y -> q0 ( 0 ) ".repeat(8);
    put_block(random, text, Kind::Interval, &numbered(256, "= 1 : 1"));
    put_block(random, text, Kind::Tone, &numbered(256, "= 440"));
    put_block(random, text, Kind::System, &numbered(32, "= 0 [ q0 ] q0"));
    put_block(random, text, Kind::Retuning, &numbered(128, "( x ) = [ << @ / x >> ]"));
    put_block(random, text, Kind::Harmony, &numbered(64, "= { 0 }"));
    put_block(random, text, Kind::Logic, &numbered(32, &format!("KEY Q = q1 ( 1 ) [ {orders} ]")));
}

fn fill_orders(random: &mut Random, text: &mut Vec<Token>, over: usize) {
    let arrows = text.iter().filter(|token| token.bytes == b"->").count();
    let trigger = random.one_of(["TASTE Z", "qk"]);
    let called = random.one_of(["ql", "qn ( 7 )"]);
    let orders = format!("{trigger} -> {called} ").repeat((512 + over).saturating_sub(arrows));
    put_block(random, text, Kind::Retuning, "qn ( qx ) = @ + qx [ ]");
    put_block(random, text, Kind::Harmony, "qk = { 0 }");
    put_block(random, text, Kind::Logic, &format!("ql KEY Q = [ {orders} ]"));
}

fn put_positions(random: &mut Random, text: &mut Vec<Token>, over: usize) {
    let commas = ", ".repeat(59 + over);
    let (kind, list) = if random.percent(50) {
        let last = random.one_of(["", "qt", "@", "qt + qo"]);
        (Kind::Retuning, format!("qr = [ {commas} {last} ]"))
    } else {
        let last = random.one_of(["", "qt", "@"]);
        (Kind::System, format!("qr = 0 [ {commas} {last} ] qo"))
    };
    put_block(random, text, Kind::Interval, "qo = 2 : 1");
    put_block(random, text, Kind::Tone, "qt = 440");
    put_block(random, text, kind, &list);
}

fn put_terms(random: &mut Random, text: &mut Vec<Token>, over: usize) {
    let signed = "+ 2 qo - qo ".repeat(8) + if over == 1 { "- qo" } else { "" };
    let first = "- qo + qo ".repeat(7) + "+ qo" + if over == 1 { " + qo" } else { "" };
    let (kind, sum) = match random.below(6) {
        0 => (Kind::Interval, format!("qs = qo {first}")),
        1 => (Kind::Tone, format!("qs = qt {signed}")),
        2 => (Kind::System, format!("qs = 0 [ qt , ] 0 qo {first}")),
        3 => (Kind::Retuning, format!("qs = [ ] qo {first}")),
        4 => (Kind::Retuning, format!("qs = [ ] @ {signed}")),
        _ => (Kind::Retuning, format!("qs = [ @ {signed} , qt {signed} ]")),
    };
    put_block(random, text, Kind::Interval, "qo = 81 : 80");
    put_block(random, text, Kind::Tone, "qt = 440");
    put_block(random, text, kind, &sum);
}

/// Changes a few bytes, wherever they stand.
pub fn change_bytes(random: &mut Random, text: &mut Vec<u8>) {
    for _ in 0..=random.below(3) {
        let place = random.below(text.len() + 1);
        let byte = any_byte(random);
        match random.below(5) {
            0 => text.insert(place, byte),
            1 => text.truncate(text.len().max(1) - 1),
            _ if place >= text.len() => text.push(byte),
            2 => drop(text.remove(place)),
            3 => text.insert(place, text[place]),
            _ => text[place] = byte,
        }
    }
}

fn any_byte(random: &mut Random) -> u8 {
    if random.percent(20) {
        return random.next() as u8;
    }
    random.one_of(*b"=:+-*/[]{}(),@<>->\"#.0123456789abefxzAZ_' \n\t\r")
}

/// Fills a text up to a length right at the limit, or beyond it.
pub fn lengthen(random: &mut Random, text: &mut Vec<u8>) {
    let length = LONGEST_TEXT + random.one_of([0, 0, 1, 1, 2, 10_000]) - random.below(2);
    let missing = length.saturating_sub(text.len());
    let fill = match random.below(3) {
        0 => vec![b' '; missing],
        1 => vec![b'\n'; missing],
        _ => comment_of(random, missing),
    };
    if random.percent(50) {
        text.extend(fill);
    } else {
        text.splice(0..0, fill);
    }
}

fn comment_of(random: &mut Random, length: usize) -> Vec<u8> {
    let mut fill = Vec::new();
    while fill.len() + 16 < length {
        put_comment(random, &mut fill);
    }
    fill.resize(length, b' ');
    fill
}
