//! Faults of placeholders, and of calls that hand numbers over: the three causes
//! of 24, brackets that are refused with 3, 4 or 9, and some that are right.

use super::faults::{put_block, random_place};
use super::sketch::{tokens, Kind, Part, Quantity, Token};
use crate::random::Random;

/// Puts one such fault into the symbols of a text.
pub fn put_in(random: &mut Random, text: &mut Vec<Token>) {
    match random.below(10) {
        0 | 1 => put_retuning(random, text),
        2..=5 => put_call(random, text),
        _ => misuse(random, text),
    }
}

/// 24, by one of its causes.
pub fn misuse(random: &mut Random, text: &mut Vec<Token>) {
    match random.below(3) {
        0 => use_unnamed(random, text),
        1 => name_twice(random, text),
        _ => change_count(random, text),
    }
}

/// A placeholder that its retuning does not name: another name for one that it
/// does, or a name for a number.
fn use_unnamed(random: &mut Random, text: &mut Vec<Token>) {
    let is_n = |token: &Token| {
        let quantities = [Quantity::Change, Quantity::Divisor];
        token.part == Part::Amount || quantities.map(Part::Number).contains(&token.part)
    };
    let is_name = |token: &Token| matches!(token.part, Part::Declared(_) | Part::Placeholder);
    let Some(place) = random_place(random, text, is_n) else {
        let form = random.one_of(["@ + qy [ ]", "qn [ ]", "[ << @ / qy >> ]", "[ << qz >> ]"]);
        return put_block(random, text, Kind::Retuning, &format!("qn ( qx ) = {form}"));
    };
    let name = random_place(random, text, is_name).filter(|_| random.percent(70));
    let name = name.map_or(b"nix".to_vec(), |name| text[name].bytes.clone());
    text[place] = Token { part: Part::Amount, bytes: name };
}

/// A placeholder once more behind itself or others, perhaps in letters of the
/// other size.
fn name_twice(random: &mut Random, text: &mut Vec<Token>) {
    let Some(place) = random_place(random, text, |token| token.part == Part::Placeholder) else {
        let names = random.one_of(["qx , qx", "qx , QX , qy", "qn , qx , qN", "a , b , c , A"]);
        return put_block(random, text, Kind::Retuning, &format!("qn ( {names} ) = @ [ ]"));
    };
    let mut again = text[place].clone();
    if random.percent(50) {
        again.bytes.make_ascii_uppercase();
    }
    let close = text.iter().skip(place).position(|token| token.bytes == b")");
    let end = close.map_or(place + 1, |length| place + length);
    let at = if random.percent(50) { end } else { place + 1 };
    text.splice(at..at, [Token::mark(","), again]);
}

/// One number more or less in a call, or brackets put in or left out.
fn change_count(random: &mut Random, text: &mut Vec<Token>) {
    let Some(place) = random_place(random, text, |token| token.part == Part::Called) else {
        return put_miscounted(random, text);
    };
    let open = place + 1;
    let has_brackets = text.get(open).is_some_and(|token| token.bytes == b"(");
    if !has_brackets {
        let numbers = random.one_of(["( 0 )", "( 7 , 0 )", "( 1 , 2 , 3 , 9999 )"]);
        text.splice(open..open, tokens(numbers, Kind::Logic));
        return;
    }
    let length = text.iter().skip(open).position(|token| token.bytes == b")").unwrap_or_default();
    match random.below(3) {
        0 => drop(text.drain(open..=open + length)),
        1 if length > 2 => drop(text.drain(open + 1..open + 3)),
        _ => drop(text.splice(open + length..open + length, tokens(", 1", Kind::Logic))),
    }
}

/// Calls with too few numbers or too many, of a retuning, a tone system or a
/// logic.
fn put_miscounted(random: &mut Random, text: &mut Vec<Token>) {
    let call = random.one_of(["qn", "qn ( 1 , 2 )", "qs ( 0 )", "ql ( 0 )", "qm ( 0 )"]);
    put_block(random, text, Kind::Interval, "qo = 2 : 1");
    put_block(random, text, Kind::System, "qs = 0 [ , ] qo");
    put_block(random, text, Kind::Retuning, "qn ( qx ) = qx [ ] qm = @ [ ]");
    put_block(random, text, Kind::Logic, &format!("ql KEY Q = [ KEY Z -> {call} ]"));
}

/// Brackets after a retuning's name; some are right.
const PLACEHOLDERS: &str =
    "( )|( , qx )|( qx , )|( qx , , qy )|( qx qy )|( 7 )|( 10000 )|( qx , 7 )|\
    ( KEY )|( qx , TON )|( qx|( qx ,|(|)|( ( qx ) )|( qx ) ( qy )|( qx ) )|[ qx ]|{ qx }|( @ )|\
    ( qx + qy )|( qx ; qy )|( qx . )|( qx )|( QX , qy )|( qy )|( qn , Qx )||( x , _ , qx )";

/// Four names, and one more or what is none.
const FIFTH_NAMES: &str = "( a , b , c , qx , e )|( a , b , c , qx , a )|( a , b , c , d , qx )|\
    ( a , b , c , qx , 5 )|( a , b , c , qx , )|( a , b , c , qx , KEY )|( a , b , c , qx )";

/// What may stand behind them; some is not right.
const FORMS: &str = "qx [ ]|@ + qx [ ]|@ - qx [ ]|[ << qx >> ]|[ << @ + qx >> ]|[ << @ - qx >> ]|\
    [ << @ * qx >> ]|[ << @ / qx >> ]|[ << @ >> ]|@ [ ]|60 [ ]|[ ] @|[ @ , ]|[ << @ / 0 >> ]|\
    qx + 1 [ ]|qx qo|qx [ qx ]|@ * qx [ ]|@ + qx qx [ ]|@ + - qx [ ]|@ qx [ ]|[ << qx + 1 >> ]|\
    [ << qx @ >> ]|[ << @ / qx / qx >> ]|[ << 2 qx >> ]|[ ] qx|[ qx ]|[ ] @ + qx|( qx ) [ ]|\
    qx ( 1 ) [ ]|10000 [ ]|[ << >> ]|qx|@ + KEY [ ]";

fn one_of(random: &mut Random, list: &'static str) -> &'static str {
    random.pick(&list.split('|').collect::<Vec<_>>(), "")
}

/// 3, 4, 6, 9 and 24: a retuning with its brackets.
fn put_retuning(random: &mut Random, text: &mut Vec<Token>) {
    let brackets = match random.below(10) {
        0..=3 => "( qx )",
        4 | 5 => one_of(random, FIFTH_NAMES),
        _ => one_of(random, PLACEHOLDERS),
    };
    let form = if random.percent(40) { "qx [ ]" } else { one_of(random, FORMS) };
    put_block(random, text, Kind::Retuning, &format!("qn {brackets} = {form}"));
}

/// Brackets after a called name; some are right.
const HANDED: &str =
    "( )|( )|( , 1 )|( 1 , )|( 1 , 2 , )|( 1 , , 2 )|( 1 2 )|( qx )|( 1 , qx )|( KEY )|( 1|( 1 ,|(|)|\
    ( ( 1 ) )|( 1 ) ( 2 )|( 1 ) )|[ 1 ]|{ 1 }|( @ )|( - 1 )|( + 1 )|( 1 + 1 )|( 1 : 2 )|( 1 ; 2 )|\
    ( 10000 )|( 7.0 )|( 0.5 )|( #2710 )|( 99999999999999999999999 )|( 3. )|( # )|( 1 , 10000 )||\
    ( 0 )|( 9999 )|( #270F )|( 00127 )|( 1 , 0 )|( 1 , 2 , 3 , 4 )";

/// Four numbers, and one more or what is none.
const FIFTH_NUMBERS: &str = "( 1 , 2 , 3 , 4 , 5 )|( 0 , 1 , 127 , 9999 , 0 )|( 1 , 2 , 3 , 4 , #270f )|\
    ( 1 , 2 , 3 , 4 , 5 , 10000 )|( 1 , 2 , 3 , 4 , 10000 )|( 1 , 2 , 3 , 4 , 0.5 )|( 1 , 2 , 3 , 4 , )|\
    ( 1 , 2 , 3 , 4 , qx )|( 1 , 2 , 3 , 4 , KEY )|( 10000 , 2 , 3 , 4 , 5 )|( 1 , 2 , 3 , 4 )";

/// 3, 4, 6, 9 and 24: a start or an order that hands numbers to a retuning with
/// none to four placeholders, or to what takes none.
fn put_call(random: &mut Random, text: &mut Vec<Token>) {
    let count = random.below(5);
    let brackets = ["", "( qx )", "( a , qx )", "( a , b , qx )", "( a , b , c , qx )"][count];
    let form = if count > 0 { "[ << @ / qx >> ]" } else { "@ [ ]" };
    let right = ["", "( 0 )", "( 0 , 1 )", "( 1 , 127 , 9999 )", "( 0 , 1 , 127 , 9999 )"][count];
    let handed = match random.below(10) {
        0..=2 => right,
        3..=5 => one_of(random, FIFTH_NUMBERS),
        _ => one_of(random, HANDED),
    };
    let name = random.one_of(["qn", "qn", "qn", "qn", "qs", "ql", "nix"]);
    let logic = match random.below(5) {
        0 | 1 => format!("ql KEY Q = {name} {handed} [ ]"),
        2 | 3 => format!("ql KEY Q = [ KEY Z -> {name} {handed} ]"),
        _ => format!("ql KEY Q = qn {right} [ KEY Z -> {name} {handed} KEY Y -> qn {right} ]"),
    };
    put_block(random, text, Kind::Interval, "qo = 2 : 1");
    put_block(random, text, Kind::System, "qs = 0 [ , ] qo");
    put_block(random, text, Kind::Retuning, &format!("qn {brackets} = {form}"));
    put_block(random, text, Kind::Logic, &logic);
}
