//! Placeholders: the number 24 of request 1/13.

use super::tree::{Amount, Called, Resolved, Retuning, RetuningForm, Target};
use super::Refusal;
use crate::numbers;
use std::collections::HashSet;

/// "24 .. for a placeholder not named (without brackets none is), named twice,
/// or a wrong count in a call".
#[derive(Clone, Copy, Debug, PartialEq, Eq)]
pub enum Cause {
    NotNamed,
    NamedTwice,
    WrongCount,
}

/// 24 is given "at that name, if twice the second, for a count the called one";
/// the earliest of all three causes.
pub fn check(tree: &Resolved) -> Result<(), Refusal> {
    match earliest(tree) {
        Some((place, _)) => Err(Refusal::new(numbers::BAD_PLACEHOLDER, place)),
        None => Ok(()),
    }
}

/// The place of the earliest 24, and its cause.
pub fn earliest(tree: &Resolved) -> Option<(usize, Cause)> {
    let retunings = tree.retunings.iter().map(|declared| &declared.form);
    let not_named = retunings.clone().filter_map(not_named).map(|place| (place, Cause::NotNamed));
    let twice = retunings.filter_map(named_twice).map(|place| (place, Cause::NamedTwice));
    let wrong = calls(tree).filter(|called| called.numbers.as_slice().len() != takes(tree, called));
    let wrong = wrong.map(|called| (called.place, Cause::WrongCount));
    not_named.chain(twice).chain(wrong).min_by_key(|(place, _)| *place)
}

/// The place of a placeholder that is used and not named in the brackets; a
/// retuning has one n at most.
fn not_named(retuning: &Retuning<usize>) -> Option<usize> {
    let change = match &retuning.form {
        RetuningForm::Anchor(change) | RetuningForm::Width(change) => change,
        _ => return None,
    };
    let Some(Amount::Placeholder(used)) = change.amount() else {
        return None;
    };
    let is_named = retuning.placeholders.iter().any(|name| name.text == used.text);
    (!is_named).then_some(used.place)
}

/// The place of the first name in the brackets that has stood there before.
fn named_twice(retuning: &Retuning<usize>) -> Option<usize> {
    let mut seen = HashSet::new();
    let mut seconds = retuning.placeholders.iter().filter(|name| !seen.insert(&name.text));
    seconds.next().map(|name| name.place)
}

/// The calls of all logics.
fn calls(tree: &Resolved) -> impl Iterator<Item = &Called<Target>> {
    let logics = tree.logics.iter().map(|declared| &declared.form);
    logics
        .flat_map(|logic| logic.start.iter().chain(logic.orders.iter().map(|order| &order.called)))
}

/// How many numbers a call has to give: tone systems, logics and retunings
/// without brackets take none.
fn takes(tree: &Resolved, called: &Called<Target>) -> usize {
    match called.target {
        Target::Retuning(i) => tree.retunings[i].form.placeholders.len(),
        Target::System(_) | Target::Logic(_) => 0,
    }
}

#[cfg(test)]
mod tests {
    use super::*;
    use crate::text::cause_of_24;
    use crate::text::tests::{accepted, refusal, refused_at};

    /// The worked refusals, number and place.
    #[test]
    fn worked_refusals() {
        for (text, number, place) in [
            ("RETUNING a = x [ ]", 24, 0x0D),
            ("RETUNING a ( y, Y ) = y [ ]", 24, 0x10),
            ("RETUNING a ( x ) = x [ ] LOGIC L KEY L = a [ ]", 24, 0x29),
            ("RETUNING a = 60 [ ] LOGIC L KEY L = a ( 1 ) [ ]", 24, 0x24),
            ("RETUNING a ( ) = 60 [ ]", 3, 0x0D),
            ("RETUNING a ( v, w, x, y, z ) = x [ ]", 9, 0x19),
            ("RETUNING a ( x ) = x [ ] LOGIC L KEY L = a ( 1, 2, 3, 4, 5 ) [ ]", 9, 0x39),
            ("RETUNING a ( x ) = x [ ] LOGIC L KEY L = a ( 1, 2, 3, 4, 10000 ) [ ]", 4, 0x39),
            ("RETUNING a = x [ ] INTERVAL b = c", 6, 0x20),
            ("RETUNING a = x [ ] INTERVAL b = b", 24, 0x0D),
            ("LOGIC L KEY L = [ KEY A -> L ( 1 ) ]", 24, 0x1B),
        ] {
            assert_eq!(refusal(text), (number, place), "{text}");
        }
    }

    #[test]
    fn brackets_that_are_right() {
        accepted("RETUNING a\"c\"(\"(\"x\"\",\ny)=@+\"\"y[]b(_)=[<<_>>]c(h'')=@[]");
        accepted("RETUNING a ( a, b, c, d ) = [ << @ / d >> ] LOGIC a KEY a = A(0,00,#0,9999)[]");
        accepted("UMSTIMMUNG Anker_neu ( x ) = x [ ] LOGIK L TASTE l = anker_NEU ( #270F ) [ ]");
        accepted("RETUNING a(x)=[] @ b(x, y)=[ , @ ] c(x) = @-x[] d(n)=[<<@*N>>] e(x)=7[]");
    }

    #[test]
    fn bad_brackets_of_retunings() {
        refused_at("RETUNING a ( ) = 60 [ ]", 3, ")");
        refused_at("RETUNING a ( x, ) = x [ ]", 3, ")");
        refused_at("RETUNING a ( , x ) = x [ ]", 3, ", x");
        refused_at("RETUNING a ( x y ) = x [ ]", 3, "y");
        refused_at("RETUNING a ( 1 ) = x [ ]", 3, "1");
        refused_at("RETUNING a ( 99999 ) = x [ ]", 3, "99999");
        refused_at("RETUNING a ( TON ) = x [ ]", 3, "TON");
        refused_at("RETUNING a ( x = x [ ]", 3, "= x");
        refused_at("RETUNING a ( ( x ) ) = x [ ]", 3, "( x");
        refused_at("RETUNING a ( x ) ( y ) = x [ ]", 3, "( y");
        refused_at("RETUNING a ( x ) x [ ]", 3, "x [");
        refused_at("RETUNING a ) = 60 [ ]", 3, ")");
        refused_at("RETUNING ( x ) = 60 [ ]", 3, "(");
        refused_at("RETUNING a = ( x ) [ ]", 3, "(");
        refused_at("RETUNING A = [ ] B ( x ) = x [ ]", 3, "( x");
        accepted("RETUNING A = [ ] @ B ( x ) = x [ ]");
        refused_at("RETUNING a ( v, w, x, y, 5 ) = x [ ]", 3, "5");
        refused_at("RETUNING a ( v, w, x, y, ) = x [ ]", 3, ")");
        refused_at("RETUNING a ( v, w, x, y, KEY", 3, "KEY");
        refused_at("RETUNING a ( v, w, x, y, v (", 9, "v (");
        let text = "RETUNING a ( x ";
        assert_eq!(refusal(text), (3, text.len()));
    }

    /// "Brackets after any other name": of other kinds, and where a name is used.
    #[test]
    fn brackets_elsewhere() {
        for text in [
            "INTERVAL a ( x ) = 2 : 1",
            "INTERVAL a = b ( 1 )",
            "TONE a ( x ) = 440",
            "TONE a = b ( 1 )",
            "TONESYSTEM a ( x ) = 60 [ , ] o",
            "TONESYSTEM a = 60 [ t ( 1 ) ] o",
            "TONESYSTEM a = 60 [ t ] o ( 1 )",
            "RETUNING a = x ( 1 ) [ ]",
            "RETUNING a = [ t ( 1 ) ]",
            "RETUNING a = [ ] o ( 1 )",
            "RETUNING a = [ << x ( 1 ) >> ]",
            "LOGIC L ( x ) KEY a = [ ]",
            "LOGIC L KEY a ( x ) = [ ]",
            "LOGIC L h ( 1 ) = [ ]",
            "LOGIC L KEY a = [ h ( 1 ) -> L ]",
            "LOGIC L KEY a = ( 1 ) [ ]",
            "( x )",
        ] {
            refused_at(text, 3, "(");
        }
    }

    #[test]
    fn bad_brackets_of_calls() {
        for (brackets, number, part) in [
            ("( )", 3, ")"),
            ("( 1, )", 3, ")"),
            ("( , 1 )", 3, ", 1"),
            ("( x )", 3, "x )"),
            ("( 1 2 )", 3, "2"),
            ("( @ )", 3, "@"),
            ("( - 1 )", 3, "- 1"),
            ("( 1 ) ( 2 )", 3, "( 2"),
            ("( 10000 )", 4, "10000"),
            ("( 7.0 )", 4, "7.0"),
            ("( #2710 )", 4, "#2710"),
            ("( 99999999999999999999 )", 4, "9999999999"),
            ("( 7. )", 2, "7."),
            ("( 1, 2, 3, 4, 10000 )", 4, "10000"),
            ("( 1, 2, 3, 4, 5.5 )", 4, "5.5"),
            ("( 1, 2, 3, 4, #5 (", 9, "#5"),
            ("( 1, 2, 3, 4, )", 3, ")"),
            ("( 1, 2, 3, 4, x", 3, "x"),
            ("( 1, 10000, 3, 4, 5 )", 4, "10000"),
        ] {
            let text = format!("RETUNING a(x)=x[] LOGIC L KEY l=a{brackets}");
            let place = text.find(brackets).unwrap() + brackets.find(part).unwrap();
            assert_eq!(refusal(&format!("{text}[]")), (number, place), "{text}");
            let text = format!("RETUNING a(x)=x[] LOGIC L KEY l=[KEY m->a{brackets}");
            let place = text.find(brackets).unwrap() + brackets.find(part).unwrap();
            assert_eq!(refusal(&format!("{text}]")), (number, place), "{text}");
        }
    }

    /// "Usable where n stands in anchor and width retunings".
    #[test]
    fn a_name_for_n() {
        for form in [
            "x []",
            "@ + x []",
            "@ - x []",
            "[<< x >>]",
            "[<< @ + x >>]",
            "[<< @ - x >>]",
            "[<< @ * x >>]",
            "[<< @ / x >>]",
        ] {
            accepted(&format!("RETUNING a ( X ) = {form} LOGIC L KEY l = a ( 0 ) [ ]"));
            refused_at(&format!("RETUNING a = {form}"), 24, "x");
            refused_at(&format!("RETUNING a ( y, a ) = {form}"), 24, "x");
            refused_at(&format!("RETUNING b ( x ) = x [ ] a = {form}"), 24, "x");
            let word = form.replace('x', "TON");
            refused_at(&format!("RETUNING a ( x ) = {word}"), 3, "TON");
        }
        refused_at("RETUNING a ( x ) = x + 1 [ ]", 3, "+");
        refused_at("RETUNING a ( x ) = x Octave", 3, "Octave");
        refused_at("RETUNING a ( x ) = @ * x [ ]", 3, "*");
        refused_at("RETUNING a ( x ) = [ << x + 1 >> ]", 3, "+");
        refused_at("RETUNING a ( x ) = [ << @ / 0 >> ]", 4, "0");
        refused_at("RETUNING a ( x ) = [ ] x", 6, "x");
        refused_at("RETUNING a ( x ) = [ x ]", 6, "x");
        // `o` begins the next declaration
        refused_at("INTERVAL o = 2:1 RETUNING a ( x ) = [ ] x o )", 3, ")");
        accepted("INTERVAL x = 2:1 RETUNING a ( x ) = [ ] x o = @ [ ]");
    }

    /// A placeholder is a name of its own, whatever else has that name.
    #[test]
    fn names_of_their_own() {
        accepted(
            "INTERVAL x = 2:1 TONE x = 440 TONESYSTEM x = 0 [ x ] x HARMONY x = { 0 } \
             RETUNING x ( x ) = x [ ] y ( x ) = @ + x [ ] LOGIC x x = x ( 1 ) [ x -> y ( 2 ) ]",
        );
        refused_at("RETUNING a ( x ) = @ + y [ ] y ( x ) = @ [ ]", 24, "y [");
        refused_at("RETUNING a ( x ) = @ [ ] A ( x ) = @ [ ]", 5, "A");
        refused_at(
            "RETUNING a = @ [ ] LOGIC L KEY l = x [ ] RETUNING b ( x ) = x [ ]",
            6,
            "x [ ] R",
        );
    }

    #[test]
    fn counts_of_calls() {
        let text =
            "INTERVAL o = 2:1 TONESYSTEM s = 0 [ , ] o b = 0 [ , ] o RETUNING a ( x, y ) = @ [ ] \
            b ( x ) = @ [ ] c = @ [ ] LOGIC L KEY l = ";
        for (call, right) in [
            ("a ( 1, 2 )", true),
            ("a", false),
            ("a ( 1 )", false),
            ("a ( 1, 2, 3 )", false),
            ("b ( 7 )", true),
            ("b", false),
            ("c", true),
            ("c ( 0 )", false),
            ("s", true),
            ("s ( 0 )", false),
        ] {
            for logic in [format!("{text}{call} [ ]"), format!("{text}[ KEY z -> {call} ]")] {
                match right {
                    true => drop(accepted(&logic)),
                    false => assert_eq!(refusal(&logic), (24, logic.rfind(call).unwrap())),
                }
            }
        }
        accepted(&format!("{text}[ KEY z -> L ]"));
        refused_at(&format!("{text}[ KEY z -> L ( 0 ) ]"), 24, "L (");
        refused_at(&format!("{text}L ( 0 ) [ ]"), 6, "L (");
    }

    /// The earliest over all three causes; after any 6, before any 7 and 8.
    #[test]
    fn the_earliest_24() {
        let causes = [
            ("RETUNING p = n [ ] ", Cause::NotNamed),
            ("RETUNING q ( n, m, N ) = n [ ] ", Cause::NamedTwice),
            ("LOGIC L KEY l = [ KEY m -> L ( 1 ) ] ", Cause::WrongCount),
        ];
        let places = [13, 19, 27];
        for first in 0..3 {
            for second in (0..3).filter(|second| *second != first) {
                let text = causes[first].0.to_string() + causes[second].0;
                assert_eq!(refusal(&text), (24, places[first]), "{text}");
                assert_eq!(cause_of_24(text.as_bytes()), Some(causes[first].1));
                let text = format!("INTERVAL a = a b = 84 o o = 2:1 {text}");
                assert_eq!(refusal(&text), (24, 32 + places[first]), "{text}");
                refused_at(&format!("{text} INTERVAL c = missing"), 6, "missing");
                refused_at(&format!("{text} INTERVAL c = missing a = d"), 5, "a = d");
                refused_at(&format!("{text} INTERVAL c = missing a = ("), 3, "(");
            }
        }
        refused_at("RETUNING a(x,y,x,y) = z[]", 24, "x,y)");
    }

    /// Two names in the brackets are two, though they are the same.
    #[test]
    fn a_call_of_what_names_twice() {
        refused_at("LOGIC L KEY l = a ( 1 ) [ ] RETUNING a ( y, y ) = @ [ ]", 24, "a ( 1");
        let text = "LOGIC L KEY l = a ( 1, 2 ) [ ] RETUNING a ( y, y ) = @ [ ]";
        refused_at(text, 24, "y )");
    }
}
