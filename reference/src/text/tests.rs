//! The reader on texts of document 01 and of its readings.

use super::*;
use crate::measure::{Interval, Pitch};

pub const CASE_S: &str = "INTERVAL Octave = 2 : 1 Fifth = 3 : 2 TONE a = 440 e = a + Fifth \
    TONESYSTEM Two = 69 [ a, e ] Octave RETUNING Up = @ + 1 [ ] LOGIC L KEY M = Two [ KEY U -> Up ]";

pub fn refusal(text: &str) -> (u8, usize) {
    let refusal = read(text.as_bytes()).unwrap_err();
    (refusal.number, refusal.place)
}

pub fn accepted(text: &str) -> Program {
    read(text.as_bytes()).unwrap()
}

fn place_of(text: &str, part: &str) -> usize {
    text.find(part).unwrap()
}

/// The text is refused with this number, at the last place of this part.
pub fn refused_at(text: &str, number: u8, part: &str) {
    assert_eq!(refusal(text), (number, text.rfind(part).unwrap()), "{text}");
}

#[test]
fn case_s() {
    let program = accepted(CASE_S);
    assert_eq!(program.intervals, [Interval(1_200_000), Interval(701_955)]);
    assert_eq!(program.tones, [Pitch(6_900_000), Pitch(7_601_955)]);
    assert_eq!((program.systems.len(), program.retunings.len()), (1, 1));
    assert_eq!(program.declared.logics[0].form.orders.len(), 1);
}

#[test]
fn lengths() {
    accepted("");
    accepted(&" ".repeat(32_768));
    assert_eq!(refusal(&" ".repeat(32_769)), (1, 0));
    assert_eq!(refusal(&"(".repeat(32_769)), (1, 0));
}

#[test]
fn symbols() {
    refused_at("INTERVAL a = 3. : 2", 2, "3.");
    refused_at("INTERVAL a = 3..5 : 2", 2, "3.");
    refused_at("INTERVAL a = 3.5.5 : 2", 2, ".5");
    refused_at("INTERVAL a = # : 2", 2, "#");
    refused_at("INTERVAL a = #F.5 : 2", 2, ".");
    refused_at("INTERVAL a = .5 : 2", 2, ".");
    refused_at("INTERVAL a = 3\"x\".5 : 2", 2, ".");
    refused_at("RETUNING a = [ < < 3 >> ]", 2, "< <");
    refused_at("RETUNING a = @->3 [ ]", 3, "->");
    refused_at("INTERVAL a = 3 : 2 \"open", 2, "\"");
    refused_at("INTERVAL \"open", 2, "\"");
    refused_at("TONE Zw\u{f6}lf = 3", 2, "\u{f6}");
    refused_at("INTERVAL a = b 3.", 2, "3");
    refused_at("INTERVAL a = 99999999.x", 2, "99999999");
    refused_at("INTERVAL a = #\"x\"F : 1", 2, "#");
    refused_at("RETUNING a = [ <<<", 2, "<");
    refused_at("RETUNING a = [ <\"x\"<", 2, "<\"");
    refused_at("RETUNING a = <<<", 3, "<<<");
    refused_at("RETUNING a = @ - > [ ]", 2, ">");
    refused_at("INTERVAL a = 3 : 2 \0", 2, "\0");
    refused_at("INTERVAL Oc\"x\"tave = 2 : 1", 3, "tave");
    accepted("INTERVAL Octave = 2:1 I = 3Octave-#3Octave");
    accepted("INTERVAL ifth = 3:2 tave = ifth x = #3Fifth - #3ctave");
    accepted("INTERVAL x = #68DB8 : 0.0001 TONE y=440Hz=440.0001");
    accepted("\"\" INTERVAL a\"\u{f6}\n\"= 3 : 2");
}

#[test]
fn reserved_words() {
    for word in ["Ton", "FORM", "harmony", "HarmoniE", "MIDIIN", "else", "wurzel"] {
        let text = format!("RETUNING {word} = @ [ ]");
        refused_at(&text, 3, word);
    }
    accepted("RETUNING Tontaube = @ [ ] distance = @ [ ] Harmony_analysis = @ [ ]");
}

#[test]
fn numbers_in_and_out_of_range() {
    refused_at("TONE t = 0 (", 4, "0");
    refused_at("TONE t = 0.00001", 4, "0.00001");
    refused_at("TONE t = 1.00000", 4, "1.0");
    refused_at("TONE t = 429496.7296", 4, "429496");
    accepted("TONE t = 429496.7295 u = 0000.0001");
    refused_at("TONESYSTEM x = 128 (", 4, "128");
    refused_at("TONESYSTEM x = 60.0 [", 4, "60.0");
    refused_at("RETUNING r = [ ] 1000 :", 4, "1000");
    refused_at("RETUNING r = 10000", 4, "10000");
    refused_at("RETUNING r = [ << @ / 0 >> ]", 4, "0");
    accepted("RETUNING r = [ << 0 >> ] s = [ << @ * 0 >> ] t = [ << @ / 9999 >> ]");
    refused_at("INTERVAL a = 0 ROOT 2", 4, "0");
    refused_at("INTERVAL a = 65536 ROOT 2", 4, "65536");
    accepted("INTERVAL a = 65535 ROOT 2");
}

#[test]
fn an_intervals_first_number_is_judged_late() {
    refused_at("INTERVAL a = 99999999 + b", 3, "+");
    refused_at("INTERVAL a = 99999999 TONE", 3, "TONE");
    refused_at("INTERVAL a = 99999999 \"x", 2, "\"");
    refused_at("INTERVAL a = 99999999 : (", 4, "99999999");
    refused_at("INTERVAL a = 2.5 b", 4, "2.5");
    refused_at("INTERVAL a = 1000 b", 4, "1000");
    let text = "INTERVAL a = 99999999";
    assert_eq!(refusal(text), (3, text.len()));
}

#[test]
fn grammar() {
    refused_at("TONESYSTEM x = 60 [ ] o", 3, "]");
    refused_at("TONESYSTEM x = 60 [ @ ] o", 3, "@");
    refused_at("RETUNING A = [ ] B = @ [ ]", 3, "= @");
    accepted("RETUNING A = [ ] @ B = @ [ ]");
    refused_at("RETUNING A = [ ] LOGIC", 3, "LOGIC");
    refused_at("RETUNING A = @ * 2 [ ]", 3, "*");
    refused_at("RETUNING A = 3 [ a ] o", 3, "a ]");
    refused_at("RETUNING A = [ << 3 + 1 >> ]", 3, "+");
    refused_at("TONE x = 440 + Fifth", 3, "+");
    refused_at("INTERVAL x = - a", 3, "-");
    refused_at("INTERVAL x = b + - 3 a", 3, "-");
    refused_at("INTERVAL x = 3 4 a", 3, "4");
    refused_at("LOGIC L KEY _ = [ ]", 3, "_");
    refused_at("LOGIC L KEY ab = [ ]", 3, "ab");
    refused_at("LOGIC L KEY 3 = [ ]", 3, "3");
    refused_at("LOGIC L KEY a = [ KEY b -> x , KEY", 3, ",");
    refused_at("a = 3 : 2", 3, "a");
    refused_at("INTERVAL TONE", 3, "TONE");
    accepted("LOGIK L TASTE m = [ ] M KEY m = [ TASTE q -> L KEY q -> M ]");
    accepted("INTERVAL o = 2:1 TONE a = 440 TONESYSTEM x = 60 [ , ] o y = 60 [ a, ] o");
    let text = "RETUNING A = [ ]  \"c\" ";
    assert_eq!(refusal(text), (3, text.len()));
}

#[test]
fn too_many_terms() {
    let most = format!("INTERVAL o = 2:1 x = o{}", "+o".repeat(15));
    accepted(&most);
    let text = format!("{most}- 99999 (");
    refused_at(&text, 9, "-");
    let most = format!("INTERVAL o = 2:1 TONE a = 440 b = a{}", "+0o".repeat(16));
    accepted(&most);
    refused_at(&format!("{most}-o"), 9, "-");
    let most = format!("INTERVAL o = 2:1 RETUNING r = [ @{}", "+0o".repeat(16));
    accepted(&format!("{most}]"));
    refused_at(&format!("{most}-o"), 9, "-");
}

#[test]
fn too_many_positions() {
    let commas = format!("INTERVAL o = 2:1 TONESYSTEM x = 60 [{}", ",".repeat(59));
    accepted(&format!("{commas}] o"));
    for after in [",", "]", "name"] {
        let text = format!("{commas}, {after}");
        assert_eq!(refusal(&text), (9, text.rfind(after).unwrap()));
    }
    refused_at(&format!("{commas}, @"), 3, "@");
    refused_at(&format!("{commas}, ("), 3, "(");
    refused_at(&format!("{commas}, ~"), 2, "~");
    let text = format!("{commas}, ");
    assert_eq!(refusal(&text), (3, text.len()));
    refused_at(&format!("RETUNING x = [{}@", ",".repeat(60)), 9, "@");
}

#[test]
fn too_many_declarations() {
    let limits = [
        ("INTERVAL", "=2:1 ", 256),
        ("TONE", "=440 ", 256),
        ("RETUNING", "=@[] ", 128),
        ("LOGIC", " KEY a=[] ", 32),
        ("HARMONY", "={0} ", 64),
    ];
    for (word, form, most) in limits {
        let declared: String = (0..most).map(|i| format!("n{i}{form}")).collect();
        let text = format!("{word} {declared}");
        accepted(&text);
        refused_at(&format!("{text}{word} n0 ("), 9, "n0 (");
    }
    let systems: String = (0..32).map(|i| format!("n{i}=0[,]o ")).collect();
    let text = format!("INTERVAL o = 2:1 TONESYSTEM {systems}");
    accepted(&text);
    refused_at(&format!("{text} n0"), 9, "n0");
    let text = format!("LOGIC L KEY a=[{}", "KEY b->L ".repeat(512));
    accepted(&format!("{text}]"));
    refused_at(&format!("{text}] M TASTE c=[taste"), 9, "taste");
}

#[test]
fn names() {
    let text = "INTERVAL a=2:1 b=zz A=c";
    assert_eq!(refusal(text), (5, place_of(text, "A=c")));
    refused_at("INTERVAL a=0 zz", 6, "zz");
    refused_at("TONE a=440 b=c", 6, "c");
    refused_at("LOGIC L KEY a = L [ ]", 6, "L [");
    refused_at("LOGIC L KEY a = [ KEY b -> M ]", 6, "M");
    accepted(
        "INTERVAL a=2:1 TONE a=440 TONESYSTEM a=1[a]a RETUNING a=[]a LOGIC a KEY a=a[KEY a->a]",
    );
    let text = "RETUNING r = [ ] y TONE t = x";
    assert_eq!(refusal(text), (6, place_of(text, "y")));
}

#[test]
fn cycles() {
    let text = "INTERVAL x = a a = b b = a";
    assert_eq!(refusal(text), (7, place_of(text, "a = b")));
    refused_at("INTERVAL a = 0 a", 7, "a =");
    refused_at("TONE a = b b = a", 7, "a = b");
    accepted("INTERVAL a = 2:1 TONE b = 440 a = b + a");
    let text = "INTERVAL big = 999 big1 big1 = 999 o o = 2:1 TONE t = t";
    assert_eq!(refusal(text), (7, place_of(text, "t = t")));
}

#[test]
fn out_of_range_values() {
    accepted("INTERVAL o = 2:1 x = 83 o");
    refused_at("INTERVAL o = 2:1 x = 84 o", 8, "x");
    accepted("INTERVAL o = 2:1 x = 999 o - 998 o");
    let text = "INTERVAL o = 2:1 a = 0 x x = 84 o";
    assert_eq!(refusal(text), (8, place_of(text, "a = 0")));
    let text = "TONESYSTEM s = 0 [ t ] o TONE t = u + 80 o u = 440 INTERVAL o = 2:1";
    assert_eq!(refusal(text), (8, place_of(text, "t = u")));
    let text = "TONESYSTEM s = 0 [ , ] 11 o INTERVAL o = 2:1";
    assert_eq!(refusal(text), (8, place_of(text, "s =")));
    refused_at("INTERVAL o = 2:1 n = 1:2 TONESYSTEM s = 0 [ , ] n", 8, "s =");
    accepted("INTERVAL o = 2:1 TONESYSTEM s = 0 [ , ] 10 o t = 1 [ , ] 0 o");
}

#[test]
fn harmonies() {
    accepted("HARMONY C = { 0, 4, *7 } HARMONIE D={*#3b,00058,*0} \"x\" e = { 59 }");
    for (text, number, place) in [
        ("HARMONY C = { }", 3, 14),
        ("HARMONY C = { 0, 4, 0 }", 3, 20),
        ("HARMONY C = { 0, *4, 4 }", 3, 21),
        ("HARMONY C = { 60 }", 4, 14),
        ("HARMONY C = { 0, 0.0 }", 4, 17),
        ("HARMONY C = { 0, 4 } C = { 1 }", 5, 21),
        ("LOGIC L C = x [ D -> y ]", 6, 8),
        ("HARMONY C = { 0 } LOGIC L = [ ]", 3, 26),
    ] {
        assert_eq!(refusal(text), (number, place), "{text}");
    }
    refused_at("HARMONY C = { 0, }", 3, "}");
    refused_at("HARMONY C = { , 0 }", 3, ",");
    refused_at("HARMONY C = { * }", 3, "}");
    refused_at("HARMONY C = { *, 4 }", 3, ",");
    refused_at("HARMONY C = { ** 0 }", 3, "* 0");
    refused_at("HARMONY C = { 0 4 }", 3, "4");
    refused_at("HARMONY C = { 4, *#04 (", 3, "#04");
    refused_at("HARMONY C = { 4, *004 } C = (", 3, "004");
    refused_at("HARMONY C = { *60, 99 }", 4, "60");
    refused_at("HARMONY C = { 7, 7.5", 4, "7.5");
    refused_at("HARMONY C = { 3. }", 2, "3.");
    refused_at("HARMONY C = [ 0 ]", 3, "[");
    refused_at("HARMONY C KEY c = { 0 }", 3, "KEY");
    refused_at("RETUNING r = { u1, u3 }", 3, "{");
    refused_at("HARMONY (", 3, "(");
    refused_at("HARMONY C ( x ) = { 0 }", 3, "(");
    let text = "HARMONY C = { 0, 4 ";
    assert_eq!(refusal(text), (3, text.len()));
}

#[test]
fn too_many_keys_and_harmonies() {
    let numbers: Vec<_> = (0..60).map(|number| number.to_string()).collect();
    let full = format!("HARMONY C = {{ {}", numbers.join(", "));
    accepted(&format!("{full} }}"));
    assert_eq!(refusal(&format!("{full}, *0 }}")), (9, 0xF4));
    assert_eq!(refusal(&format!("{full}, 0 }}")), (3, 0xF4));
    assert_eq!(refusal(&format!("{full}, 60 }}")), (4, 0xF4));
    assert_eq!(refusal(&format!("{full}, *(")), (9, 0xF4));
    assert_eq!(refusal(&format!("{full}, }}")), (3, 0xF4));
    let declared: String = (0..65).map(|i| format!("h{i} = {{ 0 }} ")).collect();
    assert_eq!(refusal(&format!("HARMONY {declared}")), (9, 0x2FE));
    let text = format!("HARMONY a = {{ 0 }} LOGIC L a=[{}", "a->L ".repeat(512));
    accepted(&format!("{text}]"));
    refused_at(&format!("{text}] M a=[ KEY"), 9, "KEY");
    refused_at(&format!("{text}] M a=[ zz"), 9, "zz");
    refused_at(&format!("{text}] M a=[ 7"), 3, "7");
}

#[test]
fn triggers() {
    refused_at("LOGIC L = [ ]", 3, "=");
    refused_at("LOGIC L 3 = [ ]", 3, "3");
    refused_at("LOGIC L x y = [ ]", 3, "y");
    refused_at("LOGIC L x = [ y z -> L ]", 3, "z");
    refused_at("LOGIC L KEY a = [ HARMONY -> L ]", 3, "HARMONY");
    refused_at("LOGIC L KEY a = [ 2 ~ y -> L ]", 3, "2");
    refused_at("HARMONY y = { 0 } LOGIC L y = y [ ]", 6, "y [");
    refused_at("HARMONY y = { 0 } LOGIC L y = [ y -> y ]", 6, "y ]");
    refused_at("RETUNING r = @[] LOGIC L KEY a = [ r -> r ]", 6, "r -> r");
    refused_at("LOGIC L KEY a = z [ y -> L ]", 6, "z");
    refused_at("HARMONY a = {0} A = {1} LOGIC L KEY a = z [ ]", 5, "A =");
    accepted(
        "LOGIC c c = c [ c -> c KEY c -> c ] HARMONIE c = { 0 } RETUNING c = [ ] c INTERVAL c = 2:1",
    );
}
