//! Worked streams of document 01 and of the requests.

use super::*;
use crate::text::{self, tests::CASE_S};

/// A call that an order made, with the numbers that it handed over.
pub fn made(target: Target, handed: &[u16], number: Number) -> Made {
    let numbers = handed.iter().copied().collect();
    Made { called: Called { target, place: 0, numbers }, caller: Caller::Order, number }
}

fn desk(text: &str) -> Desk {
    Desk::new(text::read(text.as_bytes()).unwrap())
}

fn answer(desk: &mut Desk, line: &str) -> String {
    let mut out = Vec::new();
    desk.answer(line.as_bytes(), &mut out);
    String::from_utf8(out).unwrap().trim_end().to_string()
}

/// The frames of a text one after the other, each with its answer.
pub fn answers(text: &str, frames: &[(&str, &str)]) {
    let mut desk = desk(text);
    for (line, expected) in frames {
        assert_eq!(answer(&mut desk, line), *expected);
    }
}

#[test]
fn case_s() {
    let frames = [
        ("01014D", "01014D00450200124F80"),
        ("010245", "0102450000694920"),
        ("010155", "01015500460200124F80"),
        ("020155", "02015500470200124F80"),
        ("020247", "02024700007EB526"),
        ("010158", "01015815470200124F80"),
        ("0201", "FF16"),
    ];
    answers(CASE_S, &frames);
}

/// Request 2/13: carried up, doubled, and refused elsewhere.
#[test]
fn a_pentatonic_scale_whose_first_key_is_muted() {
    answers(
        "INTERVAL O = 2 : 1 RETUNING Pent = [ , @, , @, , , @, , @, , @, ] U12 = @ + 12 [ ] \
         U2 = @ + 2 [ ] U1 = @ + 1 [ ] D12 = @ - 12 [ ] W24 = [ << @ * 2 >> ] W = [ << @ >> ] \
         W13 = [ << 13 >> ] K = @ [ ] LOGIC L KEY L = Pent [ KEY A -> U12 KEY B -> U1 \
         KEY C -> D12 KEY D -> W24 KEY E -> W KEY F -> W13 KEY G -> K KEY H -> U2 ]",
        &[
            ("01014C", "01014C003C0C00124F80"),
            ("010147", "010147003C0C00124F80"),
            ("010145", "010145003C0C00124F80"),
            ("010141", "01014100480C00124F80"),
            ("01023C", "01023C1480000000"),
            ("01023D", "01023D00005D1420"),
            ("010143", "010143003C0C00124F80"),
            ("010142", "0101420D3C0C00124F80"),
            ("010144", "010144003C1800249F00"),
            ("010148", "0101480D3C1800249F00"),
            ("010146", "0101460D3C1800249F00"),
        ],
    );
}

#[test]
fn a_muted_first_key_and_a_period_too_long() {
    answers(
        "INTERVAL T = 2 : 1 RETUNING P = [ ] 9 T M = [ , ] W = [ << @ * 2 >> ] \
         LOGIC L KEY L = P [ KEY A -> M KEY B -> W ]",
        &[
            ("01014C", "01014C003C0C00A4CB80"),
            ("010141", "010141003C0C00A4CB80"),
            ("010142", "0101420C3C0C00A4CB80"),
        ],
    );
}

#[test]
fn a_muted_first_key_carried_up_by_a_chord() {
    answers(
        "HARMONY C = { 0 } RETUNING Mute = [ , ] Up = @ + 12 [ ] \
         LOGIC M KEY M = Mute [ ] L C = Up [ ]",
        &[
            ("01014D", "01014D003C0C00124F80"),
            ("01053C", "01053C00480C00124F80"),
            ("01063C", "01063C00480C00124F80"),
        ],
    );
}

/// Request 6/13, cases 6a and 6b, and with request 5/13.
#[test]
fn ten_octaves_send_keys_past_any_pipe() {
    answers(
        "INTERVAL O = 2 : 1 RETUNING Ten = [ ] 10 O M = [ ,] \
         LOGIC L KEY L = Ten [ KEY A -> M ]",
        &[
            ("01014C", "01014C003C0C00B71B00"),
            ("01023C", "01023C00005B8D80"),
            ("010248", "0102480F80000000"),
            ("010247", "01024700006C5660"),
            ("010230", "0102300F80000000"),
            ("010141", "010141003C0C00B71B00"),
            ("010248", "0102481480000000"),
        ],
    );
}

#[test]
fn both_ends_of_what_an_instrument_has() {
    answers(
        "INTERVAL h = 12 ROOT 2 m = 429496 : 429495.8759 RETUNING Z = [ @ - 60 h, \
         @ - 61 h - m, @ + 66 h - m, @ + 65 h ] LOGIC L KEY L = Z [ ]",
        &[
            ("01014C", "01014C003C0C00124F80"),
            ("01023C", "01023C0000000000"),
            ("01023D", "01023D0F80000000"),
            ("01023E", "01023E0000C34FFF"),
            ("01023F", "01023F0F80000000"),
            (
                "010300",
                "010300003C0C00124F8000000000FFFFFFFF00C34FFF00C350000061A80000632EA0\
                 0064B54000663BE00067C28000694920006ACFC0006C5660",
            ),
        ],
    );
}

#[test]
fn an_unplayable_key_makes_a_chord() {
    answers(
        "INTERVAL O = 2 : 1 HARMONY C = { 0 } RETUNING Ten = [ ] 10 O Up = @ + 1 [ ] \
         LOGIC T KEY T = Ten [ ] L C = Up [ ]",
        &[
            ("010154", "010154003C0C00B71B00"),
            ("010248", "0102480F80000000"),
            ("010548", "010548003D0C00B71B00"),
        ],
    );
}

/// Anchor and width go by pitches that no answer gives: 16,900,000 and
/// 27,800,000.
#[test]
fn retunings_use_the_unlimited_pitch() {
    answers(
        "INTERVAL O = 2 : 1 RETUNING Nine = [ ] 9 O W = [ << 13 >> ] A = @ + 13 [ ] \
         LOGIC L KEY L = Nine [ KEY W -> W KEY A -> A ]",
        &[
            ("01014C", "01014C003C0C00A4CB80"),
            ("010249", "0102490F80000000"),
            ("010141", "01014100490C00A4CB80"),
            ("010249", "0102490F80000000"),
            ("01023D", "01023D00005D1420"),
            ("01023C", "01023C0F80000000"),
            ("010157", "01015700490D00A65220"),
        ],
    );
}

/// Request 1/13, case 1a: the handbook's form.
#[test]
fn anchors_by_placeholders() {
    answers(
        "RETUNING Anker_neu ( x ) = x [ ] Up ( n ) = @ + n [ ] \
         LOGIC L KEY L = Anker_neu ( 62 ) [ KEY A -> Up ( 3 ) KEY B -> Up ( 9999 ) \
         KEY C -> Anker_neu ( 60 ) ]",
        &[
            ("01014C", "01014C003E0C00124F80"),
            ("010141", "01014100410C00124F80"),
            ("010142", "0101420A410C00124F80"),
            ("010143", "010143003C0C00124F80"),
        ],
    );
}

/// Case 1b: the logic is active though its start divides by zero.
#[test]
fn widths_by_placeholders_and_division_by_zero() {
    answers(
        "RETUNING W ( a, b ) = [ << @ / b >> ] T ( a ) = [ << @ * a >> ] S ( a ) = [ << a >> ] \
         LOGIC L KEY L = W ( 7, 0 ) [ KEY A -> W ( 0, 2 ) KEY B -> T ( 3 ) KEY C -> S ( 0 ) \
         KEY D -> W ( 5, 0 ) ]",
        &[
            ("01014C", "01014C193C0C00124F80"),
            ("010141", "010141003C06000927C0"),
            ("010142", "010142003C12001B7740"),
            ("010143", "0101430B3C12001B7740"),
            ("010144", "010144193C12001B7740"),
        ],
    );
}

/// Cases 1c and 1d: placeholders of no use, and one of the retuning's name.
#[test]
fn placeholders_of_no_use_and_of_one_name() {
    answers(
        "INTERVAL O = 2 : 1 RETUNING P ( a ) = [ ] O + O T ( a, b, c, d ) = [ , @ + O ] \
         LOGIC L KEY L = P ( 0 ) [ KEY A -> T ( 1, 2, 3, 4 ) ]",
        &[
            ("01014C", "01014C003C0C00249F00"),
            ("010141", "010141003C0C00249F00"),
            ("01023D", "01023D00006F63A0"),
            ("01023C", "01023C1480000000"),
        ],
    );
    answers(
        "TONE x = 440 RETUNING x ( X ) = @ - x [ ] LOGIC L KEY L = x ( #A ) [ ]",
        &[("01014C", "01014C00320C00124F80")],
    );
}

/// 25 comes before 11 and 13, leaves the four parts and the held keys, and
/// `* 0` and `<< 0 >>` stay 11; an order may start another logic so.
#[test]
fn division_by_zero_of_a_chord_and_of_a_called_logic() {
    answers(
        "HARMONY C = { 0 } RETUNING D ( n ) = [ << @ / n >> ] T ( n ) = [ << @ * n >> ] \
         Mute = [ , ] Up ( n ) = @ + n [ ] LOGIC L C = D ( 0 ) [ KEY A -> Up ( 0 ) KEY B -> M ] \
         M KEY M = D ( 0 ) [ KEY A -> T ( 0 ) KEY C -> Mute KEY D -> D ( 0 ) KEY E -> D ( 5 ) ]",
        &[
            ("010141", "010141153C0C00124F80"),
            ("01053C", "01053C193C0C00124F80"),
            ("01053C", "01053C113C0C00124F80"),
            ("010141", "010141003C0C00124F80"),
            ("010142", "010142193C0C00124F80"),
            ("010141", "0101410B3C0C00124F80"),
            ("010143", "010143003C0C00124F80"),
            ("010144", "010144193C0C00124F80"),
            ("010145", "0101450D3C0C00124F80"),
        ],
    );
}

#[test]
fn a_chord_of_both_houses_and_the_refusals_of_keys() {
    let text = "HARMONY C = { 0, 4, *7 } RETUNING Up = @ + 7 [ ] LOGIC L C = Up [ ]";
    let frames = [
        ("01053C", "01053C003C0C00124F80"),
        ("02053C", "02053C003C0C00124F80"),
        ("010540", "01054000430C00124F80"),
        ("010540", "01054011430C00124F80"),
        ("020640", "02064012430C00124F80"),
        ("010640", "01064000430C00124F80"),
    ];
    answers(text, &frames);
}

#[test]
fn a_starred_key_held_by_the_other_house() {
    let text = "HARMONY C = { 0, 4, *7 } RETUNING Far = 200 [ ] W = [ << 24 >> ] LOGIC L C = W [ ]";
    let frames = [
        ("01053C", "01053C003C0C00124F80"),
        ("020543", "020543003C0C00124F80"),
        ("010540", "010540003C1800249F00"),
    ];
    answers(text, &frames);
}

#[test]
fn logics_come_first_and_a_refused_start_leaves_the_key_held() {
    let text = "HARMONY A = { 0 } B = { *0, *3 } N = { 59 } \
        RETUNING Far = 200 [ ] One = @ + 1 [ ] Two = @ + 2 [ ] \
        LOGIC L KEY L = [ N -> Far B -> One A -> Two ] M A = Far [ B -> Two ]";
    let frames = [
        ("01014C", "01014C003C0C00124F80"),
        ("01053C", "01053C0A3C0C00124F80"),
        ("01063C", "01063C003E0C00124F80"),
        ("01053F", "01053F003E0C00124F80"),
        ("01063F", "01063F00400C00124F80"),
    ];
    answers(text, &frames);
}

#[test]
fn nothing_held_matches_stars_alone() {
    let text = "HARMONIE e = { *0 } RETUNING One = @ + 1 [ ] LOGIC L e = One [ ]";
    let frames = [
        ("010540", "010540003C0C00124F80"),
        ("010640", "010640003D0C00124F80"),
        ("02063F", "02063F123D0C00124F80"),
        ("020580", "FF16"),
    ];
    answers(text, &frames);
}

#[test]
fn a_starred_number_at_the_width_never_matches() {
    let text = "HARMONY s = { *12, 0 } t = { 0 } RETUNING W = [ << 13 >> ] U = @+1[] \
        LOGIC a KEY A = [ s -> U ] b KEY B = W [ s -> U ]";
    let frames = [
        ("010141", "010141003C0C00124F80"),
        ("01053C", "01053C003C0C00124F80"),
        ("01063C", "01063C003C0C00124F80"),
        ("010142", "010142003C0D0013D620"),
        ("01053C", "01053C003D0D0013D620"),
    ];
    answers(text, &frames);
}

/// A letter finds no harmony of its name, and keys find no letter; an order
/// of a chord may call a logic.
#[test]
fn letters_and_harmonies_of_one_name() {
    let text = "HARMONY c = { 0 } RETUNING up = @+1[] LOGIC l KEY l = [ c -> m KEY c -> up ] \
        m KEY m = up [ c -> l ]";
    let frames = [
        ("01053C", "01053C003C0C00124F80"),
        ("01063C", "01063C003C0C00124F80"),
        ("01014C", "01014C003C0C00124F80"),
        ("010143", "010143003D0C00124F80"),
        ("02053D", "02053D003E0C00124F80"),
        ("010143", "010143153E0C00124F80"),
        ("02053E", "02053E003E0C00124F80"),
        ("02063D", "02063D003E0C00124F80"),
        ("010143", "010143003F0C00124F80"),
    ];
    answers(text, &frames);
}

#[test]
fn bad_frames() {
    let mut desk = desk("");
    for line in [
        "", "01024", "0102450", "01024a", "030245", "000245", "010280", "010301", "010140",
        "01015B", "010000", "010400", "010245\r", " 10245", "01 245", "010580", "0206FF", "03053C",
        "00063C", "01053c", "010700", "01053C0",
    ] {
        assert_eq!(answer(&mut desk, line), "FF16", "{line:?}");
    }
}

#[test]
fn a_dump_of_the_start() {
    let answer = answer(&mut desk(""), "020300");
    assert!(answer.starts_with("020300003C0C00124F80005B8D80005D1420"));
    assert_eq!(answer.len(), 2 * (3 + 1 + 2 + 4 + 12 * 4));
}

#[test]
fn logics_and_orders() {
    let text = "RETUNING up = @+1[] far = 200[] LOGIC a KEY a = far [ KEY b -> up KEY c -> d ]
        d KEY d = [ KEY b -> far ] e KEY a = up [ ]";
    let mut desk = desk(text);
    let number = |desk: &mut Desk, line| answer(desk, line)[6..10].to_string();
    assert_eq!(number(&mut desk, "010142"), "153C");
    assert_eq!(number(&mut desk, "010141"), "0A3C");
    assert_eq!(number(&mut desk, "010142"), "003D");
    assert_eq!(number(&mut desk, "010143"), "003D");
    assert_eq!(number(&mut desk, "020142"), "0A3D");
    assert_eq!(number(&mut desk, "020143"), "153D");
}

#[test]
fn a_silent_key() {
    let mut desk = desk("RETUNING r = [,] LOGIC l KEY l = r []");
    assert_eq!(answer(&mut desk, "01014C"), "01014C003C0C00124F80");
    assert_eq!(answer(&mut desk, "01023C"), "01023C1480000000");
    assert_eq!(answer(&mut desk, "01023E"), "01023E00005E9AC0");
    assert_eq!(answer(&mut desk, "010230"), "0102301480000000");
}
