//! Worked streams of request 3/13.

use super::tests::answers;
use crate::text::tests::CASE_S;

#[test]
fn case_s_as_a_row() {
    let frames = [
        ("0104044D555558", "0104044D55555800000015470200124F80"),
        ("020247", "02024700007EB526"),
        ("01040155", "0104015500480200124F80"),
        ("010400", "FF16"),
        ("0104214D", "FF16"),
        ("01040255", "FF16"),
        ("0104025561", "FF16"),
        ("010402555555", "FF16"),
        ("0104", "FF16"),
        ("010402555", "FF16"),
        ("010402554d", "FF16"),
        ("0104025540", "FF16"),
        ("0104025B55", "FF16"),
        ("03040155", "FF16"),
        ("01040155\r", "FF16"),
        ("02040155", "0204015500490200124F80"),
    ];
    answers(CASE_S, &frames);
}

/// Case 3b: a refused start lets the logic become active and the row go on, and
/// 32 letters are the most.
#[test]
fn refused_presses_and_the_longest_row() {
    let ups = |count: usize| format!("0104{count:02X}{}", "55".repeat(count));
    let longest = format!("{}{}5E0C00124F80", ups(32), "00".repeat(32));
    let text = "RETUNING Far = 200 [ ] Up = @ + 1 [ ] LOGIC L KEY L = Far [ KEY U -> Up ]";
    answers(
        text,
        &[
            ("0104044C554C55", "0104044C554C550A000A003E0C00124F80"),
            (&ups(32), &longest),
            (&ups(33), "FF16"),
            (&format!("{}5", ups(32)), "FF16"),
            (&format!("{}55", ups(32)), "FF16"),
        ],
    );
}

/// From a bad row no press is tried, also where the fault stands last; what 25
/// and 21 leave is what the next press starts from.
#[test]
fn nothing_of_a_bad_row_and_all_of_a_good_one() {
    answers(
        "RETUNING D ( n ) = [ << @ / n >> ] Up = @ + 1 [ ] \
         LOGIC L KEY L = D ( 0 ) [ KEY U -> Up KEY M -> M ] M KEY N = [ KEY U -> L ]",
        &[
            ("0104034C555B", "FF16"),
            ("01040155", "01040155153C0C00124F80"),
            ("02040555584C5558", "02040555584C555815151900153D0C00124F80"),
            ("0104044D555555", "0104044D555555001900003F0C00124F80"),
        ],
    );
}

/// Rows look at no held key, and change none.
#[test]
fn held_keys_wait_for_the_next_key() {
    answers(
        "HARMONY C = { 0 } RETUNING Up = @ + 12 [ ] Step = @ + 1 [ ] \
         LOGIC L KEY L = [ C -> Step KEY U -> Up ]",
        &[
            ("01053C", "01053C003C0C00124F80"),
            ("0104034C5555", "0104034C5555000000540C00124F80"),
            ("01053C", "01053C11540C00124F80"),
            ("020548", "02054800550C00124F80"),
        ],
    );
}
