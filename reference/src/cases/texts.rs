//! Texts, right and damaged.

use super::compose::{compose, Plan};
use super::examples::EXAMPLES;
use super::faults;
use super::sketch::render;
use crate::random::Random;

/// One text of a seed.
pub fn text(seed: u64, index: u64) -> Vec<u8> {
    let mut random = Random::for_case(seed, index);
    let random = &mut random;
    if random.percent(8) {
        return example(random);
    }
    let plan = plan(random);
    let mut tokens = compose(random, plan);
    let faults = random.one_of([0, 0, 0, 1, 1, 1, 1, 1, 2, 2]);
    for _ in 0..faults {
        faults::put_in(random, &mut tokens);
    }
    let mut text = render(random, &tokens);
    if random.percent(8) {
        faults::change_bytes(random, &mut text);
    }
    if random.percent(6) {
        faults::lengthen(random, &mut text);
    }
    text
}

fn example(random: &mut Random) -> Vec<u8> {
    let mut text = random.one_of(EXAMPLES).as_bytes().to_vec();
    if random.percent(70) {
        faults::change_bytes(random, &mut text);
    }
    text
}

/// Texts of all sizes, small ones mostly.
fn plan(random: &mut Random) -> Plan {
    let size = random.one_of([2, 4, 4, 8, 8, 8, 24]);
    let mut upto = |most: usize| random.below(most.min(size) + 1);
    Plan {
        intervals: upto(24),
        tones: upto(24),
        systems: upto(8),
        retunings: upto(24),
        harmonies: upto(24),
        logics: upto(8),
        orders: upto(12),
        positions: upto(12) + 1,
        terms: upto(15) + 1,
        musical: upto(1) == 0,
        far: false,
        first_muted: false,
        placeholders: if upto(1) == 0 { 60 } else { 0 },
    }
}

#[cfg(test)]
mod tests {
    use super::*;
    use crate::text::read;
    use std::collections::BTreeMap;

    #[test]
    fn each_number_is_frequent() {
        let mut counts = [0; 25];
        for index in 0..1_500 {
            let number = read(&text(11, index)).err().map_or(0, |refusal| refusal.number);
            counts[usize::from(number)] += 1;
        }
        let given = counts[..10].iter().chain(&counts[24..]);
        assert!(given.into_iter().all(|&count| count >= 15), "{counts:?}");
    }

    /// The refusals that harmonies and placeholders bring, each by what stands at
    /// its place.
    #[test]
    fn each_refusal_of_harmonies_and_placeholders_is_frequent() {
        let mut counts = BTreeMap::new();
        for index in 0..8_000 {
            let text = text(11, index);
            if let Err(refusal) = read(&text) {
                let (before, after) = text.split_at(refusal.place);
                *counts.entry((refusal.number, kind_at(before), what(after))).or_insert(0) += 1;
            }
        }
        for (number, kind, what) in REFUSALS {
            let count = counts.get(&(number, kind, what.to_string())).copied().unwrap_or(0);
            assert!(count >= 10, "{number} {kind} {what}: {count} of {counts:?}");
        }
    }

    const REFUSALS: [(u8, &str, &str); 27] = [
        (3, "harmon", "}"),
        (3, "harmon", ","),
        (3, "harmon", "0"),
        (4, "harmon", "0"),
        (9, "harmon", "*"),
        (9, "harmon", "name ="),
        (5, "harmon", "name ="),
        (6, "logi", "name ="),
        (6, "order", "name -"),
        (9, "order", "name -"),
        (9, "order", "KEY"),
        // brackets of placeholders
        (3, "retuning", ")"),
        (3, "retuning", "("),
        (3, "retuning", "+"),
        (9, "retuning", "name )"),
        (9, "retuning", "name ("),
        (24, "retuning", "name )"),
        (24, "retuning", "name ["),
        (24, "retuning", "name >"),
        // brackets of calls
        (3, "logi", ")"),
        (3, "order", ")"),
        (4, "logi", "0"),
        (4, "order", "0"),
        (9, "logi", "0"),
        (9, "order", "0"),
        (24, "logi", "name ("),
        (24, "order", "name ("),
    ];

    /// The first letters of the word that begins the last block of this text;
    /// inside a logic's bracket it is an order.
    fn kind_at(before: &[u8]) -> &'static str {
        let before = String::from_utf8_lossy(before).to_lowercase();
        let outside: String = before.split('"').step_by(2).collect();
        let kinds = ["interval", "ton", "retuning", "umstimmung", "harmon", "logi"];
        let kind = kinds.into_iter().max_by_key(|kind| outside.rfind(kind)).unwrap_or_default();
        match kind {
            "logi" if outside.rfind('[') > outside.rfind(']') => "order",
            "umstimmung" => "retuning",
            _ => kind,
        }
    }

    /// What these bytes begin with: a name and the mark after it, KEY, a number
    /// or a mark.
    fn what(after: &[u8]) -> String {
        let after = String::from_utf8_lossy(after).to_lowercase();
        let is_of_name = |c: char| c.is_ascii_alphanumeric() || c == '_' || c == '\'';
        let rest = after.trim_start_matches(is_of_name);
        match after.chars().next().unwrap_or_default() {
            '0'..='9' | '#' => "0".to_string(),
            _ if after.starts_with("key") || after.starts_with("taste") => "KEY".to_string(),
            mark if !is_of_name(mark) => mark.to_string(),
            _ => rest.trim_start().chars().next().map_or_else(String::new, |c| format!("name {c}")),
        }
    }
}
