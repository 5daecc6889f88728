//! Harmonies of many shapes.

use super::shuffle;
use crate::random::Random;
use crate::state::POSITIONS;

/// A number that a harmony names, and whether it has a star.
pub type Item = (u8, bool);

/// The items of a harmony; those of earlier ones may come again, so that two
/// harmonies match the same keys.
pub fn items(random: &mut Random, earlier: &[Vec<Item>]) -> Vec<Item> {
    let numbers = match random.below(20) {
        0..=2 if !earlier.is_empty() => numbers_of(&random.pick(earlier, Vec::new())),
        3 => some(random, POSITIONS, POSITIONS),
        4 => {
            let count = 1 + random.below(POSITIONS);
            some(random, count, POSITIONS)
        }
        5..=7 => triad(random),
        8..=10 => vec![random.below(13) as u8],
        _ => {
            let below = random.one_of([1, 2, 5, 7, 12, 12, 12, 12, 13, 14, 25, POSITIONS]);
            let count = 1 + random.below(4);
            some(random, count, below)
        }
    };
    let stars = random.one_of([0, 0, 25, 50, 100]);
    numbers.into_iter().map(|number| (number, random.percent(stars))).collect()
}

fn numbers_of(items: &[Item]) -> Vec<u8> {
    items.iter().map(|(number, _)| *number).collect()
}

/// So many numbers below another, each once.
fn some(random: &mut Random, count: usize, below: usize) -> Vec<u8> {
    let mut numbers: Vec<u8> = (0..below as u8).collect();
    shuffle(random, &mut numbers);
    numbers.truncate(count);
    if random.percent(50) {
        numbers.sort_unstable();
    }
    numbers
}

/// Three numbers that make music, from any of twelve keys.
fn triad(random: &mut Random) -> Vec<u8> {
    let first = random.below(12) as u8;
    let above = random.one_of([[0, 4, 7], [0, 3, 7], [0, 4, 10]]);
    above.iter().map(|step| (first + step) % 12).collect()
}
