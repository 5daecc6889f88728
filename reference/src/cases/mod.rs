//! Seeded generators of cases.

pub mod calls;
mod compose;
mod examples;
mod faults;
mod fingers;
mod harmonies;
mod letter_rows;
pub mod measures;
mod misuses;
#[cfg(test)]
mod sent_singly;
mod sketch;
pub mod streams;
pub mod texts;
#[cfg(test)]
mod written_in;

use crate::random::Random;

fn shuffle<T>(random: &mut Random, list: &mut [T]) {
    for i in (1..list.len()).rev() {
        list.swap(i, random.below(i + 1));
    }
}
