//! Request 5/13 of document 02, "Chords as triggers": harmonies, the held keys
//! of the houses, and when the one matches the others.

use crate::numbers::{self, Number};
use crate::state::{Key, State};

/// What a harmony wants of a number that it names: "a star before a number
/// means that it may be held or not".
#[derive(Clone, Copy, Debug, PartialEq, Eq)]
pub enum Wish {
    Held,
    Either,
}

/// The numbers that a harmony names and, of these, the ones without a star.
#[derive(Clone, Copy, Debug, Default, PartialEq, Eq)]
pub struct Harmony {
    pub named: Positions,
    pub needed: Positions,
}

impl Harmony {
    /// Names a number below 60.
    pub fn add(&mut self, number: u8, wish: Wish) {
        self.named.add(number.into());
        if wish == Wish::Held {
            self.needed.add(number.into());
        }
    }

    pub fn wish(&self, number: u8) -> Option<Wish> {
        match (self.named.has(number.into()), self.needed.has(number.into())) {
            (false, _) => None,
            (true, true) => Some(Wish::Held),
            (true, false) => Some(Wish::Either),
        }
    }

    /// How many numbers it names.
    pub fn count(&self) -> usize {
        self.named.all().count()
    }

    /// "One naming a number at or above the width, starred or not, never
    /// matches."
    pub fn fits(&self, width: usize) -> bool {
        self.named.all().all(|number| number < width)
    }

    /// "A harmony matches when exactly its numbers are held, starred ones
    /// apart."
    pub fn matches(&self, chord: &Chord) -> bool {
        let Chord { held, width } = chord;
        held.is_within(self.named) && self.needed.is_within(*held) && self.fits(*width)
    }
}

/// A set of numbers from 0 to 59.
#[derive(Clone, Copy, Debug, Default, PartialEq, Eq)]
pub struct Positions(u64);

impl Positions {
    pub fn add(&mut self, number: usize) {
        self.0 |= 1 << number;
    }

    pub fn has(self, number: usize) -> bool {
        self.0 >> number & 1 == 1
    }

    fn is_within(self, other: Positions) -> bool {
        self.0 & !other.0 == 0
    }

    /// The numbers of the set, from the least up.
    pub fn all(self) -> impl Iterator<Item = usize> {
        ones(self.0.into())
    }
}

/// The places of the one bits, from the lowest up.
fn ones(mut bits: u128) -> impl Iterator<Item = usize> {
    std::iter::from_fn(move || {
        let place = bits.trailing_zeros();
        bits &= bits.wrapping_sub(1);
        (place < u128::BITS).then_some(place as usize)
    })
}

#[derive(Clone, Copy, Debug, PartialEq, Eq)]
pub enum House {
    First,
    Second,
}

pub const HOUSES: [House; 2] = [House::First, House::Second];

/// A key of a keyboard, 0 to 127, in one of the houses.
#[derive(Clone, Copy, Debug, PartialEq, Eq)]
pub struct HouseKey {
    pub house: House,
    pub key: u8,
}

impl HouseKey {
    fn bit(self) -> u128 {
        1 << self.key
    }
}

/// "The desk keeps the held keys of each"; a bit for each key.
#[derive(Clone, Copy, Debug, Default, PartialEq, Eq)]
pub struct HeldKeys {
    first: u128,
    second: u128,
}

impl HeldKeys {
    fn of_mut(&mut self, house: House) -> &mut u128 {
        match house {
            House::First => &mut self.first,
            House::Second => &mut self.second,
        }
    }

    fn of(&self, house: House) -> u128 {
        match house {
            House::First => self.first,
            House::Second => self.second,
        }
    }

    pub fn holds(&self, key: HouseKey) -> bool {
        self.of(key.house) & key.bit() != 0
    }

    /// All held keys, those of the first house first.
    pub fn all(&self) -> impl Iterator<Item = HouseKey> + '_ {
        let keys = |house| ones(self.of(house)).map(move |key| HouseKey { house, key: key as u8 });
        HOUSES.into_iter().flat_map(keys)
    }

    /// "17 for a key already held in that house".
    pub fn press(&mut self, key: HouseKey) -> Result<(), Number> {
        if self.holds(key) {
            return Err(numbers::KEY_HELD);
        }
        *self.of_mut(key.house) |= key.bit();
        Ok(())
    }

    /// "18 for one not held".
    pub fn release(&mut self, key: HouseKey) -> Result<(), Number> {
        if !self.holds(key) {
            return Err(numbers::KEY_NOT_HELD);
        }
        *self.of_mut(key.house) &= !key.bit();
        Ok(())
    }

    /// "Held keys of both houses are projected by r into the present width."
    pub fn chord(&self, state: &State) -> Chord {
        let mut held = Positions::default();
        for key in ones(self.first | self.second) {
            let (_, r) = state.place_of(Key(key as i64));
            held.add(r);
        }
        Chord { held, width: state.width }
    }
}

/// The held keys as positions below a width.
#[derive(Clone, Copy, Debug, PartialEq, Eq)]
pub struct Chord {
    pub held: Positions,
    pub width: usize,
}

#[cfg(test)]
mod tests {
    use super::*;
    use crate::state::{Call, Change};

    fn harmony(needed: &[u8], starred: &[u8]) -> Harmony {
        let mut harmony = Harmony::default();
        needed.iter().for_each(|&number| harmony.add(number, Wish::Held));
        starred.iter().for_each(|&number| harmony.add(number, Wish::Either));
        harmony
    }

    fn chord(held: &[usize], width: usize) -> Chord {
        let mut chord = Chord { held: Positions::default(), width };
        held.iter().for_each(|&position| chord.held.add(position));
        chord
    }

    #[test]
    fn matches() {
        let c = harmony(&[0, 4], &[7]);
        for (held, expected) in [
            (&[0, 4][..], true),
            (&[0, 4, 7], true),
            (&[0], false),
            (&[0, 7], false),
            (&[0, 4, 5], false),
            (&[], false),
        ] {
            assert_eq!(c.matches(&chord(held, 12)), expected, "{held:?}");
        }
        let starred = harmony(&[], &[0, 3]);
        assert!(starred.matches(&chord(&[], 12)) && starred.matches(&chord(&[3], 12)));
        assert!(!starred.matches(&chord(&[1], 12)));
    }

    #[test]
    fn numbers_at_or_above_the_width_never_match() {
        let wide = harmony(&[0], &[12]);
        assert!(!wide.matches(&chord(&[0], 12)));
        assert!(wide.matches(&chord(&[0], 13)));
        assert!(harmony(&[], &[59]).matches(&chord(&[], 60)));
        assert!(!harmony(&[], &[59]).matches(&chord(&[], 59)));
    }

    #[test]
    fn all_sixty_numbers() {
        let all: Vec<u8> = (0..60).collect();
        let full = harmony(&all, &[]);
        assert_eq!(full.count(), 60);
        let held: Vec<usize> = (0..60).collect();
        assert!(full.matches(&chord(&held, 60)) && !full.matches(&chord(&held[1..], 60)));
    }

    #[test]
    fn both_houses_are_projected_below_and_above_the_anchor() {
        let mut held = HeldKeys::default();
        for (house, key) in [(House::First, 59), (House::Second, 59), (House::Second, 127)] {
            held.press(HouseKey { house, key }).unwrap();
        }
        held.press(HouseKey { house: House::First, key: 0 }).unwrap();
        assert_eq!(held.chord(&State::start()), chord(&[11, 7, 0], 12));
        let five = State::start().called(&Call::Width(Change::To(5))).unwrap();
        assert_eq!(held.chord(&five), chord(&[4, 2, 0], 5));
        assert_eq!(held.all().count(), 4);
    }

    #[test]
    fn each_house_holds_its_own_keys() {
        let mut held = HeldKeys::default();
        let [first, second] = HOUSES.map(|house| HouseKey { house, key: 127 });
        assert_eq!(held.press(first), Ok(()));
        assert_eq!(held.press(first), Err(17));
        assert_eq!(held.release(second), Err(18));
        assert_eq!(held.press(second), Ok(()));
        assert_eq!(held.release(first), Ok(()));
        assert_eq!(held.release(first), Err(18));
        assert!(held.holds(second) && !held.holds(first));
    }
}
