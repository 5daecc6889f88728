//! Key frames of both houses, mostly such as lead to a harmony that matches.

use crate::frames::Desk;
use crate::harmony::{Harmony, HeldKeys, House, HouseKey, HOUSES};
use crate::random::Random;
use crate::state::{Key, State};
use crate::text::tree::Trigger;

const DOWN: u8 = 5;
const UP: u8 = 6;

/// What the players' fingers are about to play.
#[derive(Default)]
pub struct Fingers {
    goal: Option<Harmony>,
}

impl Fingers {
    /// The next key frame; a few are refused with 17, 18 or 22.
    pub fn frame(&mut self, random: &mut Random, desk: &Desk) -> [u8; 3] {
        let held = desk.held();
        let any = HouseKey { house: random.one_of(HOUSES), key: random.below(128) as u8 };
        match random.below(100) {
            0..=3 => above(toggled(held, any)),
            4..=9 => frame(DOWN, any_of(random, held.all()).unwrap_or(any)),
            10..=15 => frame(UP, not_held(random, held).unwrap_or(any)),
            16..=21 => toggled(held, any),
            _ => self.toward_goal(random, desk).unwrap_or(toggled(held, any)),
        }
    }

    /// One step to the harmony that is played, or to another one once it matches
    /// or can't; now and then it is given up.
    fn toward_goal(&mut self, random: &mut Random, desk: &Desk) -> Option<[u8; 3]> {
        let (state, held) = (desk.state(), desk.held());
        let chord = held.chord(state);
        let open = |goal: &Harmony| goal.fits(state.width) && !goal.matches(&chord);
        let kept = self.goal.filter(open).filter(|_| !random.percent(4));
        let goal = kept.or_else(|| chosen(random, desk));
        self.goal = goal;
        step(random, state, held, &goal?)
    }
}

/// The bytes of a key frame.
fn frame(kind: u8, HouseKey { house, key }: HouseKey) -> [u8; 3] {
    [if house == House::First { 1 } else { 2 }, kind, key]
}

/// The same with a key above 7F.
fn above([house, kind, key]: [u8; 3]) -> [u8; 3] {
    [house, kind, key | 0x80]
}

/// Down if the key is not held, else up.
fn toggled(held: &HeldKeys, key: HouseKey) -> [u8; 3] {
    frame(if held.holds(key) { UP } else { DOWN }, key)
}

/// A held key, but of the house that does not hold it.
fn not_held(random: &mut Random, held: &HeldKeys) -> Option<HouseKey> {
    let [first, second] = HOUSES;
    let other = |house| if house == first { second } else { first };
    let others = held.all().map(|key| HouseKey { house: other(key.house), ..key });
    any_of(random, others.filter(|key| !held.holds(*key)))
}

fn any_of<T: Clone>(random: &mut Random, all: impl Iterator<Item = T>) -> Option<T> {
    let all: Vec<T> = all.collect();
    all.get(random.below(all.len())).cloned()
}

/// A harmony that fits into the present width: mostly one that would call
/// something now.
fn chosen(random: &mut Random, desk: &Desk) -> Option<Harmony> {
    let tree = &desk.program().declared;
    let logics = tree.logics.iter().map(|logic| &logic.form.trigger);
    let active = desk.active().and_then(|i| tree.logics.get(i));
    let orders = active.into_iter().flat_map(|logic| &logic.form.orders);
    let triggers = logics.chain(orders.map(|order| &order.trigger));
    let bound = triggers.filter_map(|trigger| match trigger {
        Trigger::Harmony(i) => tree.harmonies.get(*i),
        Trigger::Letter(_) => None,
    });
    let fits = |harmony: &Harmony| harmony.fits(desk.state().width);
    if random.percent(90) {
        any_of(random, bound.map(|declared| declared.form).filter(fits))
    } else {
        any_of(random, tree.harmonies.iter().map(|declared| declared.form).filter(fits))
    }
}

/// One key up that does not belong to the harmony, else one down that it needs,
/// else, as it matches already, one down that it names.
fn step(random: &mut Random, state: &State, held: &HeldKeys, harmony: &Harmony) -> Option<[u8; 3]> {
    let place = |key: u8| state.place_of(Key(key.into())).1;
    let strange = held.all().filter(|key| !harmony.named.has(place(key.key)));
    if let Some(key) = any_of(random, strange) {
        return Some(frame(UP, key));
    }
    let chord = held.chord(state);
    let missing = any_of(random, harmony.needed.all().filter(|&r| !chord.held.has(r)));
    let wanted = missing.or_else(|| any_of(random, harmony.named.all()))?;
    let house = random.one_of(HOUSES);
    let keys = (0..128).filter(|&key| place(key) == wanted).map(|key| HouseKey { house, key });
    any_of(random, keys).map(|key| toggled(held, key))
}
