//! Section "Frames" of document 01, with the numbers handed over of request 1/13,
//! the rows of 3/13, the keys of 5/13 and the unplayable ones of 6/13: frames,
//! what they call, and the answers.

mod effects;
mod line;

use crate::bindings::{Bindings, Found, Sought};
use crate::harmony::HeldKeys;
use crate::measure::Pitch;
use crate::numbers::{self, Number};
use crate::playable::key_answer;
use crate::state::State;
use crate::text::tree::{Called, Target};
use crate::text::{Program, Refusal};
use effects::steps;
pub use effects::{Caller, Effect, Made, Step};
use line::{frame, Action, Frame};
pub use line::{frame_bytes, LONGEST_FRAME, LONGEST_ROW};

/// "Muted is 80000000."
const MUTED: [u8; 4] = [0x80, 0, 0, 0];

/// An answer's line in the making: each byte becomes two capital hexadecimal
/// digits.
struct Answer<'a>(&'a mut Vec<u8>);

const DIGITS: &[u8; 16] = b"0123456789ABCDEF";

impl<'a> Answer<'a> {
    fn new(line: &'a mut Vec<u8>, start: &[u8]) -> Self {
        let mut answer = Answer(line);
        answer.put(start);
        answer
    }

    /// "An answer repeats the frame".
    fn repeating(line: &'a mut Vec<u8>, frame: &[u8]) -> Self {
        line.extend(frame);
        Answer(line)
    }

    fn put(&mut self, bytes: &[u8]) {
        for &byte in bytes {
            let (high, low) = (usize::from(byte >> 4), usize::from(byte & 15));
            self.0.extend([DIGITS[high], DIGITS[low]]);
        }
    }

    fn put_pitch(&mut self, pitch: Option<Pitch>) {
        self.put(&pitch.map_or(MUTED, |pitch| (pitch.0 as i32).to_be_bytes()));
    }

    /// "Anchor, width, period".
    fn put_head(&mut self, state: &State) {
        self.put(&[state.anchor.0 as u8, state.width as u8]);
        self.put(&(state.period.0 as i32).to_be_bytes());
    }

    fn end(self) {
        self.0.push(b'\n');
    }
}

/// "A refused text gives one line, `EE`, number, place in four bytes."
pub fn refused_line(refusal: Refusal, out: &mut Vec<u8>) {
    let mut answer = Answer::new(out, &[0xEE, refusal.number]);
    answer.put(&(refusal.place as u32).to_be_bytes());
    answer.end();
}

/// One state and one active logic for both houses, and the keys that each
/// holds.
pub struct Desk {
    program: Program,
    bindings: Bindings,
    state: State,
    active: Option<usize>,
    held: HeldKeys,
    /// What the last frame did.
    effects: Vec<Effect>,
}

impl Desk {
    pub fn new(program: Program) -> Self {
        let bindings = Bindings::of(&program);
        let (held, effects) = (HeldKeys::default(), Vec::new());
        Desk { program, bindings, state: State::start(), active: None, held, effects }
    }

    pub fn program(&self) -> &Program {
        &self.program
    }

    pub fn state(&self) -> &State {
        &self.state
    }

    pub fn active(&self) -> Option<usize> {
        self.active
    }

    /// What the last frame did; of a row what each press did.
    pub fn effects(&self) -> &[Effect] {
        &self.effects
    }

    /// The calls of the last frame, which met this state.
    pub fn steps_from(&self, state: State) -> Vec<Step> {
        steps(&self.program, state, &self.effects)
    }

    pub fn held(&self) -> &HeldKeys {
        &self.held
    }

    /// Whether an analysis of the held keys would find something now.
    pub fn has_bound_chord(&self) -> bool {
        let chord = self.held.chord(&self.state);
        self.bindings.find(Sought::Chord(chord), self.active).is_some()
    }

    /// Takes one frame, a line without its line feed, and writes the answer's
    /// line.
    pub fn answer(&mut self, line: &[u8], out: &mut Vec<u8>) {
        self.effects.clear();
        let Some(frame) = frame(line) else {
            self.effects.push(Effect::nothing(numbers::BAD_FRAME));
            return Answer::new(out, &[0xFF, numbers::BAD_FRAME]).end();
        };
        let mut answer = Answer::repeating(out, line);
        match frame {
            Frame::Play(action) => self.play_all(&[action], &mut answer),
            Frame::Row(row) => self.play_all(row.presses(), &mut answer),
            Frame::Pitch(key) => {
                let (number, pitch) = key_answer(self.state.pitch(key));
                answer.put(&[number]);
                answer.put_pitch(pitch);
                self.effects.push(Effect::nothing(number));
            }
            Frame::Dump => {
                answer.put(&[numbers::DONE]);
                answer.put_head(&self.state);
                let tones = self.state.tones.iter().take(self.state.width);
                tones.for_each(|tone| answer.put_pitch(*tone));
                self.effects.push(Effect::nothing(numbers::DONE));
            }
        }
        answer.end();
    }

    /// "Its answer is the frame, then each press's number, then anchor, width
    /// and period." Each press starts from what the one before it left.
    fn play_all(&mut self, actions: &[Action], answer: &mut Answer) {
        for action in actions {
            let effect = self.play(*action);
            answer.put(&[effect.number]);
            self.effects.push(effect);
        }
        answer.put_head(&self.state);
    }

    /// "17 for a key already held in that house, 18 for one not held, each
    /// before any analysis."
    fn play(&mut self, action: Action) -> Effect {
        let changed = match action {
            Action::Letter(letter) => {
                return self.seek(Sought::Letter(letter), numbers::UNBOUND_LETTER);
            }
            Action::Down(key) => self.held.press(key),
            Action::Up(key) => self.held.release(key),
        };
        match changed {
            Ok(()) => self.analyse(),
            Err(number) => Effect::nothing(number),
        }
    }

    /// "Each key frame is analysed once, after the key has changed. It answers
    /// as a letter does, with 0 where nothing matches."
    fn analyse(&mut self) -> Effect {
        let chord = self.held.chord(&self.state);
        self.seek(Sought::Chord(chord), numbers::DONE)
    }

    /// "Logics are tried in declared order; the first with this letter becomes
    /// active and its start is called, and the search ends (house). Else the
    /// active logic's orders in declared order, the first with it being
    /// called". If there is none, the number is `otherwise`.
    fn seek(&mut self, sought: Sought, otherwise: Number) -> Effect {
        match self.bindings.find(sought, self.active) {
            Some(Found::Logic(logic)) => self.activate(logic),
            Some(Found::Order(called)) => match called.target {
                Target::Logic(logic) => self.activate(logic),
                _ => self.call(called, Caller::Order),
            },
            None => Effect::nothing(otherwise),
        }
    }

    /// "A logic becomes active even if its start isn't taken; the number
    /// returned is that of the call, 0 with no start."
    fn activate(&mut self, logic: usize) -> Effect {
        self.active = Some(logic);
        let declared = self.program.declared.logics.get(logic);
        let effect = match declared.and_then(|logic| logic.form.start) {
            Some(start) => self.call(start, Caller::Start),
            None => Effect::nothing(numbers::DONE),
        };
        Effect { activated: Some(logic), ..effect }
    }

    /// Calls a tone system or retuning, with the numbers handed over filled in
    /// now; a refused call leaves the state.
    fn call(&mut self, called: Called<Target>, caller: Caller) -> Effect {
        let Some(call) = self.program.call(&called) else {
            return Effect::nothing(numbers::DONE);
        };
        let number = match self.state.called(&call) {
            Ok(state) => {
                self.state = state;
                numbers::DONE
            }
            Err(number) => number,
        };
        let made = Made { called, caller, number };
        Effect { made: Some(made), ..Effect::nothing(number) }
    }
}

#[cfg(test)]
mod row_tests;
#[cfg(test)]
pub mod tests;
