//! "The state and numbers must equal those of the same presses sent singly":
//! seeded streams, as they are and with letters gathered into rows, on two desks.
//! One takes the rows, the other a frame for each press.

use super::letter_rows::{digits, row};
use super::streams;
use crate::frames::{frame_bytes, Desk, Effect, LONGEST_ROW};
use crate::text::{self, Program};

const BAD: &[u8] = b"FF16\n";

/// The bytes of a letter's answer in front of its number, and with it, in
/// digits.
const FRAME: usize = 6;
const NUMBERED: usize = 8;

/// What is compared, and how often it was.
struct Desks {
    rows: Desk,
    singles: Desk,
    compared: usize,
    presses: usize,
    bad: usize,
}

impl Desks {
    fn new(program: &Program) -> Self {
        let [rows, singles] = [(); 2].map(|()| Desk::new(program.clone()));
        Desks { rows, singles, compared: 0, presses: 0, bad: 0 }
    }

    fn take(&mut self, line: &[u8]) {
        let (before, state) = (parts(&self.rows), self.rows.state().clone());
        let answer = answered(&mut self.rows, line);
        for step in self.rows.steps_from(state) {
            assert_eq!(step.on.called(&step.call).err().unwrap_or_default(), step.number);
        }
        let expected = match frame_bytes(line).as_deref() {
            Some([house, 4, _, letters @ ..]) if answer.0 != BAD => {
                self.compared += 1;
                self.presses += letters.len();
                self.singly(line, *house, letters)
            }
            _ => answered(&mut self.singles, line),
        };
        assert_eq!(answer, expected);
        assert_eq!(parts(&self.rows), parts(&self.singles));
        if answer.0 == BAD {
            self.bad += 1;
            assert_eq!(parts(&self.rows), before);
        }
    }

    /// What the row is to be answered by the answers to its presses, and what
    /// these did.
    fn singly(&mut self, row: &[u8], house: u8, letters: &[u8]) -> (Vec<u8>, Vec<Effect>) {
        let (mut line, mut head, mut effects) = (row.to_vec(), Vec::new(), Vec::new());
        for &letter in letters {
            let (answer, effect) = answered(&mut self.singles, &digits(&[house, 1, letter]));
            line.extend(&answer[FRAME..NUMBERED]);
            head = answer[NUMBERED..].to_vec();
            effects.extend(effect);
        }
        line.extend(head);
        (line, effects)
    }
}

fn answered(desk: &mut Desk, line: &[u8]) -> (Vec<u8>, Vec<Effect>) {
    let mut answer = Vec::new();
    desk.answer(line, &mut answer);
    (answer, desk.effects().to_vec())
}

/// All that a desk remembers.
fn parts(desk: &Desk) -> impl PartialEq + std::fmt::Debug {
    (desk.state().clone(), desk.active(), *desk.held())
}

/// The house of a letter's frame.
fn house_of_letter(line: &[u8]) -> Option<u8> {
    match frame_bytes(line)?[..] {
        [house, 1, _] => Some(house),
        _ => None,
    }
}

/// The same lines, with letters of one house that follow each other in rows.
fn gathered(lines: &[&[u8]]) -> Vec<Vec<u8>> {
    let is_same = |a: &&[u8], b: &&[u8]| {
        house_of_letter(a).is_some() && house_of_letter(a) == house_of_letter(b)
    };
    let runs = lines.chunk_by(is_same).flat_map(|run| run.chunks(LONGEST_ROW));
    runs.map(|run| match house_of_letter(run[0]) {
        Some(house) => {
            let letters = run.iter().filter_map(|line| frame_bytes(line)?.last().copied());
            digits(&row(house, &letters.collect::<Vec<_>>()))
        }
        None => run[0].to_vec(),
    })
    .collect()
}

#[test]
fn rows_act_as_their_letters_sent_singly() {
    let (mut compared, mut presses, mut bad) = (0, 0, 0);
    for index in 0..300 {
        let pair = streams::pair(11, index);
        let program = text::read(&pair.text).unwrap_or_default();
        let lines: Vec<&[u8]> = pair.frames.split(|&byte| byte == b'\n').collect();
        let as_they_are = lines.iter().map(|line| line.to_vec()).collect();
        for lines in [as_they_are, gathered(&lines)] {
            let mut desks = Desks::new(&program);
            lines.iter().for_each(|line| desks.take(line));
            compared += desks.compared;
            presses += desks.presses;
            bad += desks.bad;
        }
    }
    assert!(compared > 2_000 && presses > 20_000 && bad > 1_000, "{compared} {presses} {bad}");
}
