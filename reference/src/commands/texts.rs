//! `read`, `texts`, `text-cases` and `text-counts`.

use super::{input, note, output, verdict, Outcome, Verdict};
use crate::cases::texts;
use crate::dump;
use crate::numbers::{self, Counts};
use crate::records::{bad_record, next_record};
use crate::rows;
use crate::text::{self, Cause, Refusal};
use std::fs;
use std::io::{self, Read, Write};
use std::path::Path;

/// Tells for each file its number and place, and what its text declares.
pub fn read(paths: &[&str]) -> Outcome {
    let mut output = output();
    for path in paths {
        let text = fs::read(Path::new(path)).map_err(|error| format!("{path}: {error}"))?;
        let (Refusal { number, place }, lines) = match text::read(&text) {
            Ok(program) => (ACCEPTED, dump::readable(&program)),
            Err(refusal) => (refusal, String::new()),
        };
        write!(output, "{path}: number {number}, place {place}\n{lines}")?;
    }
    output.flush()?;
    Ok(Verdict::Passed)
}

/// "0 | done; a text's place 0".
const ACCEPTED: Refusal = Refusal { number: numbers::DONE, place: 0 };

/// Answers each text of a stream with number and place, and what it declares.
pub fn answer() -> Outcome {
    let (mut input, mut output) = (input(), output());
    let mut counts = Counts::default();
    while let Some(text) = next_text(&mut input)? {
        let (Refusal { number, place }, bytes) = match text::read(&text) {
            Ok(program) => (ACCEPTED, rows::bytes(&program)),
            Err(refusal) => (refusal, rows::none()),
        };
        counts.note(number);
        output.write_all(&[number])?;
        output.write_all(&(place as u32).to_be_bytes())?;
        output.write_all(&bytes)?;
    }
    output.flush()?;
    note(format_args!("texts: {counts}"));
    Ok(Verdict::Passed)
}

/// The next text of a stream, in which its length in four bytes stands before
/// each.
fn next_text(input: &mut impl Read) -> io::Result<Option<Vec<u8>>> {
    let Some(length) = next_record(input)? else {
        return Ok(None);
    };
    let length = u32::from_be_bytes(length);
    let mut text = Vec::new();
    let read = input.take(length.into()).read_to_end(&mut text)?;
    if read as u64 != u64::from(length) {
        return Err(bad_record("the last text is cut short"));
    }
    Ok(Some(text))
}

/// Writes the texts of a seed, into a folder or, with `-`, as one stream.
pub fn write_cases(seed: u64, count: u64, folder: &str) -> Outcome {
    if folder == "-" {
        let mut output = output();
        for text in (0..count).map(|index| texts::text(seed, index)) {
            output.write_all(&(text.len() as u32).to_be_bytes())?;
            output.write_all(&text)?;
        }
        output.flush()?;
        return Ok(Verdict::Passed);
    }
    let folder = Path::new(folder);
    fs::create_dir_all(folder)?;
    for index in 0..count {
        fs::write(folder.join(format!("{index:05}.mut")), texts::text(seed, index))?;
    }
    Ok(Verdict::Passed)
}

/// In so many texts each cause of 24, and each of 3, 4 and 9 in brackets, shall come once.
const TEXTS_TO_EACH_CAUSE: u64 = 200;

/// Reads the texts of a seed and counts the causes of 24, and 3, 4 and 9 in brackets; fails if one is rare.
pub fn count(seed: u64, count: u64) -> Outcome {
    let mut causes = Causes::default();
    for index in 0..count {
        causes.note(&texts::text(seed, index));
    }
    let mut output = output();
    writeln!(output, "{causes}")?;
    output.flush()?;
    Ok(verdict(TEXTS_TO_EACH_CAUSE * causes.rarest() >= count))
}

/// How often 24 was given, by its cause, and how often another number in brackets.
#[derive(Default)]
struct Causes {
    bad_brackets: u64,
    out_of_range: u64,
    fifth: u64,
    not_named: u64,
    named_twice: u64,
    wrong_count: u64,
}

impl Causes {
    fn note(&mut self, text: &[u8]) {
        let Err(Refusal { number, place }) = text::read(text) else {
            return;
        };
        match number {
            numbers::BAD_PLACEHOLDER => self.note_24(text),
            numbers::NOT_ALLOWED if in_brackets(text, place) => self.bad_brackets += 1,
            numbers::OUT_OF_RANGE if in_brackets(text, place) => self.out_of_range += 1,
            numbers::ONE_TOO_MANY if in_brackets(text, place) => self.fifth += 1,
            _ => {}
        }
    }

    fn note_24(&mut self, text: &[u8]) {
        match text::cause_of_24(text) {
            Some(Cause::NotNamed) => self.not_named += 1,
            Some(Cause::NamedTwice) => self.named_twice += 1,
            Some(Cause::WrongCount) => self.wrong_count += 1,
            None => {}
        }
    }

    fn rarest(&self) -> u64 {
        let of_24 = self.not_named.min(self.named_twice).min(self.wrong_count);
        of_24.min(self.bad_brackets).min(self.out_of_range).min(self.fifth)
    }
}

/// A bracket stands at the place, or the last one before it opens. (Those in comments count too: this is for counts alone.)
fn in_brackets(text: &[u8], place: usize) -> bool {
    let is_bracket = |byte: &u8| matches!(byte, b'(' | b')');
    text.get(place).is_some_and(is_bracket)
        || text[..place].iter().rfind(|byte| is_bracket(byte)) == Some(&b'(')
}

impl std::fmt::Display for Causes {
    fn fmt(&self, f: &mut std::fmt::Formatter) -> std::fmt::Result {
        write!(
            f,
            "in brackets 3: {}, 4: {}, 9: {}; 24 for a placeholder not named: {}, named twice: {}, for a wrong count in a call: {}",
            self.bad_brackets, self.out_of_range, self.fifth, self.not_named, self.named_twice, self.wrong_count
        )
    }
}

#[cfg(test)]
mod tests {
    use super::*;

    #[test]
    fn each_refusal_of_placeholders_is_frequent() {
        let mut causes = Causes::default();
        (0..1_000).for_each(|index| causes.note(&texts::text(11, index)));
        assert!(TEXTS_TO_EACH_CAUSE * causes.rarest() >= 1_000, "{causes}");
    }
}
