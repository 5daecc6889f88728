//! The program `sitedesk` of document 01: the text from a file, frames line by
//! line, answers line by line.

use crate::frames::{refused_line, Desk, LONGEST_FRAME};
use crate::text::{self, LONGEST_TEXT};
use crate::validity::{self, Tables};
use std::fs::File;
use std::io::{self, Read, Write};
use std::path::Path;

const CHUNK: usize = 1 << 16;

/// Of a line that is longer than any frame's, no more than this is kept.
const LONGEST_LINE: usize = LONGEST_FRAME + 1;

/// The text of a file, "if absent, empty"; of one that is too long, no more
/// than is needed to see it.
pub fn text_of(path: &Path) -> io::Result<Vec<u8>> {
    let mut text = Vec::new();
    match File::open(path) {
        Ok(file) => {
            file.take(LONGEST_TEXT as u64 + 1).read_to_end(&mut text)?;
            Ok(text)
        }
        Err(error) if error.kind() == io::ErrorKind::NotFound => Ok(text),
        Err(error) => Err(error),
    }
}

/// Answers all frames of the input. With `validate`, all tables and the state
/// are gone over before each frame.
pub fn run(text: &[u8], validate: bool, input: impl Read, output: impl Write) -> io::Result<()> {
    match text::read(text) {
        Ok(program) => {
            let tables = validate.then(|| Tables::of(&program));
            Exchange::new(Desk::new(program), tables, output).run(input)
        }
        Err(refusal) => {
            let mut line = Vec::new();
            refused_line(refusal, &mut line);
            write_now(output, &line)
        }
    }
}

fn write_now(mut output: impl Write, bytes: &[u8]) -> io::Result<()> {
    output.write_all(bytes)?;
    output.flush()
}

struct Exchange<W> {
    desk: Desk,
    /// What is gone over before each frame, if it is asked.
    tables: Option<Tables>,
    output: W,
    /// Answers not yet written.
    answers: Vec<u8>,
    /// The beginning of a line whose end has not come yet.
    begun: Vec<u8>,
}

impl<W: Write> Exchange<W> {
    fn new(desk: Desk, tables: Option<Tables>, output: W) -> Self {
        let answers = Vec::with_capacity(2 * CHUNK);
        Exchange { desk, tables, output, answers, begun: Vec::new() }
    }

    /// What is answered is written before more input is waited for. "A last
    /// line without [a line feed] counts, unless it is empty."
    fn run(mut self, mut input: impl Read) -> io::Result<()> {
        let mut chunk = vec![0; CHUNK];
        loop {
            let count = match input.read(&mut chunk) {
                Ok(0) => break,
                Ok(count) => count,
                Err(error) if error.kind() == io::ErrorKind::Interrupted => continue,
                Err(error) => return Err(error),
            };
            self.take(chunk.get(..count).unwrap_or_default())?;
            self.write()?;
        }
        if !self.begun.is_empty() {
            self.end_begun_line(&[])?;
        }
        self.write()
    }

    /// Takes a piece of the input, in which lines may begin and end anywhere.
    fn take(&mut self, piece: &[u8]) -> io::Result<()> {
        let mut lines = piece.split(|&byte| byte == b'\n');
        let last = lines.next_back().unwrap_or_default();
        for line in lines {
            if self.begun.is_empty() {
                self.answer(line)?;
            } else {
                self.end_begun_line(line)?;
            }
        }
        self.keep(last);
        Ok(())
    }

    /// Keeps as much of a line's next part as a frame could have, and one byte
    /// more.
    fn keep(&mut self, part: &[u8]) {
        let room = LONGEST_LINE.saturating_sub(self.begun.len());
        self.begun.extend(part.iter().take(room));
    }

    fn end_begun_line(&mut self, end: &[u8]) -> io::Result<()> {
        self.keep(end);
        let mut line = std::mem::take(&mut self.begun);
        self.answer(&line)?;
        line.clear();
        self.begun = line;
        Ok(())
    }

    fn answer(&mut self, line: &[u8]) -> io::Result<()> {
        let is_damaged = |tables: &Tables| !validity::is_valid(tables, &self.desk);
        if self.tables.as_ref().is_some_and(is_damaged) {
            return Err(io::Error::other("a number of the tables is out of its range"));
        }
        self.desk.answer(line, &mut self.answers);
        if self.answers.len() >= CHUNK {
            self.write()?;
        }
        Ok(())
    }

    fn write(&mut self) -> io::Result<()> {
        write_now(&mut self.output, &self.answers)?;
        self.answers.clear();
        Ok(())
    }
}

#[cfg(test)]
mod tests {
    use super::*;
    use crate::text::tests::CASE_S;

    fn answers(text: &str, input: impl Read) -> String {
        let mut output = Vec::new();
        run(text.as_bytes(), true, input, &mut output).unwrap();
        String::from_utf8(output).unwrap()
    }

    #[test]
    fn lines() {
        let answers = |frames: &str| answers("", frames.as_bytes());
        assert_eq!(answers(""), "");
        assert_eq!(answers("\n"), "FF16\n");
        assert_eq!(answers("010245"), "0102450000694920\n");
        assert_eq!(answers("010245\n"), "0102450000694920\n");
        assert_eq!(answers("010245\n\n"), "0102450000694920\nFF16\n");
        assert_eq!(answers("\n010245\n01"), "FF16\n0102450000694920\nFF16\n");
    }

    /// Hands out one byte at a time.
    struct Drops<'a>(&'a [u8]);

    impl Read for Drops<'_> {
        fn read(&mut self, room: &mut [u8]) -> io::Result<usize> {
            let count = self.0.len().min(1).min(room.len());
            self.0.read(&mut room[..count])
        }
    }

    #[test]
    fn pieces_make_no_difference() {
        let long = format!("01014D\n{}\n\n010245\n0102", "010245".repeat(30_000));
        let whole = answers(CASE_S, long.as_bytes());
        assert_eq!(whole, "01014D00450200124F80\nFF16\nFF16\n0102450000694920\nFF16\n");
        assert_eq!(answers(CASE_S, Drops(long.as_bytes())), whole);
    }

    /// The longest frame, and the same with one byte more.
    #[test]
    fn pieces_of_the_longest_row() {
        let row = format!("010420{}", "55".repeat(32));
        let frames = format!("01014D\n{row}\n{row}5\n{row}\r\n{row}");
        let answer = |anchor: &str| format!("{row}{}{anchor}0200124F80\n", "00".repeat(32));
        let expected = ["01014D00450200124F80\n", &answer("65"), "FF16\nFF16\n"].concat();
        for whole in [answers(CASE_S, frames.as_bytes()), answers(CASE_S, Drops(frames.as_bytes()))]
        {
            let (taken, last) = whole.split_at(expected.len());
            assert_eq!(taken, expected);
            assert!(last.starts_with(&row) && last.ends_with("0A7F0200124F80\n"), "{last}");
        }
    }

    #[test]
    fn a_refused_text_gives_one_line() {
        assert_eq!(answers("TONE a = b", "010245\n".as_bytes()), "EE0600000009\n");
        let long = " ".repeat(32_769);
        assert_eq!(answers(&long, "010245\n".as_bytes()), "EE0100000000\n");
    }
}
