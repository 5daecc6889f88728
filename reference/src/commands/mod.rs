//! The subcommands, each a function from its arguments to its verdict.

pub mod book;
pub mod calls;
pub mod keys;
pub mod measures;
pub mod streams;
pub mod texts;

use std::error::Error;
use std::fmt::Display;
use std::io::{self, BufReader, BufWriter, StdinLock, StdoutLock, Write};

/// What a subcommand found; `Failed` gives exit status 1.
#[derive(Clone, Copy, Debug, PartialEq, Eq)]
pub enum Verdict {
    Passed,
    Failed,
}

pub type Outcome = Result<Verdict, Box<dyn Error>>;

/// Writes a line to standard error; there is nowhere to tell if that fails.
pub fn note(line: impl Display) {
    let _ = writeln!(io::stderr(), "{line}");
}

const BUFFER: usize = 1 << 16;

fn input() -> BufReader<StdinLock<'static>> {
    BufReader::with_capacity(BUFFER, io::stdin().lock())
}

fn output() -> BufWriter<StdoutLock<'static>> {
    BufWriter::with_capacity(BUFFER, io::stdout().lock())
}

fn verdict(passed: bool) -> Verdict {
    if passed {
        Verdict::Passed
    } else {
        Verdict::Failed
    }
}
