//! `desk`, `stream-cases` and `stream-pairs`; `join`, `joined` and `split`.

use super::{Outcome, Verdict};
use crate::cases::streams;
use crate::desk;
use std::io::{Read, Write};
use std::path::Path;
use std::{fs, io};

const TEXT_FILE: &str = "logic.mut";
const FRAMES_FILE: &str = "frames";

/// What parts a text from its frames where both are one input.
const PART: u8 = 0;

/// Answers frames as `sitedesk` does.
pub fn run_desk(validate: bool) -> Outcome {
    let text = desk::text_of(Path::new(TEXT_FILE));
    let text = text.map_err(|error| format!("{TEXT_FILE}: {error}"))?;
    desk::run(&text, validate, io::stdin().lock(), io::stdout().lock())?;
    Ok(Verdict::Passed)
}

/// Writes one pair of a seed into two files.
pub fn write_case(seed: u64, index: u64, text: &str, frames: &str) -> Outcome {
    let pair = streams::pair(seed, index);
    fs::write(text, pair.text)?;
    fs::write(frames, pair.frames)?;
    Ok(Verdict::Passed)
}

/// Writes many pairs of a seed, each into a folder of its own.
pub fn write_pairs(seed: u64, count: u64, folder: &str) -> Outcome {
    for index in 0..count {
        let folder = Path::new(folder).join(format!("{index:05}"));
        fs::create_dir_all(&folder)?;
        let pair = streams::pair(seed, index);
        fs::write(folder.join(TEXT_FILE), pair.text)?;
        fs::write(folder.join(FRAMES_FILE), pair.frames)?;
    }
    Ok(Verdict::Passed)
}

/// The text and the frames of one input: the text ends at the first zero byte.
fn parted(input: &[u8]) -> (&[u8], &[u8]) {
    let mut parts = input.splitn(2, |&byte| byte == PART);
    (parts.next().unwrap_or_default(), parts.next().unwrap_or_default())
}

/// Writes the text and the frames of a folder as one input.
pub fn join(folder: &str) -> Outcome {
    let folder = Path::new(folder);
    let mut input = fs::read(folder.join(TEXT_FILE))?;
    input.retain(|&byte| byte != PART);
    input.push(PART);
    input.extend(fs::read(folder.join(FRAMES_FILE))?);
    io::stdout().write_all(&input)?;
    Ok(Verdict::Passed)
}

/// Answers one input.
pub fn run_joined() -> Outcome {
    let mut input = Vec::new();
    io::stdin().read_to_end(&mut input)?;
    let (text, frames) = parted(&input);
    desk::run(text, false, frames, io::stdout().lock())?;
    Ok(Verdict::Passed)
}

/// Writes one input's text and frames into a folder.
pub fn split(input: &str, folder: &str) -> Outcome {
    let input = fs::read(input)?;
    let (text, frames) = parted(&input);
    fs::write(Path::new(folder).join(TEXT_FILE), text)?;
    fs::write(Path::new(folder).join(FRAMES_FILE), frames)?;
    Ok(Verdict::Passed)
}
