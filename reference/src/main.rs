//! An independent second program for the retuning desk, written from the
//! documents alone; the README describes the subcommands and their formats.

mod accuracy;
mod bindings;
mod book;
mod call_records;
mod cases;
mod commands;
mod comparison;
mod desk;
mod dump;
mod ends;
mod frames;
mod handed;
mod harmony;
mod letter_rows;
mod logarithm;
mod measure;
mod numbers;
mod playable;
mod random;
mod records;
mod rows;
mod state;
mod text;
mod validity;
mod wide;

use commands::{book as books, calls, keys, measures, note, streams, texts, Outcome, Verdict};
use std::process::ExitCode;

const USAGE: &str = "usage: reference SUBCOMMAND
  measure-cases SEED COUNT     writes measure records
  measure                      answers measure records
  measure-accuracy             checks measure records against true logarithms
  call-cases SEED COUNT        writes records of tuning calls
  calls                        answers records of tuning calls
  call-counts SEED COUNT       counts the ends of anchor and width calls among these
  read FILE...                 prints what each text declares
  text-cases SEED COUNT DIR|-  writes texts, into a folder or as a stream
  texts                        answers a stream of texts
  text-counts SEED COUNT       counts what is wrong in and about brackets among these texts
  stream-cases SEED INDEX TEXTFILE FRAMESFILE
                               writes one text and its frames
  stream-pairs SEED COUNT DIR  writes texts and frames, each pair in a folder
  stream-counts SEED COUNT     counts key frames, matches, ends and rows in these streams
  desk [--validate]            answers frames as sitedesk does
  join DIR                     writes a folder's text and frames as one input
  joined                       answers one input
  split FILE DIR               writes an input's text and frames into a folder
  book SEED COUNT              follows streams with the exact book";

const USAGE_STATUS: u8 = 2;

fn main() -> ExitCode {
    let arguments: Option<Vec<String>> =
        std::env::args_os().skip(1).map(|argument| argument.into_string().ok()).collect();
    let arguments = arguments.unwrap_or_default();
    let words: Vec<&str> = arguments.iter().map(String::as_str).collect();
    match run(&words) {
        Some(Ok(Verdict::Passed)) => ExitCode::SUCCESS,
        Some(Ok(Verdict::Failed)) => ExitCode::FAILURE,
        Some(Err(error)) => {
            note(format_args!("reference: {error}"));
            ExitCode::FAILURE
        }
        None => {
            note(USAGE);
            ExitCode::from(USAGE_STATUS)
        }
    }
}

/// Runs the subcommand that these words ask for; none if they ask for none.
fn run(words: &[&str]) -> Option<Outcome> {
    Some(match *words {
        ["measure-cases", seed, count] => {
            measures::write_cases(seed.parse().ok()?, count.parse().ok()?)
        }
        ["measure"] => measures::answer(),
        ["measure-accuracy"] => measures::check(),
        ["call-cases", seed, count] => calls::write_cases(seed.parse().ok()?, count.parse().ok()?),
        ["calls"] => calls::answer(),
        ["call-counts", seed, count] => calls::count(seed.parse().ok()?, count.parse().ok()?),
        ["read", ref paths @ ..] if !paths.is_empty() => texts::read(paths),
        ["texts"] => texts::answer(),
        ["text-cases", seed, count, folder] => {
            texts::write_cases(seed.parse().ok()?, count.parse().ok()?, folder)
        }
        ["text-counts", seed, count] => texts::count(seed.parse().ok()?, count.parse().ok()?),
        ["stream-cases", seed, index, text, frames] => {
            streams::write_case(seed.parse().ok()?, index.parse().ok()?, text, frames)
        }
        ["stream-pairs", seed, count, folder] => {
            streams::write_pairs(seed.parse().ok()?, count.parse().ok()?, folder)
        }
        ["stream-counts", seed, count] => keys::count(seed.parse().ok()?, count.parse().ok()?),
        ["desk"] => streams::run_desk(false),
        ["desk", "--validate"] => streams::run_desk(true),
        ["join", folder] => streams::join(folder),
        ["joined"] => streams::run_joined(),
        ["split", input, folder] => streams::split(input, folder),
        ["book", seed, count] => books::check(seed.parse().ok()?, count.parse().ok()?),
        _ => return None,
    })
}
