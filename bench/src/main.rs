//! The parts of the measurement that `bench/run` puts together.
//!
//! - `bench inputs DIR` writes the inputs.
//! - `bench shares INPUT OUTPUT NAME` counts the answers that a program gave and
//!   fails when the input is not what its name says.
//! - `bench times RUNS DIR PROGRAM...` times the programs and prints a table.
//! - `bench instructions DIR PROGRAM...` counts instructions and prints a table.
//!
//! A PROGRAM is `name=path`, or `name=path word` to hand it a word.

mod inputs;
mod programs;
mod random;
mod shares;

use std::path::Path;
use std::process::ExitCode;

/// The inputs by their names, which say of which answers each is mostly made.
pub const INPUTS: [&str; 4] = ["done", "refused", "malformed", ONLY_MALFORMED];

/// The input in which no line can be read, so that no request ever comes.
pub const ONLY_MALFORMED: &str = "only-malformed";

/// The input that holds the names line alone: what is left is the start of a
/// process.
pub const START: &str = "start";

fn main() -> ExitCode {
    let words: Vec<String> = std::env::args().skip(1).collect();
    let words: Vec<&str> = words.iter().map(String::as_str).collect();
    let result = match words[..] {
        ["inputs", folder] => inputs::write(Path::new(folder)),
        ["shares", input, output, name] => shares::print(Path::new(input), Path::new(output), name),
        ["times", runs, folder, ref programs @ ..] => runs
            .parse()
            .map_err(|_| format!("{runs} is no number of runs"))
            .and_then(|runs| programs::times(runs, Path::new(folder), programs)),
        ["instructions", folder, ref programs @ ..] => {
            programs::instructions(Path::new(folder), programs)
        }
        _ => Err(String::from("bench inputs | shares | times | instructions")),
    };
    match result {
        Ok(()) => ExitCode::SUCCESS,
        Err(message) => {
            eprintln!("bench: {message}");
            ExitCode::FAILURE
        }
    }
}
