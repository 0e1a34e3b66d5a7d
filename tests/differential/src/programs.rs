//! Runs a program, on an input or in a folder, and hands back what it printed.

use std::io::{Read, Write};
use std::path::Path;
use std::process::{Child, Command, Stdio};
use std::sync::mpsc;
use std::thread;
use std::time::Duration;

use crate::random::Random;

/// How the input reaches the program: in one piece, or cut into small pieces by a seed.
#[derive(Clone, Copy)]
pub enum Feeding {
    Whole,
    Pieces(u64),
}

/// Longer than any input here needs.
const LIMIT: Duration = Duration::from_secs(30);

/// Runs the program with these words on the input.
pub fn run(
    program: &Path,
    words: &[&str],
    input: &[u8],
    feeding: Feeding,
) -> Result<Vec<u8>, String> {
    let mut command = Command::new(program);
    let mut child = start(program, command.args(words).stdin(Stdio::piped()))?;
    let mut stdin = child.stdin.take().expect("piped");
    let bytes = input.to_vec();
    let feeder = thread::spawn(move || {
        // A program may end before it has read everything; what it printed then decides.
        match feeding {
            Feeding::Whole => {
                let _ = stdin.write_all(&bytes);
            }
            Feeding::Pieces(seed) => {
                let mut random = Random::new(seed);
                let mut rest = &bytes[..];
                while !rest.is_empty() {
                    let most = random.pick(&[1, 3, 80, 300, 2_000]);
                    let size = random.between(1, most).min(rest.len());
                    if stdin.write_all(&rest[..size]).is_err() {
                        break;
                    }
                    rest = &rest[size..];
                }
            }
        }
    });
    let output = finish(program, child);
    let _ = feeder.join();
    output
}

/// Runs the program, which reads no input, in the folder.
pub fn run_in(program: &Path, folder: &Path) -> Result<Vec<u8>, String> {
    let whole = program
        .canonicalize()
        .map_err(|fault| format!("{}: {fault}", program.display()))?;
    let mut command = Command::new(whole);
    let child = start(program, command.current_dir(folder).stdin(Stdio::null()))?;
    finish(program, child)
}

fn start(program: &Path, command: &mut Command) -> Result<Child, String> {
    command
        .stdout(Stdio::piped())
        .spawn()
        .map_err(|fault| format!("{} does not start: {fault}", program.display()))
}

/// What the program prints until it ends.
fn finish(program: &Path, mut child: Child) -> Result<Vec<u8>, String> {
    let title = program.display();
    let mut stdout = child.stdout.take().expect("piped");
    let (sender, receiver) = mpsc::channel();
    let reader = thread::spawn(move || {
        let mut output = Vec::new();
        let result = stdout.read_to_end(&mut output).map(|_| output);
        let _ = sender.send(result);
    });
    let received = receiver.recv_timeout(LIMIT);
    if received.is_err() {
        let _ = child.kill();
    }
    let status = child.wait().map_err(|fault| format!("{title}: {fault}"))?;
    let _ = reader.join();
    let output = received
        .map_err(|_| format!("{title} did not end within {} s", LIMIT.as_secs()))?
        .map_err(|fault| format!("{title}: {fault}"))?;
    // The paper says nothing of an exit status, but a program that was killed or broke off has none.
    match status.code() {
        Some(code) if code != 101 => Ok(output),
        _ => Err(format!("{title} broke off: {status}")),
    }
}
