//! Running the programs: how long they take and how many instructions.

use std::fs::File;
use std::path::{Path, PathBuf};
use std::process::{Command, Stdio};
use std::time::{Duration, Instant};

use crate::{INPUTS, ONLY_MALFORMED, START};

struct Program<'a> {
    name: &'a str,
    path: &'a str,
    words: Vec<&'a str>,
}

impl<'a> Program<'a> {
    fn read(text: &'a str) -> Result<Program<'a>, String> {
        let (name, command) = text
            .split_once('=')
            .ok_or_else(|| format!("{text} is no name=path"))?;
        let mut words = command.split(' ');
        Ok(Program {
            name,
            path: words.next().unwrap_or_default(),
            words: words.collect(),
        })
    }

    /// One run from the file to nowhere, from the start of the process until it
    /// has ended.
    fn time(&self, input: &Path) -> Result<Duration, String> {
        let failed = |error| format!("{}: {error}", self.path);
        let mut command = Command::new(self.path);
        command
            .args(&self.words)
            .stdin(open(input)?)
            .stdout(Stdio::null());
        let start = Instant::now();
        let status = command.spawn().and_then(|mut child| child.wait());
        let taken = start.elapsed();
        if !status.map_err(failed)?.success() {
            return Err(format!("{} failed on {}", self.path, input.display()));
        }
        Ok(taken)
    }

    fn instructions(&self, input: &Path) -> Result<u64, String> {
        let output = Command::new("valgrind")
            .args(["--tool=callgrind", "--callgrind-out-file=/dev/null"])
            .arg(self.path)
            .args(&self.words)
            .stdin(open(input)?)
            .stdout(Stdio::null())
            .output()
            .map_err(|error| format!("valgrind: {error}"))?;
        let text = String::from_utf8_lossy(&output.stderr);
        text.lines()
            .find_map(|line| line.split_once("Collected :"))
            .and_then(|(_, count)| count.trim().parse().ok())
            .ok_or_else(|| format!("valgrind counted nothing in {}:\n{text}", self.path))
    }
}

fn open(input: &Path) -> Result<File, String> {
    File::open(input).map_err(|error| format!("{}: {error}", input.display()))
}

fn read_programs<'a>(programs: &[&'a str]) -> Result<Vec<Program<'a>>, String> {
    programs.iter().map(|text| Program::read(text)).collect()
}

fn inputs(folder: &Path) -> impl Iterator<Item = (&'static str, PathBuf)> + '_ {
    INPUTS
        .into_iter()
        .chain([START])
        .map(|name| (name, folder.join(name).with_extension("txt")))
}

struct Times {
    median: f64,
    least: f64,
}

impl Times {
    fn of(mut runs: Vec<Duration>) -> Times {
        runs.sort();
        let ms = |run: Duration| 1e3 * run.as_secs_f64();
        let middle = runs.len() / 2;
        let median = if runs.len().is_multiple_of(2) {
            (ms(runs[middle - 1]) + ms(runs[middle])) / 2.0
        } else {
            ms(runs[middle])
        };
        Times {
            median,
            least: ms(runs[0]),
        }
    }
}

/// Times the programs in turn on each input and prints a table; the ratios are
/// those of the first program to each other one.
pub fn times(runs: usize, folder: &Path, programs: &[&str]) -> Result<(), String> {
    let programs = read_programs(programs)?;
    if runs == 0 || programs.is_empty() {
        return Err(String::from("nothing to time"));
    }
    let mut head = String::from("| input |");
    let mut rule = String::from("|---|");
    for program in &programs {
        head += &format!(" {0} median ms | {0} least ms |", program.name);
        rule += "---:|---:|";
    }
    for program in &programs[1..] {
        head += &format!(" medians to {0} | least to {0} |", program.name);
        rule += "---:|---:|";
    }
    println!("{head}\n{rule}");
    for (name, input) in inputs(folder) {
        let mut taken = vec![Vec::with_capacity(runs); programs.len()];
        for program in &programs {
            program.time(&input)?;
        }
        for _ in 0..runs {
            for (program, taken) in programs.iter().zip(&mut taken) {
                taken.push(program.time(&input)?);
            }
        }
        let times: Vec<Times> = taken.into_iter().map(Times::of).collect();
        let mut row = format!("| {} |", title(name));
        for times in &times {
            row += &format!(" {:.2} | {:.2} |", times.median, times.least);
        }
        for other in &times[1..] {
            row += &format!(
                " {:.2} | {:.2} |",
                times[0].median / other.median,
                times[0].least / other.least
            );
        }
        println!("{row}");
    }
    Ok(())
}

/// Counts the instructions of one run of each program on each input and prints a
/// table.
pub fn instructions(folder: &Path, programs: &[&str]) -> Result<(), String> {
    let programs = read_programs(programs)?;
    if programs.is_empty() {
        return Err(String::from("nothing to count"));
    }
    let mut head = String::from("| input |");
    let mut rule = String::from("|---|");
    for program in &programs {
        head += &format!(" {0} | {0} per line |", program.name);
        rule += "---:|---:|";
    }
    for program in &programs[1..] {
        head += &format!(" ratio to {} |", program.name);
        rule += "---:|";
    }
    println!("{head}\n{rule}");
    for (name, input) in inputs(folder) {
        let lines = std::fs::read(&input)
            .map_err(|error| format!("{}: {error}", input.display()))?
            .iter()
            .filter(|&&byte| byte == b'\n')
            .count() as u64;
        let counts: Vec<u64> = programs
            .iter()
            .map(|program| program.instructions(&input))
            .collect::<Result<_, _>>()?;
        let mut row = format!("| {} |", title(name));
        for count in &counts {
            row += &match name {
                START => format!(" {} | |", grouped(*count)),
                _ => format!(" {} | {} |", grouped(*count), count / lines),
            };
        }
        for other in &counts[1..] {
            row += &format!(" {:.2} |", counts[0] as f64 / *other as f64);
        }
        println!("{row}");
    }
    Ok(())
}

fn title(name: &str) -> String {
    match name {
        START => String::from("the start alone"),
        ONLY_MALFORMED => String::from("nothing but malformed"),
        _ => format!("mostly {name}"),
    }
}

/// The number with a comma before every three digits.
fn grouped(number: u64) -> String {
    let digits = number.to_string();
    let mut text = String::new();
    for (place, digit) in digits.chars().enumerate() {
        if place > 0 && (digits.len() - place).is_multiple_of(3) {
            text.push(',');
        }
        text.push(digit);
    }
    text
}
