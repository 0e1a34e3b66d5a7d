//! What an input is made of, by the answers that it got.

use std::fs;
use std::path::Path;

use crate::{INPUTS, ONLY_MALFORMED};

/// The least share of its own kind that an input has to have, in percent.
const LEAST: usize = 80;

pub fn print(input: &Path, output: &Path, name: &str) -> Result<(), String> {
    let read = |path: &Path| fs::read(path).map_err(|error| format!("{}: {error}", path.display()));
    let input = read(input)?;
    let output = String::from_utf8(read(output)?).map_err(|error| error.to_string())?;

    let mut answers = [0; 18];
    let mut done = Vec::new();
    let lines = input.split(|&byte| byte == b'\n').skip(1);
    for (row, line) in output.lines().skip(1).zip(lines) {
        let answer = row
            .split_once(' ')
            .and_then(|(_, answer)| answer.parse::<usize>().ok())
            .filter(|answer| *answer < answers.len())
            .ok_or_else(|| format!("no answer: {row}"))?;
        answers[answer] += 1;
        if answer == 0 {
            let word = line.split(|&byte| byte == b' ').next().unwrap_or_default();
            let word = String::from_utf8_lossy(word).into_owned();
            match done.iter_mut().find(|(known, _)| *known == word) {
                Some((_, count)) => *count += 1,
                None => done.push((word, 1)),
            }
        }
    }

    let all: usize = answers.iter().sum();
    let counts = [answers[0], answers[1..17].iter().sum(), answers[17]];
    let percent = |count: usize| 100.0 * count as f64 / all as f64;
    println!(
        "{name}: {all} lines, {} bytes; done {:.1} %, refused {:.1} %, unreadable {:.1} %",
        input.len(),
        percent(counts[0]),
        percent(counts[1]),
        percent(counts[2])
    );
    let by_answer: Vec<String> = answers
        .iter()
        .enumerate()
        .filter(|(_, count)| **count > 0)
        .map(|(answer, count)| format!("{answer}: {count}"))
        .collect();
    println!("  answers  {}", by_answer.join(", "));
    done.sort();
    let by_word: Vec<String> = done
        .iter()
        .map(|(word, count)| format!("{word} {count}"))
        .collect();
    println!("  done     {}", by_word.join(", "));

    match INPUTS.iter().position(|known| *known == name) {
        _ if name == ONLY_MALFORMED && counts[2] == all => Ok(()),
        _ if name == ONLY_MALFORMED => Err(format!("a line of {name} can be read")),
        Some(kind) if 100 * counts[kind] < LEAST * all => {
            Err(format!("less than {LEAST} % of {name} are {name}"))
        }
        // `user`, and all requests but `share`, which needs a name that these inputs do not have.
        Some(0) if by_word.len() < 17 => Err(format!("a request is never done in {name}")),
        _ => Ok(()),
    }
}
