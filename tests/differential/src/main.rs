//! Compares two programs that read request files, `requests` and `reference`, with each other and with the papers as
//! `paper` and `program` have them, on generated files and on one case for each refusal; and the guard in both
//! editions, with the roles that it tells, through the test program `guard_cases`.

mod alone;
mod batches;
mod builds;
mod cases;
mod coverage;
mod down;
mod editions;
mod ends;
mod files;
mod generator;
mod lines;
mod logs;
mod marks;
mod paper;
mod program;
mod programs;
mod random;
mod records;
mod scenes;
mod tied;
mod ties;
mod told;
mod unsound;
mod upper;

use std::fs;
use std::path::PathBuf;
use std::process::ExitCode;
use std::time::Instant;

use coverage::Coverage;
use programs::Feeding;
use random::Random;

const USE: &str =
    "differential [--alone [--list]] [--files N] [--editions N] [--seed S] [--long] [--keep DIR]
             [--requests PATH] [--reference PATH] [--cases PATH]
  --alone      each refusal alone: the cases, by the paper and by both programs
  --list       prints the cases as a table; needs no programs
  --files N    compares N generated files (0 without it)
  --editions N compares edition 2, and edition 1, on N generated files (0 without it)
  --seed S     the seed of the files (1 without it)
  --long       longer files
  --keep DIR   where a differing file and its outputs are put (target/differential without it)
  --alone and --files need the programs `requests` and `reference`; --editions needs `reference` and,
  as --cases, `guard_cases`";

struct Options {
    files: usize,
    editions: usize,
    seed: u64,
    long: bool,
    alone: bool,
    list: bool,
    keep: PathBuf,
    requests: Option<PathBuf>,
    reference: Option<PathBuf>,
    cases: Option<PathBuf>,
}

fn options() -> Result<Options, String> {
    let mut options = Options {
        files: 0,
        editions: 0,
        seed: 1,
        long: false,
        alone: false,
        list: false,
        keep: PathBuf::from("target/differential"),
        requests: None,
        reference: None,
        cases: None,
    };
    let mut words = std::env::args().skip(1);
    while let Some(word) = words.next() {
        let mut value = || words.next().ok_or(format!("{word} needs a value"));
        let number = |text: String| text.parse().map_err(|_| format!("{text} is no number"));
        match word.as_str() {
            "--files" => options.files = number(value()?)? as usize,
            "--editions" => options.editions = number(value()?)? as usize,
            "--seed" => options.seed = number(value()?)?,
            "--long" => options.long = true,
            "--alone" => options.alone = true,
            "--list" => options.list = true,
            "--keep" => options.keep = PathBuf::from(value()?),
            "--requests" => options.requests = Some(PathBuf::from(value()?)),
            "--reference" => options.reference = Some(PathBuf::from(value()?)),
            "--cases" => options.cases = Some(PathBuf::from(value()?)),
            _ => return Err(format!("{word} is not known")),
        }
    }
    if options.list && !options.alone {
        return Err(String::from("--list goes with --alone"));
    }
    if !options.alone && options.files + options.editions == 0 {
        return Err(String::from("nothing to do"));
    }
    Ok(options)
}

fn main() -> ExitCode {
    let options = match options() {
        Ok(options) => options,
        Err(fault) => {
            eprintln!("{fault}\n{USE}");
            return ExitCode::from(2);
        }
    };
    let mut good = true;
    if options.alone {
        good = each_alone(&options);
    }
    if good && options.files > 0 {
        good = generated(&options);
    }
    if good && options.editions > 0 {
        good = editions::run(&options);
    }
    if good {
        ExitCode::SUCCESS
    } else {
        ExitCode::FAILURE
    }
}

fn each_alone(options: &Options) -> bool {
    let cases = match alone::cases() {
        Ok(cases) => cases,
        Err(wrong) => {
            for line in wrong {
                println!("{line}");
            }
            return false;
        }
    };
    if options.list {
        alone::print_list(&cases);
        println!();
    } else {
        for (index, case) in cases.iter().enumerate() {
            let input = case.input();
            if let Err(fault) = compare(options, &input, Feeding::Whole, &format!("alone-{index}"))
            {
                println!("{}: {fault}", case.title());
                return false;
            }
        }
    }
    println!("{}", alone::count_line(&cases));
    true
}

fn generated(options: &Options) -> bool {
    let begun = Instant::now();
    let mut coverage = Coverage::new();
    for index in 0..options.files {
        let made = files::file(options.seed, index, options.long);
        let pieces = Random::for_file(!options.seed, index).next();
        let feeding = if index % 4 == 3 && made.bytes.len() < 100_000 {
            Feeding::Pieces(pieces)
        } else {
            Feeding::Whole
        };
        let title = format!("{}-{index}", options.seed);
        let counted = compare(options, &made.bytes, feeding, &title)
            .and_then(|report| coverage.add(&made, &report));
        if let Err(fault) = counted {
            println!("seed {}, file {index}: {fault}", options.seed);
            println!("{index} files without a difference before it");
            return false;
        }
    }
    coverage.print_answers();
    coverage.print_pairs();
    coverage.print_situations();
    println!("{:.0} s", begun.elapsed().as_secs_f64());
    coverage.verdict()
}

/// What a program printed, and what it is to print by the paper.
struct Printed<'a> {
    name: &'static str,
    output: Result<Vec<u8>, String>,
    paper: &'a [u8],
}

impl Printed<'_> {
    fn agrees(&self) -> bool {
        self.output.as_deref() == Ok(self.paper)
    }
}

/// Runs both programs on the input, the reference once more with the roles that it tells. An error tells of the first
/// line on which they do not agree with the paper.
fn compare(
    options: &Options,
    input: &[u8],
    feeding: Feeding,
    title: &str,
) -> Result<program::Report, String> {
    let (Some(requests), Some(reference)) = (&options.requests, &options.reference) else {
        return Err(String::from("--requests and --reference are needed"));
    };
    let report = program::report(input);
    if !report.sound {
        return Err(String::from("by the paper, the tables became unsound"));
    }
    let (paper, with_roles) = (report.output(), report.output_with_roles());
    let all = [
        Printed {
            name: "requests",
            output: programs::run(requests, &[], input, feeding),
            paper: &paper,
        },
        Printed {
            name: "reference",
            output: programs::run(reference, &[], input, feeding),
            paper: &paper,
        },
        Printed {
            name: "reference-with-roles",
            output: programs::run(reference, &["--roles"], input, Feeding::Whole),
            paper: &with_roles,
        },
    ];
    if all.iter().all(Printed::agrees) {
        return Ok(report);
    }
    let folder = options.keep.join(title);
    let mut fault = keep(&folder, input, &all)
        .err()
        .map(|fault| format!("{}: {fault}\n", folder.display()))
        .unwrap_or_default();
    let mut first = usize::MAX;
    for Printed {
        name,
        output,
        paper,
    } in &all
    {
        match output {
            Err(broken) => fault += &format!("{broken}\n"),
            Ok(output) if output != paper => {
                let at = first_difference(output, paper);
                first = first.min(at);
                fault += &format!("{name} differs from the paper on output line {}\n", at + 1);
            }
            Ok(_) => fault += &format!("{name} agrees with the paper\n"),
        }
    }
    if first != usize::MAX {
        // Output line 1 has the names; the next one is of input line 2, or of line 1 if its names are bad.
        let line = if report.names_good { first } else { 0 };
        fault += &format!("input line {}: {}\n", line + 1, line_at(input, line));
        fault += &format!("paper: {}\n", line_at(&with_roles, first));
        for Printed { name, output, .. } in &all {
            let output = output.as_deref().unwrap_or_default();
            fault += &format!("{name}: {}\n", line_at(output, first));
        }
    }
    fault += &format!("kept in {}", folder.display());
    Err(fault)
}

fn keep(folder: &PathBuf, input: &[u8], all: &[Printed]) -> std::io::Result<()> {
    fs::create_dir_all(folder)?;
    fs::write(folder.join("input.txt"), input)?;
    for Printed {
        name,
        output,
        paper,
    } in all
    {
        let output = output.as_deref().unwrap_or_default();
        fs::write(folder.join(format!("{name}.txt")), output)?;
        fs::write(folder.join(format!("paper-for-{name}.txt")), paper)?;
    }
    Ok(())
}

fn split(bytes: &[u8]) -> Vec<&[u8]> {
    bytes.split_inclusive(|&byte| byte == b'\n').collect()
}

/// The index of the first line that differs, its ending byte 10 included.
fn first_difference(one: &[u8], other: &[u8]) -> usize {
    let (one, other) = (split(one), split(other));
    let length = one.len().min(other.len());
    (0..length)
        .find(|&at| one[at] != other[at])
        .unwrap_or(length)
}

fn line_at(bytes: &[u8], index: usize) -> String {
    match split(bytes).get(index) {
        Some(line) => {
            let shown = &line[..line.len().min(300)];
            format!("\"{}\"", shown.escape_ascii())
        }
        None => String::from("(no such line)"),
    }
}
