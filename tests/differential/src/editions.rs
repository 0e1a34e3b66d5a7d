//! The guard in edition 2, and in edition 1 by the same way (document 02, A.13), with the roles that it tells
//! (A.6). The request program cannot choose and prints no roles, so the proved guard runs through the test
//! program `guard_cases`. Each file is answered by the paper and by `reference --roles --edition 2`; its
//! requests, written as statements, by the paper and by `guard_cases`, which shows every record too, and
//! every seat behind each request that may have ended opens (A.3). A twin of each log is run as well, and
//! the two are held against the isolation rule. The tables at the end are changed in a field, many times,
//! and a request tells whether they are sound. At last the log is run as batches.

use std::fs;
use std::path::Path;
use std::time::Instant;

use crate::batches;
use crate::builds;
use crate::cases::{self, Script};
use crate::down;
use crate::ends::{self, Lost};
use crate::files;
use crate::logs::{self, Asked, Log, Ran};
use crate::paper::{
    self, entity_level, seat_level, Call, Field, Tables, CALLS, NUMBERS, READ, WRITE,
};
use crate::program::{self, Report};
use crate::programs::{self, Feeding};
use crate::random::Random;
use crate::ties;
use crate::told::{self, Taken};
use crate::unsound;
use crate::upper;
use crate::{first_difference, line_at, Options};

/// These files are not those that `--files` makes from the same seed.
const OTHER_SEEDS: u64 = 13 << 32;

/// Of so many files one is run in edition 1 as well.
const ALSO_IN_1: usize = 3;

/// What twin logs of edition 2 have to show, beside what requests have to.
const TWINS: [&str; 5] = [
    "what an upper seat reads below L differs, the upper parts are equal",
    "a read down done in one and refused in the other",
    "a read down within the upper part, done in both",
    "a request that names only what is upper, refused in both",
    "a read below L that tells different roles, the upper parts are equal",
];

/// And twin logs of either edition, of ties.
const TIED_TWINS: [&str; 6] = [
    "ties below L differ, the upper parts are equal",
    "ties of upper roles, equal in both",
    "a tie of upper roles made or ended, done in both",
    "a tie of upper roles refused in both",
    "a tie of lower roles made or ended from above, done in one and refused in the other",
    "an open that names only what is upper, telling a role by ties",
];

pub fn run(options: &Options) -> bool {
    let begun = Instant::now();
    let built = match build(options) {
        Ok(built) => built,
        Err(fault) => {
            println!("builds: {fault}");
            return false;
        }
    };
    let mut counts = Counts::new();
    for index in 0..options.editions {
        if let Err(fault) = file(options, index, &mut counts) {
            println!("seed {}, file {index} of editions: {fault}", options.seed);
            println!("{index} files without a difference before it");
            return false;
        }
    }
    counts.print_situations();
    println!("{:.0} s", begun.elapsed().as_secs_f64());
    println!("{built}");
    counts.verdict()
}

/// The builds, and a line that tells of them.
fn build(options: &Options) -> Result<String, String> {
    let script = builds::script();
    let folder = options.keep.join("editions-builds");
    play(options, &folder, &script)?;
    remove(&folder)?;
    Ok(format!(
        "{} builds in editions 1, 2 and others, {} requests on tables of these, 0 differences",
        script.builds, script.requests
    ))
}

/// A file and a twin of its log, in edition 2 and maybe in edition 1.
fn file(options: &Options, index: usize, counts: &mut Counts) -> Result<(), String> {
    let seed = options.seed.wrapping_add(OTHER_SEEDS);
    let bytes = files::plain(Random::for_file(seed, index), 2, options.long);
    let mut random = Random::for_file(!seed, index);
    let level = random.between(1, 3);
    counts.files += 1;
    for edition in [2, 1] {
        if edition == 1 && !index.is_multiple_of(ALSO_IN_1) {
            continue;
        }
        let title = format!("editions-{}-{index}-in-{edition}", options.seed);
        let folder = options.keep.join(title);
        let faulty = |fault| format!("edition {edition}, {fault}");
        let report = by_reference(options, &folder, &bytes, edition).map_err(faulty)?;
        counts.lines[edition - 1] += report.seen.len();
        let log = logs::log(&report, edition, &mut random);
        let twin = logs::twin(&log, level, &mut random);
        let mut by_guard = |name: &str, log: &Log| {
            let folder = folder.join(name);
            by_guard(options, &folder, log, level, &mut random, counts).map_err(faulty)
        };
        let (one, other) = (by_guard("log", &log)?, by_guard("twin", &twin)?);
        let (logs, runs) = ([&log, &twin], [&one, &other]);
        let equal = upper::isolated(level, logs, runs).map_err(|fault| {
            let folder = folder.display();
            format!("edition {edition}, not isolated for level {level}: {fault}\nkept in {folder}")
        })?;
        counts.pairs += 1;
        counts.parts += one.tables.len();
        counts.upper_answers += equal.answers;
        counts.upper_roles += equal.roles;
        counts.tied_twin(level, logs, runs);
        if edition == 2 {
            counts.twin(level, logs, runs);
        }
        remove(&folder)?;
    }
    Ok(())
}

/// The file by the paper and by the reference.
fn by_reference(
    options: &Options,
    folder: &Path,
    bytes: &[u8],
    edition: usize,
) -> Result<Report, String> {
    let Some(reference) = &options.reference else {
        return Err(String::from("--reference is needed"));
    };
    let report = program::report_in(edition, bytes);
    if !report.sound {
        return Err(String::from("by the paper, the tables became unsound"));
    }
    // It tests the tables before each request, so that its soundness is compared too.
    let words: &[&str] = match edition {
        2 => &["--test-each", "--roles", "--edition", "2"],
        _ => &["--test-each", "--roles"],
    };
    let output = programs::run(reference, words, bytes, Feeding::Whole)?;
    make(folder)?;
    put(folder, "input.txt", bytes)?;
    let paper = report.output_with_roles();
    if output == paper {
        return Ok(report);
    }
    put(folder, "paper.txt", &paper)?;
    put(folder, "reference.txt", &output)?;
    let at = first_difference(&output, &paper);
    Err(format!(
        "reference differs from the paper on output line {}\ninput: {}\npaper: {}\nreference: {}\n\
         kept in {}",
        at + 1,
        line_at(bytes, at),
        line_at(&paper, at),
        line_at(&output, at),
        folder.display()
    ))
}

/// The log by the paper and by the guard: what the guard told. It shows its records after the upper request
/// in the middle ("a log cut short is a log") and at the end.
fn by_guard(
    options: &Options,
    folder: &Path,
    log: &Log,
    level: usize,
    random: &mut Random,
    counts: &mut Counts,
) -> Result<Ran, String> {
    let places = upper::places(level, log);
    let middle = places.get(places.len() / 2).map(|place| place + 1);
    let shows: Vec<usize> = middle.into_iter().chain([log.entries.len()]).collect();
    let mut script = Script::new();
    let mut taken = Taken::new();
    let mut lost = Lost::new();
    script.start(log);
    for done in 0..=log.entries.len() {
        for _ in shows.iter().filter(|&&show| show == done) {
            script.show();
        }
        let Some(entry) = log.entries.get(done) else {
            break;
        };
        let before = script.tables.clone();
        let answered = script.ask(&entry.asked, &entry.name);
        if answered.answer == 1 {
            return Err(String::from("by the paper, the tables became unsound"));
        }
        counts.requests[log.edition - 1] += 1;
        if let Asked::Request(request) = &entry.asked {
            counts.answers[log.edition - 1][request.call as usize][answered.answer] += 1;
            let look = down::Look {
                before: &before,
                request,
                met: answered.met,
                after: &script.tables,
            };
            for situation in down::situations(&look) {
                counts.down[situation] += 1;
            }
            let look = ends::Look {
                before: &before,
                request,
                met: answered.met,
                after: &script.tables,
                lost: &lost,
            };
            let shown = ends::situations(&look);
            for (situation, by_call) in counts.ends.iter_mut().enumerate() {
                by_call[request.call as usize] += usize::from(shown & (1 << situation) != 0);
            }
            let look = told::Look {
                tables: &before,
                request,
                met: answered.met,
                role: answered.role,
                taken: &taken,
            };
            for situation in told::situations(&look) {
                counts.told[situation][request.call as usize] += 1;
            }
            let shown = ties::situations(&ties::Look {
                before: &before,
                request,
                met: answered.met,
                told: answered.role,
                after: &script.tables,
            });
            for (situation, by_call) in counts.ties.iter_mut().enumerate() {
                by_call[request.call as usize] += usize::from(shown & (1 << situation) != 0);
            }
            let by_ties = answered.role.is_some_and(|role| {
                let right = if request.call == Call::Openr {
                    READ
                } else {
                    WRITE
                };
                !paper::has(before.roles[role].rights[request.at(Field::Entity)], right)
            });
            counts.tied_twins[5] += usize::from(by_ties && upper::names_upper(level, &entry.asked));
            if let Some(role) = answered.role {
                counts.roles[role] += 1;
            }
            if answered.answer == 0 {
                taken.note(request);
                lost.note(&before, request, &script.tables);
            }
            counts.seats_shown += usize::from(ends::may_end(request, answered.answer));
        }
    }
    let changed = unsound::ask(&mut script, log, random, &mut counts.unsound);
    for (sum, changed) in counts.changed.iter_mut().zip(changed) {
        *sum += changed;
    }
    batches::ask(&mut script, log, random, &mut counts.batches);
    let output = play(options, folder, &script)?;
    cases::read(&output, log, &shows).ok_or(String::from("guard_cases printed something else"))
}

/// Runs the script by `guard_cases`. An error tells of the first line that is not as the paper has it.
fn play(options: &Options, folder: &Path, script: &Script) -> Result<Vec<u8>, String> {
    let Some(cases) = &options.cases else {
        return Err(String::from("--cases is needed"));
    };
    make(folder)?;
    script
        .write(folder)
        .map_err(|fault| format!("{}: {fault}", folder.display()))?;
    let output = programs::run_in(cases, folder)?;
    let paper = script.expected();
    if output == paper {
        return Ok(output);
    }
    put(folder, "paper.txt", paper)?;
    put(folder, "guard_cases.txt", &output)?;
    let at = first_difference(&output, paper);
    Err(format!(
        "guard_cases differs from the paper on output line {}\nstatement: {}\npaper: {}\n\
         guard_cases: {}\nkept in {}",
        at + 1,
        script.statement(at),
        line_at(paper, at),
        line_at(&output, at),
        folder.display()
    ))
}

fn make(folder: &Path) -> Result<(), String> {
    fs::create_dir_all(folder).map_err(|fault| format!("{}: {fault}", folder.display()))
}

fn put(folder: &Path, name: &str, bytes: &[u8]) -> Result<(), String> {
    fs::write(folder.join(name), bytes).map_err(|fault| format!("{}: {fault}", folder.display()))
}

fn remove(folder: &Path) -> Result<(), String> {
    fs::remove_dir_all(folder).map_err(|fault| format!("{}: {fault}", folder.display()))
}

struct Counts {
    files: usize,
    /// By edition, 1 and 2: lines by the reference; requests by the guard, and their answers by call and
    /// number.
    lines: [usize; 2],
    requests: [usize; 2],
    answers: [[[usize; NUMBERS]; CALLS.len()]; 2],
    /// What requests show of reading down, and, by call, of opens that end, of the role that is told and of ties.
    down: Vec<usize>,
    ends: Vec<[usize; CALLS.len()]>,
    told: Vec<[usize; CALLS.len()]>,
    ties: Vec<[usize; CALLS.len()]>,
    /// Requests behind which every seat was shown.
    seats_shown: usize,
    /// How often each role was told.
    roles: [usize; 16],
    twins: [usize; TWINS.len()],
    tied_twins: [usize; TIED_TWINS.len()],
    /// Tables with a field changed, by edition, and what they show.
    changed: [usize; 2],
    unsound: unsound::Counts,
    batches: batches::Counts,
    /// Pairs of twin logs; upper parts, answers of upper requests, and roles beside these, found equal.
    pairs: usize,
    parts: usize,
    upper_answers: usize,
    upper_roles: usize,
}

impl Counts {
    fn new() -> Counts {
        Counts {
            files: 0,
            lines: [0; 2],
            requests: [0; 2],
            answers: [[[0; NUMBERS]; CALLS.len()]; 2],
            down: vec![0; down::SITUATIONS.len()],
            ends: vec![[0; CALLS.len()]; ends::SITUATIONS.len()],
            told: vec![[0; CALLS.len()]; told::SITUATIONS.len()],
            ties: vec![[0; CALLS.len()]; ties::SITUATIONS.len()],
            seats_shown: 0,
            roles: [0; 16],
            twins: [0; TWINS.len()],
            tied_twins: [0; TIED_TWINS.len()],
            changed: [0; 2],
            unsound: unsound::counts(),
            batches: batches::Counts::new(),
            pairs: 0,
            parts: 0,
            upper_answers: 0,
            upper_roles: 0,
        }
    }

    /// Counts what two twin logs of edition 2 show, which were found isolated.
    fn twin(&mut self, level: usize, logs: [&Log; 2], runs: [&Ran; 2]) {
        for (one, other) in runs[0].tables.iter().zip(&runs[1].tables) {
            let differs = (4 * level..16).any(|seat| {
                one.seats[seat].reading[..16 * level] != other.seats[seat].reading[..16 * level]
            });
            self.twins[0] += usize::from(differs);
        }
        let places = logs.map(|log| upper::places(level, log));
        for (&one, &other) in places[0].iter().zip(&places[1]) {
            let asked = &logs[0].entries[one].asked;
            let answers = [runs[0].answers[one], runs[1].answers[other]];
            let roles = [runs[0].roles[one], runs[1].roles[other]];
            let down = match asked {
                Asked::Request(request) if request.call == Call::Openr => {
                    entity_level(request.at(Field::Entity)) < seat_level(request.at(Field::Seat))
                }
                _ => false,
            };
            let done = answers.iter().filter(|&&answer| answer == 0).count();
            let named = upper::names_upper(level, asked);
            self.twins[1] += usize::from(down && done == 1);
            self.twins[2] += usize::from(down && named && done == 2);
            self.twins[3] += usize::from(named && done == 0);
            self.twins[4] += usize::from(down && done == 2 && roles[0] != roles[1]);
        }
    }

    /// Counts what two twin logs show of ties, which were found isolated.
    fn tied_twin(&mut self, level: usize, logs: [&Log; 2], runs: [&Ran; 2]) {
        for (one, other) in runs[0].tables.iter().zip(&runs[1].tables) {
            let ties = |tables: &Tables| tables.roles.map(|role| role.juniors);
            let (one, other) = (ties(one), ties(other));
            let (lower, upper) = one.split_at(4 * level);
            self.tied_twins[0] += usize::from(*lower != other[..4 * level]);
            self.tied_twins[1] += usize::from(upper.iter().any(|role| role.contains(&true)));
        }
        let places = logs.map(|log| upper::places(level, log));
        for (&one, &other) in places[0].iter().zip(&places[1]) {
            let asked = &logs[0].entries[one].asked;
            let Asked::Request(request) = asked else {
                continue;
            };
            if !matches!(request.call, Call::Join | Call::Unjoin) {
                continue;
            }
            let answers = [runs[0].answers[one], runs[1].answers[other]];
            let done = answers.iter().filter(|&&answer| answer == 0).count();
            let named = upper::names_upper(level, asked);
            self.tied_twins[2] += usize::from(named && done == 2);
            self.tied_twins[3] += usize::from(named && done == 0);
            self.tied_twins[4] += usize::from(!named && done == 1);
        }
    }

    fn reading_down(&self) -> Vec<(String, usize)> {
        let mut rows = Vec::new();
        for (situation, &count) in down::SITUATIONS.iter().zip(&self.down) {
            let title = format!("edition {}, {}", situation.edition, situation.name);
            rows.push((title, count));
        }
        for (name, count) in TWINS.iter().zip(self.twins) {
            rows.push((format!("twin logs, {name}"), count));
        }
        for ((name, _), &count) in unsound::READING_DOWN.iter().zip(&self.unsound[0]) {
            rows.push((format!("changed tables, {name}"), count));
        }
        rows
    }

    fn opens_that_end(&self) -> Vec<(String, usize)> {
        let mut rows = Vec::new();
        for (situation, counts) in ends::SITUATIONS.iter().zip(&self.ends) {
            for &call in situation.calls {
                let title = format!("{}, {}", call.word(), situation.name);
                rows.push((title, counts[call as usize]));
            }
        }
        for ((name, _), &count) in unsound::RIGHTS.iter().zip(&self.unsound[1]) {
            rows.push((format!("changed tables, {name}"), count));
        }
        rows
    }

    fn of_ties(&self) -> Vec<(String, usize)> {
        let mut rows = Vec::new();
        for (situation, counts) in ties::SITUATIONS.iter().zip(&self.ties) {
            for &call in situation.calls {
                let title = format!("{}, {}", call.word(), situation.name);
                rows.push((title, counts[call as usize]));
            }
        }
        for (name, count) in TIED_TWINS.iter().zip(self.tied_twins) {
            rows.push((format!("twin logs, {name}"), count));
        }
        for ((name, _), &count) in unsound::TIES.iter().zip(&self.unsound[2]) {
            rows.push((format!("changed tables, {name}"), count));
        }
        rows
    }

    fn roles_told(&self) -> Vec<(String, usize)> {
        let mut rows = Vec::new();
        for (situation, counts) in told::SITUATIONS.iter().zip(&self.told) {
            for &call in situation.calls {
                let title = format!("{}, {}", call.word(), situation.name);
                rows.push((title, counts[call as usize]));
            }
        }
        for (role, count) in self.roles.into_iter().enumerate() {
            rows.push((format!("role {role}"), count));
        }
        rows
    }

    fn in_batches(&self) -> Vec<(String, usize)> {
        let mut rows = Vec::new();
        for (situation, &count) in batches::SITUATIONS.iter().zip(&self.batches.situations) {
            rows.push((String::from(situation.name), count));
        }
        rows
    }

    /// What was seen, by what it has to do with.
    fn situations(&self) -> [(&'static str, Vec<(String, usize)>); 5] {
        [
            ("reading down", self.reading_down()),
            ("opens that end", self.opens_that_end()),
            ("ties", self.of_ties()),
            ("roles told", self.roles_told()),
            ("batches", self.in_batches()),
        ]
    }

    fn print_situations(&self) {
        for (title, rows) in self.situations() {
            println!("{title}:");
            for (name, count) in rows {
                println!("  {name}: {count}");
            }
        }
    }

    /// Prints the closing lines of a run that found no difference; true if everything was met.
    fn verdict(&self) -> bool {
        let mut missing: Vec<String> = Vec::new();
        let mut seen: Vec<String> = Vec::new();
        for (title, rows) in self.situations() {
            let met = rows.iter().filter(|(_, count)| *count > 0).count();
            seen.push(format!("{met} of {} with {title}", rows.len()));
            for (name, _) in rows.iter().filter(|(_, count)| *count == 0) {
                missing.push(format!("{title}, {name}: never seen"));
            }
        }
        let mut pairs: Vec<String> = Vec::new();
        for edition in paper::EDITIONS {
            let (mut all, mut met) = (0, 0);
            for call in CALLS {
                let answers = &self.answers[edition - 1][call as usize];
                let mut numbers = paper::numbers(call);
                numbers.retain(|&number| paper::applies(edition, call, number));
                // 0 is done.
                numbers.push(0);
                for number in numbers {
                    all += 1;
                    met += usize::from(answers[number] > 0);
                    if answers[number] == 0 {
                        let word = call.word();
                        missing.push(format!(
                            "{word} never answers {number} in edition {edition}"
                        ));
                    }
                }
            }
            pairs.push(format!("{met} of {all} in edition {edition}"));
        }
        for line in &missing {
            println!("unmet: {line}");
        }
        println!("situations met: {}", seen.join(", "));
        println!(
            "pairs of request and number met, done among them: {}",
            pairs.join(", ")
        );
        println!(
            "every seat shown behind {} requests that may have ended opens, 0 differences",
            self.seats_shown
        );
        println!(
            "{} changed tables in edition 2 and {} in edition 1, sound or not as the paper has it",
            self.changed[1], self.changed[0]
        );
        println!(
            "{} batches, in all of {} requests, with rows and room of all lengths, 0 differences",
            self.batches.batches, self.batches.requests
        );
        println!(
            "{} pairs of twin logs: {} upper parts and {} answers of upper requests equal, {} of these with a role",
            self.pairs, self.parts, self.upper_answers, self.upper_roles
        );
        println!(
            "{} files: by the reference {} lines in edition 2 and {} in edition 1, by guard_cases {} requests \
             in edition 2 and {} in edition 1, 0 differences",
            self.files, self.lines[1], self.lines[0], self.requests[1], self.requests[0]
        );
        missing.is_empty()
    }
}
