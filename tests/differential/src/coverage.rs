//! Counts what a run has met, and says what it has not.

use crate::alone;
use crate::ends;
use crate::files::{self, Made};
use crate::lines;
use crate::marks;
use crate::paper::{self, Call, CALLS, NUMBERS, ORDER};
use crate::program::{Report, Seen, What};
use crate::ties;

const COUNT: usize = CALLS.len();

/// A situation's name and calls, and how often it came, by call.
type Shown<'a> = (&'static str, &'static [Call], &'a [usize; COUNT]);

pub struct Coverage {
    /// By call and answer; 0 is done.
    answers: [[usize; NUMBERS]; COUNT],
    /// By answer of a `user` line.
    users: [usize; 18],
    unreadable: usize,
    /// By call and side: met at all, and met alone.
    met: Vec<Vec<usize>>,
    alone: Vec<Vec<usize>>,
    /// By call, answer and a later number that was met as well.
    together: [[[bool; NUMBERS]; NUMBERS]; COUNT],
    /// By call: refused for categories 8 to 15 alone.
    upper_half: [usize; COUNT],
    /// By situation and call: of marks, of opens that end, and of ties.
    marks: Vec<[usize; COUNT]>,
    ends: Vec<[usize; COUNT]>,
    ties: Vec<[usize; COUNT]>,
    forms: Vec<(&'static str, usize)>,
    files: usize,
    lines: usize,
    /// Lines that tell a role.
    roles: usize,
}

impl Coverage {
    pub fn new() -> Coverage {
        let sides: Vec<Vec<usize>> = CALLS
            .iter()
            .map(|&call| vec![0; paper::sides(call).len()])
            .collect();
        Coverage {
            answers: [[0; NUMBERS]; COUNT],
            users: [0; 18],
            unreadable: 0,
            met: sides.clone(),
            alone: sides,
            together: [[[false; NUMBERS]; NUMBERS]; COUNT],
            upper_half: [0; COUNT],
            marks: vec![[0; COUNT]; marks::SITUATIONS.len()],
            ends: vec![[0; COUNT]; ends::SITUATIONS.len()],
            ties: vec![[0; COUNT]; ties::SITUATIONS.len()],
            forms: files::forms().into_iter().map(|form| (form, 0)).collect(),
            files: 0,
            lines: 0,
            roles: 0,
        }
    }

    /// Counts a file. An error if a line is not what its form says.
    pub fn add(&mut self, made: &Made, report: &Report) -> Result<(), String> {
        self.files += 1;
        self.lines += report.seen.len();
        for seen in &report.seen {
            self.count(seen);
            self.roles += usize::from(seen.role.is_some());
        }
        for &(line, form) in &made.forms {
            if line > 0 {
                let Some(seen) = report.seen.get(line - 2) else {
                    continue;
                };
                let readable = lines::READABLE.contains(&form);
                if readable == (seen.answer == 17) {
                    return Err(format!("line {line}, `{form}`, answers {}", seen.answer));
                }
            }
            match self.forms.iter_mut().find(|(name, _)| *name == form) {
                Some((_, count)) => *count += 1,
                None => return Err(format!("`{form}` is no known form")),
            }
        }
        Ok(())
    }

    fn count(&mut self, seen: &Seen) {
        match seen.what {
            What::Unreadable => self.unreadable += 1,
            What::User => self.users[seen.answer] += 1,
            What::Request {
                request,
                met,
                upper_half,
                situations,
                ends,
                ties,
            } => {
                let call = request.call as usize;
                self.answers[call][seen.answer] += 1;
                self.upper_half[call] += usize::from(upper_half);
                for (counts, shown) in [
                    (&mut self.marks, situations.into()),
                    (&mut self.ends, ends.into()),
                    (&mut self.ties, ties),
                ] {
                    for (situation, counts) in counts.iter_mut().enumerate() {
                        counts[call] += usize::from(shown & (1u64 << situation) != 0);
                    }
                }
                for (side, text) in paper::sides(request.call).iter().enumerate() {
                    if met & (1 << side) != 0 {
                        self.met[call][side] += 1;
                        self.together[call][seen.answer][text.number] = true;
                    }
                    if met == 1 << side {
                        self.alone[call][side] += 1;
                    }
                }
            }
        }
    }

    /// A row for each request, for `user` and for what can't be read; a column for done and for each number, the last
    /// one for 17.
    pub fn print_answers(&self) {
        let numbers = &ORDER[1..];
        let mut head = format!("{:<10}{:>8}", "answers", "done");
        for number in numbers {
            head += &format!("{number:>7}");
        }
        println!("{head}{:>7}", 17);
        for call in CALLS {
            let counts = &self.answers[call as usize];
            let mut row = format!("{:<10}{:>8}", call.word(), counts[0]);
            for &number in numbers {
                row += &cell(paper::numbers(call).contains(&number), counts[number]);
            }
            println!("{}", row.trim_end());
        }
        let mut row = format!("{:<10}{:>8}", "user", self.users[0]);
        for &number in numbers {
            row += &cell(number == 2, self.users[2]);
        }
        println!("{row}{:>7}", self.users[17]);
        let width = 7 * (numbers.len() + 1);
        println!("{:<10}{:>8}{:>width$}", "unreadable", "", self.unreadable);
    }

    /// The pairs of request and number, how often the number was the answer and how often one side of it was met alone.
    pub fn print_pairs(&self) {
        println!("pairs: number:answers/alone (`x` where no side can stand alone)");
        for call in CALLS {
            let mut row = format!("{:<8}", call.word());
            for number in paper::numbers(call) {
                let mut alone = 0;
                let mut can = false;
                for (side, text) in paper::sides(call).iter().enumerate() {
                    if text.number == number {
                        alone += self.alone[call as usize][side];
                        can = can || !alone::cannot(call, side);
                    }
                }
                let alone = if can {
                    alone.to_string()
                } else {
                    String::from("x")
                };
                row += &format!(" {number}:{}/{alone}", self.answers[call as usize][number]);
            }
            println!("{row}");
        }
    }

    /// What was seen, by what it has to do with.
    fn situations(&self) -> [(&'static str, Vec<Shown<'_>>); 3] {
        let of_marks = marks::SITUATIONS.iter().zip(&self.marks);
        let of_ends = ends::SITUATIONS.iter().zip(&self.ends);
        let of_ties = ties::SITUATIONS.iter().zip(&self.ties);
        [
            (
                "marks",
                of_marks
                    .map(|(at, counts)| (at.name, at.calls, counts))
                    .collect(),
            ),
            (
                "opens that end",
                of_ends
                    .map(|(at, counts)| (at.name, at.calls, counts))
                    .collect(),
            ),
            (
                "ties",
                of_ties
                    .map(|(at, counts)| (at.name, at.calls, counts))
                    .collect(),
            ),
        ]
    }

    pub fn print_situations(&self) {
        for (title, rows) in self.situations() {
            println!("{title}:");
            for (name, calls, counts) in rows {
                let counts: Vec<String> = calls
                    .iter()
                    .map(|&call| format!("{} {}", call.word(), counts[call as usize]))
                    .collect();
                println!("  {name}: {}", counts.join(", "));
            }
        }
    }

    /// Prints the closing lines of a run that found no difference; true if everything was met.
    pub fn verdict(&self) -> bool {
        let mut missing: Vec<String> = Vec::new();
        let (mut pairs, mut pairs_met, mut done) = (0, 0, 0);
        let (mut can, mut can_met, mut cannot, mut cannot_met) = (0, 0, 0, 0);
        for call in CALLS {
            let row = call as usize;
            if self.answers[row][0] > 0 {
                done += 1;
            } else {
                missing.push(format!("{} is never done", call.word()));
            }
            for number in paper::numbers(call) {
                pairs += 1;
                if self.answers[row][number] > 0 {
                    pairs_met += 1;
                } else {
                    missing.push(format!("{} never answers {number}", call.word()));
                }
            }
            for (side, text) in paper::sides(call).iter().enumerate() {
                let title = format!("{} {} ({})", call.word(), text.number, text.text);
                if alone::cannot(call, side) {
                    cannot += 1;
                    cannot_met += usize::from(self.met[row][side] > 0);
                    if self.alone[row][side] > 0 {
                        missing.push(format!("{title} is met alone, though listed otherwise"));
                    }
                } else {
                    can += 1;
                    can_met += usize::from(self.alone[row][side] > 0);
                }
            }
        }
        let mut forms_met = 0;
        for (form, count) in &self.forms {
            if *count > 0 {
                forms_met += 1;
            } else {
                missing.push(format!("no file has the form `{form}`"));
            }
        }
        let (mut both, mut both_met) = (0, 0);
        for call in CALLS {
            let numbers = paper::numbers(call);
            for (at, &low) in numbers.iter().enumerate() {
                for &high in &numbers[at + 1..] {
                    let met = self.together[call as usize][low][high];
                    let title = format!("{} {low} and {high}", call.word());
                    match (can_meet_both(call, low, high), met) {
                        (true, true) => both_met += 1,
                        (true, false) => missing.push(format!("{title} are never met together")),
                        (false, true) => missing.push(format!("{title} are met together")),
                        (false, false) => continue,
                    }
                    both += 1;
                }
            }
        }
        let mut upper_half: Vec<String> = Vec::new();
        for call in COMPARE_SETS {
            let count = self.upper_half[call as usize];
            if count == 0 {
                missing.push(format!(
                    "{} is never refused for categories 8 to 15 alone",
                    call.word()
                ));
            }
            upper_half.push(format!("{} {count}", call.word()));
        }
        let mut situations: Vec<String> = Vec::new();
        for (title, rows) in self.situations() {
            let (mut all, mut all_met) = (0, 0);
            for (name, calls, counts) in rows {
                for &call in calls {
                    all += 1;
                    if counts[call as usize] > 0 {
                        all_met += 1;
                    } else {
                        missing.push(format!("{}, {name}: never seen", call.word()));
                    }
                }
            }
            situations.push(format!("{all_met} of {all} situations with {title} met"));
        }
        for line in &missing {
            println!("unmet: {line}");
        }
        println!(
            "refused for categories 8 to 15 alone: {}",
            upper_half.join(", ")
        );
        for line in situations {
            println!("{line}");
        }
        println!(
            "{} roles told, by the reference as by the paper",
            self.roles
        );
        println!(
            "{both_met} of {both} pairs of numbers that one request can meet together met, the first answered"
        );
        println!(
            "{can_met} of {can} sides that can stand alone met alone; {cannot_met} of {cannot} that cannot met, \
             never alone"
        );
        println!(
            "{pairs_met} of {pairs} pairs met, {done} of {} requests done, {forms_met} of {} malformed and borderline \
             forms met, {} files, {} lines, 0 differences",
            CALLS.len(),
            self.forms.len(),
            self.files,
            self.lines,
        );
        missing.is_empty()
    }
}

/// The requests that compare one set of categories with another.
const COMPARE_SETS: [Call; 4] = [Call::Login, Call::Openr, Call::Openw, Call::Create];

/// Whether one line can meet both numbers of a request.
fn can_meet_both(call: Call, low: usize, high: usize) -> bool {
    if low == 2 {
        // A side that looks at every field is not asked when one is past its range.
        let mut sides = paper::sides(call).iter();
        return sides.any(|side| side.number == high && side.looks.len() < call.uses().len());
    }
    !matches!(
        (call, low, high),
        // What is not live holds nothing, is not held, has no label, no list, no children and no ties, and is not open.
        (Call::Take, 5 | 7, 16)
            | (Call::Openr, 5 | 7, 16)
            | (Call::Openr, 7, 11)
            | (Call::Openw, 5 | 7, 16)
            | (Call::Delete, 7, 15)
            | (Call::List, 7, 16)
            | (Call::Unmake, 7, 15)
            | (Call::Join, 7, 16)
            // What is open has the level and the label for it.
            | (Call::Openr, 10 | 11, 16)
            | (Call::Openw, 10 | 11, 16)
            // Only a container has children.
            | (Call::Create, 9, 14)
            // A role below another is not above it.
            | (Call::Join, 22, 16)
            // Roots and keepers are live.
            | (Call::Delete | Call::Rename | Call::Unmake, 6, 7)
    )
}

fn cell(applies: bool, count: usize) -> String {
    if applies {
        format!("{count:>7}")
    } else {
        format!("{:>7}", "")
    }
}
