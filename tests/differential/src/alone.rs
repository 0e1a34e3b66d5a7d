//! Each refusal alone: for every request and every side of every number that applies to it, a short file whose last
//! line meets that side and no other. Some sides cannot stand alone, because another always comes with them; their case
//! has just these two or more. The cases stand in `alone.txt`.

use std::sync::OnceLock;

use crate::paper::{self, Call, Field, CALLS, USER_USES};
use crate::program::{optional, report, sample_order, Column, What};

pub struct Case {
    call: Call,
    number: usize,
    side: &'static str,
    before: Vec<&'static str>,
    last: &'static str,
    company: Option<Company>,
}

/// What is met beside a side that cannot stand alone, and why.
struct Company {
    beside: Vec<(usize, &'static str)>,
    reason: &'static str,
}

fn all() -> &'static [Case] {
    static ALL: OnceLock<Vec<Case>> = OnceLock::new();
    ALL.get_or_init(|| parse(include_str!("alone.txt")))
}

fn parse(text: &'static str) -> Vec<Case> {
    let mut scenes: Vec<(&'static str, Vec<&'static str>)> = Vec::new();
    let mut cases = Vec::new();
    for row in text.lines() {
        if row.is_empty() || row.starts_with('#') {
            continue;
        }
        if let Some((name, lines)) = row.split_once(" = ") {
            let lines = spelled_out(lines, &scenes);
            scenes.push((name, lines));
            continue;
        }
        let columns: Vec<&'static str> = row.split(" | ").collect();
        let [request, number, side, before, last, ref company @ ..] = columns[..] else {
            panic!("alone.txt: {row}");
        };
        let company = match company {
            [] => None,
            [beside, reason] => Some(Company {
                beside: beside.split("; ").map(numbered).collect(),
                reason,
            }),
            _ => panic!("alone.txt: {row}"),
        };
        cases.push(Case {
            call: call_named(request).unwrap_or_else(|| panic!("alone.txt: {row}")),
            number: number
                .parse()
                .unwrap_or_else(|_| panic!("alone.txt: {row}")),
            side,
            before: spelled_out(before, &scenes),
            last,
            company,
        });
    }
    cases
}

fn call_named(word: &str) -> Option<Call> {
    CALLS.into_iter().find(|call| call.word() == word)
}

fn numbered(text: &'static str) -> (usize, &'static str) {
    let (number, side) = text.split_once(' ').expect("a number and a side");
    (number.parse().expect("a number"), side)
}

/// The lines of a row, with those that a name stands for; `-` is none.
fn spelled_out(
    text: &'static str,
    scenes: &[(&'static str, Vec<&'static str>)],
) -> Vec<&'static str> {
    let mut lines = Vec::new();
    for part in text.split("; ").filter(|part| *part != "-") {
        match scenes.iter().find(|(name, _)| *name == part) {
            Some((_, scene)) => lines.extend(scene),
            None => lines.push(part),
        }
    }
    lines
}

/// Whether this side of the call is listed as one that cannot stand alone.
pub fn cannot(call: Call, side: usize) -> bool {
    find(call, side).is_some_and(|case| case.company.is_some())
}

fn find(call: Call, side: usize) -> Option<&'static Case> {
    let side = &paper::sides(call)[side];
    all()
        .iter()
        .find(|case| case.call == call && case.number == side.number && case.side == side.text)
}

/// The bit of the side with this number and text.
fn bit(call: Call, number: usize, text: &str) -> Option<u32> {
    paper::sides(call)
        .iter()
        .position(|side| side.number == number && side.text == text)
        .map(|at| 1 << at)
}

impl Case {
    pub fn title(&self) -> String {
        format!("{} {}, {}", self.call.word(), self.number, self.side)
    }

    fn lines(&self) -> impl Iterator<Item = &'static str> + '_ {
        self.before.iter().copied().chain([self.last])
    }

    /// The twelve names, and of the optional ones those below which a line of the case has a number.
    fn order(&self) -> Vec<Column> {
        let used = |column: &Column| self.lines().any(|line| uses(line).any(|at| at == *column));
        let mut order = sample_order();
        order.extend(optional().into_iter().filter(used));
        order
    }

    pub fn input(&self) -> Vec<u8> {
        let order = self.order();
        let names: Vec<&str> = order.iter().map(|column| column.word()).collect();
        let mut text = names.join(" ") + "\n";
        for line in self.lines() {
            text += &written(line, &order);
            text.push('\n');
        }
        text.into_bytes()
    }

    /// By the paper: the lines before are all done, and the last meets this side and nothing else, or this side and
    /// just what is said to come with it.
    fn check(&self) -> Result<(), String> {
        let mut wanted = bit(self.call, self.number, self.side).ok_or("there is no such side")?;
        for (number, text) in self.company.iter().flat_map(|company| &company.beside) {
            wanted |= bit(self.call, *number, text).ok_or("there is no such side beside it")?;
        }
        let report = report(&self.input());
        let (last, before) = report.seen.split_last().ok_or("no line")?;
        if let Some(at) = before.iter().position(|seen| seen.answer != 0) {
            return Err(format!("`{}` is not done", self.before[at]));
        }
        let What::Request { request, met, .. } = last.what else {
            return Err(String::from("the last line is no request"));
        };
        if request.call != self.call || met != wanted || last.answer != self.number {
            let meets: Vec<&str> = paper::sides(request.call)
                .iter()
                .enumerate()
                .filter(|(bit, _)| met & (1 << bit) != 0)
                .map(|(_, side)| side.text)
                .collect();
            return Err(format!("the last line meets: {}", meets.join("; ")));
        }
        Ok(())
    }
}

/// Every case in the order of the requests and numbers, checked by the paper. An error lists what is wrong, a side
/// without a case among it.
pub fn cases() -> Result<Vec<&'static Case>, Vec<String>> {
    let mut found = Vec::new();
    let mut wrong = Vec::new();
    for call in CALLS {
        for (side, text) in paper::sides(call).iter().enumerate() {
            match find(call, side) {
                None => wrong.push(format!(
                    "{} {}, {}: neither alone nor listed",
                    call.word(),
                    text.number,
                    text.text
                )),
                Some(case) => {
                    if let Err(fault) = case.check() {
                        wrong.push(format!("{}: {fault}", case.title()));
                    }
                    found.push(case);
                }
            }
        }
    }
    if found.len() != all().len() {
        wrong.push(format!("{} cases for {} sides", all().len(), found.len()));
    }
    if wrong.is_empty() {
        Ok(found)
    } else {
        Err(wrong)
    }
}

pub fn count_line(cases: &[&Case]) -> String {
    let cannot = cases.iter().filter(|case| case.company.is_some()).count();
    format!(
        "{} sides, {} alone, {} that cannot stand alone",
        cases.len(),
        cases.len() - cannot,
        cannot
    )
}

/// The cases as a table.
pub fn print_list(cases: &[&Case]) {
    println!("| request | number | side | the last line of its case |");
    println!("|---|---|---|---|");
    for case in cases {
        let mut place = format!("`{}`", written(case.last, &case.order()));
        if let Some(company) = &case.company {
            let mut numbers: Vec<String> = company
                .beside
                .iter()
                .map(|(number, _)| number.to_string())
                .collect();
            numbers.dedup();
            let numbers = numbers.join(" and ");
            place = format!("never alone: {}; with {numbers}: {place}", company.reason);
        }
        println!(
            "| {} | {} | {} | {place} |",
            case.call.word(),
            case.number,
            case.side
        );
    }
}

/// The columns in which the line has its values, in the paper's order of fields.
fn uses(line: &str) -> impl Iterator<Item = Column> {
    let word = line.split(' ').next().expect("a word");
    let uses: &'static [Field] = call_named(word).map_or(&USER_USES, |call| call.uses());
    uses.iter().map(|&field| Column::Field(field))
}

/// A line in the order of the columns from one in the paper's order of fields.
fn written(line: &str, order: &[Column]) -> String {
    let mut words = line.split(' ');
    let word = words.next().expect("a word");
    let values: Vec<&str> = words.collect();
    assert_eq!(values.len(), uses(line).count(), "alone.txt: {line}");
    let columns: Vec<&str> = order
        .iter()
        .map(|column| match column {
            Column::Call => word,
            _ => uses(line)
                .position(|used| used == *column)
                .map_or("-", |at| values[at]),
        })
        .collect();
    columns.join(" ")
}

#[cfg(test)]
mod tests {
    #[test]
    fn every_side_has_its_case() {
        assert_eq!(
            super::cases().map(|cases| super::count_line(&cases)),
            Ok(String::from(
                "173 sides, 143 alone, 30 that cannot stand alone"
            ))
        );
    }
}
