//! The request program as the papers describe it, over the tables of `paper`: from the bytes of an input to what is
//! to be printed for each line. Of the editions "the program uses 1" (document 02, A.13). It can be asked for another
//! here, which the request program cannot: so one file serves for both. "The program prints as before" where a request
//! tells a role (A.6); here the role can be printed too.

use crate::ends::{self, Lost};
use crate::marks;
use crate::paper::{
    self, Call, Field, Label, Request, Tables, UserRecord, Values, CALLS, FIELDS, OPTIONAL,
};
use crate::ties;

pub const LAST_LINE: usize = 65_535;
pub const LONGEST_LINE: usize = 255;

/// "The program uses 1".
pub const EDITION: usize = 1;

#[derive(Clone, Copy, Debug, PartialEq, Eq)]
pub enum Column {
    Call,
    Field(Field),
}

impl Column {
    pub fn word(self) -> &'static str {
        match self {
            Column::Call => "call",
            Column::Field(field) => field.word(),
        }
    }
}

/// The twelve names, in the order of the paper's sample.
pub fn sample_order() -> Vec<Column> {
    let twelve = FIELDS.iter().filter(|field| !OPTIONAL.contains(field));
    let mut order = vec![Column::Call];
    order.extend(twelve.map(|&field| Column::Field(field)));
    order
}

/// The names that a line of names may leave out.
pub fn optional() -> Vec<Column> {
    OPTIONAL.map(Column::Field).to_vec()
}

pub enum Read {
    Unreadable,
    User(Values),
    Request(Request),
}

#[derive(Clone, Copy, Debug, PartialEq, Eq)]
pub enum What {
    Unreadable,
    /// A line with the word `user` that is readable but for its place.
    User,
    Request {
        request: Request,
        met: u32,
        /// Refused for categories 8 to 15 alone.
        upper_half: bool,
        /// What it shows of marks: bit i for `marks::SITUATIONS[i]`.
        situations: u32,
        /// And of opens that end: bit i for `ends::SITUATIONS[i]`.
        ends: u32,
        /// And of ties: bit i for `ties::SITUATIONS[i]`.
        ties: u64,
    },
}

#[derive(Clone, Copy, Debug)]
pub struct Seen {
    pub what: What,
    pub answer: usize,
    /// The role that is told, if one is.
    pub role: Option<usize>,
}

pub struct Program {
    pub order: Vec<Column>,
    users: [UserRecord; 16],
    /// A readable line with another word than `user` has come.
    pub shut: bool,
    pub tables: Tables,
    lost: Lost,
}

impl Program {
    /// None if the line of names is bad.
    pub fn start(line: &[u8], edition: usize) -> Option<Program> {
        if line.len() > LONGEST_LINE {
            return None;
        }
        let names = [sample_order(), optional()].concat();
        let mut order = Vec::new();
        for word in line.split(|&byte| byte == b' ') {
            let column = *names
                .iter()
                .find(|column| column.word().as_bytes() == word)?;
            if order.contains(&column) {
                return None;
            }
            order.push(column);
        }
        if sample_order().iter().any(|column| !order.contains(column)) {
            return None;
        }
        let users = [UserRecord::default(); 16];
        Some(Program {
            order,
            users,
            shut: false,
            tables: paper::fresh(&users, edition),
            lost: Lost::new(),
        })
    }

    pub fn read(&self, line: &[u8]) -> Read {
        if line.len() > LONGEST_LINE {
            return Read::Unreadable;
        }
        let values: Vec<&[u8]> = line.split(|&byte| byte == b' ').collect();
        if values.len() != self.order.len() {
            return Read::Unreadable;
        }
        // A name that is left out: "the field then counting as a dash".
        let below = |name: Column| -> &[u8] {
            let at = self.order.iter().position(|&column| column == name);
            at.map_or(b"-", |at| values[at])
        };
        let word = below(Column::Call);
        let call: Option<Call> = CALLS
            .into_iter()
            .find(|call| call.word().as_bytes() == word);
        let uses: &[Field] = match call {
            Some(call) => call.uses(),
            None if word == b"user" => &paper::USER_USES,
            None => return Read::Unreadable,
        };
        let mut numbers = Values::default();
        for field in FIELDS {
            let value = below(Column::Field(field));
            if uses.contains(&field) {
                match number(value) {
                    Some(n) => numbers[field as usize] = n,
                    None => return Read::Unreadable,
                }
            } else if value != b"-" {
                return Read::Unreadable;
            }
        }
        match call {
            Some(call) => Read::Request(Request {
                call,
                values: numbers,
            }),
            None => Read::User(numbers),
        }
    }

    pub fn answer(&mut self, line: &[u8]) -> Seen {
        match self.read(line) {
            Read::Unreadable => Seen {
                what: What::Unreadable,
                answer: 17,
                role: None,
            },
            Read::User(_) if self.shut => Seen {
                what: What::User,
                answer: 17,
                role: None,
            },
            Read::User(numbers) => {
                let at = |field: Field| numbers[field as usize];
                let in_range = paper::USER_USES
                    .iter()
                    .all(|&field| at(field) <= field.last());
                if in_range {
                    self.users[at(Field::User)] = UserRecord {
                        ceiling: at(Field::Ceiling),
                        clearance: Label {
                            grade: at(Field::Level),
                            cats: at(Field::Cats),
                        },
                    };
                    self.tables = paper::fresh(&self.users, self.tables.edition);
                }
                Seen {
                    what: What::User,
                    answer: if in_range { 0 } else { 2 },
                    role: None,
                }
            }
            Read::Request(request) => {
                self.shut = true;
                let met = paper::met(&self.tables, &request);
                let answer = paper::answer(request.call, met);
                let role = paper::told(&self.tables, &request, answer);
                // Only these two numbers look at labels.
                let upper_half =
                    [4, 11].contains(&answer) && paper::done_in_lower_half(&self.tables, &request);
                let situations = marks::situations(&self.tables, &request, met);
                let before = self.tables.clone();
                if answer == 0 {
                    paper::done(&mut self.tables, &request);
                }
                let ends = ends::situations(&ends::Look {
                    before: &before,
                    request: &request,
                    met,
                    after: &self.tables,
                    lost: &self.lost,
                });
                let ties = ties::situations(&ties::Look {
                    before: &before,
                    request: &request,
                    met,
                    told: role,
                    after: &self.tables,
                });
                if answer == 0 {
                    self.lost.note(&before, &request, &self.tables);
                }
                Seen {
                    what: What::Request {
                        request,
                        met,
                        upper_half,
                        situations,
                        ends,
                        ties,
                    },
                    answer,
                    role,
                }
            }
        }
    }
}

/// "1 to 5 decimal digits".
fn number(value: &[u8]) -> Option<usize> {
    if value.is_empty() || value.len() > 5 {
        return None;
    }
    let mut number = 0;
    for &byte in value {
        if !byte.is_ascii_digit() {
            return None;
        }
        number = number * 10 + usize::from(byte - b'0');
    }
    Some(number)
}

/// What the program is to do with a whole input.
pub struct Report {
    /// One for each line from line 2 on; none if the line of names is bad.
    pub seen: Vec<Seen>,
    pub names_good: bool,
    /// The tables were sound after every done request.
    pub sound: bool,
    /// The users that the tables were built from.
    pub users: [UserRecord; 16],
}

pub fn report(input: &[u8]) -> Report {
    report_in(EDITION, input)
}

pub fn report_in(edition: usize, input: &[u8]) -> Report {
    let mut lines: Vec<&[u8]> = input.split(|&byte| byte == b'\n').collect();
    // A closing byte 10 ends the last line and begins no other.
    if lines.last().is_some_and(|last| last.is_empty()) {
        lines.pop();
    }
    let mut report = Report {
        seen: Vec::new(),
        names_good: false,
        sound: true,
        users: [UserRecord::default(); 16],
    };
    let names = lines.first();
    let Some(mut program) = names.and_then(|names| Program::start(names, edition)) else {
        return report;
    };
    report.names_good = true;
    for line in lines.iter().take(LAST_LINE).skip(1) {
        let seen = program.answer(line);
        if seen.answer == 0 {
            report.sound = report.sound && paper::sound(&program.tables);
        }
        report.seen.push(seen);
    }
    report.users = program.users;
    report
}

impl Report {
    pub fn output(&self) -> Vec<u8> {
        self.printed(|_| None)
    }

    /// With the role behind the answer where one is told, as `reference --roles` prints it.
    pub fn output_with_roles(&self) -> Vec<u8> {
        self.printed(|seen| seen.role)
    }

    fn printed(&self, role: fn(&Seen) -> Option<usize>) -> Vec<u8> {
        let mut text = String::from("line answer\n");
        if !self.names_good {
            text.push_str("1 17\n");
        }
        for (index, seen) in self.seen.iter().enumerate() {
            text.push_str(&format!("{} {}", index + 2, seen.answer));
            if let Some(role) = role(seen) {
                text.push_str(&format!(" {role}"));
            }
            text.push('\n');
        }
        text.into_bytes()
    }
}

#[cfg(test)]
mod tests {
    use super::*;

    const NAMES: &str = "call seat user role entity parent kind name level cats rights ceiling\n";
    const NAMES_SHARED: &str =
        "call seat user role entity parent kind name level cats rights ceiling shared\n";
    const NAMES_JUNIOR: &str =
        "call seat user role entity parent kind name level cats rights ceiling junior\n";
    const NAMES_BOTH: &str =
        "call junior seat user role entity parent kind name level cats rights ceiling shared\n";

    fn answers(lines: &str) -> Vec<usize> {
        answers_below(NAMES, lines)
    }

    fn answers_below(names: &str, lines: &str) -> Vec<usize> {
        let input = format!("{names}{lines}");
        let report = report(input.as_bytes());
        assert!(report.names_good && report.sound);
        report.seen.iter().map(|seen| seen.answer).collect()
    }

    #[test]
    fn the_sample() {
        let input = format!(
            "{NAMES}user - 0 - - - - - 3 255 - 3\nlogin 12 0 - - - - - 0 0 - -\n\
             take 12 - 12 - - - - - - - -\nopenw 12 - - 48 - - - - - - -\n\
             openw 12 - - 48 - - - - - - -\nlogout 13 - - - - - - - - - -\n"
        );
        let printed = "line answer\n2 0\n3 0\n4 0\n5 0\n6 16\n7 5\n";
        assert_eq!(report(input.as_bytes()).output(), printed.as_bytes());
        let unended = &input.as_bytes()[..input.len() - 1];
        assert_eq!(report(unended).output(), printed.as_bytes());
    }

    /// K1 to K14.
    #[test]
    fn one_morning() {
        let lines = "user - 0 - - - - - 3 255 - 3\nuser - 1 - - - - - 1 0 - 1\n\
             login 12 0 - - - - - 0 0 - -\nlogin 13 1 - - - - - 0 0 - -\n\
             login 4 1 - - - - - 0 0 - -\ntake 12 - 12 - - - - - - - -\n\
             take 4 - 12 - - - - - - - -\nopenw 12 - - 48 - - - - - - -\n\
             openr 4 - - 48 - - - - - - -\nopenw 4 - - 48 - - - - - - -\n\
             create 12 - 12 49 48 0 7 0 0 - -\ncreate 12 - 12 50 48 0 7 0 0 - -\n\
             create 12 - 12 33 48 0 7 0 0 - -\ndelete 12 - - 48 - - - - - - -\n\
             rename 12 - - 49 - - 7 - - - -\ndelete 12 - - 49 - - - - - - -\n";
        assert_eq!(
            answers(lines),
            [0, 0, 0, 4, 0, 0, 12, 0, 13, 10, 0, 14, 10, 6, 14, 0]
        );
    }

    #[test]
    fn edges() {
        let lines = "user - 0 - - - - - 3 255 - 3\nlogin 12 0 - - - - - 3 0 - -\n\
             login 13 0 - - - - - 4 0 - -\nopenr 12 - - 63 - - - - - - -\n\
             openr 12 - - 64 - - - - - - -\nrename 12 - - 63 - - 65535 - - - -\n\
             rename 12 - - 63 - - 65536 - - - -\ngrant 12 - 0 0 - - - - - 15 -\n\
             grant 12 - 0 0 - - - - - 16 -\n";
        assert_eq!(answers(lines), [0, 0, 2, 7, 2, 7, 2, 13, 2]);
    }

    /// "`cats` may reach 65,535" (document 02, A.1).
    #[test]
    fn edges_of_categories() {
        let lines = "user - 0 - - - - - 3 65536 - 3\nuser - 0 - - - - - 3 99999 - 3\n\
             user - 0 - - - - - 3 100000 - 3\nuser - 0 - - - - - 3 65535 - 3\n\
             user - 1 - - - - - 3 255 - 3\nlogin 12 0 - - - - - 3 65536 - -\n\
             login 12 0 - - - - - 3 99999 - -\nlogin 12 0 - - - - - 3 100000 - -\n\
             login 12 1 - - - - - 3 256 - -\nlogin 12 1 - - - - - 3 65535 - -\n\
             login 12 0 - - - - - 3 65535 - -\n";
        assert_eq!(answers(lines), [2, 2, 17, 0, 0, 2, 2, 17, 4, 4, 0]);
    }

    #[test]
    fn refused_for_the_upper_half() {
        let input = format!(
            "{NAMES}user - 0 - - - - - 3 511 - 3\nlogin 0 0 - - - - - 0 768 - -\n\
             login 0 0 - - - - - 4 768 - -\nlogin 0 1 - - - - - 0 257 - -\n\
             login 0 0 - - - - - 0 65536 - -\nlogin 0 0 - - - - - 0 257 - -\n\
             take 0 - 0 - - - - - - - -\nopenw 0 - - 0 - - - - - - -\n\
             login 1 0 - - - - - 0 256 - -\ntake 1 - 0 - - - - - - - -\n\
             openw 1 - - 0 - - - - - - -\nopenr 1 - - 0 - - - - - - -\n"
        );
        let mut lines = Vec::new();
        for (index, seen) in report(input.as_bytes()).seen.iter().enumerate() {
            if let What::Request {
                upper_half: true, ..
            } = seen.what
            {
                lines.push((index + 2, seen.answer));
            }
        }
        assert_eq!(lines, [(3, 4), (12, 11)]);
    }

    #[test]
    fn a_shared_drawer() {
        let lines = "user - 0 - - - - - 3 255 - 3 -\nlogin 12 0 - - - - - 0 0 - - -\n\
             take 12 - 12 - - - - - - - - -\nopenw 12 - - 48 - - - - - - - -\n\
             create 12 - 12 49 48 0 7 0 0 - - -\ncreate 12 - 12 50 48 1 8 0 0 - - -\n\
             share 12 - - 48 - - - - - - - 0\nshare 12 - - 48 - - - - - - - 1\n\
             share 12 - - 49 - - - - - - - 1\nshare 12 - - 50 - - - - - - - 1\n\
             rename 12 - - 49 - - 9 - - - - -\nrevoke 12 - 12 49 - - - - - 8 - -\n\
             rename 12 - - 49 - - 9 - - - - -\ndelete 12 - - 49 - - - - - - - -\n\
             delete 12 - - 50 - - - - - - - -\ncreate 12 - 12 50 48 1 8 0 0 - - -\n\
             share 12 - - 50 - - - - - - - 0\nshare 12 - - 48 - - - - - - - 0\n\
             delete 12 - - 49 - - - - - - - -\n";
        assert_eq!(
            answers_below(NAMES_SHARED, lines),
            [0, 0, 0, 0, 0, 0, 16, 0, 9, 0, 0, 0, 13, 13, 0, 0, 16, 0, 0]
        );
    }

    #[test]
    fn edges_of_marks() {
        let lines = "login 0 0 - - - - - 0 0 - - -\ntake 0 - 0 - - - - - - - - -\n\
             share 0 - - 0 - - - - - - - 2\nshare 0 - - 0 - - - - - - - 65535\n\
             share 0 - - 0 - - - - - - - 99999\nshare 0 - - 0 - - - - - - - 123456\n\
             share 0 - - 0 - - - - - - - -\nshare 0 - - 0 - - - - - - - 00001\n\
             drop 0 - 0 - - - - - - - - 0\ndrop 0 - 0 - - - - - - - -\n\
             drop 0 - 0 - - - - - - - - -\n";
        assert_eq!(
            answers_below(NAMES_SHARED, lines),
            [0, 0, 2, 2, 2, 17, 17, 0, 17, 17, 0]
        );
    }

    #[test]
    fn without_the_name_there_is_no_mark() {
        let lines = "user - 0 - - - - - 0 0 - 0 -\nshare 0 - - 0 - - - - - - -\n\
             share 0 - - 0 - - - - - - - 1\nshare 0 - - 0 - - - - - - 1\n\
             user - 0 - - - - - 0 0 - 0\nlogin 0 0 - - - - - 0 0 - -\n";
        assert_eq!(answers(lines), [17, 17, 17, 17, 0, 0]);
        let lines = "user - 0 - - - - - 0 0 - 0\nuser - 0 - - - - - 0 0 - 0 0\n\
             user - 0 - - - - - 0 0 - 0 -\n";
        assert_eq!(answers_below(NAMES_SHARED, lines), [17, 17, 0]);
    }

    #[test]
    fn ties() {
        let lines = "login 0 0 - - - - - 0 0 - - -\ntake 0 - 0 - - - - - - - - -\n\
             make 0 - 1 - - - - - - - - -\nmake 0 - 2 - - - - - - - - -\n\
             join 0 - 1 - - - - - - - - 2\njoin 0 - 2 - - - - - - - - 00000\n\
             join 0 - 0 - - - - - - - - 1\njoin 0 - 0 - - - - - - - - 0\n\
             join 0 - 1 - - - - - - - - 2\njoin 0 - 1 - - - - - - - - 16\n\
             join 0 - 1 - - - - - - - - 65536\njoin 0 - 1 - - - - - - - - 123456\n\
             join 0 - 1 - - - - - - - - -\njoin 0 - 1 - - - - - - - 2 -\n\
             unmake 0 - 2 - - - - - - - - -\nunmake 0 - 2 - - - - - - - - 0\n\
             list 0 0 1 - - - - - - - - -\nlogin 1 0 - - - - - 0 0 - - -\n\
             take 1 - 1 - - - - - - - - -\nopenw 1 - - 0 - - - - - - - -\n\
             unjoin 0 - 1 - - - - - - - - 0\nunjoin 0 - 2 - - - - - - - - 0\n\
             close 1 - - 0 - - - - - - - -\nunjoin 0 - 1 - - - - - - - - 2\n\
             unmake 0 - 2 - - - - - - - - -\n";
        let input = format!("{NAMES_JUNIOR}{lines}");
        let report = report(input.as_bytes());
        assert!(report.names_good && report.sound);
        let answers: Vec<usize> = report.seen.iter().map(|seen| seen.answer).collect();
        assert_eq!(
            answers,
            [0, 0, 0, 0, 0, 0, 22, 22, 16, 2, 2, 17, 17, 17, 15, 17, 0, 0, 0, 0, 16, 0, 16, 0, 0]
        );
        // The role that is held.
        assert_eq!(report.seen[19].role, Some(1));
    }

    #[test]
    fn without_the_name_there_is_no_junior() {
        let lines = "join 0 - 1 - - - - - - - -\njoin 0 - 1 - - - - - - - - 2\n\
             join 0 - 1 - - - - - - - 2\nuser - 0 - - - - - 0 0 - 0\n";
        assert_eq!(answers(lines), [17, 17, 17, 0]);
        let lines = "join 0 - 1 - - - - - - - - -\njoin 0 - 1 - - - - - - - - 1\n\
             join 0 - 1 - - - - - - - - - 1\nuser - 0 - - - - - 0 0 - 0 -\n\
             share 0 - - 0 - - - - - - - 1\n";
        assert_eq!(answers_below(NAMES_SHARED, lines), [17, 17, 17, 0, 5]);
        let lines = "share 0 - - 0 - - - - - - - 1\nshare 0 - - 0 - - - - - - - -\n\
             user - 0 - - - - - 0 0 - 0 1\nuser - 0 - - - - - 0 0 - 0 -\n\
             join 0 - 0 - - - - - - - - 1\n";
        assert_eq!(answers_below(NAMES_JUNIOR, lines), [17, 17, 17, 0, 5]);
        let lines = "join 1 0 - 0 - - - - - - - - -\njoin - 0 - 0 - - - - - - - - 1\n\
             join 1 0 - 0 - - - - - - - - 1\nshare - 0 - - 0 - - - - - - - 1\n\
             share 1 0 - - 0 - - - - - - - -\nuser - - 0 - - - - - 0 0 - 0 -\n\
             join 1 0 - 0 - - - - - - - -\n";
        assert_eq!(answers_below(NAMES_BOTH, lines), [5, 17, 17, 5, 17, 17, 17]);
    }

    /// One file in both editions (document 02, A.13).
    #[test]
    fn reading_down() {
        let lines = "user - 0 - - - - - 3 255 - 3\nlogin 12 0 - - - - - 0 0 - -\n\
             openr 12 - - 0 - - - - - - -\ntake 12 - 0 - - - - - - - -\n\
             openr 12 - - 0 - - - - - - -\nopenr 12 - - 0 - - - - - - -\n\
             openw 12 - - 0 - - - - - - -\nclose 12 - - 0 - - - - - - -\n\
             login 0 0 - - - - - 0 0 - -\ntake 0 - 12 - - - - - - - -\n\
             openw 0 - - 48 - - - - - - -\nopenr 0 - - 48 - - - - - - -\n";
        assert_eq!(answers(lines), [0, 0, 10, 0, 10, 10, 0, 0, 0, 0, 10, 0]);
        let report = report_in(2, format!("{NAMES}{lines}").as_bytes());
        assert!(report.sound && report.users[0].ceiling == 3);
        let answers: Vec<usize> = report.seen.iter().map(|seen| seen.answer).collect();
        assert_eq!(answers, [0, 0, 13, 0, 0, 16, 0, 0, 0, 0, 10, 0]);
    }

    /// "The program prints as before" (document 02, A.6).
    #[test]
    fn roles() {
        let lines = "user - 0 - - - - - 3 255 - 3\nlogin 12 0 - - - - - 0 0 - -\n\
             take 12 - 12 - - - - - - - -\nopenr 12 - - 48 - - - - - - -\n\
             openr 12 - - 48 - - - - - - -\ntake 12 - 0 - - - - - - - -\n\
             openw 12 - - 0 - - - - - - -\nnothing\nclose 12 - - 0 - - - - - - -\n\
             openr 12 - - 0 - - - - - - -\n";
        let report = report(format!("{NAMES}{lines}").as_bytes());
        let roles: Vec<Option<usize>> = report.seen.iter().map(|seen| seen.role).collect();
        let (a, b) = (Some(12), Some(0));
        let none = None;
        assert_eq!(
            roles,
            [none, none, none, a, none, none, b, none, none, none]
        );
        let printed = "line answer\n2 0\n3 0\n4 0\n5 0\n6 16\n7 0\n8 0\n9 17\n10 0\n11 10\n";
        assert_eq!(report.output(), printed.as_bytes());
        let told = printed
            .replace("\n5 0\n", "\n5 0 12\n")
            .replace("\n8 0\n", "\n8 0 0\n");
        assert_eq!(report.output_with_roles(), told.as_bytes());
    }

    #[test]
    fn user_lines() {
        let lines = "user - 16 - - - - - 0 0 - 0\n\nuser - 1 - - - - - 3 0 - 3\n\
             user - 1 - - - - - 0 0 - 0\nlogin 0 16 - - - - - 0 0 - -\n\
             user - 1 - - - - - 0 0 - 0\nlogin 00004 1 - - - - - 0 0 - -\n\
             login 000004 1 - - - - - 0 0 - -\n";
        assert_eq!(answers(lines), [2, 17, 0, 0, 2, 17, 4, 17]);
    }

    #[test]
    fn names_line() {
        let bad = b"line answer\n1 17\n";
        assert_eq!(report(b"").output(), bad);
        assert_eq!(report(b"\n").output(), bad);
        let names = NAMES.as_bytes();
        assert_eq!(report(names).output(), b"line answer\n");
        assert_eq!(report(&names[..names.len() - 1]).output(), b"line answer\n");
        assert_eq!(
            report(NAMES.replace(" kind", "").as_bytes()).output(),
            b"line answer\n1 17\n"
        );
        let good = |names: &str| report(names.as_bytes()).names_good;
        assert!(good(NAMES_SHARED) && good(&NAMES.replace("call", "shared call")));
        assert!(good(&NAMES.replace("kind", "kind shared")));
        assert!(!good(&NAMES.replace("kind", "shared")) && !good("shared\n"));
        assert!(!good(&NAMES_SHARED.replace("kind", "shared")));
        assert!(!good(&NAMES_SHARED.replace("kind", "kind shared")));
        assert!(!good(&NAMES_SHARED.replace("shared", "share")));
        // With neither, either and both.
        assert!(
            good(NAMES_JUNIOR) && good(NAMES_BOTH) && good(&NAMES.replace("call", "junior call"))
        );
        assert!(good(&NAMES.replace("kind", "shared kind junior")));
        assert!(good(&NAMES.replace("kind", "junior shared kind")));
        assert!(!good(&NAMES.replace("kind", "junior")) && !good("junior\n"));
        assert!(!good(&NAMES_BOTH.replace("kind", "junior kind")));
        assert!(!good(&NAMES_BOTH.replace("kind", "shared kind")));
        assert!(!good(&NAMES_BOTH.replace("kind ", "")));
        assert!(!good(&NAMES_JUNIOR.replace("junior", "senior")));
    }
}
