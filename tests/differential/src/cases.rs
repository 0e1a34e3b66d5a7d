//! Statements for the test program `guard_cases`, by which the proved guard runs in either edition, and
//! what it is to print for them by the paper. It reads the files that its file `list` names; the tables
//! live on from one to the next.

use std::fs;
use std::io;
use std::path::Path;

use crate::ends;
use crate::logs::{Asked, Log, Ran};
use crate::paper::{self, Tables, UserRecord};
use crate::records::{self, Kind, KINDS};

/// The most bytes of a file that the program reads, and of `list`.
const FILE: usize = 65_536;
const LIST: usize = 4_096;

/// How many numbers a request is as a row of a batch; the most rows, and the most places for answers and
/// for roles.
pub const ROW: usize = 13;
pub const MOST: usize = 256;

/// What stands in a place for an answer, or for a role, that was not written.
const NO_ANSWER: usize = 255;
const NOT_TOLD: usize = 254;

/// Statements, and what is to be printed.
pub struct Script {
    statements: Vec<String>,
    expected: String,
    /// The statement of each line that is printed.
    printing: Vec<usize>,
    /// How many builds and requests there are.
    pub builds: usize,
    pub requests: usize,
    /// The tables, and those kept to compare with and to go back to.
    pub tables: Tables,
    kept: Tables,
    /// Whether the tables are sound, if that is known.
    sound: Option<bool>,
}

/// What the paper says of a request: the sides that it meets, its answer, and the role told, if one is.
pub struct Answered {
    pub met: u32,
    pub answer: usize,
    pub role: Option<usize>,
}

/// How much of a batch is run: so many of its numbers, with room for so many answers and so many roles.
#[derive(Clone, Copy, Debug)]
pub struct Room {
    pub numbers: usize,
    pub answers: usize,
    pub roles: usize,
}

impl Room {
    /// As many requests as stand whole in the rows and have room for their answers and for their roles.
    pub fn requests(&self) -> usize {
        (self.numbers / ROW).min(self.answers).min(self.roles)
    }
}

/// An answer as it is printed, the role behind it where one is told.
pub fn told(answer: usize, role: Option<usize>) -> String {
    match role {
        Some(role) => format!("{answer} by role {role}"),
        None => answer.to_string(),
    }
}

impl Script {
    /// Fresh tables of edition 1 over sixteen users of 0, which are kept too.
    pub fn new() -> Script {
        let tables = paper::fresh(&[UserRecord::default(); 16], 1);
        Script {
            statements: vec![String::from("clear"), String::from("keep")],
            expected: String::new(),
            printing: Vec::new(),
            builds: 0,
            requests: 0,
            kept: tables.clone(),
            tables,
            sound: None,
        }
    }

    /// The tables are these after the statement.
    fn state(&mut self, statement: String, tables: Tables) {
        self.statements.push(statement);
        self.tables = tables;
        self.sound = None;
    }

    /// The last statement is to print this line.
    fn print(&mut self, line: &str) {
        self.printing.push(self.statements.len() - 1);
        self.expected += line;
        self.expected.push('\n');
    }

    pub fn clear(&mut self) {
        let nobody = [UserRecord::default(); 16];
        self.state(String::from("clear"), paper::fresh(&nobody, 1));
    }

    pub fn keep(&mut self) {
        self.statements.push(String::from("keep"));
        self.kept = self.tables.clone();
    }

    /// The field of a record, and those behind it.
    pub fn set(&mut self, word: &str, at: usize, field: &str, values: &[u64]) {
        let kind = KINDS.iter().find(|kind| kind.word == word).unwrap();
        let first = kind.fields.iter().position(|&known| known == field);
        let fields = &kind.fields[first.unwrap()..];
        let mut statement = format!("set {word} {at} {field}");
        let mut tables = self.tables.clone();
        for (field, &value) in fields.iter().zip(values) {
            statement += &format!(" {value}");
            records::set(&mut tables, word, at, field, value);
        }
        self.state(statement, tables);
    }

    pub fn set_edition(&mut self, edition: usize) {
        self.set("tables", 0, "edition", &[edition as u64]);
    }

    /// The tables built anew over their users and in their edition: the answer, and what is not as in those
    /// kept.
    pub fn fresh(&mut self, name: &str) {
        self.builds += 1;
        let (tables, answer) = paper::build(&self.tables.users, self.tables.edition);
        self.state(format!("fresh | {name}"), tables);
        let changes = records::changes(&self.kept, &self.tables);
        self.print(&format!("{name}: {answer}{changes}"));
    }

    /// The request. "1 the tables are not sound"; 2 for one of no kind.
    fn make(&mut self, asked: &Asked) -> Answered {
        self.requests += 1;
        let sound = *self.sound.get_or_insert_with(|| paper::sound(&self.tables));
        let without_role = |answer| Answered {
            met: 0,
            answer,
            role: None,
        };
        match asked {
            _ if !sound => without_role(1),
            Asked::NoKind { .. } => without_role(2),
            Asked::Request(request) => {
                let met = paper::met(&self.tables, request);
                let answer = paper::answer(request.call, met);
                let role = paper::told(&self.tables, request, answer);
                if answer == 0 {
                    paper::done(&mut self.tables, request);
                    self.sound = None;
                }
                Answered { met, answer, role }
            }
        }
    }

    /// A request, and what it tells. Behind one that may have ended opens, what every seat has.
    pub fn ask(&mut self, asked: &Asked, name: &str) -> Answered {
        self.statements.push(format!("{} | {name}", words(asked)));
        let answered = self.make(asked);
        self.print(&format!("{name}: {}", told(answered.answer, answered.role)));
        if seats_follow(asked, answered.answer) {
            self.show_all(&records::SEATS);
        }
        answered
    }

    /// A request on tables that are not as those kept: what it changes, and what was changed before; then
    /// back.
    pub fn broken(&mut self, asked: &Asked, name: &str) {
        let before = self.tables.clone();
        let answered = self.make(asked);
        let told = told(answered.answer, answered.role);
        let changes = records::changes(&before, &self.tables);
        let broken = records::differing(&self.kept, &before);
        let back = self.kept.clone();
        self.state(format!("broken {} | {name}", words(asked)), back);
        self.print(&format!("{name}: {told}{changes}; broken{broken}"));
    }

    /// The requests are the rows of the batch, and there are no others. The tables are kept.
    pub fn gather(&mut self, rows: &[Asked]) {
        self.keep();
        // To clear the batch is to clear the tables too.
        for word in ["clear", "back"] {
            self.statements.push(String::from(word));
        }
        for same in rows.chunk_by(|one, other| one == other) {
            let (count, words) = (same.len(), words(&same[0]));
            self.statements.push(format!("gather {count} {words}"));
        }
    }

    /// The batch, which has these rows: what changed, and a number for each place of the room. Hands back
    /// what the requests that were run told.
    pub fn run(&mut self, rows: &[Asked], room: Room, name: &str) -> Vec<Answered> {
        let Room {
            numbers,
            answers,
            roles,
        } = room;
        let statement = format!("run {numbers} {answers} {roles} | {name}");
        self.statements.push(statement);
        let before = self.tables.clone();
        let rows = &rows[..room.requests()];
        let run: Vec<Answered> = rows.iter().map(|asked| self.make(asked)).collect();
        let mut line = format!("{name}:{}", records::changes(&before, &self.tables));
        line += "; answers";
        for at in 0..answers {
            let answer = run.get(at).map_or(NO_ANSWER, |answered| answered.answer);
            line += &format!(" {answer}");
        }
        line += "; roles";
        for at in 0..roles {
            let role = run.get(at).map_or(Some(NOT_TOLD), |answered| answered.role);
            line += &role.map_or(String::from(" -"), |role| format!(" {role}"));
        }
        self.print(&line);
        run
    }

    /// The edition and every record.
    pub fn show(&mut self) {
        for kind in &KINDS {
            self.show_all(kind);
        }
    }

    fn show_all(&mut self, kind: &Kind) {
        for at in 0..kind.count {
            self.statements.push(format!("show {} {at}", kind.word));
            self.print(&records::shown(&self.tables, kind, at));
        }
    }

    /// The tables that a log starts from.
    pub fn start(&mut self, log: &Log) {
        self.clear();
        for (at, user) in log.users.iter().enumerate() {
            let clearance = user.clearance;
            let values = [user.ceiling, clearance.grade, clearance.cats];
            self.set("user", at, "ceiling", &values.map(|value| value as u64));
        }
        self.set_edition(log.edition);
        // Without a name it is to be done.
        self.state(String::from("fresh"), paper::fresh(&log.users, log.edition));
    }

    pub fn expected(&self) -> &[u8] {
        self.expected.as_bytes()
    }

    /// The statement of that line of what is to be printed, counted from 0.
    pub fn statement(&self, line: usize) -> &str {
        let at = self.printing.get(line);
        at.map_or("(none)", |&at| &self.statements[at])
    }

    /// Puts the files and their list into the folder.
    pub fn write(&self, folder: &Path) -> io::Result<()> {
        let mut list = String::new();
        for (index, file) in self.files().iter().enumerate() {
            let name = format!("statements-{}", index + 1);
            fs::write(folder.join(&name), file)?;
            list += &format!("{name}\n");
        }
        if list.len() > LIST {
            return Err(io::Error::other("too many statements"));
        }
        fs::write(folder.join("list"), list)
    }

    fn files(&self) -> Vec<String> {
        let mut files = Vec::new();
        let mut file = String::new();
        for statement in &self.statements {
            if file.len() + statement.len() + 1 > FILE {
                files.push(std::mem::take(&mut file));
            }
            file += &format!("{statement}\n");
        }
        files.push(file);
        files
    }
}

/// A request's word and its numbers in the paper's order.
fn words(asked: &Asked) -> String {
    match asked {
        Asked::NoKind { call, seat } => format!("{call} {seat}"),
        Asked::Request(request) => {
            let mut words = String::from(request.call.word());
            for &field in request.call.uses() {
                words += &format!(" {}", request.at(field));
            }
            words
        }
    }
}

fn seats_follow(asked: &Asked, answer: usize) -> bool {
    matches!(asked, Asked::Request(request) if ends::may_end(request, answer))
}

/// What the program printed for a log: its answers and the roles, and the tables shown after so many of its
/// requests. None if it is of another form.
pub fn read(output: &[u8], log: &Log, shows: &[usize]) -> Option<Ran> {
    let text = std::str::from_utf8(output).ok()?;
    let mut lines = text.lines();
    let mut ran = Ran {
        answers: Vec::new(),
        roles: Vec::new(),
        tables: Vec::new(),
    };
    for done in 0..=log.entries.len() {
        for _ in shows.iter().filter(|&&show| show == done) {
            let shown: Vec<&str> = lines.by_ref().take(records::COUNT).collect();
            ran.tables.push(records::read(&shown)?);
        }
        if let Some(entry) = log.entries.get(done) {
            let (name, told) = lines.next()?.rsplit_once(": ")?;
            if name != entry.name {
                return None;
            }
            let (answer, role) = match told.split_once(" by role ") {
                Some((answer, role)) => (answer, Some(role.parse().ok()?)),
                None => (told, None),
            };
            let answer = answer.parse().ok()?;
            if seats_follow(&entry.asked, answer) {
                lines.nth(records::SEATS.count - 1)?;
            }
            ran.answers.push(answer);
            ran.roles.push(role);
        }
    }
    Some(ran)
}

#[cfg(test)]
mod tests {
    use super::*;
    use crate::files;
    use crate::logs;
    use crate::paper::{Call, Field, Request, CALLS};
    use crate::program::report_in;
    use crate::random::Random;

    /// What is to be printed for a generated log, read again.
    #[test]
    fn a_log_is_read_as_it_is_printed() {
        let mut with_role = 0;
        for index in 0..4 {
            let mut random = Random::for_file(3, index);
            let bytes = files::plain(Random::for_file(3, index), 2, false);
            let log = logs::log(&report_in(2, &bytes), 2, &mut random);
            let mut script = Script::new();
            script.start(&log);
            let shows = [0, 40, log.entries.len()];
            let (mut answers, mut roles, mut tables) = (Vec::new(), Vec::new(), Vec::new());
            for (done, entry) in log.entries.iter().enumerate() {
                if shows.contains(&done) {
                    script.show();
                    tables.push(script.tables.clone());
                }
                let answered = script.ask(&entry.asked, &entry.name);
                answers.push(answered.answer);
                roles.push(answered.role);
            }
            script.show();
            tables.push(script.tables.clone());
            let ran = read(script.expected(), &log, &shows).unwrap();
            assert!(ran.answers == answers && ran.roles == roles && ran.tables == tables);
            with_role += roles.iter().flatten().count();
            assert!(read(&script.expected()[..5_000], &log, &shows).is_none());
            assert!(read(script.expected(), &log, &[0]).is_none());
        }
        assert!(with_role > 50);
    }

    #[test]
    fn a_request_in_words() {
        let mut request = Request::new(Call::Create);
        for (value, &field) in Call::Create.uses().iter().enumerate() {
            request.set(field, value + 1);
        }
        assert_eq!(words(&Asked::Request(request)), "create 1 2 3 4 5 6 7 8");
        request.call = Call::Grant;
        request.set(Field::Rights, 9);
        assert_eq!(words(&Asked::Request(request)), "grant 1 8 2 9");
        request.set(Field::Junior, 7);
        for (call, word) in [(Call::Join, "join 1 8 7"), (Call::Unjoin, "unjoin 1 8 7")] {
            request.call = call;
            assert_eq!(words(&Asked::Request(request)), word);
        }
        assert_eq!(words(&Asked::NoKind { call: 19, seat: 3 }), "19 3");
        assert!(CALLS.iter().all(|call| call.uses()[0] == Field::Seat));
    }

    /// A seat logs in, takes the keepers of levels 3 and 0 and opens their roots.
    #[test]
    fn a_batch_as_it_is_printed() {
        let request = |call, fields: &[(Field, usize)]| Asked::Request(Request::with(call, fields));
        let at = |call, field, number| request(call, &[(Field::Seat, 12), (field, number)]);
        let openw = at(Call::Openw, Field::Entity, 48);
        let rows = [
            request(Call::Login, &[(Field::Seat, 12)]),
            at(Call::Take, Field::Role, 12),
            openw,
            openw,
            at(Call::Take, Field::Role, 0),
            at(Call::Openr, Field::Entity, 48),
            Asked::NoKind { call: 19, seat: 12 },
            at(Call::Openw, Field::Entity, 0),
            at(Call::Openr, Field::Entity, 64),
        ];
        let mut script = Script::new();
        script.set("user", 0, "ceiling", &[3]);
        let begin = script.statements.len();
        script.gather(&rows);
        let gathered = [
            "keep",
            "clear",
            "back",
            "gather 1 login 12 0 0 0",
            "gather 1 take 12 12",
            "gather 2 openw 12 48",
            "gather 1 take 12 0",
            "gather 1 openr 12 48",
            "gather 1 19 12",
            "gather 1 openw 12 0",
            "gather 1 openr 12 64",
        ];
        assert_eq!(script.statements[begin..], gathered);
        let tables = script.tables.clone();
        let cases = [
            (
                [117, 9, 10],
                "changed seats { 12 }; answers 0 0 0 16 0 0 2 0 2; roles - - 12 - - 12 - 0 - 254",
            ),
            (
                [117, 4, 3],
                "changed seats { 12 }; answers 0 0 0 255; roles - - 12",
            ),
            ([117, 1, 2], "changed seats { 12 }; answers 0; roles - 254"),
            (
                [38, 3, 3],
                "changed seats { 12 }; answers 0 0 255; roles - - 254",
            ),
            ([12, 1, 1], "kept; answers 255; roles 254"),
            ([117, 0, 2], "kept; answers; roles 254 254"),
            ([117, 2, 0], "kept; answers 255 255; roles"),
        ];
        let mut expected = String::new();
        for ([numbers, answers, roles], line) in cases {
            let room = Room {
                numbers,
                answers,
                roles,
            };
            script.tables = tables.clone();
            script.sound = None;
            assert_eq!(script.run(&rows, room, "x").len(), room.requests());
            expected += &format!("x: {line}\n");
        }
        script.set_edition(3);
        let room = Room {
            numbers: 39,
            answers: 4,
            roles: 4,
        };
        script.run(&rows, room, "x");
        expected += "x: kept; answers 1 1 1 255; roles - - - 254\n";
        assert_eq!(script.expected(), expected.as_bytes());
        assert_eq!(script.statement(1), "run 117 4 3 | x");
    }

    #[test]
    fn files_have_their_length() {
        let mut script = Script::new();
        for number in 0..20_000 {
            let asked = Asked::NoKind {
                call: 19,
                seat: number,
            };
            script.ask(&asked, "x");
        }
        let files = script.files();
        assert!(files.len() > 2 && files.iter().all(|file| file.len() <= FILE));
        let lines: Vec<&str> = files.iter().flat_map(|file| file.lines()).collect();
        assert_eq!(lines, script.statements);
        assert_eq!(script.statement(3), "19 3 | x");
    }
}
