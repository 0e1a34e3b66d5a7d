//! The request program of document 01 over the reference guard: requests on
//! standard input, answers on standard output. "`cats` may reach 65,535"
//! (document 02, A.1), which is the guard's bound. "The program gains a
//! thirteenth name `shared`; a names line without it is still read, the field
//! then counting as a dash" (A.2); of a tie it "has the senior under `role` and
//! gains a name `junior`", without which a names line is still read too (A.8).
//!
//! The tables start fresh and only the guard changes them, so that they stay
//! sound, and the program does not test them again before each request. With
//! the word `--test-each` it does, which is there to be measured.
//!
//! "Tables carry an edition, chosen when built; the program uses 1" (A.13). With
//! the words `--edition 2` this one uses 2, so that answers of that edition can be
//! compared as well.
//!
//! "The program prints as before" where a request tells a role (A.6). With the
//! word `--roles` this one prints the role behind the answer, so that it can be
//! compared too.

use std::io::{self, BufRead, ErrorKind, Read, Write};
use std::process::ExitCode;

use reference::{call, Answer, Request, Tables, UserRecord, EDITION_1, EDITION_2, ROLES, USERS};

/// The number of the last line that is read, the names line being 1.
const LAST_LINE: u32 = 65_535;

/// The longest line that may be readable. No readable line comes near it, since
/// values are short and one space apart; a line known to be longer can be cut.
const LONGEST: usize = 255;

const BLOCK: usize = 1 << 16;

/// The twelve fields in the order of the sample, then those that a names line may
/// leave out.
#[derive(Clone, Copy)]
enum Field {
    Call,
    Seat,
    User,
    Role,
    Entity,
    Parent,
    Kind,
    Name,
    Level,
    Cats,
    Rights,
    Ceiling,
    Shared,
    Junior,
}

use Field::*;

const FIELDS: &[(&[u8], Field)] = &[
    (b"call", Call),
    (b"seat", Seat),
    (b"user", User),
    (b"role", Role),
    (b"entity", Entity),
    (b"parent", Parent),
    (b"kind", Kind),
    (b"name", Name),
    (b"level", Level),
    (b"cats", Cats),
    (b"rights", Rights),
    (b"ceiling", Ceiling),
    (b"shared", Shared),
    (b"junior", Junior),
];

/// The most names that a names line can have, and the twelve that it has to have
/// as a bit set.
const NAMES: usize = FIELDS.len();
const TWELVE: u16 = (1 << 12) - 1;

/// The word `user`, numbered behind the nineteen requests.
const SET_USER: u32 = 19;

/// The fields that each word uses, as bit sets.
const USES: [u16; 20] = {
    const fn set(fields: &[Field]) -> u16 {
        let mut set = 1 << Call as u16;
        let mut i = 0;
        while i < fields.len() {
            set |= 1 << fields[i] as u16;
            i += 1;
        }
        set
    }
    let with_role = set(&[Seat, Role]);
    let with_entity = set(&[Seat, Entity]);
    let with_rights = set(&[Seat, Role, Entity, Rights]);
    let with_user = set(&[Seat, Role, User]);
    let with_junior = set(&[Seat, Role, Junior]);
    let mut uses = [0; 20];
    uses[call::LOGIN as usize] = set(&[Seat, User, Level, Cats]);
    uses[call::LOGOUT as usize] = set(&[Seat]);
    uses[call::TAKE as usize] = with_role;
    uses[call::DROP as usize] = with_role;
    uses[call::OPENR as usize] = with_entity;
    uses[call::OPENW as usize] = with_entity;
    uses[call::CLOSE as usize] = with_entity;
    uses[call::CREATE as usize] = set(&[Seat, Entity, Kind, Parent, Name, Level, Cats, Role]);
    uses[call::DELETE as usize] = with_entity;
    uses[call::RENAME as usize] = set(&[Seat, Entity, Name]);
    uses[call::GRANT as usize] = with_rights;
    uses[call::REVOKE as usize] = with_rights;
    uses[call::LIST as usize] = with_user;
    uses[call::UNLIST as usize] = with_user;
    uses[call::MAKE as usize] = with_role;
    uses[call::UNMAKE as usize] = with_role;
    uses[call::SHARE as usize] = set(&[Seat, Entity, Shared]);
    uses[call::JOIN as usize] = with_junior;
    uses[call::UNJOIN as usize] = with_junior;
    uses[SET_USER as usize] = set(&[User, Level, Cats, Ceiling]);
    uses
};

/// The number of the word at the front, and what stands behind it. No word is
/// the beginning of another.
#[inline]
fn take_word(text: &[u8]) -> Option<(u32, &[u8])> {
    Some(match text {
        [b'l', b'o', b'g', b'i', b'n', rest @ ..] => (call::LOGIN, rest),
        [b'l', b'o', b'g', b'o', b'u', b't', rest @ ..] => (call::LOGOUT, rest),
        [b't', b'a', b'k', b'e', rest @ ..] => (call::TAKE, rest),
        [b'd', b'r', b'o', b'p', rest @ ..] => (call::DROP, rest),
        [b'o', b'p', b'e', b'n', b'r', rest @ ..] => (call::OPENR, rest),
        [b'o', b'p', b'e', b'n', b'w', rest @ ..] => (call::OPENW, rest),
        [b'c', b'l', b'o', b's', b'e', rest @ ..] => (call::CLOSE, rest),
        [b'c', b'r', b'e', b'a', b't', b'e', rest @ ..] => (call::CREATE, rest),
        [b'd', b'e', b'l', b'e', b't', b'e', rest @ ..] => (call::DELETE, rest),
        [b'r', b'e', b'n', b'a', b'm', b'e', rest @ ..] => (call::RENAME, rest),
        [b'g', b'r', b'a', b'n', b't', rest @ ..] => (call::GRANT, rest),
        [b'r', b'e', b'v', b'o', b'k', b'e', rest @ ..] => (call::REVOKE, rest),
        [b'l', b'i', b's', b't', rest @ ..] => (call::LIST, rest),
        [b'u', b'n', b'l', b'i', b's', b't', rest @ ..] => (call::UNLIST, rest),
        [b'm', b'a', b'k', b'e', rest @ ..] => (call::MAKE, rest),
        [b'u', b'n', b'm', b'a', b'k', b'e', rest @ ..] => (call::UNMAKE, rest),
        [b's', b'h', b'a', b'r', b'e', rest @ ..] => (call::SHARE, rest),
        [b'j', b'o', b'i', b'n', rest @ ..] => (call::JOIN, rest),
        [b'u', b'n', b'j', b'o', b'i', b'n', rest @ ..] => (call::UNJOIN, rest),
        [b'u', b's', b'e', b'r', rest @ ..] => (SET_USER, rest),
        _ => return None,
    })
}

/// The number at the front, of one to five digits, and what stands behind it.
#[inline]
fn take_number(text: &[u8]) -> Option<(u32, &[u8])> {
    let [first @ b'0'..=b'9', rest @ ..] = text else {
        return None;
    };
    let mut number = u32::from(first - b'0');
    let mut text = rest;
    for _ in 1..5 {
        let [digit @ b'0'..=b'9', rest @ ..] = text else {
            break;
        };
        number = 10 * number + u32::from(digit - b'0');
        text = rest;
    }
    Some((number, text))
}

/// The fields in the order of the names line.
#[derive(Clone, Copy)]
struct Columns {
    fields: [Field; NAMES],
    count: usize,
}

/// Nothing if the names line is bad: one of the twelve is missing, or a name
/// stands twice.
fn read_names(line: &[u8]) -> Option<Columns> {
    let mut columns = Columns {
        fields: [Call; NAMES],
        count: 0,
    };
    let mut seen: u16 = 0;
    for name in line.split(|&byte| byte == b' ') {
        let &(_, field) = FIELDS.iter().find(|(known, _)| *known == name)?;
        if seen >> field as u16 & 1 != 0 {
            return None;
        }
        seen |= 1 << field as u16;
        columns.fields[columns.count] = field;
        columns.count += 1;
    }
    (seen & TWELVE == TWELVE).then_some(columns)
}

/// Reads the line at the front of `text`, which holds the line's byte 10. The
/// word's number goes into the place of `call` and each other value into that of
/// its field; those of unused fields stay as they were. A field without a column
/// is not given, as one with a dash. Hands back what stands behind the line, or
/// for a line that can't be read its rest, from its byte 10 or an earlier one on.
#[inline]
fn read_line<'a>(
    columns: &[Field],
    mut text: &'a [u8],
    values: &mut [u32; NAMES],
) -> Result<&'a [u8], &'a [u8]> {
    let mut given = 0;
    let mut column = 0;
    loop {
        while let Some(rest) = text.strip_prefix(b"- ") {
            text = rest;
            column += 1;
        }
        let Some(&field) = columns.get(column) else {
            return Err(text);
        };
        if let [b'-', rest @ ..] = text {
            text = rest;
        } else {
            if let Call = field {
                (values[Call as usize], text) = take_word(text).ok_or(text)?;
            } else {
                (values[field as usize], text) = take_number(text).ok_or(text)?;
            }
            given |= 1 << field as u16;
        }
        match text {
            [b' ', rest @ ..] => text = rest,
            [b'\n', next @ ..]
                if column + 1 == columns.len() && given == USES[values[Call as usize] as usize] =>
            {
                return Ok(next)
            }
            _ => return Err(text),
        }
        column += 1;
    }
}

/// The answers are below this number, 0 for done among them.
const ANSWERS: usize = 23;

/// A row of the output behind the line's number, and its length: those of the
/// answers, then those of the roles told beside a 0.
const ROW_ENDS: [([u8; 8], usize); ANSWERS + ROLES] = {
    let mut ends = [([0; 8], 0); ANSWERS + ROLES];
    let mut answer = 0;
    while answer < ANSWERS {
        ends[answer] = row_end(&[answer]);
        answer += 1;
    }
    let mut role = 0;
    while role < ROLES {
        ends[ANSWERS + role] = row_end(&[0, role]);
        role += 1;
    }
    ends
};

/// Numbers below 100, a space before each.
const fn row_end(numbers: &[usize]) -> ([u8; 8], usize) {
    let mut end = [b' '; 8];
    let mut length = 0;
    let mut at = 0;
    while at < numbers.len() {
        let number = numbers[at];
        length += 1;
        if number >= 10 {
            end[length] = b'0' + (number / 10) as u8;
            length += 1;
        }
        end[length] = b'0' + (number % 10) as u8;
        length += 1;
        at += 1;
    }
    end[length] = b'\n';
    (end, length + 1)
}

/// The answers not yet written out, and the number of the line to be answered
/// next, as a number and in digits.
struct Answers {
    block: Box<[u8; BLOCK]>,
    filled: usize,
    line: u32,
    digits: [u8; 8],
    length: usize,
}

impl Answers {
    fn new() -> Answers {
        let title = b"line answer\n";
        let mut block = Box::new([0; BLOCK]);
        block[..title.len()].copy_from_slice(title);
        Answers {
            block,
            filled: title.len(),
            line: 1,
            digits: *b"1       ",
            length: 1,
        }
    }

    /// Writes the row that ends so for the present line and goes on to the next.
    /// The two parts of a row are copied at their full widths; what stands behind
    /// them is overwritten by what comes next.
    #[inline(always)]
    fn put(&mut self, end: usize) -> io::Result<()> {
        if self.filled > BLOCK - 16 {
            self.flush()?;
        }
        let mut at = self.filled;
        self.block[at..at + 8].copy_from_slice(&self.digits);
        at += self.length;
        let (end, length) = ROW_ENDS[end];
        self.block[at..at + 8].copy_from_slice(&end);
        self.filled = at + length;
        self.next_line();
        Ok(())
    }

    #[inline]
    fn next_line(&mut self) {
        self.line += 1;
        let last = &mut self.digits[self.length - 1];
        if *last < b'9' {
            *last += 1;
        } else {
            self.carry();
        }
    }

    fn carry(&mut self) {
        let digits = &mut self.digits[..self.length];
        let nines = digits.iter().rev().take_while(|&&d| d == b'9').count();
        let (before, nines) = digits.split_at_mut(self.length - nines);
        nines.fill(b'0');
        if let Some(last) = before.last_mut() {
            *last += 1;
        } else {
            self.digits[0] = b'1';
            self.digits[self.length] = b'0';
            self.length += 1;
        }
    }

    #[cold]
    fn flush(&mut self) -> io::Result<()> {
        io::stdout().write_all(&self.block[..self.filled])?;
        self.filled = 0;
        Ok(())
    }
}

/// What the words behind the program's name ask for.
struct Asked {
    /// Whether the tables are tested before each request.
    test_each: bool,
    /// Whether roles are printed.
    roles: bool,
    /// That of the tables.
    edition: u8,
}

impl Asked {
    /// Nothing if a word is not known.
    fn read(mut words: impl Iterator<Item = String>) -> Option<Asked> {
        let mut asked = Asked {
            test_each: false,
            roles: false,
            edition: EDITION_1,
        };
        while let Some(word) = words.next() {
            match word.as_str() {
                "--test-each" => asked.test_each = true,
                "--roles" => asked.roles = true,
                "--edition" => {
                    words.next().filter(|edition| edition == "2")?;
                    asked.edition = EDITION_2;
                }
                _ => return None,
            }
        }
        Some(asked)
    }
}

struct Program {
    asked: Asked,
    /// Nothing before the names line has been read.
    columns: Option<Columns>,
    values: [u32; NAMES],
    users: [UserRecord; USERS],
    /// Nothing as long as `user` lines are allowed.
    tables: Option<Tables>,
    answers: Answers,
}

impl Program {
    fn new(asked: Asked) -> Program {
        Program {
            asked,
            columns: None,
            values: [0; NAMES],
            users: [UserRecord::default(); USERS],
            tables: None,
            answers: Answers::new(),
        }
    }

    /// Answers the lines in `input`, each of which ends with byte 10. Hands back
    /// whether more lines are to be read.
    fn lines(&mut self, mut input: &[u8]) -> io::Result<bool> {
        let columns = match self.columns {
            Some(columns) => columns,
            None => {
                let Some(end) = input.iter().position(|&byte| byte == b'\n') else {
                    return Ok(true);
                };
                let Some(columns) = read_names(&input[..end]) else {
                    self.answers.put(17)?;
                    return Ok(false);
                };
                input = &input[end + 1..];
                self.answers.next_line();
                *self.columns.insert(columns)
            }
        };
        let columns = &columns.fields[..columns.count];
        while !input.is_empty() {
            let end = match read_line(columns, input, &mut self.values) {
                Ok(rest) => {
                    input = rest;
                    self.answer()
                }
                Err(rest) => {
                    input = rest;
                    input.skip_until(b'\n')?;
                    17
                }
            };
            self.answers.put(end)?;
            if self.answers.line > LAST_LINE {
                return Ok(false);
            }
        }
        Ok(true)
    }

    /// Answers the line whose values have been read: the place of its row's end.
    #[inline]
    fn answer(&mut self) -> usize {
        if self.values[Call as usize] == SET_USER {
            return self.set_user();
        }
        let [call, seat, user, role, entity, parent, kind, name, level, cats, rights, _, shared, junior] =
            self.values;
        let request = Request {
            call,
            seat,
            user,
            role,
            entity,
            parent,
            kind,
            name,
            level,
            cats,
            rights,
            shared,
            junior,
        };
        let tables = self
            .tables
            .get_or_insert_with(|| Tables::fresh(&self.users, self.asked.edition.into()).0);
        let answer = if self.asked.test_each {
            tables.step(&request)
        } else {
            tables.act(&request)
        };
        match answer {
            Answer::By(role) if self.asked.roles => ANSWERS + usize::from(role),
            _ => answer.number().into(),
        }
    }

    #[inline(never)]
    fn set_user(&mut self) -> usize {
        if self.tables.is_some() {
            return 17;
        }
        let record = UserRecord {
            ceiling: self.values[Ceiling as usize],
            level: self.values[Level as usize],
            cats: self.values[Cats as usize],
        };
        match self.users.get_mut(self.values[User as usize] as usize) {
            Some(user) if record.user().is_some() => {
                *user = record;
                0
            }
            _ => 2,
        }
    }

    fn run(&mut self) -> io::Result<()> {
        let mut stdin = io::stdin().lock();
        let mut block = vec![0; BLOCK];
        // The bytes of a line whose end has not been read yet stand in front.
        let mut held = 0;
        loop {
            let read = match stdin.read(&mut block[held..]) {
                Ok(read) => read,
                Err(error) if error.kind() == ErrorKind::Interrupted => continue,
                Err(error) => return Err(error),
            };
            if read == 0 {
                break;
            }
            let filled = held + read;
            let whole = block[..filled]
                .iter()
                .rposition(|&byte| byte == b'\n')
                .map_or(0, |last| last + 1);
            if !self.lines(&block[..whole])? {
                return self.answers.flush();
            }
            block.copy_within(whole..filled, 0);
            held = (filled - whole).min(LONGEST + 1);
        }
        if held > 0 || self.columns.is_none() {
            block[held] = b'\n';
            self.lines(&block[..=held])?;
        }
        self.answers.flush()
    }
}

fn main() -> ExitCode {
    let Some(asked) = Asked::read(std::env::args().skip(1)) else {
        eprintln!("reference [--test-each] [--roles] [--edition 2]");
        return ExitCode::from(2);
    };
    match Program::new(asked).run() {
        Ok(()) => ExitCode::SUCCESS,
        // Nobody reads the answers any more.
        Err(error) if error.kind() == ErrorKind::BrokenPipe => ExitCode::SUCCESS,
        Err(error) => {
            eprintln!("reference: {error}");
            ExitCode::FAILURE
        }
    }
}
