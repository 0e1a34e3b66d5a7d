//! The inputs: sixteen users and a working day at sixteen seats. The reference
//! guard follows the requests as they are made, so that a request can be chosen
//! by the answer it will get.

use std::fmt::Write as _;
use std::fs;
use std::path::Path;

use reference::{call, is_keeper, is_root, Entity, Request, Tables, UserRecord, USERS};

use crate::random::Random;
use crate::{INPUTS, ONLY_MALFORMED, START};

/// The lines below the names line, up to the last one that is read.
const LINES: usize = 65_534;

const NAMES: &str = "call seat user role entity parent kind name level cats rights ceiling";

const WORDS: [&str; 16] = [
    "login", "logout", "take", "drop", "openr", "openw", "close", "create", "delete", "rename",
    "grant", "revoke", "list", "unlist", "make", "unmake",
];

/// How often each request is asked for in a day's work.
const WEIGHTS: [u32; 16] = [5, 4, 8, 5, 16, 14, 20, 6, 5, 4, 5, 2, 2, 2, 1, 1];

/// The labels in use, grade and categories.
const LABELS: [(u32, u32); 8] = [
    (0, 0),
    (0, 0),
    (0, 0),
    (0, 0),
    (1, 1),
    (1, 3),
    (2, 3),
    (3, 255),
];

pub fn write(folder: &Path) -> Result<(), String> {
    let put = |name: &str, text: &[u8]| {
        let path = folder.join(name).with_extension("txt");
        fs::write(&path, text).map_err(|error| format!("{}: {error}", path.display()))
    };
    fs::create_dir_all(folder).map_err(|error| format!("{}: {error}", folder.display()))?;
    put(START, format!("{NAMES}\n").as_bytes())?;
    put(INPUTS[0], &input(101, [88, 10, 2]))?;
    put(INPUTS[1], &input(202, [9, 88, 3]))?;
    put(INPUTS[2], &input(303, [7, 5, 88]))?;
    put(ONLY_MALFORMED, &only_malformed(404))
}

/// An input with so many percent of lines done, refused and unreadable.
fn input(seed: u64, shares: [u32; 3]) -> Vec<u8> {
    let mut day = Day::new(seed);
    let mut text = format!("{NAMES}\n").into_bytes();
    let mut lines = 0;
    let mut put = |line: &[u8]| {
        text.extend_from_slice(line);
        text.push(b'\n');
        lines += 1;
        lines < LINES
    };
    for line in day.opening() {
        put(line.as_bytes());
    }
    loop {
        let line = match day.random.weighted(&shares) {
            0 => day.done(),
            1 => day.refused(),
            _ => day.unreadable(),
        };
        if !put(&line) {
            return text;
        }
    }
}

/// An input of lines that can't be read. A `user` line can be, before the first
/// request, so there is none.
fn only_malformed(seed: u64) -> Vec<u8> {
    let mut day = Day::new(seed);
    let mut text = format!("{NAMES}\n").into_bytes();
    let mut lines = 0;
    while lines < LINES {
        let line = day.unreadable();
        if !line.starts_with(b"user ") {
            text.extend_from_slice(&line);
            text.push(b'\n');
            lines += 1;
        }
    }
    text
}

struct Day {
    random: Random,
    tables: Tables,
    /// What is to be asked for next, the last first.
    next: Vec<Request>,
}

impl Day {
    fn new(seed: u64) -> Day {
        Day {
            random: Random::new(seed),
            tables: Tables::fresh(&users(), 1).0,
            next: Vec::new(),
        }
    }

    /// The users, then at each level a desk: the first seat, at which user 0
    /// holds the keepers up to that level and has the root open, and lists half
    /// of the users for the keeper.
    fn opening(&mut self) -> Vec<String> {
        let mut lines = Vec::new();
        for (user, record) in users().iter().enumerate() {
            lines.push(format!(
                "user - {user} - - - - - {} {} - {}",
                record.level, record.cats, record.ceiling
            ));
        }
        for level in 0..4 {
            let mut requests = Vec::new();
            let at_desk = Request {
                seat: 4 * level,
                entity: 16 * level,
                ..Request::default()
            };
            let mut ask = |call, role, user| {
                requests.push(Request {
                    call,
                    role,
                    user,
                    ..at_desk
                });
            };
            ask(call::LOGIN, 0, 0);
            for below in 0..=level {
                ask(call::TAKE, 4 * below, 0);
            }
            ask(call::OPENW, 0, 0);
            for user in 1..8 {
                ask(call::LIST, 4 * level, user);
            }
            for request in requests {
                assert_eq!(self.tables.step(&request).number(), 0);
                lines.push(line(&request));
            }
        }
        lines
    }

    /// A request that is done, and is done here.
    fn done(&mut self) -> Vec<u8> {
        while let Some(request) = self.next.pop() {
            if self.tables.act(&request).number() == 0 {
                return line(&request).into_bytes();
            }
        }
        loop {
            let call = self.random.weighted(&WEIGHTS) as u32;
            for _ in 0..400 {
                let request = self.request(call);
                if !would_lock_out(&request) && self.tables.act(&request).number() == 0 {
                    self.follow_up(request);
                    return line(&request).into_bytes();
                }
            }
        }
    }

    /// Whoever makes an entity mostly gives the role all rights on it and opens
    /// it; whoever logs in takes a role.
    fn follow_up(&mut self, request: Request) {
        let ask = |call| Request { call, ..request };
        if request.call == call::CREATE && self.random.percent(80) {
            self.next.push(ask(call::OPENW));
            self.next.push(Request {
                rights: 15,
                ..ask(call::GRANT)
            });
        } else if request.call == call::LOGIN {
            let role = request.seat / 4 * 4;
            self.next.push(Request {
                role,
                ..ask(call::TAKE)
            });
        }
    }

    /// A request that is refused. A number is chosen first and a request of some
    /// kind looked for that gets it.
    fn refused(&mut self) -> Vec<u8> {
        let mut tables = self.tables.clone();
        loop {
            let call = self.random.below(16);
            let wanted = *self.random.pick(refusals(call));
            for _ in 0..200 {
                let mut request = self.request(call);
                if wanted == 2 {
                    self.put_out_of_range(&mut request);
                }
                match tables.act(&request).number() {
                    0 => tables = self.tables.clone(),
                    answer if answer == wanted => return line(&request).into_bytes(),
                    _ => {}
                }
            }
        }
    }

    /// An entity that fits, the first one from a random place on; if there is
    /// none, any number.
    fn entity(&mut self, fits: impl Fn(usize, &Entity) -> bool) -> u32 {
        let start = self.random.below(64);
        (start..start + 64)
            .map(|number| number % 64)
            .find(|&e| fits(e as usize, &self.tables.entities[e as usize]))
            .unwrap_or(start)
    }

    /// A request of the kind with numbers that make some sense together.
    fn request(&mut self, call: u32) -> Request {
        let mut entity = match self.random.below(10) {
            0..=3 => self.random.below(64),
            4..=5 => 16 * self.random.below(4),
            6..=8 => self.entity(|e, entity| entity.live && !is_root(e)),
            _ => {
                let child = self.entity(|_, entity| entity.live);
                self.tables.entities[child as usize].parent.into()
            }
        };
        let mut parent = self.random.below(64);
        let (mut level, mut cats) = *self.random.pick(&LABELS);
        if call == call::CREATE && self.random.percent(90) {
            entity = self.entity(|_, entity| !entity.live);
            let inside = self.random.percent(70);
            parent = self.entity(|e, parent| {
                e / 16 == entity as usize / 16 && parent.kind == 1 && is_root(e) != inside
            });
            if self.random.percent(70) {
                let label = self.tables.entities[parent as usize].label;
                (level, cats) = (label.grade.into(), label.cats.into());
            }
        }
        let random = &mut self.random;
        Request {
            call,
            seat: random.below(16),
            user: random.below(16),
            role: random.below(16),
            entity,
            parent,
            kind: random.below(2),
            // Few names for many entities, so that some meet.
            name: if random.percent(50) {
                1 + random.below(12)
            } else {
                1 + random.below(65_535)
            },
            level,
            cats,
            rights: if random.percent(40) {
                15
            } else {
                1 + random.below(15)
            },
            shared: 0,
            junior: 0,
        }
    }

    /// Moves a number that the request uses past its range.
    fn put_out_of_range(&mut self, request: &mut Request) {
        let random = &mut self.random;
        let field = *random.pick(used(request.call));
        *place(request, field) = match field {
            "seat" | "user" | "role" => *random.pick(&[16, 17, 20, 99, 255, 65_536]),
            "entity" | "parent" => *random.pick(&[64, 65, 100, 255, 256, 99_999]),
            "kind" => *random.pick(&[2, 3, 10]),
            "name" => *random.pick(&[0, 65_536, 65_537, 99_999]),
            "level" => *random.pick(&[4, 5, 255, 256]),
            "cats" => *random.pick(&[65_536, 65_537, 70_000, 99_999]),
            _ => *random.pick(&[0, 16, 17, 255, 256]),
        };
    }

    /// A line that can't be read: one of a working day with a fault in it.
    fn unreadable(&mut self) -> Vec<u8> {
        let call = self.random.weighted(&WEIGHTS) as u32;
        let request = self.request(call);
        let text = line(&request);
        let random = &mut self.random;
        let mut values: Vec<String> = text.split(' ').map(String::from).collect();
        let number = values
            .iter()
            .rposition(|value| value.as_bytes()[0].is_ascii_digit())
            .expect("each request uses its seat");
        let dash = values
            .iter()
            .position(|value| value == "-")
            .expect("no request uses each field");
        let value = random.below(12) as usize;
        match random.below(26) {
            0 => values[number] = String::from("-"),
            1 => values[dash] = random.below(64).to_string(),
            2 => drop(values.remove(value)),
            3 => drop(values.pop()),
            4 => values.push(String::from("-")),
            5 => values.insert(value, String::new()),
            6 => values.insert(0, String::new()),
            7 => values.push(String::new()),
            8 => values[number] = format!("{:06}", random.below(100)),
            9 => values[number] = (100_000 + random.below(900_000)).to_string(),
            10 => values[number].push(*random.pick(&['a', 'x', '.', ',', ';', '-', '\''])),
            11 => values[number].insert(0, *random.pick(&['+', '-', '#', '$'])),
            12 => values[dash] = String::from("--"),
            13 => values[dash] = String::from("*"),
            14 => values[0] = values[0].to_uppercase(),
            15 => values[0].push('s'),
            16 => drop(values[0].pop()),
            17 => {
                let words = ["read", "write", "chmod", "open", "quit", "help", "7"];
                values[0] = String::from(*random.pick(&words));
            }
            18 => values.swap(0, 1),
            19 => values[11].push('\r'),
            20 => return values.join("\t").into_bytes(),
            21 => {
                // Allowed before the first request only.
                let user = random.below(16);
                return format!("user - {user} - - - - - 3 255 - 3").into_bytes();
            }
            22 => return Vec::new(),
            23 => {
                let length = random.below(text.len() as u32) as usize;
                return text.as_bytes()[..length].to_vec();
            }
            24 => {
                let mut bytes = text.into_bytes();
                let at = random.below(bytes.len() as u32) as usize;
                bytes[at] = *random.pick(&[0, 1, 9, 127, 128, 195, 255]);
                return bytes;
            }
            _ => {
                // Beyond 255 bytes, and a few lines far beyond.
                let length = match random.below(40) {
                    0 => 256 + random.below(8_000),
                    1..=9 => 200 + random.below(400),
                    _ => 60 + random.below(100),
                };
                let mut bytes = text.into_bytes();
                while bytes.len() < length as usize {
                    bytes.extend_from_slice(b" -");
                }
                return bytes;
            }
        }
        values.join(" ").into_bytes()
    }
}

/// User 0 may do anything; the others are of all sorts.
fn users() -> [UserRecord; USERS] {
    let mut users = [UserRecord::default(); USERS];
    for (number, user) in users.iter_mut().enumerate() {
        let (level, cats) = LABELS[7 - number / 2];
        *user = UserRecord {
            ceiling: if number < 8 { 3 } else { number as u32 % 4 },
            level,
            cats,
        };
    }
    users
}

/// Whether a request that is done would leave nobody in charge of a level: the
/// desks stay, and the keepers keep user 0 and their rights on the roots.
fn would_lock_out(request: &Request) -> bool {
    let desk = request.seat.is_multiple_of(4);
    let keeper = is_keeper(request.role as usize);
    match request.call {
        call::LOGOUT => desk,
        call::DROP => desk && keeper,
        call::REVOKE => keeper && is_root(request.entity as usize),
        call::UNLIST => keeper && request.user == 0,
        _ => false,
    }
}

/// The refusals that can come up in the program, by the request.
fn refusals(call: u32) -> &'static [u8] {
    match call {
        call::LOGIN => &[2, 3, 4],
        call::LOGOUT => &[2, 5],
        call::TAKE => &[2, 5, 7, 12, 16],
        call::DROP => &[2, 5, 7, 16],
        call::OPENR | call::OPENW => &[2, 5, 7, 10, 11, 13, 16],
        call::CLOSE => &[2, 5, 7, 16],
        call::CREATE => &[2, 5, 7, 8, 9, 10, 11, 12, 13, 14],
        call::DELETE => &[2, 5, 6, 7, 13, 15],
        call::RENAME => &[2, 5, 6, 7, 13, 14],
        call::GRANT | call::REVOKE => &[2, 5, 7, 10, 13],
        call::LIST | call::UNLIST => &[2, 5, 7, 10, 12, 16],
        call::MAKE => &[2, 5, 8, 10, 12],
        _ => &[2, 5, 6, 7, 10, 12],
    }
}

/// The fields that a request uses, in the order of the names line.
fn used(call: u32) -> &'static [&'static str] {
    match call {
        call::LOGIN => &["seat", "user", "level", "cats"],
        call::LOGOUT => &["seat"],
        call::TAKE | call::DROP | call::MAKE | call::UNMAKE => &["seat", "role"],
        call::OPENR | call::OPENW | call::CLOSE | call::DELETE => &["seat", "entity"],
        call::CREATE => &[
            "seat", "role", "entity", "parent", "kind", "name", "level", "cats",
        ],
        call::RENAME => &["seat", "entity", "name"],
        call::GRANT | call::REVOKE => &["seat", "role", "entity", "rights"],
        _ => &["seat", "user", "role"],
    }
}

fn place<'a>(request: &'a mut Request, field: &str) -> &'a mut u32 {
    match field {
        "seat" => &mut request.seat,
        "user" => &mut request.user,
        "role" => &mut request.role,
        "entity" => &mut request.entity,
        "parent" => &mut request.parent,
        "kind" => &mut request.kind,
        "name" => &mut request.name,
        "level" => &mut request.level,
        "cats" => &mut request.cats,
        _ => &mut request.rights,
    }
}

/// The request as a line, without its byte 10.
fn line(request: &Request) -> String {
    let mut request = *request;
    let mut text = String::from(WORDS[request.call as usize]);
    let used = used(request.call);
    for name in NAMES.split(' ').skip(1) {
        if used.contains(&name) {
            write!(text, " {}", place(&mut request, name)).expect("text takes text");
        } else {
            text.push_str(" -");
        }
    }
    text
}
