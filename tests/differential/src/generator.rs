//! The writer of a request file. It sees the tables that the file has reached, by the paper's rules in `program`, and
//! aims each request: it chooses a call and a set of sides that are to be met (none of them for a request that is to be
//! done), starts from likely values and changes one field after the other until just these sides are met or the tries
//! are used up. So most requests are done or refused for one reason alone.

use crate::lines::{self, Good};
use crate::paper::{self, Call, Field, Label, Request, Tables, Values, CALLS, OPTIONAL};
use crate::program::{Column, Program, What, LAST_LINE};
use crate::random::Random;

/// What a request is to meet: just these sides, none of them for one that is to be done.
pub type Target = u32;
pub const DONE: Target = 0;

pub struct Writer {
    pub random: Random,
    pub program: Program,
    pub bytes: Vec<u8>,
    pub line_count: usize,
    pub forms: Vec<(usize, &'static str)>,
    pub habits: Habits,
    /// The calls all of whose fields have a name in this file, and the others.
    pub calls: Vec<Call>,
    pub nameless: Vec<Call>,
    /// The seats, roles and entities that the last requests named.
    recent: Vec<(Field, usize)>,
    pub last: Option<What>,
    pub last_answer: usize,
    /// How many of the last fifty requests or so were done, in thousandths.
    luck: usize,
}

/// What one file is like, so that files differ.
pub struct Habits {
    pub labels: Vec<Label>,
    /// Names are mostly up to this one, so that some meet again.
    pub names: usize,
    /// Of a hundred lines, those that can't be read, and those whose numbers have zeros before.
    pub unreadable: usize,
    pub zeros: usize,
    /// The level at which most happens, if there is one.
    pub level: Option<usize>,
}

impl Writer {
    /// A file that begins with these names, over tables of the edition.
    pub fn new(mut random: Random, names_line: &[u8], edition: usize) -> Writer {
        let habits = Habits {
            labels: some_labels(&mut random),
            names: random.pick(&[3, 6, 12, 40]),
            unreadable: random.pick(&[0, 2, 4, 4, 8, 30]),
            zeros: random.pick(&[0, 2, 5, 50]),
            level: if random.chance(1, 3) {
                Some(random.below(4))
            } else {
                None
            },
        };
        let mut bytes = names_line.to_vec();
        bytes.push(b'\n');
        let program = Program::start(names_line, edition).expect("good names");
        let named = |field: &Field| program.order.contains(&Column::Field(*field));
        let (calls, nameless) = CALLS.iter().partition(|call| call.uses().iter().all(named));
        Writer {
            random,
            program,
            bytes,
            line_count: 1,
            forms: Vec::new(),
            habits,
            calls,
            nameless,
            recent: Vec::new(),
            last: None,
            last_answer: 0,
            luck: 25_000,
        }
    }

    /// Nearly nothing was done of late.
    pub fn stuck(&self) -> bool {
        self.luck < 5_000 && self.line_count > 100
    }

    pub fn tables(&self) -> &Tables {
        &self.program.tables
    }

    /// "A master may read counter notes" (document 02, A.13).
    pub fn reads_down(&self) -> bool {
        self.tables().edition == 2
    }

    /// The request that was written last.
    pub fn last_request(&self) -> Request {
        match self.last {
            Some(What::Request { request, .. }) => request,
            _ => Request::new(Call::Login),
        }
    }

    /// A line of the file, given to the program as well. True if it is done.
    pub fn write(&mut self, line: &[u8], form: Option<&'static str>) -> bool {
        self.bytes.extend(line);
        self.bytes.push(b'\n');
        self.line_count += 1;
        if let Some(form) = form {
            self.forms.push((self.line_count, form));
        }
        if self.line_count > LAST_LINE {
            return false;
        }
        let seen = self.program.answer(line);
        self.last = Some(seen.what);
        self.last_answer = seen.answer;
        seen.answer == 0
    }

    // -- From requests to lines

    pub fn good(&self, word: &str, uses: &[Field], values: &Values) -> Good {
        let mut good = Good {
            order: self.program.order.clone(),
            values: Vec::new(),
            used: Vec::new(),
            unused: Vec::new(),
            optional_used: Vec::new(),
            optional_unused: Vec::new(),
            call: 0,
        };
        for (at, column) in self.program.order.iter().enumerate() {
            let value = match column {
                Column::Call => {
                    good.call = at;
                    word.to_string()
                }
                Column::Field(field) if uses.contains(field) => {
                    good.used.push(at);
                    if OPTIONAL.contains(field) {
                        good.optional_used.push(at);
                    }
                    values[*field as usize].to_string()
                }
                Column::Field(field) => {
                    good.unused.push(at);
                    if OPTIONAL.contains(field) {
                        good.optional_unused.push(at);
                    }
                    String::from("-")
                }
            };
            good.values.push(value.into_bytes());
        }
        good
    }

    /// Writes the request, unless a field of it has no name. True if it is done.
    pub fn request(&mut self, request: &Request) -> bool {
        if !self.calls.contains(&request.call) {
            return false;
        }
        let uses = request.call.uses();
        let mut good = self.good(request.call.word(), uses, &request.values);
        let mut form = None;
        for &field in uses {
            let value = request.at(field);
            if value == field.last() {
                form = Some(lines::LAST_IN_RANGE);
            } else if value == field.last() + 1 {
                form = Some(lines::JUST_PAST);
            } else if value > field.last() && value >= 10_000 {
                form = Some(lines::FIVE_DIGITS_PAST);
            }
        }
        for (mark, name) in lines::MARKS_PAST {
            if request.call == Call::Share && request.at(Field::Shared) == mark {
                form = Some(name);
            }
        }
        for (junior, name) in lines::JUNIORS_PAST {
            if uses.contains(&Field::Junior) && request.at(Field::Junior) == junior {
                form = Some(name);
            }
        }
        if self.random.chance(self.habits.zeros, 100) {
            for &column in &good.used {
                let width = self.random.between(1, 5);
                while good.values[column].len() < width {
                    good.values[column].insert(0, b'0');
                    form = Some(lines::LEADING_ZEROS);
                }
            }
        }
        for &field in uses {
            if matches!(field, Field::Seat | Field::Role | Field::Entity)
                && request.at(field) <= field.last()
            {
                self.recent.push((field, request.at(field)));
            }
        }
        if self.recent.len() > 12 {
            let surplus = self.recent.len() - 12;
            self.recent.drain(..surplus);
        }
        let done = self.write(&good.line(), form);
        self.luck = self.luck - self.luck / 50 + if done { 1_000 } else { 0 };
        done
    }

    // -- Aiming

    /// A value for the field that is in range and, as the tables stand, not unlikely to serve.
    fn likely(&mut self, request: &Request, field: Field) -> usize {
        let call = request.call;
        let seat = request.at(Field::Seat).min(15);
        if self.random.chance(1, 5) {
            let recent: Vec<usize> = self
                .recent
                .iter()
                .filter(|(of, _)| match field {
                    Field::Parent => *of == Field::Entity,
                    Field::Junior => *of == Field::Role,
                    _ => *of == field,
                })
                .map(|(_, value)| *value)
                .collect();
            if !recent.is_empty() {
                return self.random.pick(&recent);
            }
        }
        let way = self.random.below(10);
        match field {
            Field::Seat if call == Call::Login => match self.habits.level {
                Some(level) if way < 6 => level * 4 + self.random.below(4),
                _ => self.random.below(16),
            },
            Field::Seat if way < 8 => self.one_of(16, |t, seat| t.seats[seat].live),
            Field::Seat => self.random.below(16),
            Field::User if way < 3 => 0,
            Field::User if way < 7 => self.one_of(16, |t, user| t.users[user].ceiling > 0),
            Field::User => self.random.below(16),
            Field::Role if call == Call::Join && way < 7 => self.one_of(16, |t, role| {
                t.roles[role].live && t.seats[seat].roles[paper::keeper_of(role)]
            }),
            Field::Role if call == Call::Unjoin && way < 7 => {
                self.one_of(16, |t, role| t.roles[role].juniors.contains(&true))
            }
            Field::Role if way < 4 => self.one_of(16, |t, role| t.seats[seat].roles[role]),
            Field::Role if way < 6 => {
                let user = self.tables().seats[seat].user;
                self.one_of(16, |t, role| t.roles[role].users[user])
            }
            Field::Role if way < 8 => self.one_of(16, |t, role| t.roles[role].live),
            Field::Role => self.random.below(16),
            Field::Entity if call == Call::Create && way < 8 => {
                let level = paper::entity_level(request.at(Field::Parent).min(63));
                self.one_of(64, |t, e| {
                    paper::entity_level(e) == level && !t.entities[e].live
                })
            }
            Field::Entity if call == Call::Share && way < 6 => self.one_of(64, |t, e| {
                t.entities[e].kind == paper::CONTAINER && paper::has_right(t, seat, e, paper::OWN)
            }),
            Field::Entity if call == Call::Openr && way < 5 && self.reads_down() => {
                self.one_of(64, |t, e| {
                    paper::entity_level(e) < paper::seat_level(seat)
                        && paper::has_right(t, seat, e, paper::READ)
                })
            }
            Field::Entity if way < 3 => self.one_of(64, |t, e| {
                t.entities[e].live && t.seats[seat].writing[t.entities[e].parent]
            }),
            Field::Entity if way < 5 => self.one_of(64, |t, e| {
                t.seats[seat].reading[e] || t.seats[seat].writing[e]
            }),
            Field::Entity if way < 6 => self.one_of(64, |t, e| {
                (0..16).any(|role| t.seats[seat].roles[role] && t.roles[role].rights[e] != 0)
            }),
            Field::Entity if way < 9 => self.one_of(64, |t, e| t.entities[e].live),
            Field::Entity => self.random.below(64),
            Field::Parent if way < 7 => self.one_of(64, |t, e| t.seats[seat].writing[e]),
            Field::Parent if way < 9 => {
                self.one_of(64, |t, e| t.entities[e].live && t.entities[e].kind == 1)
            }
            Field::Parent => self.random.below(64),
            Field::Kind => self.random.below(2),
            Field::Name if way < 4 => {
                let parent = match call {
                    Call::Create => request.at(Field::Parent).min(63),
                    _ => self.tables().entities[request.at(Field::Entity).min(63)].parent,
                };
                let entity = self.one_of(64, |t, e| paper::is_child(t, e, parent));
                self.tables().entities[entity].name.max(1)
            }
            Field::Name if way < 8 => self.random.between(1, self.habits.names),
            Field::Name if way < 9 => self.random.pick(&[65_535, 65_534, 32_768, 256, 257, 255]),
            Field::Name => self.random.between(1, 65_535),
            Field::Level => self.likely_label(request, way).grade,
            Field::Cats => self.likely_label(request, way).cats,
            Field::Rights if way < 3 => 15,
            Field::Rights if way < 5 => self.random.pick(&[7, 6, 5]),
            Field::Rights if way < 7 => self.random.pick(&[1, 2, 4, 8]),
            Field::Rights => self.random.between(1, 15),
            Field::Ceiling => self.random.below(4),
            Field::Shared if way < 7 => {
                1 - self.tables().entities[request.at(Field::Entity).min(63)].shared
            }
            Field::Shared => self.random.below(2),
            Field::Junior => {
                let senior = request.at(Field::Role).min(15);
                let beside = move |t: &Tables, role: usize| {
                    t.roles[role].live && paper::role_level(role) == paper::role_level(senior)
                };
                match way {
                    0..=3 if call == Call::Unjoin => {
                        self.one_of(16, |t, role| t.roles[senior].juniors[role])
                    }
                    0..=3 => self.one_of(16, |t, role| {
                        beside(t, role) && !t.roles[senior].juniors[role] && role != senior
                    }),
                    4 => self.one_of(16, |t, role| paper::is_below(t, senior, role)),
                    5 => self.one_of(16, |t, role| paper::is_below(t, role, senior)),
                    6 => senior,
                    7..=8 => self.one_of(16, beside),
                    _ => self.random.below(16),
                }
            }
        }
    }

    fn likely_label(&mut self, request: &Request, way: usize) -> Label {
        let tables = self.tables();
        match way {
            0..=1 => tables.seats[request.at(Field::Seat).min(15)].label,
            2..=3 => tables.entities[request.at(Field::Parent).min(63)].label,
            4..=8 => {
                let labels = self.habits.labels.clone();
                self.random.pick(&labels)
            }
            _ => Label {
                grade: self.random.below(4),
                cats: match self.random.below(3) {
                    0 => self.random.pick(&[255, 256, 65_535]),
                    _ => self.random.below(65_536),
                },
            },
        }
    }

    /// One of the numbers below `limit` that are so; any one if none is.
    pub fn one_of(&mut self, limit: usize, so: impl Fn(&Tables, usize) -> bool) -> usize {
        let from: Vec<usize> = (0..limit)
            .filter(|&n| so(&self.program.tables, n))
            .collect();
        if from.is_empty() {
            self.random.below(limit)
        } else {
            self.random.pick(&from)
        }
    }

    /// A value that meets this side of number 2.
    fn past(&mut self, side: &paper::Side) -> usize {
        let field = side.looks[0];
        if side.text.ends_with("is 0") || side.text.ends_with("are 0") {
            return 0;
        }
        let inside = self.random.below(field.last() + 1);
        self.past_range(field, inside)
    }

    /// A number past the field's range, of at most five digits: often the first or the last of these, the last of
    /// sixteen bits, or one that eight or sixteen bits take for `inside`.
    pub fn past_range(&mut self, field: Field, inside: usize) -> usize {
        let first = field.last() + 1;
        let choice = match self.random.below(7) {
            0 | 1 => first,
            2 => 99_999,
            3 => 65_536 + inside,
            4 => 256 + inside,
            5 => 65_535,
            _ => self.random.between(first, 99_999),
        };
        choice.clamp(first, 99_999)
    }

    /// The request that comes nearest to the target, and whether it meets it. Fields in `fixed` stay as given. A
    /// request that is to be refused starts from one that would be done, or nearly.
    pub fn aim(&mut self, call: Call, fixed: &[(Field, usize)], target: Target) -> (Request, bool) {
        let mut request = Request::new(call);
        let mut free: Vec<Field> = call.uses().to_vec();
        for &(field, value) in fixed {
            request.set(field, value);
            free.retain(|&other| other != field);
        }
        for &field in &free {
            let value = self.likely(&request, field);
            request.set(field, value);
        }
        self.climb(&mut request, &free, DONE, 60);
        if target == DONE {
            return (request, paper::met(self.tables(), &request) == DONE);
        }
        for (bit, side) in paper::sides(call).iter().enumerate() {
            if target & (1 << bit) != 0 && side.number == 2 && free.contains(&side.looks[0]) {
                let value = self.past(side);
                request.set(side.looks[0], value);
                free.retain(|&field| field != side.looks[0]);
            }
        }
        self.climb(&mut request, &free, target, 60);
        (request, paper::met(self.tables(), &request) == target)
    }

    /// Changes one free field after the other, as long as the request does not get farther from the target.
    fn climb(&mut self, request: &mut Request, free: &[Field], target: Target, tries: usize) {
        let sides = paper::sides(request.call);
        let mut met = paper::met(self.tables(), request);
        for _ in 0..tries {
            if met == target || free.is_empty() {
                return;
            }
            // A field that a side met too much or too little looks at.
            let wrong: Vec<&paper::Side> = sides
                .iter()
                .enumerate()
                .filter(|(bit, _)| (met ^ target) & (1 << bit) != 0)
                .map(|(_, side)| side)
                .collect();
            let side = self.random.pick(&wrong);
            let looked: Vec<Field> = side
                .looks
                .iter()
                .copied()
                .filter(|field| free.contains(field))
                .collect();
            let field = if looked.is_empty() || self.random.chance(1, 6) {
                self.random.pick(free)
            } else {
                self.random.pick(&looked)
            };
            let mut other = *request;
            other.set(field, self.likely(request, field));
            let other_met = paper::met(self.tables(), &other);
            if distance(other_met, target) <= distance(met, target) {
                *request = other;
                met = other_met;
            }
        }
    }

    /// Aims at a done request with these fields. What misses is sometimes written all the same.
    pub fn wish(&mut self, call: Call, fixed: &[(Field, usize)]) -> bool {
        let (request, exact) = self.aim(call, fixed, DONE);
        if exact || self.random.chance(1, 4) {
            return self.request(&request);
        }
        false
    }

    /// Aims at a request that meets one side of each of these numbers, and nothing else.
    pub fn near(&mut self, call: Call, fixed: &[(Field, usize)], numbers: &[usize]) {
        let mut target = DONE;
        for &number in numbers {
            let sides: Vec<usize> = (0..paper::sides(call).len())
                .filter(|&side| paper::sides(call)[side].number == number)
                .collect();
            target |= 1 << self.random.pick(&sides);
        }
        let (request, _) = self.aim(call, fixed, target);
        self.request(&request);
    }

    /// A call, those that build up more often than those that end something.
    pub fn call(&mut self) -> Call {
        const WEIGHTS: [(Call, usize); CALLS.len()] = [
            (Call::Login, 8),
            (Call::Logout, 1),
            (Call::Take, 10),
            (Call::Drop, 2),
            (Call::Openr, 8),
            (Call::Openw, 10),
            (Call::Close, 3),
            (Call::Create, 14),
            (Call::Delete, 4),
            (Call::Rename, 5),
            (Call::Grant, 12),
            (Call::Revoke, 3),
            (Call::List, 6),
            (Call::Unlist, 2),
            (Call::Make, 4),
            (Call::Unmake, 1),
            (Call::Share, 6),
            (Call::Join, 6),
            (Call::Unjoin, 2),
        ];
        let weights = WEIGHTS.iter().filter(|(call, _)| self.calls.contains(call));
        let all: usize = weights.clone().map(|(_, weight)| weight).sum();
        let mut at = self.random.below(all);
        for &(call, weight) in weights {
            if at < weight {
                return call;
            }
            at -= weight;
        }
        Call::Login
    }

    /// A side of any call; a number past its range less often than the others.
    fn side(&mut self) -> (Call, usize) {
        loop {
            let (call, side) = (self.random.pick(&self.calls), self.random.below(22));
            if let Some(found) = paper::sides(call).get(side) {
                let applies = paper::applies(self.tables().edition, call, found.number);
                if applies && (found.number != 2 || self.random.chance(1, 2)) {
                    return (call, side);
                }
            }
        }
    }

    /// One request: done, refused for one side, for two sides, or of any numbers.
    pub fn aimed(&mut self) {
        let (request, exact) = match self.random.below(100) {
            0..=54 => {
                let call = self.call();
                self.aim(call, &[], DONE)
            }
            55..=86 => {
                let (call, side) = self.side();
                self.aim(call, &[], 1 << side)
            }
            87..=93 => {
                let (call, side) = self.side();
                let other = self.random.below(paper::sides(call).len());
                self.aim(call, &[], 1 << side | 1 << other)
            }
            _ => {
                let call = self.random.pick(&self.calls);
                let mut request = Request::new(call);
                for &field in call.uses() {
                    let value = if self.random.chance(1, 2) {
                        self.likely(&request, field)
                    } else {
                        self.random.below(field.last() + 1)
                    };
                    request.set(field, value);
                }
                (request, true)
            }
        };
        let harsh = match request.call {
            // These can leave a level without anyone who may act there.
            Call::Revoke => paper::is_root(request.at(Field::Entity)),
            Call::Unlist => paper::is_keeper(request.at(Field::Role)),
            _ => false,
        };
        if harsh && self.random.chance(2, 3) {
            return;
        }
        if exact || self.random.chance(1, 3) {
            self.request(&request);
        }
    }

    /// The request with these fields, whatever its answer; the others are aimed.
    pub fn ask(&mut self, call: Call, fixed: &[(Field, usize)]) -> bool {
        let (request, _) = self.aim(call, fixed, DONE);
        self.request(&request)
    }

    /// The request by every live seat, and by one or the other that is not.
    pub fn ask_all_seats(&mut self, call: Call, field: Field, value: usize) {
        for seat in 0..16 {
            if self.tables().seats[seat].live || self.random.chance(1, 20) {
                self.ask(call, &[(Field::Seat, seat), (field, value)]);
            }
        }
    }
}

/// The labels of a file. Their sets lie in the lower half of the categories, in the upper half or in both; about
/// half of the labels are as one before them but for the upper half, so that often this half alone decides.
fn some_labels(random: &mut Random) -> Vec<Label> {
    let halves = [0, 1, 2, 3, 4, 5, 6, 7, 8, 128, 129, 254, 255];
    let mut labels = vec![Label::default()];
    for _ in 0..random.between(1, 5) {
        let (lower, upper) = (random.pick(&halves), random.pick(&halves) * 256);
        let label = if random.chance(1, 2) {
            let before = random.pick(&labels);
            Label {
                grade: before.grade,
                cats: before.cats % 256 + upper,
            }
        } else {
            Label {
                grade: random.below(4),
                cats: random.pick(&[lower, upper, lower + upper]),
            }
        };
        labels.push(label);
    }
    labels
}

/// How far what is met is from what is to be met. What is missing weighs more, or the search would give it up first.
fn distance(met: u32, target: Target) -> u32 {
    2 * (met & !target).count_ones() + 3 * (target & !met).count_ones()
}
