//! The access guard of document 01 in plain Rust, with the categories, the
//! shared drawers, the opens that end with their rights, the role told, the
//! senior and junior roles and the editions of document 02, A.1, A.2, A.3, A.6,
//! A.8 and A.13: the tables are changed in place, sets are bit sets and no
//! request touches the heap. It follows the papers alone and shares no line with
//! the proved guard, so that the two can be held against each other.
//!
//! Numbers handed back are those of the paper: 0 for done, otherwise the
//! refusal. The refusals of a request stand in the order in which they are
//! looked at, the lowest first; 22 "comes between 12 and 13". Beside the 0 of an
//! open stands the role that let the seat in.

#[cfg(test)]
mod tests;

pub const USERS: usize = 16;
pub const SEATS: usize = 16;
pub const ROLES: usize = 16;
pub const ENTITIES: usize = 64;

pub const READ: u8 = 1;
pub const WRITE: u8 = 2;
pub const EXECUTE: u8 = 4;
pub const OWN: u8 = 8;

pub const OBJECT: u8 = 0;
pub const CONTAINER: u8 = 1;

/// "Edition 1 is the rule so far. In edition 2 openr has no condition 10, and
/// soundness drops the level condition on reading" (document 02, A.13).
pub const EDITION_1: u8 = 1;
pub const EDITION_2: u8 = 2;

/// The numbers of the nineteen requests.
pub mod call {
    pub const LOGIN: u32 = 0;
    pub const LOGOUT: u32 = 1;
    pub const TAKE: u32 = 2;
    pub const DROP: u32 = 3;
    pub const OPENR: u32 = 4;
    pub const OPENW: u32 = 5;
    pub const CLOSE: u32 = 6;
    pub const CREATE: u32 = 7;
    pub const DELETE: u32 = 8;
    pub const RENAME: u32 = 9;
    pub const GRANT: u32 = 10;
    pub const REVOKE: u32 = 11;
    pub const LIST: u32 = 12;
    pub const UNLIST: u32 = 13;
    pub const MAKE: u32 = 14;
    pub const UNMAKE: u32 = 15;
    pub const SHARE: u32 = 16;
    pub const JOIN: u32 = 17;
    pub const UNJOIN: u32 = 18;
}

/// A confidentiality label. `grade` is in range up to 3. `cats` has one bit for
/// each category, "a set of sixteen, 0 to 65,535" (document 02, A.1), so that
/// each number it can hold is in range.
#[derive(Clone, Copy, Debug, Default, PartialEq, Eq)]
pub struct Label {
    pub grade: u8,
    pub cats: u16,
}

impl Label {
    pub fn dominates(self, other: Label) -> bool {
        self.grade >= other.grade && other.cats & !self.cats == 0
    }
}

#[derive(Clone, Copy, Debug, Default, PartialEq, Eq)]
pub struct User {
    pub ceiling: u8,
    pub clearance: Label,
}

/// What fresh tables are built from; the numbers may be out of range.
#[derive(Clone, Copy, Debug, Default, PartialEq, Eq)]
pub struct UserRecord {
    pub ceiling: u32,
    pub level: u32,
    pub cats: u32,
}

impl UserRecord {
    /// The user, unless a number is out of range.
    pub fn user(&self) -> Option<User> {
        if self.ceiling > 3 {
            return None;
        }
        let clearance = label(self.level, self.cats)?;
        Some(User {
            ceiling: self.ceiling as u8,
            clearance,
        })
    }
}

#[derive(Clone, Copy, Debug, Default, PartialEq, Eq)]
pub struct Seat {
    pub live: bool,
    pub user: u8,
    pub label: Label,
    /// The roles held, one bit for each.
    pub roles: u16,
    /// The entities open for reading and for writing, one bit for each.
    pub reading: u64,
    pub writing: u64,
}

#[derive(Clone, Copy, Debug, PartialEq, Eq)]
pub struct Role {
    pub live: bool,
    /// The users listed, one bit for each.
    pub users: u16,
    /// The roles tied directly below it, one bit for each.
    pub juniors: u16,
    pub rights: [u8; ENTITIES],
}

impl Role {
    const EMPTY: Role = Role {
        live: false,
        users: 0,
        juniors: 0,
        rights: [0; ENTITIES],
    };
}

#[derive(Clone, Copy, Debug, Default, PartialEq, Eq)]
pub struct Entity {
    pub live: bool,
    pub kind: u8,
    pub parent: u8,
    pub name: u16,
    pub label: Label,
    /// 1 for a shared container, else 0.
    pub shared: u8,
}

#[derive(Clone, Debug, PartialEq, Eq)]
pub struct Tables {
    pub users: [User; USERS],
    pub seats: [Seat; SEATS],
    pub roles: [Role; ROLES],
    pub entities: [Entity; ENTITIES],
    /// "Chosen when built"; no request changes it.
    pub edition: u8,
}

/// A request as the host brings it: any number may stand in any field, and a
/// field that the request does not use is not looked at. `level` is the
/// label's grade, `shared` the mark asked for. Of a tie, `role` is the senior.
#[derive(Clone, Copy, Debug, Default, PartialEq, Eq)]
pub struct Request {
    pub call: u32,
    pub seat: u32,
    pub user: u32,
    pub role: u32,
    pub entity: u32,
    pub parent: u32,
    pub kind: u32,
    pub name: u32,
    pub level: u32,
    pub cats: u32,
    pub rights: u32,
    pub shared: u32,
    pub junior: u32,
}

/// What a request hands back. "Accepted openr and openw hand back, beside the 0,
/// the role for read or write on the entity; all else .. hands back none"
/// (document 02, A.6).
#[derive(Clone, Copy, Debug, PartialEq, Eq)]
pub enum Answer {
    /// 0 for done or the refusal, and no role.
    Plain(u8),
    /// 0, and the role that let the seat in.
    By(u8),
}

impl Answer {
    #[inline]
    pub fn number(self) -> u8 {
        match self {
            Answer::Plain(number) => number,
            Answer::By(_) => 0,
        }
    }

    #[inline]
    pub fn role(self) -> Option<u8> {
        match self {
            Answer::Plain(_) => None,
            Answer::By(role) => Some(role),
        }
    }
}

impl From<u8> for Answer {
    #[inline]
    fn from(number: u8) -> Answer {
        Answer::Plain(number)
    }
}

/// The integrity level of a seat or role, and that of an entity.
pub fn level(seat_or_role: usize) -> usize {
    seat_or_role / 4
}

pub fn entity_level(entity: usize) -> usize {
    entity / 16
}

pub fn is_root(entity: usize) -> bool {
    entity.is_multiple_of(16)
}

pub fn is_keeper(role: usize) -> bool {
    role.is_multiple_of(4)
}

/// The nineteen requests, by their numbers. Those that open tell a role.
const CALLS: [fn(&mut Tables, &Request) -> Answer; 19] = [
    |t, r| t.login(r).into(),
    |t, r| t.logout(r).into(),
    |t, r| t.take(r).into(),
    |t, r| t.drop(r).into(),
    Tables::openr,
    Tables::openw,
    |t, r| t.close(r).into(),
    |t, r| t.create(r).into(),
    |t, r| t.delete(r).into(),
    |t, r| t.rename(r).into(),
    |t, r| t.grant(r).into(),
    |t, r| t.revoke(r).into(),
    |t, r| t.list(r).into(),
    |t, r| t.unlist(r).into(),
    |t, r| t.make(r).into(),
    |t, r| t.unmake(r).into(),
    |t, r| t.share(r).into(),
    |t, r| t.join(r).into(),
    |t, r| t.unjoin(r).into(),
];

/// Takes the number of a table's row, or leaves the request with 2.
macro_rules! row {
    ($number:expr, $rows:expr) => {{
        let number = $number as usize;
        if number >= $rows {
            return 2.into();
        }
        number
    }};
}

fn label(grade: u32, cats: u32) -> Option<Label> {
    (grade <= 3 && cats <= 65_535).then_some(Label {
        grade: grade as u8,
        cats: cats as u16,
    })
}

fn name(number: u32) -> Option<u16> {
    u16::try_from(number).ok().filter(|&name| name != 0)
}

fn rights(number: u32) -> Option<u8> {
    (1..=15).contains(&number).then_some(number as u8)
}

fn mark(number: u32) -> Option<u8> {
    (number <= 1).then_some(number as u8)
}

fn edition(number: u32) -> Option<u8> {
    let known = [EDITION_1, EDITION_2];
    known.into_iter().find(|&known| number == known.into())
}

impl Tables {
    /// Fresh tables over the users, of the edition, with answer 0; or, when a
    /// number is out of range or the edition is "other than 1 or 2", over sixteen
    /// users without anything, of edition 1, with answer 2.
    pub fn fresh(records: &[UserRecord; USERS], edition_asked: u32) -> (Tables, u8) {
        let mut tables = Tables {
            users: [User::default(); USERS],
            seats: [Seat::default(); SEATS],
            roles: [Role::EMPTY; ROLES],
            entities: [Entity::default(); ENTITIES],
            edition: EDITION_1,
        };
        for level in 0..4 {
            let root = 16 * level;
            tables.entities[root] = Entity {
                live: true,
                kind: CONTAINER,
                parent: root as u8,
                ..Entity::default()
            };
            let keeper = &mut tables.roles[4 * level];
            keeper.live = true;
            keeper.users = 1;
            keeper.rights[root] = READ | WRITE | EXECUTE | OWN;
        }
        let Some(edition) = edition(edition_asked) else {
            return (tables, 2);
        };
        let mut users = [User::default(); USERS];
        for (user, record) in users.iter_mut().zip(records) {
            match record.user() {
                Some(read) => *user = read,
                None => return (tables, 2),
            }
        }
        tables.users = users;
        tables.edition = edition;
        (tables, 0)
    }

    /// Answers a request and does it when the number is 0. The tables are
    /// tested first; unsound ones give 1.
    #[inline(never)]
    pub fn step(&mut self, r: &Request) -> Answer {
        if !self.is_sound() {
            return 1.into();
        }
        self.act(r)
    }

    /// As `step`, for tables that the caller knows to be sound: they are not
    /// tested, and on others nothing is promised.
    #[inline]
    pub fn act(&mut self, r: &Request) -> Answer {
        match CALLS.get(r.call as usize) {
            Some(call) => call(self, r),
            None => 2.into(),
        }
    }

    fn login(&mut self, r: &Request) -> u8 {
        let x = row!(r.seat, SEATS);
        let u = row!(r.user, USERS);
        let Some(label) = label(r.level, r.cats) else {
            return 2;
        };
        let user = self.users[u];
        if self.seats[x].live {
            return 3;
        }
        if usize::from(user.ceiling) < level(x) || !user.clearance.dominates(label) {
            return 4;
        }
        self.seats[x] = Seat {
            live: true,
            user: u as u8,
            label,
            ..Seat::default()
        };
        0
    }

    fn logout(&mut self, r: &Request) -> u8 {
        let x = row!(r.seat, SEATS);
        if !self.seats[x].live {
            return 5;
        }
        self.seats[x] = Seat::default();
        0
    }

    fn take(&mut self, r: &Request) -> u8 {
        let seat = &mut self.seats[row!(r.seat, SEATS)];
        let p = row!(r.role, ROLES);
        let role = &self.roles[p];
        if !seat.live {
            return 5;
        }
        if !role.live {
            return 7;
        }
        if role.users >> (seat.user & 15) & 1 == 0 {
            return 12;
        }
        if seat.roles >> p & 1 != 0 {
            return 16;
        }
        seat.roles |= 1 << p;
        0
    }

    fn drop(&mut self, r: &Request) -> u8 {
        let x = row!(r.seat, SEATS);
        let p = row!(r.role, ROLES);
        let seat = &mut self.seats[x];
        if !seat.live {
            return 5;
        }
        if !self.roles[p].live {
            return 7;
        }
        if seat.roles >> p & 1 == 0 {
            return 16;
        }
        seat.roles &= !(1 << p);
        // Nobody else's rights change.
        self.end_opens(x, u64::MAX);
        0
    }

    fn openr(&mut self, r: &Request) -> Answer {
        let x = row!(r.seat, SEATS);
        let e = row!(r.entity, ENTITIES);
        let (seat, entity) = (&self.seats[x], &self.entities[e]);
        if !seat.live {
            return 5.into();
        }
        if !entity.live {
            return 7.into();
        }
        if self.edition == EDITION_1 && entity_level(e) < level(x) {
            return 10.into();
        }
        if !seat.label.dominates(entity.label) {
            return 11.into();
        }
        let Some(role) = self.giving(seat.roles, READ, e) else {
            return 13.into();
        };
        if !self.reaches(seat.roles, e) {
            return 13.into();
        }
        if seat.reading >> e & 1 != 0 {
            return 16.into();
        }
        self.seats[x].reading |= 1 << e;
        Answer::By(role)
    }

    fn openw(&mut self, r: &Request) -> Answer {
        let x = row!(r.seat, SEATS);
        let e = row!(r.entity, ENTITIES);
        let (seat, entity) = (&self.seats[x], &self.entities[e]);
        if !seat.live {
            return 5.into();
        }
        if !entity.live {
            return 7.into();
        }
        if level(x) < entity_level(e) {
            return 10.into();
        }
        if seat.label != entity.label {
            return 11.into();
        }
        let Some(role) = self.giving(seat.roles, WRITE, e) else {
            return 13.into();
        };
        if !self.reaches(seat.roles, e) {
            return 13.into();
        }
        if seat.writing >> e & 1 != 0 {
            return 16.into();
        }
        self.seats[x].writing |= 1 << e;
        Answer::By(role)
    }

    fn close(&mut self, r: &Request) -> u8 {
        let seat = &mut self.seats[row!(r.seat, SEATS)];
        let e = row!(r.entity, ENTITIES);
        if !seat.live {
            return 5;
        }
        if !self.entities[e].live {
            return 7;
        }
        if (seat.reading | seat.writing) >> e & 1 == 0 {
            return 16;
        }
        seat.reading &= !(1 << e);
        seat.writing &= !(1 << e);
        0
    }

    fn create(&mut self, r: &Request) -> u8 {
        let seat = &self.seats[row!(r.seat, SEATS)];
        let e = row!(r.entity, ENTITIES);
        let d = row!(r.parent, ENTITIES);
        let p = row!(r.role, ROLES);
        let (Some(name), Some(label)) = (name(r.name), label(r.level, r.cats)) else {
            return 2;
        };
        if r.kind > 1 {
            return 2;
        }
        let parent = &self.entities[d];
        if !seat.live {
            return 5;
        }
        if !parent.live || !self.roles[p].live {
            return 7;
        }
        if self.entities[e].live {
            return 8;
        }
        if parent.kind != CONTAINER {
            return 9;
        }
        if entity_level(e) != entity_level(d) || level(p) < entity_level(e) {
            return 10;
        }
        if !label.dominates(parent.label) {
            return 11;
        }
        if seat.roles >> p & 1 == 0 {
            return 12;
        }
        if !self.may_change(seat, d) {
            return 13;
        }
        if self.has_child_named(d, name) {
            return 14;
        }
        self.entities[e] = Entity {
            live: true,
            kind: r.kind as u8,
            parent: d as u8,
            name,
            label,
            shared: 0,
        };
        self.roles[p].rights[e] = OWN;
        0
    }

    fn delete(&mut self, r: &Request) -> u8 {
        let seat = &self.seats[row!(r.seat, SEATS)];
        let e = row!(r.entity, ENTITIES);
        let entity = &self.entities[e];
        if !seat.live {
            return 5;
        }
        if is_root(e) {
            return 6;
        }
        if !entity.live {
            return 7;
        }
        if !self.may_alter(seat, e) {
            return 13;
        }
        if self.has_child(e) {
            return 15;
        }
        self.entities[e] = Entity::default();
        for role in &mut self.roles {
            role.rights[e] = 0;
        }
        for seat in &mut self.seats {
            seat.reading &= !(1 << e);
            seat.writing &= !(1 << e);
        }
        0
    }

    fn rename(&mut self, r: &Request) -> u8 {
        let seat = &self.seats[row!(r.seat, SEATS)];
        let e = row!(r.entity, ENTITIES);
        let Some(name) = name(r.name) else {
            return 2;
        };
        let entity = &self.entities[e];
        if !seat.live {
            return 5;
        }
        if is_root(e) {
            return 6;
        }
        if !entity.live {
            return 7;
        }
        if !self.may_alter(seat, e) {
            return 13;
        }
        if self.has_child_named(usize::from(entity.parent), name) {
            return 14;
        }
        self.entities[e].name = name;
        0
    }

    fn grant(&mut self, r: &Request) -> u8 {
        self.regrant(r, |held, named| held | named)
    }

    fn revoke(&mut self, r: &Request) -> u8 {
        let answer = self.regrant(r, |held, named| held & !named);
        if answer == 0 && r.rights & u32::from(READ | WRITE) != 0 {
            // A seat may have it by a role above the named one.
            for x in 0..SEATS {
                let seat = &self.seats[x];
                if (seat.reading | seat.writing) >> r.entity & 1 != 0 {
                    self.end_opens(x, 1 << r.entity);
                }
            }
        }
        answer
    }

    #[inline]
    fn regrant(&mut self, r: &Request, change: impl Fn(u8, u8) -> u8) -> u8 {
        let x = row!(r.seat, SEATS);
        let p = row!(r.role, ROLES);
        let e = row!(r.entity, ENTITIES);
        let Some(rights) = rights(r.rights) else {
            return 2;
        };
        let seat = &self.seats[x];
        if !seat.live {
            return 5;
        }
        if !self.roles[p].live || !self.entities[e].live {
            return 7;
        }
        if level(x) < entity_level(e) || level(p) < entity_level(e) {
            return 10;
        }
        if !self.has(seat.roles, OWN, e) {
            return 13;
        }
        let held = &mut self.roles[p].rights[e];
        *held = change(*held, rights);
        0
    }

    fn list(&mut self, r: &Request) -> u8 {
        self.relist(r, true)
    }

    fn unlist(&mut self, r: &Request) -> u8 {
        self.relist(r, false)
    }

    #[inline]
    fn relist(&mut self, r: &Request, listed: bool) -> u8 {
        let x = row!(r.seat, SEATS);
        let p = row!(r.role, ROLES);
        let u = row!(r.user, USERS);
        let (seat, role) = (&self.seats[x], &mut self.roles[p]);
        if !seat.live {
            return 5;
        }
        if !role.live {
            return 7;
        }
        if level(x) < level(p) {
            return 10;
        }
        if !holds_keeper_of(seat, p) {
            return 12;
        }
        if (role.users >> u & 1 != 0) == listed {
            return 16;
        }
        role.users ^= 1 << u;
        0
    }

    fn make(&mut self, r: &Request) -> u8 {
        let x = row!(r.seat, SEATS);
        let p = row!(r.role, ROLES);
        let (seat, role) = (&self.seats[x], &mut self.roles[p]);
        if !seat.live {
            return 5;
        }
        if role.live {
            return 8;
        }
        if level(x) < level(p) {
            return 10;
        }
        if !holds_keeper_of(seat, p) {
            return 12;
        }
        role.live = true;
        0
    }

    fn unmake(&mut self, r: &Request) -> u8 {
        let x = row!(r.seat, SEATS);
        let p = row!(r.role, ROLES);
        let (seat, role) = (&self.seats[x], &self.roles[p]);
        if !seat.live {
            return 5;
        }
        if is_keeper(p) {
            return 6;
        }
        if !role.live {
            return 7;
        }
        if level(x) < level(p) {
            return 10;
        }
        if !holds_keeper_of(seat, p) {
            return 12;
        }
        // "A role with a junior or a senior is not unmade."
        if role.juniors != 0 || self.roles.iter().any(|senior| senior.juniors >> p & 1 != 0) {
            return 15;
        }
        self.roles[p] = Role::EMPTY;
        for x in 0..SEATS {
            let held = &mut self.seats[x].roles;
            if *held >> p & 1 != 0 {
                *held &= !(1 << p);
                self.end_opens(x, u64::MAX);
            }
        }
        0
    }

    fn share(&mut self, r: &Request) -> u8 {
        let x = row!(r.seat, SEATS);
        let e = row!(r.entity, ENTITIES);
        let Some(mark) = mark(r.shared) else {
            return 2;
        };
        let (seat, entity) = (&self.seats[x], &self.entities[e]);
        if !seat.live {
            return 5;
        }
        if !entity.live {
            return 7;
        }
        if entity.kind == OBJECT {
            return 9;
        }
        if level(x) < entity_level(e) {
            return 10;
        }
        if !self.has(seat.roles, OWN, e) {
            return 13;
        }
        if entity.shared == mark {
            return 16;
        }
        self.entities[e].shared = mark;
        0
    }

    fn join(&mut self, r: &Request) -> u8 {
        self.retie(r, true)
    }

    fn unjoin(&mut self, r: &Request) -> u8 {
        let answer = self.retie(r, false);
        if answer == 0 {
            for x in 0..SEATS {
                self.end_opens(x, u64::MAX);
            }
        }
        answer
    }

    #[inline]
    fn retie(&mut self, r: &Request, tied: bool) -> u8 {
        let x = row!(r.seat, SEATS);
        let p = row!(r.role, ROLES);
        let q = row!(r.junior, ROLES);
        let (seat, senior) = (&self.seats[x], &self.roles[p]);
        if !seat.live {
            return 5;
        }
        if !senior.live || !self.roles[q].live {
            return 7;
        }
        if level(x) < level(p) || level(p) != level(q) {
            return 10;
        }
        if !holds_keeper_of(seat, p) {
            return 12;
        }
        if tied && (p == q || self.below(q) >> p & 1 != 0) {
            return 22;
        }
        if (senior.juniors >> q & 1 != 0) == tied {
            return 16;
        }
        self.roles[p].juniors ^= 1 << q;
        0
    }

    /// These roles and those below them: their juniors, and theirs, "to any depth"
    /// (document 02, A.8).
    fn with_juniors(&self, roles: u16) -> u16 {
        let (mut all, mut left) = (roles, roles);
        while left != 0 {
            let juniors = self.roles[left.trailing_zeros() as usize].juniors;
            left = (left & (left - 1)) | (juniors & !all);
            all |= juniors;
        }
        all
    }

    /// The roles below this one. It is among them itself only where ties go round
    /// in a ring.
    fn below(&self, p: usize) -> u16 {
        self.with_juniors(self.roles[p].juniors)
    }

    /// Whether one of the juniors has the right, or one below them.
    #[inline(never)]
    fn junior_has(&self, juniors: u16, right: u8, e: usize) -> bool {
        members(self.with_juniors(juniors).into()).any(|p| self.roles[p].rights[e] & right != 0)
    }

    /// Whether one of the roles, of at least the entity's level, has the right: in
    /// its own record or in that of a role below it.
    #[inline(always)]
    fn has(&self, roles: u16, right: u8, e: usize) -> bool {
        let mut left = roles & (u16::MAX << (4 * entity_level(e)));
        let mut juniors = 0;
        while left != 0 {
            let role = &self.roles[left.trailing_zeros() as usize];
            if role.rights[e] & right != 0 {
                return true;
            }
            juniors |= role.juniors;
            left &= left - 1;
        }
        juniors != 0 && self.junior_has(juniors, right, e)
    }

    /// Of the roles the lowest-numbered one that has the right so. "The check of a
    /// right now tells the lowest-numbered held role that gives it, or that none
    /// does" (document 02, A.6); it "is the held one", also where the right is in a
    /// junior's record (A.8).
    #[inline(always)]
    fn giving(&self, roles: u16, right: u8, e: usize) -> Option<u8> {
        let mut left = roles;
        while left != 0 {
            let p = left.trailing_zeros();
            if self.has(1 << p, right, e) {
                return Some(p as u8);
            }
            left &= left - 1;
        }
        None
    }

    /// Whether the roles have execute on every container above the entity.
    #[inline]
    fn reaches(&self, roles: u16, e: usize) -> bool {
        let mut at = e;
        while !is_root(at) {
            at = usize::from(self.entities[at].parent);
            if !self.has(roles, EXECUTE, at) {
                return false;
            }
        }
        true
    }

    /// "Every seat loses each open for which it no longer has the read or write
    /// right. Reaching the entity is not looked at again" (document 02, A.3). This is
    /// for one seat, and for the entities of the set.
    #[inline]
    fn end_opens(&mut self, x: usize, among: u64) {
        let seat = &self.seats[x];
        let lost = |open: u64, right| {
            members(open & among)
                .filter(|&e| !self.has(seat.roles, right, e))
                .fold(0u64, |lost, e| lost | 1 << e)
        };
        let (reading, writing) = (lost(seat.reading, READ), lost(seat.writing, WRITE));
        let seat = &mut self.seats[x];
        seat.reading &= !reading;
        seat.writing &= !writing;
    }

    /// What create, delete and rename ask of the seat at the parent.
    #[inline]
    fn may_change(&self, seat: &Seat, parent: usize) -> bool {
        seat.writing >> parent & 1 != 0 && self.has(seat.roles, EXECUTE, parent)
    }

    /// What delete and rename ask of the seat. "In a shared container" they "also
    /// need own on the entity" (document 02, A.2).
    #[inline]
    fn may_alter(&self, seat: &Seat, e: usize) -> bool {
        let parent = usize::from(self.entities[e].parent);
        self.may_change(seat, parent)
            && (self.entities[parent].shared == 0 || self.has(seat.roles, OWN, e))
    }

    /// The entities of the parent's level; its children are among them.
    #[inline]
    fn level_of(&self, parent: usize) -> &[Entity] {
        let root = parent / 16 * 16;
        &self.entities[root..root + 16]
    }

    /// Roots and dead entities have name 0, which is nobody's to ask for.
    #[inline]
    fn has_child_named(&self, parent: usize, name: u16) -> bool {
        self.level_of(parent)
            .iter()
            .any(|c| c.name == name && usize::from(c.parent) == parent)
    }

    /// For an entity that is no root. Dead entities have parent 0, a root.
    #[inline]
    fn has_child(&self, e: usize) -> bool {
        self.level_of(e).iter().any(|c| usize::from(c.parent) == e)
    }

    pub fn is_sound(&self) -> bool {
        edition(self.edition.into()).is_some()
            && self.users_are_sound()
            && self.entities_are_sound()
            && self.roles_are_sound()
            && self.seats_are_sound()
    }

    fn users_are_sound(&self) -> bool {
        self.users
            .iter()
            .all(|user| user.ceiling <= 3 && user.clearance.grade <= 3)
    }

    fn entities_are_sound(&self) -> bool {
        (0..ENTITIES)
            .step_by(16)
            .all(|root| self.is_sound_level(root))
    }

    /// Whether the entities of a root's level are sound.
    fn is_sound_level(&self, root: usize) -> bool {
        let entities = &self.entities[root..root + 16];
        let sound_root = Entity {
            live: true,
            kind: CONTAINER,
            parent: root as u8,
            shared: entities[0].shared & 1,
            ..Entity::default()
        };
        // Siblings of one name have one key.
        let key = |entity: &Entity| u32::from(entity.parent) << 16 | u32::from(entity.name);
        let keys: [u32; 16] = std::array::from_fn(|place| key(&entities[place]));
        entities[0] == sound_root
            && (1..16).all(|place| {
                let entity = &entities[place];
                if entity.live {
                    self.is_sound_entity(root + place, entity)
                        && !keys[place + 1..].contains(&keys[place])
                } else {
                    *entity == Entity::default()
                }
            })
    }

    /// For a live entity that is no root; whether its name is its own is tested
    /// elsewhere.
    fn is_sound_entity(&self, e: usize, entity: &Entity) -> bool {
        let d = usize::from(entity.parent);
        if entity.kind > 1 || entity.label.grade > 3 || entity.name == 0 || d >= ENTITIES {
            return false;
        }
        // The mark is 0 or 1, and 0 for an object.
        if entity.shared > entity.kind {
            return false;
        }
        let parent = &self.entities[d];
        parent.live
            && parent.kind == CONTAINER
            && entity_level(e) == entity_level(d)
            && entity.label.dominates(parent.label)
            && self.is_below_root(e)
    }

    /// Whether the chain of parents ends at a root. A level has sixteen
    /// entities, so that a longer chain is a ring.
    fn is_below_root(&self, e: usize) -> bool {
        let mut at = e;
        for _ in 0..16 {
            if is_root(at) {
                return true;
            }
            at = usize::from(self.entities[at].parent);
            if at >= ENTITIES {
                return false;
            }
        }
        false
    }

    fn roles_are_sound(&self) -> bool {
        let mut allowed = [0; ENTITIES];
        for (allowed, entity) in allowed.iter_mut().zip(&self.entities) {
            if entity.live {
                *allowed = READ | WRITE | EXECUTE | OWN;
            }
        }
        let live_roles = self.live_roles();
        self.roles.iter().enumerate().all(|(p, role)| {
            if !role.live {
                return !is_keeper(p) && *role == Role::EMPTY;
            }
            // Ties join live roles of one level, and no role is below itself.
            let of_level = 0b1111 << (4 * level(p));
            if role.juniors & !(live_roles & of_level) != 0 || self.below(p) >> p & 1 != 0 {
                return false;
            }
            let (up_to_level, above) = role.rights.split_at(16 * (level(p) + 1));
            let excess = up_to_level
                .iter()
                .zip(&allowed)
                .fold(0, |excess, (rights, allowed)| excess | rights & !allowed);
            above.iter().fold(excess, |excess, rights| excess | rights) == 0
        })
    }

    fn live_roles(&self) -> u16 {
        self.roles
            .iter()
            .enumerate()
            .fold(0, |set, (p, role)| set | u16::from(role.live) << p)
    }

    fn seats_are_sound(&self) -> bool {
        let live_roles = self.live_roles();
        self.seats.iter().enumerate().all(|(x, seat)| {
            if !seat.live {
                return *seat == Seat::default();
            }
            // In edition 2 any level may be read.
            let lowest = match self.edition {
                EDITION_1 => level(x),
                _ => 0,
            };
            usize::from(seat.user) < USERS
                && seat.label.grade <= 3
                && seat.roles & !live_roles == 0
                && members(seat.reading).all(|e| {
                    let entity = &self.entities[e];
                    entity.live
                        && entity_level(e) >= lowest
                        && seat.label.dominates(entity.label)
                        && self.has(seat.roles, READ, e)
                })
                && members(seat.writing).all(|e| {
                    let entity = &self.entities[e];
                    entity.live
                        && entity_level(e) <= level(x)
                        && seat.label == entity.label
                        && self.has(seat.roles, WRITE, e)
                })
        })
    }
}

fn holds_keeper_of(seat: &Seat, role: usize) -> bool {
    seat.roles >> (4 * level(role)) & 1 != 0
}

/// The numbers in a set.
fn members(mut set: u64) -> impl Iterator<Item = usize> {
    std::iter::from_fn(move || {
        let e = (set != 0).then(|| set.trailing_zeros() as usize)?;
        set &= set - 1;
        Some(e)
    })
}
