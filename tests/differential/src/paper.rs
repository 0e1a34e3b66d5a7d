//! Document 01 written down as it reads: the tables, the refusals that apply to each request, and what a done request
//! changes. Of document 02 it has A.1: "Categories become a set of sixteen, 0 to 65,535, in users, seats and entities";
//! A.2, shared drawers; A.3, "a dropped role ends its opens"; A.6, "which role let them in"; A.8, senior and junior
//! roles; and A.13, reading down: "Tables carry an edition, chosen when built". Nothing here is made for speed or shared
//! between requests beyond what the papers share.
//!
//! A refusal whose condition has parts joined by "or" is written as several sides of the same number. A side is a
//! plain question about the tables and the request. Each one can be asked whatever the others say: the record of
//! something that is not live reads as zeros. Only a number past its range leaves the questions that look at it
//! without meaning, so `looks` says what each side looks at.

use Call::*;
use Field::*;

#[derive(Clone, Copy, Debug, PartialEq, Eq)]
pub enum Field {
    Seat,
    User,
    Role,
    Entity,
    Parent,
    Kind,
    Name,
    Level,
    Cats,
    Rights,
    Ceiling,
    Shared,
    Junior,
}

/// The fields in the order of the paper's sample, then those of document 02. Of a tie, `Role` is the senior.
pub const FIELDS: [Field; 13] = [
    Seat, User, Role, Entity, Parent, Kind, Name, Level, Cats, Rights, Ceiling, Shared, Junior,
];

/// The fields whose names a line of names may leave out.
pub const OPTIONAL: [Field; 2] = [Shared, Junior];

/// A number for each field.
pub type Values = [usize; FIELDS.len()];

impl Field {
    pub fn word(self) -> &'static str {
        match self {
            Seat => "seat",
            User => "user",
            Role => "role",
            Entity => "entity",
            Parent => "parent",
            Kind => "kind",
            Name => "name",
            Level => "level",
            Cats => "cats",
            Rights => "rights",
            Ceiling => "ceiling",
            Shared => "shared",
            Junior => "junior",
        }
    }

    /// The largest number in range.
    pub fn last(self) -> usize {
        match self {
            Seat | User | Role | Junior => 15,
            Entity | Parent => 63,
            Kind => 1,
            Name => 65_535,
            Level | Ceiling => 3,
            Cats => 65_535,
            Rights => 15,
            Shared => 1,
        }
    }
}

#[derive(Clone, Copy, Debug, PartialEq, Eq)]
pub enum Call {
    Login,
    Logout,
    Take,
    Drop,
    Openr,
    Openw,
    Close,
    Create,
    Delete,
    Rename,
    Grant,
    Revoke,
    List,
    Unlist,
    Make,
    Unmake,
    Share,
    Join,
    Unjoin,
}

pub const CALLS: [Call; 19] = [
    Login, Logout, Take, Drop, Openr, Openw, Close, Create, Delete, Rename, Grant, Revoke, List,
    Unlist, Make, Unmake, Share, Join, Unjoin,
];

impl Call {
    pub fn word(self) -> &'static str {
        match self {
            Login => "login",
            Logout => "logout",
            Take => "take",
            Drop => "drop",
            Openr => "openr",
            Openw => "openw",
            Close => "close",
            Create => "create",
            Delete => "delete",
            Rename => "rename",
            Grant => "grant",
            Revoke => "revoke",
            List => "list",
            Unlist => "unlist",
            Make => "make",
            Unmake => "unmake",
            Share => "share",
            Join => "join",
            Unjoin => "unjoin",
        }
    }

    /// The fields that the request uses, in the order in which the paper names them.
    pub fn uses(self) -> &'static [Field] {
        match self {
            Login => &[Seat, User, Level, Cats],
            Logout => &[Seat],
            Take | Drop => &[Seat, Role],
            Openr | Openw | Close => &[Seat, Entity],
            Create => &[Seat, Entity, Kind, Parent, Name, Level, Cats, Role],
            Delete => &[Seat, Entity],
            Rename => &[Seat, Entity, Name],
            Grant | Revoke => &[Seat, Role, Entity, Rights],
            List | Unlist => &[Seat, Role, User],
            Make | Unmake => &[Seat, Role],
            Share => &[Seat, Entity, Shared],
            Join | Unjoin => &[Seat, Role, Junior],
        }
    }
}

/// The fields that a line with the word `user` uses.
pub const USER_USES: [Field; 4] = [User, Level, Cats, Ceiling];

#[derive(Clone, Copy, Debug, PartialEq, Eq)]
pub struct Request {
    pub call: Call,
    pub values: Values,
}

impl Request {
    pub fn new(call: Call) -> Request {
        Request {
            call,
            values: Values::default(),
        }
    }

    /// With these numbers, and 0 in the other fields.
    pub fn with(call: Call, fields: &[(Field, usize)]) -> Request {
        let mut request = Request::new(call);
        for &(field, value) in fields {
            request.set(field, value);
        }
        request
    }

    pub fn at(&self, field: Field) -> usize {
        self.values[field as usize]
    }

    pub fn set(&mut self, field: Field, value: usize) {
        self.values[field as usize] = value;
    }
}

// ---- The tables

#[derive(Clone, Copy, Debug, Default, PartialEq, Eq)]
pub struct Label {
    pub grade: usize,
    pub cats: usize,
}

#[derive(Clone, Copy, Debug, Default, PartialEq, Eq)]
pub struct UserRecord {
    pub ceiling: usize,
    pub clearance: Label,
}

#[derive(Clone, Copy, Debug, PartialEq, Eq)]
pub struct SeatRecord {
    pub live: bool,
    pub user: usize,
    pub label: Label,
    pub roles: [bool; 16],
    pub reading: [bool; 64],
    pub writing: [bool; 64],
}

#[derive(Clone, Copy, Debug, PartialEq, Eq)]
pub struct RoleRecord {
    pub live: bool,
    pub users: [bool; 16],
    pub rights: [usize; 64],
    /// The roles to which it is the senior.
    pub juniors: [bool; 16],
}

#[derive(Clone, Copy, Debug, PartialEq, Eq)]
pub struct EntityRecord {
    pub live: bool,
    pub kind: usize,
    pub parent: usize,
    pub name: usize,
    pub label: Label,
    pub shared: usize,
}

#[derive(Clone, Debug, PartialEq, Eq)]
pub struct Tables {
    pub users: [UserRecord; 16],
    pub seats: [SeatRecord; 16],
    pub roles: [RoleRecord; 16],
    pub entities: [EntityRecord; 64],
    /// No request changes it.
    pub edition: usize,
}

pub const EDITIONS: [usize; 2] = [1, 2];

/// "Every field zero or empty".
pub const EMPTY_SEAT: SeatRecord = SeatRecord {
    live: false,
    user: 0,
    label: Label { grade: 0, cats: 0 },
    roles: [false; 16],
    reading: [false; 64],
    writing: [false; 64],
};
pub const EMPTY_ROLE: RoleRecord = RoleRecord {
    live: false,
    users: [false; 16],
    rights: [0; 64],
    juniors: [false; 16],
};
pub const EMPTY_ENTITY: EntityRecord = EntityRecord {
    live: false,
    kind: 0,
    parent: 0,
    name: 0,
    label: Label { grade: 0, cats: 0 },
    shared: 0,
};

pub const OBJECT: usize = 0;
pub const CONTAINER: usize = 1;

pub const READ: usize = 1;
pub const WRITE: usize = 2;
pub const EXECUTE: usize = 4;
pub const OWN: usize = 8;

pub fn seat_level(seat: usize) -> usize {
    seat / 4
}

pub fn role_level(role: usize) -> usize {
    role / 4
}

pub fn entity_level(entity: usize) -> usize {
    entity / 16
}

pub fn is_root(entity: usize) -> bool {
    [0, 16, 32, 48].contains(&entity)
}

pub fn is_keeper(role: usize) -> bool {
    [0, 4, 8, 12].contains(&role)
}

pub fn keeper_of(role: usize) -> usize {
    [0, 4, 8, 12][role_level(role)]
}

/// Whether a sum of powers of two has this one in it.
pub fn has(sum: usize, power: usize) -> bool {
    sum / power % 2 == 1
}

/// Category by category: what the second set has, the first has.
pub fn contains(set: usize, other: usize) -> bool {
    [
        1, 2, 4, 8, 16, 32, 64, 128, 256, 512, 1_024, 2_048, 4_096, 8_192, 16_384, 32_768,
    ]
    .iter()
    .all(|&category| has(set, category) || !has(other, category))
}

pub fn dominates(a: Label, b: Label) -> bool {
    a.grade >= b.grade && contains(a.cats, b.cats)
}

/// A root is its own parent and nobody's child.
pub fn is_child(tables: &Tables, entity: usize, parent: usize) -> bool {
    let record = &tables.entities[entity];
    record.live && !is_root(entity) && record.parent == parent
}

/// By how many ties a role is below another: one for a junior, two for a junior of a junior, "to any depth". There are
/// sixteen roles, so that what is further down has been met before. By the fewest, if there are several ways.
pub fn depth(tables: &Tables, senior: usize, junior: usize) -> Option<usize> {
    let mut below = tables.roles[senior].juniors;
    for depth in 1..=16 {
        if below[junior] {
            return Some(depth);
        }
        if below == [false; 16] {
            break;
        }
        let seniors = below;
        below = [false; 16];
        for senior in (0..16).filter(|&senior| seniors[senior]) {
            for (junior, is_below) in below.iter_mut().enumerate() {
                *is_below = *is_below || tables.roles[senior].juniors[junior];
            }
        }
    }
    None
}

pub fn is_below(tables: &Tables, junior: usize, senior: usize) -> bool {
    depth(tables, senior, junior).is_some()
}

/// "A role then also has the rights of its juniors, and of theirs, to any depth".
pub fn role_has(tables: &Tables, role: usize, entity: usize, right: usize) -> bool {
    let in_record = |role: usize| has(tables.roles[role].rights[entity], right);
    in_record(role) || (0..16).any(|other| in_record(other) && is_below(tables, other, role))
}

/// "A role held by x, of at least e's level, has it."
pub fn gives(tables: &Tables, seat: usize, role: usize, entity: usize, right: usize) -> bool {
    tables.seats[seat].roles[role]
        && role_level(role) >= entity_level(entity)
        && role_has(tables, role, entity, right)
}

/// "The check of a right now tells the lowest-numbered held role that gives it, or that none does." "The role of A.6 is
/// the held one."
pub fn role_for(tables: &Tables, seat: usize, entity: usize, right: usize) -> Option<usize> {
    // From 0 on, so that the first is the lowest.
    (0..16).find(|&role| gives(tables, seat, role, entity, right))
}

/// "x has a right on e": some role is told.
pub fn has_right(tables: &Tables, seat: usize, entity: usize, right: usize) -> bool {
    role_for(tables, seat, entity, right).is_some()
}

/// "Execute on every container above e, up to and with the root; for a root there is none above."
pub fn reaches(tables: &Tables, seat: usize, entity: usize) -> bool {
    let mut at = entity;
    while !is_root(at) {
        at = tables.entities[at].parent;
        if !has_right(tables, seat, at, EXECUTE) {
            return false;
        }
    }
    true
}

pub fn fresh(users: &[UserRecord; 16], edition: usize) -> Tables {
    let mut tables = Tables {
        users: *users,
        seats: [EMPTY_SEAT; 16],
        roles: [EMPTY_ROLE; 16],
        entities: [EMPTY_ENTITY; 64],
        edition,
    };
    for root in [0, 16, 32, 48] {
        tables.entities[root] = EntityRecord {
            live: true,
            kind: CONTAINER,
            parent: root,
            ..EMPTY_ENTITY
        };
    }
    for keeper in [0, 4, 8, 12] {
        tables.roles[keeper].live = true;
        tables.roles[keeper].users[0] = true;
        tables.roles[keeper].rights[role_level(keeper) * 16] = READ + WRITE + EXECUTE + OWN;
    }
    tables
}

/// "A number past its range gives answer 2, with fresh tables over sixteen users of ceiling 0 and clearance 0/0." "An
/// edition other than 1 or 2 gives 2 when building", and "a refused build hands back edition 1".
pub fn build(users: &[UserRecord; 16], edition: usize) -> (Tables, usize) {
    if users_in_range(users) && EDITIONS.contains(&edition) {
        (fresh(users, edition), 0)
    } else {
        (fresh(&[UserRecord::default(); 16], 1), 2)
    }
}

// ---- Sound tables

/// The six points on sound tables, in the paper's order, that of A.2, that of A.3, those of A.8 and that of A.13. Tables
/// reached from fresh ones are sound; a run checks it.
pub fn sound(tables: &Tables) -> bool {
    in_range(tables)
        && live_entities_placed(tables)
        && dead_is_empty(tables)
        && rights_not_upward(tables)
        && reading_allowed(tables)
        && writing_allowed(tables)
        && objects_unshared(tables)
        && rights_behind_opens(tables)
        && ties_within_level(tables)
        && no_role_below_itself(tables)
        && edition_known(tables)
}

fn label_in_range(label: Label) -> bool {
    label.grade <= 3 && label.cats <= 65_535
}

fn users_in_range(users: &[UserRecord; 16]) -> bool {
    users
        .iter()
        .all(|user| user.ceiling <= 3 && label_in_range(user.clearance))
}

fn in_range(tables: &Tables) -> bool {
    users_in_range(&tables.users)
        && tables
            .seats
            .iter()
            .all(|seat| seat.user <= 15 && label_in_range(seat.label))
        && tables
            .roles
            .iter()
            .all(|role| role.rights.iter().all(|&rights| rights <= 15))
        && tables.entities.iter().all(|entity| {
            entity.kind <= 1
                && entity.parent <= 63
                && entity.name <= 65_535
                && label_in_range(entity.label)
                && entity.shared <= 1
        })
        && [0, 16, 32, 48].iter().all(|&root| {
            tables.entities[root]
                == EntityRecord {
                    live: true,
                    kind: CONTAINER,
                    parent: root,
                    // "Roots start with 0"; nothing is said of later.
                    shared: tables.entities[root].shared,
                    ..EMPTY_ENTITY
                }
        })
        && [0, 4, 8, 12]
            .iter()
            .all(|&keeper| tables.roles[keeper].live)
}

fn live_entities_placed(tables: &Tables) -> bool {
    (0..64).all(|entity| {
        let record = &tables.entities[entity];
        if !record.live || is_root(entity) {
            return true;
        }
        let parent = &tables.entities[record.parent];
        let alone_with_name = (0..64).all(|other| {
            other == entity
                || !is_child(tables, other, record.parent)
                || tables.entities[other].name != record.name
        });
        let mut above = entity;
        for _ in 0..64 {
            above = tables.entities[above].parent;
        }
        record.name >= 1
            && parent.live
            && parent.kind == CONTAINER
            && entity_level(record.parent) == entity_level(entity)
            && dominates(record.label, parent.label)
            && alone_with_name
            && above == entity_level(entity) * 16
    })
}

fn dead_is_empty(tables: &Tables) -> bool {
    let seats_empty = tables
        .seats
        .iter()
        .all(|seat| seat.live || *seat == EMPTY_SEAT);
    let roles_empty = tables
        .roles
        .iter()
        .all(|role| role.live || *role == EMPTY_ROLE);
    let entities_empty = tables
        .entities
        .iter()
        .all(|entity| entity.live || *entity == EMPTY_ENTITY);
    let nothing_on_dead = (0..64).all(|entity| {
        tables.entities[entity].live
            || (tables.roles.iter().all(|role| role.rights[entity] == 0)
                && tables
                    .seats
                    .iter()
                    .all(|seat| !seat.reading[entity] && !seat.writing[entity]))
    });
    let dead_unheld = (0..16)
        .all(|role| tables.roles[role].live || tables.seats.iter().all(|seat| !seat.roles[role]));
    seats_empty && roles_empty && entities_empty && nothing_on_dead && dead_unheld
}

fn rights_not_upward(tables: &Tables) -> bool {
    (0..16).all(|role| {
        (0..64).all(|entity| {
            tables.roles[role].rights[entity] == 0 || entity_level(entity) <= role_level(role)
        })
    })
}

/// In edition 2 "soundness drops the level condition on reading".
fn reading_allowed(tables: &Tables) -> bool {
    (0..16).all(|seat| {
        let record = &tables.seats[seat];
        (0..64).all(|entity| {
            !record.reading[entity]
                || ((tables.edition == 2 || entity_level(entity) >= seat_level(seat))
                    && dominates(record.label, tables.entities[entity].label))
        })
    })
}

fn writing_allowed(tables: &Tables) -> bool {
    (0..16).all(|seat| {
        let record = &tables.seats[seat];
        (0..64).all(|entity| {
            !record.writing[entity]
                || (entity_level(entity) <= seat_level(seat)
                    && record.label == tables.entities[entity].label)
        })
    })
}

/// "Soundness asks 0 for an object."
fn objects_unshared(tables: &Tables) -> bool {
    tables
        .entities
        .iter()
        .all(|entity| entity.kind != OBJECT || entity.shared == 0)
}

/// "Soundness gains the same condition": a seat has read on what it has open for reading, and write on what it has open
/// for writing. Whether it reaches the entity is not asked.
fn rights_behind_opens(tables: &Tables) -> bool {
    (0..16).all(|seat| {
        let record = &tables.seats[seat];
        (0..64).all(|entity| {
            (!record.reading[entity] || has_right(tables, seat, entity, READ))
                && (!record.writing[entity] || has_right(tables, seat, entity, WRITE))
        })
    })
}

/// "Soundness asks that ties join live roles of one level".
fn ties_within_level(tables: &Tables) -> bool {
    (0..16).all(|senior| {
        (0..16).all(|junior| {
            !tables.roles[senior].juniors[junior]
                || (tables.roles[senior].live
                    && tables.roles[junior].live
                    && role_level(senior) == role_level(junior))
        })
    })
}

/// ".. and no role is below itself."
fn no_role_below_itself(tables: &Tables) -> bool {
    (0..16).all(|role| !is_below(tables, role, role))
}

/// "An edition other than 1 or 2 gives 2 when building and 1 afterwards."
fn edition_known(tables: &Tables) -> bool {
    EDITIONS.contains(&tables.edition)
}

// ---- The refusals that apply to each request

pub struct Side {
    pub number: usize,
    pub text: &'static str,
    pub looks: &'static [Field],
    pub holds: fn(&Tables, &Request) -> bool,
}

const fn side(
    number: usize,
    text: &'static str,
    looks: &'static [Field],
    holds: fn(&Tables, &Request) -> bool,
) -> Side {
    Side {
        number,
        text,
        looks,
        holds,
    }
}

const SEAT_RANGE: Side = side(2, "the seat is past 15", &[Seat], |_, q| q.at(Seat) > 15);
const USER_RANGE: Side = side(2, "the user is past 15", &[User], |_, q| q.at(User) > 15);
const ROLE_RANGE: Side = side(2, "the role is past 15", &[Role], |_, q| q.at(Role) > 15);
const ENTITY_RANGE: Side = side(2, "the entity is past 63", &[Entity], |_, q| {
    q.at(Entity) > 63
});
const PARENT_RANGE: Side = side(2, "the parent is past 63", &[Parent], |_, q| {
    q.at(Parent) > 63
});
const KIND_RANGE: Side = side(2, "the kind is past 1", &[Kind], |_, q| q.at(Kind) > 1);
const NAME_RANGE: Side = side(2, "the name is past 65,535", &[Name], |_, q| {
    q.at(Name) > 65_535
});
const NAME_ZERO: Side = side(2, "the name is 0", &[Name], |_, q| q.at(Name) == 0);
const GRADE_RANGE: Side = side(2, "the grade is past 3", &[Level], |_, q| q.at(Level) > 3);
const CATS_RANGE: Side = side(2, "the categories are past 65,535", &[Cats], |_, q| {
    q.at(Cats) > 65_535
});
const RIGHTS_RANGE: Side = side(2, "the rights are past 15", &[Rights], |_, q| {
    q.at(Rights) > 15
});
const RIGHTS_ZERO: Side = side(2, "the rights are 0", &[Rights], |_, q| q.at(Rights) == 0);
const MARK_RANGE: Side = side(2, "the mark is past 1", &[Shared], |_, q| q.at(Shared) > 1);
const SENIOR_RANGE: Side = side(2, "the senior is past 15", &[Role], |_, q| q.at(Role) > 15);
const JUNIOR_RANGE: Side = side(2, "the junior is past 15", &[Junior], |_, q| {
    q.at(Junior) > 15
});

const SEAT_DEAD: Side = side(5, "x is not live", &[Seat], |t, q| {
    !t.seats[q.at(Seat)].live
});
const ROLE_DEAD: Side = side(7, "the role is not live", &[Role], |t, q| {
    !t.roles[q.at(Role)].live
});
const ENTITY_DEAD: Side = side(7, "the entity is not live", &[Entity], |t, q| {
    !t.entities[q.at(Entity)].live
});
const ENTITY_IS_ROOT: Side = side(6, "the entity is a root", &[Entity], |_, q| {
    is_root(q.at(Entity))
});
const SEAT_BELOW_ENTITY: Side = side(10, "x's level is below e's", &[Seat, Entity], |_, q| {
    seat_level(q.at(Seat)) < entity_level(q.at(Entity))
});
const ROLE_BELOW_ENTITY: Side = side(10, "the role is below e", &[Role, Entity], |_, q| {
    role_level(q.at(Role)) < entity_level(q.at(Entity))
});
const SEAT_BELOW_ROLE: Side = side(10, "x is below the role", &[Seat, Role], |_, q| {
    seat_level(q.at(Seat)) < role_level(q.at(Role))
});
/// "Holding a keeper means the keeper itself."
const KEEPER_NOT_HELD: Side = side(
    12,
    "x does not hold the keeper of the role's level",
    &[Seat, Role],
    |t, q| !t.seats[q.at(Seat)].roles[keeper_of(q.at(Role))],
);
const SENIOR_DEAD: Side = side(7, "the senior is not live", &[Role], |t, q| {
    !t.roles[q.at(Role)].live
});
const JUNIOR_DEAD: Side = side(7, "the junior is not live", &[Junior], |t, q| {
    !t.roles[q.at(Junior)].live
});
const SEAT_BELOW_SENIOR: Side = side(10, "x is below the senior", &[Seat, Role], |_, q| {
    seat_level(q.at(Seat)) < role_level(q.at(Role))
});
const LEVELS_DIFFER: Side = side(
    10,
    "the levels of the two roles differ",
    &[Role, Junior],
    |_, q| role_level(q.at(Role)) != role_level(q.at(Junior)),
);
const KEEPER_OF_SENIOR_NOT_HELD: Side = side(
    12,
    "x does not hold the keeper of the senior's level",
    &[Seat, Role],
    |t, q| !t.seats[q.at(Seat)].roles[keeper_of(q.at(Role))],
);
const NOT_REACHED: Side = side(13, "x does not reach e", &[Seat, Entity], |t, q| {
    !reaches(t, q.at(Seat), q.at(Entity))
});
const ABOVE_NOT_OPEN: Side = side(
    13,
    "x has not the parent open for writing",
    &[Seat, Entity],
    |t, q| !t.seats[q.at(Seat)].writing[t.entities[q.at(Entity)].parent],
);
const ABOVE_NOT_EXECUTED: Side = side(
    13,
    "x lacks execute on the parent",
    &[Seat, Entity],
    |t, q| !has_right(t, q.at(Seat), t.entities[q.at(Entity)].parent, EXECUTE),
);
const NO_OWN: Side = side(13, "x lacks own on e", &[Seat, Entity], |t, q| {
    !has_right(t, q.at(Seat), q.at(Entity), OWN)
});
/// "In a shared container delete and rename also need own on the entity."
pub const NO_OWN_IN_SHARED: Side = side(
    13,
    "the parent is shared and x lacks own on e",
    &[Seat, Entity],
    |t, q| {
        t.entities[t.entities[q.at(Entity)].parent].shared == 1
            && !has_right(t, q.at(Seat), q.at(Entity), OWN)
    },
);

static LOGIN: [Side; 8] = [
    SEAT_RANGE,
    USER_RANGE,
    GRADE_RANGE,
    CATS_RANGE,
    side(3, "the seat is live", &[Seat], |t, q| {
        t.seats[q.at(Seat)].live
    }),
    side(
        4,
        "the user's ceiling is below the seat's level",
        &[Seat, User],
        |t, q| t.users[q.at(User)].ceiling < seat_level(q.at(Seat)),
    ),
    side(
        4,
        "the clearance's grade is below the label's",
        &[User, Level],
        |t, q| t.users[q.at(User)].clearance.grade < q.at(Level),
    ),
    side(
        4,
        "the clearance's set does not contain the label's",
        &[User, Cats],
        |t, q| !contains(t.users[q.at(User)].clearance.cats, q.at(Cats)),
    ),
];

static LOGOUT: [Side; 2] = [SEAT_RANGE, SEAT_DEAD];

static TAKE: [Side; 6] = [
    SEAT_RANGE,
    ROLE_RANGE,
    SEAT_DEAD,
    ROLE_DEAD,
    side(12, "x's user is not listed", &[Seat, Role], |t, q| {
        !t.roles[q.at(Role)].users[t.seats[q.at(Seat)].user]
    }),
    side(16, "x holds the role already", &[Seat, Role], |t, q| {
        t.seats[q.at(Seat)].roles[q.at(Role)]
    }),
];

static DROP: [Side; 5] = [
    SEAT_RANGE,
    ROLE_RANGE,
    SEAT_DEAD,
    ROLE_DEAD,
    side(16, "x does not hold the role", &[Seat, Role], |t, q| {
        !t.seats[q.at(Seat)].roles[q.at(Role)]
    }),
];

static OPENR: [Side; 10] = [
    SEAT_RANGE,
    ENTITY_RANGE,
    SEAT_DEAD,
    ENTITY_DEAD,
    side(10, "e's level is below x's", &[Seat, Entity], |_, q| {
        entity_level(q.at(Entity)) < seat_level(q.at(Seat))
    }),
    side(11, "x's grade is below e's", &[Seat, Entity], |t, q| {
        t.seats[q.at(Seat)].label.grade < t.entities[q.at(Entity)].label.grade
    }),
    side(
        11,
        "x's set does not contain e's",
        &[Seat, Entity],
        |t, q| {
            !contains(
                t.seats[q.at(Seat)].label.cats,
                t.entities[q.at(Entity)].label.cats,
            )
        },
    ),
    side(13, "x lacks read on e", &[Seat, Entity], |t, q| {
        !has_right(t, q.at(Seat), q.at(Entity), READ)
    }),
    NOT_REACHED,
    side(
        16,
        "x has e open for reading already",
        &[Seat, Entity],
        |t, q| t.seats[q.at(Seat)].reading[q.at(Entity)],
    ),
];

static OPENW: [Side; 10] = [
    SEAT_RANGE,
    ENTITY_RANGE,
    SEAT_DEAD,
    ENTITY_DEAD,
    SEAT_BELOW_ENTITY,
    side(
        11,
        "the grades of x and e differ",
        &[Seat, Entity],
        |t, q| t.seats[q.at(Seat)].label.grade != t.entities[q.at(Entity)].label.grade,
    ),
    side(11, "the sets of x and e differ", &[Seat, Entity], |t, q| {
        t.seats[q.at(Seat)].label.cats != t.entities[q.at(Entity)].label.cats
    }),
    side(13, "x lacks write on e", &[Seat, Entity], |t, q| {
        !has_right(t, q.at(Seat), q.at(Entity), WRITE)
    }),
    NOT_REACHED,
    side(
        16,
        "x has e open for writing already",
        &[Seat, Entity],
        |t, q| t.seats[q.at(Seat)].writing[q.at(Entity)],
    ),
];

static CLOSE: [Side; 5] = [
    SEAT_RANGE,
    ENTITY_RANGE,
    SEAT_DEAD,
    ENTITY_DEAD,
    side(
        16,
        "x has e open in neither way",
        &[Seat, Entity],
        |t, q| {
            !t.seats[q.at(Seat)].reading[q.at(Entity)] && !t.seats[q.at(Seat)].writing[q.at(Entity)]
        },
    ),
];

static CREATE: [Side; 22] = [
    SEAT_RANGE,
    ENTITY_RANGE,
    KIND_RANGE,
    PARENT_RANGE,
    NAME_RANGE,
    NAME_ZERO,
    GRADE_RANGE,
    CATS_RANGE,
    ROLE_RANGE,
    SEAT_DEAD,
    side(7, "the parent is not live", &[Parent], |t, q| {
        !t.entities[q.at(Parent)].live
    }),
    ROLE_DEAD,
    side(8, "the entity is live", &[Entity], |t, q| {
        t.entities[q.at(Entity)].live
    }),
    side(9, "the parent is no container", &[Parent], |t, q| {
        t.entities[q.at(Parent)].kind != CONTAINER
    }),
    side(
        10,
        "e and the parent differ in level",
        &[Entity, Parent],
        |_, q| entity_level(q.at(Entity)) != entity_level(q.at(Parent)),
    ),
    ROLE_BELOW_ENTITY,
    side(
        11,
        "the new grade is below the parent's",
        &[Level, Parent],
        |t, q| q.at(Level) < t.entities[q.at(Parent)].label.grade,
    ),
    side(
        11,
        "the new set does not contain the parent's",
        &[Cats, Parent],
        |t, q| !contains(q.at(Cats), t.entities[q.at(Parent)].label.cats),
    ),
    side(12, "x does not hold the role", &[Seat, Role], |t, q| {
        !t.seats[q.at(Seat)].roles[q.at(Role)]
    }),
    side(
        13,
        "x has not the parent open for writing",
        &[Seat, Parent],
        |t, q| !t.seats[q.at(Seat)].writing[q.at(Parent)],
    ),
    side(
        13,
        "x lacks execute on the parent",
        &[Seat, Parent],
        |t, q| !has_right(t, q.at(Seat), q.at(Parent), EXECUTE),
    ),
    side(
        14,
        "a child of the parent has the name",
        &[Parent, Name],
        |t, q| {
            (0..64).any(|child| {
                is_child(t, child, q.at(Parent)) && t.entities[child].name == q.at(Name)
            })
        },
    ),
];

static DELETE: [Side; 9] = [
    SEAT_RANGE,
    ENTITY_RANGE,
    SEAT_DEAD,
    ENTITY_IS_ROOT,
    ENTITY_DEAD,
    ABOVE_NOT_OPEN,
    ABOVE_NOT_EXECUTED,
    NO_OWN_IN_SHARED,
    side(15, "the entity has children", &[Entity], |t, q| {
        (0..64).any(|child| is_child(t, child, q.at(Entity)))
    }),
];

static RENAME: [Side; 12] = [
    SEAT_RANGE,
    ENTITY_RANGE,
    NAME_RANGE,
    NAME_ZERO,
    SEAT_DEAD,
    ENTITY_IS_ROOT,
    ENTITY_DEAD,
    ABOVE_NOT_OPEN,
    ABOVE_NOT_EXECUTED,
    NO_OWN_IN_SHARED,
    side(
        14,
        "another child of the parent has the name",
        &[Entity, Name],
        |t, q| {
            let parent = t.entities[q.at(Entity)].parent;
            (0..64).any(|child| {
                child != q.at(Entity)
                    && is_child(t, child, parent)
                    && t.entities[child].name == q.at(Name)
            })
        },
    ),
    side(
        14,
        "the entity itself has the name",
        &[Entity, Name],
        |t, q| {
            let entity = q.at(Entity);
            is_child(t, entity, t.entities[entity].parent) && t.entities[entity].name == q.at(Name)
        },
    ),
];

/// For revoke as well: the paper names the two together throughout.
static GRANT: [Side; 11] = [
    SEAT_RANGE,
    ROLE_RANGE,
    ENTITY_RANGE,
    RIGHTS_RANGE,
    RIGHTS_ZERO,
    SEAT_DEAD,
    ROLE_DEAD,
    ENTITY_DEAD,
    SEAT_BELOW_ENTITY,
    ROLE_BELOW_ENTITY,
    NO_OWN,
];

static LIST: [Side; 8] = [
    SEAT_RANGE,
    ROLE_RANGE,
    USER_RANGE,
    SEAT_DEAD,
    ROLE_DEAD,
    SEAT_BELOW_ROLE,
    KEEPER_NOT_HELD,
    side(16, "the user is listed already", &[Role, User], |t, q| {
        t.roles[q.at(Role)].users[q.at(User)]
    }),
];

static UNLIST: [Side; 8] = [
    SEAT_RANGE,
    ROLE_RANGE,
    USER_RANGE,
    SEAT_DEAD,
    ROLE_DEAD,
    SEAT_BELOW_ROLE,
    KEEPER_NOT_HELD,
    side(16, "the user is not listed", &[Role, User], |t, q| {
        !t.roles[q.at(Role)].users[q.at(User)]
    }),
];

static MAKE: [Side; 6] = [
    SEAT_RANGE,
    ROLE_RANGE,
    SEAT_DEAD,
    side(8, "the role is live", &[Role], |t, q| {
        t.roles[q.at(Role)].live
    }),
    SEAT_BELOW_ROLE,
    KEEPER_NOT_HELD,
];

static UNMAKE: [Side; 9] = [
    SEAT_RANGE,
    ROLE_RANGE,
    SEAT_DEAD,
    side(6, "the role is a keeper", &[Role], |_, q| {
        is_keeper(q.at(Role))
    }),
    ROLE_DEAD,
    SEAT_BELOW_ROLE,
    KEEPER_NOT_HELD,
    side(15, "the role has a junior", &[Role], |t, q| {
        t.roles[q.at(Role)].juniors.contains(&true)
    }),
    side(15, "the role has a senior", &[Role], |t, q| {
        t.roles.iter().any(|senior| senior.juniors[q.at(Role)])
    }),
];

static SHARE: [Side; 9] = [
    SEAT_RANGE,
    ENTITY_RANGE,
    MARK_RANGE,
    SEAT_DEAD,
    ENTITY_DEAD,
    side(9, "the entity is an object", &[Entity], |t, q| {
        t.entities[q.at(Entity)].kind == OBJECT
    }),
    SEAT_BELOW_ENTITY,
    NO_OWN,
    side(16, "the mark is so already", &[Entity, Shared], |t, q| {
        t.entities[q.at(Entity)].shared == q.at(Shared)
    }),
];

static JOIN: [Side; 12] = [
    SEAT_RANGE,
    SENIOR_RANGE,
    JUNIOR_RANGE,
    SEAT_DEAD,
    SENIOR_DEAD,
    JUNIOR_DEAD,
    SEAT_BELOW_SENIOR,
    LEVELS_DIFFER,
    KEEPER_OF_SENIOR_NOT_HELD,
    side(22, "the two are one role", &[Role, Junior], |_, q| {
        q.at(Role) == q.at(Junior)
    }),
    side(
        22,
        "the senior is below the junior already",
        &[Role, Junior],
        |t, q| is_below(t, q.at(Role), q.at(Junior)),
    ),
    side(16, "the tie exists already", &[Role, Junior], |t, q| {
        t.roles[q.at(Role)].juniors[q.at(Junior)]
    }),
];

static UNJOIN: [Side; 10] = [
    SEAT_RANGE,
    SENIOR_RANGE,
    JUNIOR_RANGE,
    SEAT_DEAD,
    SENIOR_DEAD,
    JUNIOR_DEAD,
    SEAT_BELOW_SENIOR,
    LEVELS_DIFFER,
    KEEPER_OF_SENIOR_NOT_HELD,
    side(16, "the tie is missing", &[Role, Junior], |t, q| {
        !t.roles[q.at(Role)].juniors[q.at(Junior)]
    }),
];

/// The numbers in the order in which they are looked at: the lowest first, but 22 "comes between 12 and 13".
pub const ORDER: [usize; 17] = [1, 2, 3, 4, 5, 6, 7, 8, 9, 10, 11, 12, 22, 13, 14, 15, 16];

/// One more than the highest number.
pub const NUMBERS: usize = 23;

/// Every side of every refusal that applies to the request, in that order. 1 is left out: the program's tables are sound.
pub fn sides(call: Call) -> &'static [Side] {
    match call {
        Login => &LOGIN,
        Logout => &LOGOUT,
        Take => &TAKE,
        Drop => &DROP,
        Openr => &OPENR,
        Openw => &OPENW,
        Close => &CLOSE,
        Create => &CREATE,
        Delete => &DELETE,
        Rename => &RENAME,
        Grant | Revoke => &GRANT,
        List => &LIST,
        Unlist => &UNLIST,
        Make => &MAKE,
        Unmake => &UNMAKE,
        Share => &SHARE,
        Join => &JOIN,
        Unjoin => &UNJOIN,
    }
}

/// The numbers that apply to the request, each once, in their order.
pub fn numbers(call: Call) -> Vec<usize> {
    let mut numbers: Vec<usize> = sides(call).iter().map(|side| side.number).collect();
    numbers.dedup();
    numbers
}

/// "Edition 1 is the rule so far. In edition 2 openr has no condition 10".
pub fn applies(edition: usize, call: Call, number: usize) -> bool {
    !(edition == 2 && call == Openr && number == 10)
}

/// The sides that are met, as bits: bit i for `sides(call)[i]`. Those that look at a number past its range are not
/// asked, nor those of a number that does not apply in the edition.
pub fn met(tables: &Tables, request: &Request) -> u32 {
    let mut met = 0;
    let mut past = [false; FIELDS.len()];
    let sides = sides(request.call);
    for (bit, side) in sides.iter().enumerate() {
        if side.number == 2 && (side.holds)(tables, request) {
            met |= 1 << bit;
            past[side.looks[0] as usize] = true;
        }
    }
    for (bit, side) in sides.iter().enumerate() {
        let asked = side.number != 2
            && side.looks.iter().all(|&field| !past[field as usize])
            && applies(tables.edition, request.call, side.number);
        if asked && (side.holds)(tables, request) {
            met |= 1 << bit;
        }
    }
    met
}

/// "The lowest number that applies to the request and whose condition is met", 22 counting as one between 12 and 13; 0
/// if there is none.
pub fn answer(call: Call, met: u32) -> usize {
    let is_met = |number: &usize| {
        let sides = sides(call).iter().enumerate();
        sides
            .filter(|(_, side)| side.number == *number)
            .any(|(bit, _)| met & (1 << bit) != 0)
    };
    ORDER.into_iter().find(is_met).unwrap_or(0)
}

/// "Accepted openr and openw hand back, beside the 0, the role for read or write on the entity; all else .. hands back
/// none." The tables are those before the request.
pub fn told(tables: &Tables, request: &Request, answer: usize) -> Option<usize> {
    let (seat, entity) = (request.at(Seat), request.at(Entity));
    match request.call {
        Openr if answer == 0 => role_for(tables, seat, entity, READ),
        Openw if answer == 0 => role_for(tables, seat, entity, WRITE),
        _ => None,
    }
}

/// Whether the request would be done if every set had its categories 0 to 7 alone.
pub fn done_in_lower_half(tables: &Tables, request: &Request) -> bool {
    let (mut tables, mut request) = (tables.clone(), *request);
    for user in tables.users.iter_mut() {
        user.clearance.cats %= 256;
    }
    for seat in tables.seats.iter_mut() {
        seat.label.cats %= 256;
    }
    for entity in tables.entities.iter_mut() {
        entity.label.cats %= 256;
    }
    request.set(Cats, request.at(Cats) % 256);
    met(&tables, &request) == 0
}

// ---- What a done request changes

pub fn done(tables: &mut Tables, q: &Request) {
    let (x, user, role, entity) = (q.at(Seat), q.at(User), q.at(Role), q.at(Entity));
    let label = Label {
        grade: q.at(Level),
        cats: q.at(Cats),
    };
    match q.call {
        Login => {
            tables.seats[x] = SeatRecord {
                live: true,
                user,
                label,
                ..EMPTY_SEAT
            }
        }
        Logout => tables.seats[x] = EMPTY_SEAT,
        Take => tables.seats[x].roles[role] = true,
        Drop => {
            tables.seats[x].roles[role] = false;
            end_opens(tables);
        }
        Openr => tables.seats[x].reading[entity] = true,
        Openw => tables.seats[x].writing[entity] = true,
        Close => {
            tables.seats[x].reading[entity] = false;
            tables.seats[x].writing[entity] = false;
        }
        Create => {
            tables.entities[entity] = EntityRecord {
                live: true,
                kind: q.at(Kind),
                parent: q.at(Parent),
                name: q.at(Name),
                label,
                shared: 0,
            };
            tables.roles[role].rights[entity] = OWN;
        }
        Delete => {
            tables.entities[entity] = EMPTY_ENTITY;
            for role in tables.roles.iter_mut() {
                role.rights[entity] = 0;
            }
            for seat in tables.seats.iter_mut() {
                seat.reading[entity] = false;
                seat.writing[entity] = false;
            }
        }
        Rename => tables.entities[entity].name = q.at(Name),
        Grant => {
            for right in [READ, WRITE, EXECUTE, OWN] {
                let rights = &mut tables.roles[role].rights[entity];
                if has(q.at(Rights), right) && !has(*rights, right) {
                    *rights += right;
                }
            }
        }
        Revoke => {
            for right in [READ, WRITE, EXECUTE, OWN] {
                let rights = &mut tables.roles[role].rights[entity];
                if has(q.at(Rights), right) && has(*rights, right) {
                    *rights -= right;
                }
            }
            end_opens(tables);
        }
        List => tables.roles[role].users[user] = true,
        Unlist => tables.roles[role].users[user] = false,
        Make => {
            tables.roles[role] = RoleRecord {
                live: true,
                ..EMPTY_ROLE
            }
        }
        Unmake => {
            tables.roles[role] = EMPTY_ROLE;
            for seat in tables.seats.iter_mut() {
                seat.roles[role] = false;
            }
            end_opens(tables);
        }
        Share => tables.entities[entity].shared = q.at(Shared),
        Join => tables.roles[role].juniors[q.at(Junior)] = true,
        Unjoin => {
            tables.roles[role].juniors[q.at(Junior)] = false;
            end_opens(tables);
        }
    }
}

/// "After drop, revoke and unmake, every seat loses each open for which it no longer has the read or write right.
/// Reaching the entity is not looked at again." "Unjoin ends opens as A.3 says."
fn end_opens(tables: &mut Tables) {
    for seat in 0..16 {
        for entity in 0..64 {
            if !has_right(tables, seat, entity, READ) {
                tables.seats[seat].reading[entity] = false;
            }
            if !has_right(tables, seat, entity, WRITE) {
                tables.seats[seat].writing[entity] = false;
            }
        }
    }
}

#[cfg(test)]
mod tests {
    use super::*;

    #[test]
    fn pairs_and_sides() {
        let pairs: usize = CALLS.iter().map(|&call| numbers(call).len()).sum();
        let all: usize = CALLS.iter().map(|&call| sides(call).len()).sum();
        assert_eq!((pairs, all), (108, 173));
        for call in CALLS {
            let place = |side: &Side| ORDER.iter().position(|&number| number == side.number);
            assert!(sides(call).is_sorted_by_key(place));
            for side in sides(call) {
                assert!(side.looks.iter().all(|field| call.uses().contains(field)));
                assert!(side.number != 2 || side.looks.len() == 1);
            }
        }
    }

    #[test]
    fn sets_are_not_compared_as_numbers() {
        assert!(!contains(4, 3));
        assert!(contains(7, 3) && contains(255, 0) && !contains(127, 128));
    }

    #[test]
    fn sets_have_two_halves() {
        assert!(!contains(255, 256) && !contains(256, 255) && !contains(0x00ff, 0xff00));
        assert!(!contains(0xff00, 0x00ff) && !contains(0x7fff, 0x8000) && contains(0x8000, 0));
        assert!((0..65_536).all(|set| contains(65_535, set) && contains(set, set)));
        assert!((0..65_535).all(|set| !contains(set, 65_535)));
        for upper in 8..16 {
            let category = 1 << upper;
            assert!(contains(category, category) && !contains(65_535 - category, category));
        }
    }

    #[test]
    fn fresh_tables_are_sound() {
        for edition in EDITIONS {
            assert!(sound(&fresh(&[UserRecord::default(); 16], edition)));
        }
    }

    #[test]
    fn marks_of_sound_tables() {
        let mut fresh = fresh(&[UserRecord::default(); 16], 1);
        assert!(fresh.entities.iter().all(|entity| entity.shared == 0));
        for (entity, kind) in [(1, CONTAINER), (2, OBJECT)] {
            fresh.entities[entity] = EntityRecord {
                live: true,
                kind,
                name: entity,
                ..EMPTY_ENTITY
            };
        }
        // A root, a container, an object and a number that is not live.
        for (entity, most) in [(48, 1), (1, 1), (2, 0), (3, 0)] {
            for mark in 0..4 {
                let mut tables = fresh.clone();
                tables.entities[entity].shared = mark;
                assert_eq!(sound(&tables), mark <= most);
            }
        }
    }

    const NOBODY: [UserRecord; 16] = [UserRecord {
        ceiling: 0,
        clearance: Label { grade: 0, cats: 0 },
    }; 16];

    /// The answer and the role.
    fn step_telling(tables: &mut Tables, request: &Request) -> (usize, Option<usize>) {
        let answer = if sound(tables) {
            answer(request.call, met(tables, request))
        } else {
            1
        };
        let role = told(tables, request, answer);
        if answer == 0 {
            done(tables, request);
        }
        (answer, role)
    }

    fn step(tables: &mut Tables, request: &Request) -> usize {
        step_telling(tables, request).0
    }

    /// A seat of level 3 holds roles 12 to 15. On the object 50 role 12 has execute, 13 read, 14 read and write, and 15
    /// write; on the container 49, in which it lies, and on the root 12 and 15 have execute.
    fn four_roles() -> Tables {
        let mut tables = fresh(&NOBODY, 1);
        for (entity, kind, parent) in [(49, CONTAINER, 48), (50, OBJECT, 49)] {
            tables.entities[entity] = EntityRecord {
                live: true,
                kind,
                parent,
                name: 1,
                ..EMPTY_ENTITY
            };
        }
        tables.seats[12].live = true;
        for (role, on_object, above) in [
            (12, EXECUTE, EXECUTE),
            (13, READ, 0),
            (14, READ + WRITE, 0),
            (15, WRITE, EXECUTE),
        ] {
            tables.seats[12].roles[role] = true;
            tables.roles[role].live = true;
            tables.roles[role].rights[50] = on_object;
            tables.roles[role].rights[49] = above;
            tables.roles[role].rights[48] = above;
        }
        assert!(sound(&tables));
        tables
    }

    /// "The lowest-numbered held role that gives it, or that none does."
    #[test]
    fn the_check_of_a_right() {
        let mut tables = four_roles();
        let role = |tables: &Tables, entity, right| role_for(tables, 12, entity, right);
        assert_eq!(role(&tables, 50, READ), Some(13));
        assert_eq!(role(&tables, 50, WRITE), Some(14));
        assert_eq!(role(&tables, 50, EXECUTE), Some(12));
        assert_eq!(role(&tables, 50, OWN), None);
        assert_eq!(role(&tables, 49, EXECUTE), Some(12));
        assert_eq!(role(&tables, 49, READ), None);
        tables.seats[12].roles[14] = false;
        assert_eq!(role(&tables, 50, WRITE), Some(15));
        // "Of at least e's level"; sound tables have no right for a lower role.
        tables.seats[12].roles[0] = true;
        tables.roles[0].rights[50] = READ;
        assert_eq!(role(&tables, 50, READ), Some(13));
        assert_eq!(role(&tables, 0, READ), Some(0));
        assert!((0..16).all(|seat| seat == 12 || role_for(&tables, seat, 50, READ).is_none()));
    }

    #[test]
    fn what_requests_tell() {
        let mut tables = four_roles();
        let named = [(Seat, 12), (Entity, 50)];
        let mut ask = |call| step_telling(&mut tables, &Request::with(call, &named));
        assert_eq!(ask(Close), (16, None));
        assert_eq!(ask(Openr), (0, Some(13)));
        assert_eq!(ask(Openr), (16, None));
        assert_eq!(ask(Openw), (0, Some(14)));
        assert_eq!(ask(Close), (0, None));
        // Reaching has its own roles.
        for (role, answer) in [(12, 0), (15, 13)] {
            tables.seats[12].roles[role] = false;
            let told = step_telling(&mut tables, &Request::with(Openr, &named));
            assert_eq!(told, (answer, (answer == 0).then_some(13)));
            tables.seats[12].reading[50] = false;
        }
        tables.edition = 3;
        let openr = Request::with(Openr, &named);
        assert_eq!(step_telling(&mut tables, &openr), (1, None));
    }

    /// Of what seat 12 has open on the object 50, which is left after the request, for reading and for writing.
    fn left(tables: &Tables, request: &Request) -> (bool, bool) {
        let mut after = tables.clone();
        assert_eq!(step(&mut after, request), 0, "{request:?}");
        assert!(sound(&after));
        (after.seats[12].reading[50], after.seats[12].writing[50])
    }

    #[test]
    fn what_ends_opens() {
        let mut tables = four_roles();
        tables.seats[12].reading[50] = true;
        tables.seats[12].writing[50] = true;
        // Seat 13 keeps the house, and owns the object by role 12.
        tables.seats[13].live = true;
        tables.seats[13].roles[12] = true;
        tables.roles[12].rights[50] = EXECUTE + OWN;
        assert!(sound(&tables));
        let drop = |role| Request::with(Drop, &[(Seat, 12), (Role, role)]);
        let unmake = |role| Request::with(Unmake, &[(Seat, 13), (Role, role)]);
        let revoke = |role, entity, rights| {
            let named = [(Seat, 13), (Role, role), (Entity, entity), (Rights, rights)];
            Request::with(Revoke, &named)
        };
        // Two roles give each right.
        for role in [13, 14, 15] {
            for request in [drop(role), unmake(role), revoke(role, 50, 15)] {
                assert_eq!(left(&tables, &request), (true, true));
            }
        }
        // Without role 14 there is one for each.
        tables.seats[12].roles[14] = false;
        for (role, is_left) in [(13, (false, true)), (15, (true, false))] {
            for request in [drop(role), unmake(role), revoke(role, 50, 3)] {
                assert_eq!(left(&tables, &request), is_left);
            }
        }
        // The other right, execute, own and the reach end nothing.
        for request in [
            revoke(13, 50, WRITE + EXECUTE + OWN),
            revoke(15, 50, READ + EXECUTE + OWN),
            revoke(12, 50, 15),
            drop(12),
        ] {
            assert_eq!(left(&tables, &request), (true, true));
        }
        for role in [12, 15] {
            tables.roles[role].rights[49] = 0;
        }
        assert!(sound(&tables) && !reaches(&tables, 12, 50));
        assert_eq!(left(&tables, &drop(12)), (true, true));
    }

    #[test]
    fn what_brings_no_open_back() {
        let mut tables = four_roles();
        tables.seats[12].reading[50] = true;
        tables.roles[14].rights[50] = 0;
        tables.roles[13].users[0] = true;
        for call in [Drop, Take] {
            let held = Request::with(call, &[(Seat, 12), (Role, 13)]);
            assert_eq!(step(&mut tables, &held), 0);
            assert!(!tables.seats[12].reading[50]);
        }
        assert!(has_right(&tables, 12, 50, READ));
        let openr = Request::with(Openr, &[(Seat, 12), (Entity, 50)]);
        assert_eq!(step_telling(&mut tables, &openr), (0, Some(13)));
    }

    #[test]
    fn opens_without_their_right_are_unsound() {
        let tables = four_roles();
        type Change = fn(&mut Tables);
        let changes: [(bool, Change); 8] = [
            (true, |t| t.seats[12].reading[50] = true),
            (true, |t| t.seats[12].writing[50] = true),
            // Role 12 has all rights on its root no longer, but execute.
            (false, |t| t.seats[12].reading[48] = true),
            (false, |t| t.seats[12].writing[49] = true),
            // By the other right alone.
            (false, |t| {
                t.seats[12].reading[50] = true;
                t.roles[13].rights[50] = 0;
                t.roles[14].rights[50] = WRITE;
            }),
            (false, |t| {
                t.seats[12].writing[50] = true;
                t.roles[14].rights[50] = READ;
                t.roles[15].rights[50] = READ;
            }),
            // By a role that is not held.
            (false, |t| {
                t.seats[12].writing[50] = true;
                t.seats[12].roles[14] = false;
                t.seats[12].roles[15] = false;
            }),
            (true, |t| {
                t.seats[12].writing[50] = true;
                t.seats[12].roles[12] = false;
                t.seats[12].roles[15] = false;
            }),
        ];
        for (place, (is_sound, change)) in changes.into_iter().enumerate() {
            let mut changed = tables.clone();
            change(&mut changed);
            assert_eq!(sound(&changed), is_sound, "change {place}");
        }
    }

    fn tie(call: Call, senior: usize, junior: usize) -> Request {
        Request::with(call, &[(Seat, 13), (Role, senior), (Junior, junior)])
    }

    /// Roles 12 to 15 without rights and with these ties. Seat 12 holds role 13 alone, and seat 13 the keeper.
    fn tied(ties: &[(usize, usize)]) -> Tables {
        let mut tables = four_roles();
        for role in 12..16 {
            tables.roles[role].rights = [0; 64];
            tables.seats[12].roles[role] = role == 13;
        }
        tables.seats[13].live = true;
        tables.seats[13].roles[12] = true;
        for &(senior, junior) in ties {
            assert_eq!(step(&mut tables, &tie(Join, senior, junior)), 0);
        }
        assert!(sound(&tables));
        tables
    }

    const CHAIN: [(usize, usize); 3] = [(13, 14), (14, 15), (15, 12)];

    #[test]
    fn to_any_depth() {
        let mut tables = tied(&CHAIN);
        for (place, (_, junior)) in CHAIN.into_iter().enumerate() {
            assert_eq!(depth(&tables, 13, junior), Some(place + 1));
            assert!(is_below(&tables, junior, 13) && !is_below(&tables, 13, junior));
            tables.roles[junior].rights[48] = READ;
            assert_eq!(role_for(&tables, 12, 48, READ), Some(13));
            assert_eq!(role_for(&tables, 12, 48, WRITE), None);
            tables.roles[junior].rights[48] = 0;
        }
        assert!((0..16).all(|role| !is_below(&tables, role, role)));
        // What is above gives nothing.
        tables.seats[12].roles[13] = false;
        tables.seats[12].roles[15] = true;
        for role in [13, 14] {
            tables.roles[role].rights[48] = READ;
        }
        assert!(!has_right(&tables, 12, 48, READ));
        tables.roles[12].rights[48] = READ;
        assert_eq!(role_for(&tables, 12, 48, READ), Some(15));
        // By the fewest ties.
        tables.roles[13].juniors[12] = true;
        assert_eq!(depth(&tables, 13, 12), Some(1));
        // A ring ends too, but is not sound.
        tables.roles[12].juniors[13] = true;
        assert_eq!(depth(&tables, 13, 13), Some(2));
        assert_eq!(depth(&tables, 13, 0), None);
    }

    #[test]
    fn the_order_of_numbers() {
        let place = |wanted: usize| ORDER.iter().position(|&number| number == wanted).unwrap();
        assert!(place(12) < place(22) && place(22) < place(13) && place(22) < place(16));
        assert!((2..16).all(|number| place(number) < place(number + 1)));
        let bit = |number| sides(Join).iter().position(|side| side.number == number);
        let [twelve, ring, again] = [12, 22, 16].map(|number| 1 << bit(number).unwrap());
        assert_eq!(answer(Join, twelve | ring | again), 12);
        assert_eq!(answer(Join, ring | again), 22);
        assert_eq!(answer(Join, again), 16);
        assert_eq!(numbers(Join), [2, 5, 7, 10, 12, 22, 16]);
        assert_eq!(numbers(Unjoin), [2, 5, 7, 10, 12, 16]);
        assert_eq!(numbers(Unmake), [2, 5, 6, 7, 10, 12, 15]);
    }

    #[test]
    fn ties_made_and_ended() {
        let mut tables = tied(&CHAIN);
        let mut asks = |call, senior, junior, answer| {
            assert_eq!(step(&mut tables, &tie(call, senior, junior)), answer);
            assert!(sound(&tables));
        };
        // A ring of one, two, three and four.
        for junior in [13, 14, 15, 12] {
            asks(Join, junior, 13, 22);
        }
        asks(Join, 13, 14, 16);
        asks(Unjoin, 13, 15, 16);
        asks(Join, 13, 15, 0);
        asks(Join, 13, 15, 16);
        asks(Unjoin, 13, 13, 16);
        asks(Unjoin, 14, 13, 16);
        asks(Unjoin, 14, 15, 0);
        asks(Join, 15, 13, 22);
        asks(Join, 15, 14, 0);
        asks(Join, 14, 15, 22);
        asks(Join, 12, 16, 2);
        asks(Join, 16, 12, 2);
        asks(Join, 12, 9, 7);
        asks(Join, 9, 12, 7);
        asks(Join, 12, 8, 10);
        asks(Join, 8, 12, 10);
        asks(Join, 8, 8, 12);
        asks(Unjoin, 8, 8, 12);
    }

    #[test]
    fn holding_is_of_the_role_itself() {
        // A senior of the keeper.
        let mut tables = tied(&CHAIN);
        for call in [List, Unlist, Unmake, Join, Unjoin] {
            let asked = [(Seat, 12), (Role, 15), (Junior, 14), (User, 3)];
            assert_eq!(step(&mut tables, &Request::with(call, &asked)), 12);
        }
        let take = |role| Request::with(Take, &[(Seat, 12), (Role, role)]);
        tables.roles[14].users[0] = true;
        assert_eq!(step(&mut tables, &take(15)), 12);
        assert_eq!(step(&mut tables, &take(13)), 12);
        assert_eq!(step(&mut tables, &take(14)), 0);
        let drop = Request::with(Drop, &[(Seat, 12), (Role, 15)]);
        assert_eq!(step(&mut tables, &drop), 16);
        // And unmake.
        let unmake = |role| Request::with(Unmake, &[(Seat, 13), (Role, role)]);
        for (role, answer) in [(13, 15), (14, 15), (15, 15), (12, 6), (8, 6), (9, 7)] {
            assert_eq!(step(&mut tables, &unmake(role)), answer);
        }
        assert_eq!(step(&mut tables, &tie(Unjoin, 13, 14)), 0);
        assert_eq!(step(&mut tables, &unmake(14)), 15);
        assert_eq!(step(&mut tables, &unmake(13)), 0);
    }

    #[test]
    fn unjoin_ends_opens() {
        // A diamond: 13 above 14 and 15, these above 12.
        let mut tables = tied(&[(13, 14), (13, 15), (14, 12), (15, 12)]);
        tables.roles[12].rights[50] = READ;
        tables.roles[15].rights[50] = WRITE;
        tables.seats[12].reading[50] = true;
        tables.seats[12].writing[50] = true;
        for (ties, is_left) in [
            (&[(13, 14)][..], (true, true)),
            (&[(14, 12)], (true, true)),
            (&[(15, 12)], (true, true)),
            (&[(13, 15)], (true, false)),
            (&[(13, 14), (14, 12)], (true, true)),
            (&[(13, 14), (15, 12)], (false, true)),
            (&[(14, 12), (15, 12)], (false, true)),
            (&[(13, 14), (13, 15)], (false, false)),
        ] {
            let mut tables = tables.clone();
            let (last, before) = ties.split_last().unwrap();
            for &(senior, junior) in before {
                assert_eq!(left(&tables, &tie(Unjoin, senior, junior)), (true, true));
                step(&mut tables, &tie(Unjoin, senior, junior));
            }
            let request = tie(Unjoin, last.0, last.1);
            assert_eq!(left(&tables, &request), is_left, "{ties:?}");
        }
        // A tie more ends nothing.
        assert_eq!(left(&tables, &tie(Join, 13, 12)), (true, true));
    }

    #[test]
    fn ties_of_sound_tables() {
        let tables = tied(&CHAIN[..2]);
        type Change = fn(&mut Tables);
        let changes: [(bool, Change); 15] = [
            (true, |_| {}),
            (true, |t| t.roles[13].juniors[15] = true),
            (true, |t| t.roles[12].juniors = t.roles[13].juniors),
            // Not live, of another level, to itself.
            (false, |t| t.roles[8].juniors[9] = true),
            (false, |t| t.roles[9].juniors[8] = true),
            (false, |t| t.roles[9].juniors[9] = true),
            (false, |t| t.roles[12].juniors[8] = true),
            (false, |t| t.roles[8].juniors[12] = true),
            (false, |t| t.roles[15].juniors[15] = true),
            // A ring of two, three and four.
            (false, |t| t.roles[15].juniors[14] = true),
            (false, |t| t.roles[15].juniors[13] = true),
            (false, |t| {
                t.roles[15].juniors[12] = true;
                t.roles[12].juniors[13] = true;
            }),
            // An open by a tie, by one the other way round, and by none.
            (true, |t| {
                t.roles[15].rights[48] = READ;
                t.seats[12].reading[48] = true;
            }),
            (false, |t| {
                t.roles[13].rights[48] = READ;
                t.seats[12].roles[13] = false;
                t.seats[12].roles[15] = true;
                t.seats[12].reading[48] = true;
            }),
            (false, |t| {
                t.roles[15].rights[48] = READ;
                t.roles[14].juniors[15] = false;
                t.seats[12].reading[48] = true;
            }),
        ];
        for (place, (is_sound, change)) in changes.into_iter().enumerate() {
            let mut changed = tables.clone();
            change(&mut changed);
            assert_eq!(sound(&changed), is_sound, "change {place}");
        }
    }

    #[test]
    fn builds() {
        let mut good = NOBODY;
        good[0].ceiling = 3;
        for edition in EDITIONS {
            assert_eq!(build(&good, edition), (fresh(&good, edition), 0));
        }
        for edition in [0, 3, 255, 257, 258] {
            assert_eq!(build(&good, edition), (fresh(&NOBODY, 1), 2));
        }
        let mut bad = good;
        bad[15].clearance.grade = 4;
        for edition in 0..4 {
            assert_eq!(build(&bad, edition), (fresh(&NOBODY, 1), 2));
        }
    }

    #[test]
    fn other_editions_are_unsound() {
        let login = Request::with(Login, &[]);
        for edition in [0, 3, 255] {
            let mut tables = fresh(&NOBODY, edition);
            assert!(!sound(&tables));
            assert_eq!(step(&mut tables, &login), 1);
            assert_eq!(tables, fresh(&NOBODY, edition));
        }
    }

    /// A seat of each level and the root of each: what openr and openw answer to one who has the rights.
    #[test]
    fn reading_down() {
        let mut users = NOBODY;
        users[0].ceiling = 3;
        for edition in EDITIONS {
            for (seat, root) in (0..16).map(|pair| (pair / 4 * 4, pair % 4 * 16)) {
                let mut tables = fresh(&users, edition);
                let (level, other) = (seat_level(seat), entity_level(root));
                let keeper = 4 * other;
                let named = [(Seat, seat), (Entity, root)];
                let down = usize::from(edition == 1 && other < level);
                let up = usize::from(level < other);
                let login = Request::with(Login, &[(Seat, seat)]);
                let take = Request::with(Take, &[(Seat, seat), (Role, keeper)]);
                let (openr, openw) = (Request::with(Openr, &named), Request::with(Openw, &named));
                let lacking = if down == 1 { 10 } else { 13 };
                assert_eq!(step(&mut tables, &login), 0);
                assert_eq!(step(&mut tables, &openr), lacking);
                assert_eq!(step(&mut tables, &take), 0);
                assert_eq!(step(&mut tables, &openr), 10 * down);
                assert_eq!(step(&mut tables, &openw), 10 * up);
                assert!(sound(&tables));
                // "Edition 1 is the rule so far": there nobody reads down.
                tables.edition = 1;
                assert_eq!(sound(&tables), edition == 1 || other >= level);
            }
        }
    }
}
