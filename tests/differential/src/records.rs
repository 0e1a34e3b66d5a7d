//! Records as the test program `guard_cases` sets and prints them.

use crate::paper::{
    self, EntityRecord, Label, RoleRecord, SeatRecord, Tables, UserRecord, EMPTY_ROLE, EXECUTE,
    OWN, READ, WRITE,
};

/// A kind of records: its word where one and where several are meant, how many there are, and their fields
/// in order.
pub struct Kind {
    pub word: &'static str,
    plural: &'static str,
    pub count: usize,
    pub fields: &'static [&'static str],
}

const fn kind(
    word: &'static str,
    plural: &'static str,
    count: usize,
    fields: &'static [&'static str],
) -> Kind {
    Kind {
        word,
        plural,
        count,
        fields,
    }
}

pub const SEATS: Kind = kind(
    "seat",
    "seats",
    16,
    &[
        "live", "user", "grade", "cats", "roles", "reading", "writing",
    ],
);

/// What the tables hold beside the records, the edition, counts as one of a kind of its own.
pub static KINDS: [Kind; 5] = [
    SEATS,
    kind("user", "users", 16, &["ceiling", "grade", "cats"]),
    kind(
        "role",
        "roles",
        16,
        &[
            "live", "users", "reads", "writes", "executes", "owns", "juniors",
        ],
    ),
    kind(
        "entity",
        "entities",
        64,
        &["live", "kind", "parent", "name", "grade", "cats", "shared"],
    ),
    kind("tables", "edition", 1, &["edition"]),
];

/// How many records tables have.
pub const COUNT: usize = 16 + 16 + 16 + 64 + 1;

const RIGHTS: [(&str, usize); 4] = [
    ("reads", READ),
    ("writes", WRITE),
    ("executes", EXECUTE),
    ("owns", OWN),
];

// ---- A field as a number, a set having one bit for each member

fn number(set: impl IntoIterator<Item = bool>) -> u64 {
    let members = set.into_iter().enumerate();
    members.map(|(member, is)| u64::from(is) << member).sum()
}

fn members<const COUNT: usize>(number: u64) -> [bool; COUNT] {
    std::array::from_fn(|member| number >> member & 1 == 1)
}

pub fn get(tables: &Tables, kind: &str, at: usize, field: &str) -> u64 {
    let wide = |number: usize| number as u64;
    let right = |word| RIGHTS.iter().find(|right| right.0 == word).unwrap().1;
    match (kind, field) {
        ("seat", "live") => u64::from(tables.seats[at].live),
        ("seat", "user") => wide(tables.seats[at].user),
        ("seat", "grade") => wide(tables.seats[at].label.grade),
        ("seat", "cats") => wide(tables.seats[at].label.cats),
        ("seat", "roles") => number(tables.seats[at].roles),
        ("seat", "reading") => number(tables.seats[at].reading),
        ("seat", "writing") => number(tables.seats[at].writing),
        ("user", "ceiling") => wide(tables.users[at].ceiling),
        ("user", "grade") => wide(tables.users[at].clearance.grade),
        ("user", "cats") => wide(tables.users[at].clearance.cats),
        ("role", "live") => u64::from(tables.roles[at].live),
        ("role", "users") => number(tables.roles[at].users),
        ("role", "juniors") => number(tables.roles[at].juniors),
        ("role", word) => {
            let rights = tables.roles[at].rights;
            number(rights.map(|rights| paper::has(rights, right(word))))
        }
        ("entity", "live") => u64::from(tables.entities[at].live),
        ("entity", "kind") => wide(tables.entities[at].kind),
        ("entity", "parent") => wide(tables.entities[at].parent),
        ("entity", "name") => wide(tables.entities[at].name),
        ("entity", "grade") => wide(tables.entities[at].label.grade),
        ("entity", "cats") => wide(tables.entities[at].label.cats),
        ("entity", "shared") => wide(tables.entities[at].shared),
        ("tables", "edition") => wide(tables.edition),
        _ => panic!("{kind} {field}"),
    }
}

pub fn set(tables: &mut Tables, kind: &str, at: usize, field: &str, value: u64) {
    let short = value as usize;
    match (kind, field) {
        ("seat", "live") => tables.seats[at].live = value == 1,
        ("seat", "user") => tables.seats[at].user = short,
        ("seat", "grade") => tables.seats[at].label.grade = short,
        ("seat", "cats") => tables.seats[at].label.cats = short,
        ("seat", "roles") => tables.seats[at].roles = members(value),
        ("seat", "reading") => tables.seats[at].reading = members(value),
        ("seat", "writing") => tables.seats[at].writing = members(value),
        ("user", "ceiling") => tables.users[at].ceiling = short,
        ("user", "grade") => tables.users[at].clearance.grade = short,
        ("user", "cats") => tables.users[at].clearance.cats = short,
        ("role", "live") => tables.roles[at].live = value == 1,
        ("role", "users") => tables.roles[at].users = members(value),
        ("role", "juniors") => tables.roles[at].juniors = members(value),
        ("role", word) => {
            let (_, right) = RIGHTS.into_iter().find(|right| right.0 == word).unwrap();
            let having: [bool; 64] = members(value);
            for (rights, having) in tables.roles[at].rights.iter_mut().zip(having) {
                *rights -= if paper::has(*rights, right) { right } else { 0 };
                *rights += if having { right } else { 0 };
            }
        }
        ("entity", "live") => tables.entities[at].live = value == 1,
        ("entity", "kind") => tables.entities[at].kind = short,
        ("entity", "parent") => tables.entities[at].parent = short,
        ("entity", "name") => tables.entities[at].name = short,
        ("entity", "grade") => tables.entities[at].label.grade = short,
        ("entity", "cats") => tables.entities[at].label.cats = short,
        ("entity", "shared") => tables.entities[at].shared = short,
        ("tables", "edition") => tables.edition = short,
        _ => panic!("{kind} {field}"),
    }
}

// ---- A record as it is printed

/// A set of numbers, as `{ 0 12 }`.
fn braced(set: u64) -> String {
    let mut text = String::from("{ ");
    for member in (0..64).filter(|member| set >> member & 1 == 1) {
        text += &format!("{member} ");
    }
    text + "}"
}

pub fn shown(tables: &Tables, kind: &Kind, at: usize) -> String {
    let field = |field| get(tables, kind.word, at, field);
    let set = |name| braced(field(name));
    let live = || if field("live") == 1 { "live" } else { "dead" };
    let label = || format!("{}/{}", field("grade"), field("cats"));
    match kind.word {
        "seat" => format!(
            "  seat {at} {}, user {}, label {}, roles {}, reading {}, writing {}",
            live(),
            field("user"),
            label(),
            set("roles"),
            set("reading"),
            set("writing")
        ),
        "user" => format!(
            "  user {at}, ceiling {}, clearance {}",
            field("ceiling"),
            label()
        ),
        "role" => format!(
            "  role {at} {}, users {}, reads {}, writes {}, executes {}, owns {}, juniors {}",
            live(),
            set("users"),
            set("reads"),
            set("writes"),
            set("executes"),
            set("owns"),
            set("juniors")
        ),
        "entity" => format!(
            "  entity {at} {}, kind {}, parent {}, name {}, label {}, shared {}",
            live(),
            field("kind"),
            field("parent"),
            field("name"),
            label(),
            field("shared")
        ),
        _ => format!("  tables, edition {}", field("edition")),
    }
}

/// The records that differ.
pub fn differing(one: &Tables, other: &Tables) -> String {
    let mut text = String::new();
    for kind in &KINDS {
        let differs = |at| {
            let differs =
                |field| get(one, kind.word, at, field) != get(other, kind.word, at, field);
            kind.fields.iter().any(|field| differs(field))
        };
        let set = number((0..kind.count).map(differs));
        if set != 0 {
            text += &format!(" {}", kind.plural);
            if kind.count > 1 {
                text += &format!(" {}", braced(set));
            }
        }
    }
    text
}

/// Whether tables are as they were, and if not, the records that differ.
pub fn changes(before: &Tables, after: &Tables) -> String {
    if before == after {
        return String::from(" kept");
    }
    format!(" changed{}", differing(before, after))
}

// ---- And read again

/// The tables from all their records, None if these are of another form.
pub fn read(records: &[&str]) -> Option<Tables> {
    let mut tables = paper::fresh(&[UserRecord::default(); 16], 0);
    let mut records = records.iter();
    for kind in &KINDS {
        for at in 0..kind.count {
            let mut words = Words(records.next()?.split_whitespace());
            words.word(kind.word)?;
            if kind.count > 1 && words.number()? != at {
                return None;
            }
            match kind.word {
                "seat" => tables.seats[at] = words.seat()?,
                "user" => tables.users[at] = words.user()?,
                "role" => tables.roles[at] = words.role()?,
                "entity" => tables.entities[at] = words.entity()?,
                _ => tables.edition = words.after("edition")?,
            }
        }
    }
    Some(tables)
}

/// The words of a record.
struct Words<'a>(std::str::SplitWhitespace<'a>);

impl<'a> Words<'a> {
    fn next(&mut self) -> Option<&'a str> {
        self.0.next().map(|word| word.trim_end_matches(','))
    }

    fn word(&mut self, known: &str) -> Option<()> {
        (self.next()? == known).then_some(())
    }

    fn number(&mut self) -> Option<usize> {
        self.next()?.parse().ok()
    }

    /// The number behind a word.
    fn after(&mut self, word: &str) -> Option<usize> {
        self.word(word)?;
        self.number()
    }

    fn live(&mut self) -> Option<bool> {
        match self.next()? {
            "live" => Some(true),
            "dead" => Some(false),
            _ => None,
        }
    }

    fn label(&mut self, word: &str) -> Option<Label> {
        self.word(word)?;
        let (grade, cats) = self.next()?.split_once('/')?;
        Some(Label {
            grade: grade.parse().ok()?,
            cats: cats.parse().ok()?,
        })
    }

    fn set<const COUNT: usize>(&mut self, word: &str) -> Option<[bool; COUNT]> {
        self.word(word)?;
        self.word("{")?;
        let mut set = [false; COUNT];
        loop {
            match self.next()? {
                "}" => return Some(set),
                member => *set.get_mut(member.parse::<usize>().ok()?)? = true,
            }
        }
    }

    fn seat(&mut self) -> Option<SeatRecord> {
        Some(SeatRecord {
            live: self.live()?,
            user: self.after("user")?,
            label: self.label("label")?,
            roles: self.set("roles")?,
            reading: self.set("reading")?,
            writing: self.set("writing")?,
        })
    }

    fn user(&mut self) -> Option<UserRecord> {
        Some(UserRecord {
            ceiling: self.after("ceiling")?,
            clearance: self.label("clearance")?,
        })
    }

    fn role(&mut self) -> Option<RoleRecord> {
        let mut role = RoleRecord {
            live: self.live()?,
            users: self.set("users")?,
            ..EMPTY_ROLE
        };
        for (word, right) in RIGHTS {
            let having: [bool; 64] = self.set(word)?;
            for (rights, having) in role.rights.iter_mut().zip(having) {
                *rights += if having { right } else { 0 };
            }
        }
        role.juniors = self.set("juniors")?;
        Some(role)
    }

    fn entity(&mut self) -> Option<EntityRecord> {
        Some(EntityRecord {
            live: self.live()?,
            kind: self.after("kind")?,
            parent: self.after("parent")?,
            name: self.after("name")?,
            label: self.label("label")?,
            shared: self.after("shared")?,
        })
    }
}

#[cfg(test)]
mod tests {
    use super::*;

    #[test]
    fn fields_are_set_shown_and_read() {
        let fresh = paper::fresh(&[UserRecord::default(); 16], 1);
        let mut tables = fresh.clone();
        for (place, kind) in KINDS.iter().enumerate() {
            for at in 0..kind.count {
                for (value, field) in kind.fields.iter().enumerate() {
                    let value = match *field {
                        "live" => 1,
                        _ => ((place + at + value) % 16) as u64,
                    };
                    set(&mut tables, kind.word, at, field, value);
                    assert_eq!(get(&tables, kind.word, at, field), value);
                }
            }
        }
        let lines: Vec<String> = KINDS
            .iter()
            .flat_map(|kind| (0..kind.count).map(move |at| (kind, at)))
            .map(|(kind, at)| shown(&tables, kind, at))
            .collect();
        let lines: Vec<&str> = lines.iter().map(String::as_str).collect();
        assert_eq!(lines.len(), COUNT);
        assert_eq!(read(&lines), Some(tables));
        assert_eq!(read(&lines[1..]), None);
    }

    #[test]
    fn what_is_printed() {
        let mut tables = paper::fresh(&[UserRecord::default(); 16], 2);
        set(&mut tables, "seat", 15, "live", 1);
        set(&mut tables, "seat", 15, "reading", 1 << 63 | 1 << 7);
        assert_eq!(
            shown(&tables, &KINDS[0], 15),
            "  seat 15 live, user 0, label 0/0, roles { }, reading { 7 63 }, writing { }"
        );
        set(&mut tables, "role", 4, "juniors", 1 << 5 | 1 << 7);
        assert_eq!(
            shown(&tables, &KINDS[2], 4),
            "  role 4 live, users { 0 }, reads { 16 }, writes { 16 }, executes { 16 }, owns { 16 }, juniors { 5 7 }"
        );
        assert_eq!(
            shown(&tables, &KINDS[3], 5),
            "  entity 5 dead, kind 0, parent 0, name 0, label 0/0, shared 0"
        );
        assert_eq!(shown(&tables, &KINDS[4], 0), "  tables, edition 2");
    }

    #[test]
    fn what_changed() {
        let nobody = paper::fresh(&[UserRecord::default(); 16], 1);
        assert_eq!(changes(&nobody, &nobody), " kept");
        let mut other = nobody.clone();
        other.edition = 2;
        assert_eq!(changes(&nobody, &other), " changed edition");
        other.users[3].ceiling = 1;
        other.entities[63].live = true;
        other.roles[0].rights[1] = 8;
        other.seats[15].reading[0] = true;
        assert_eq!(
            changes(&nobody, &other),
            " changed seats { 15 } users { 3 } roles { 0 } entities { 63 } edition"
        );
    }
}
