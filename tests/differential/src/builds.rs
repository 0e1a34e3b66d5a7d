//! Builds and editions, case by case: "an edition other than 1 or 2 gives 2 when building and 1
//! afterwards", "a refused build hands back edition 1", and in edition 2 "soundness drops the level
//! condition on reading" (document 02, A.13); the right behind an open, which soundness asks in every
//! edition (A.3); and which ties it allows (A.8).

use crate::cases::Script;
use crate::logs::Asked;
use crate::paper::{Call, Field, Request, CALLS};

/// The editions that there are, and some that there are not.
const EDITIONS: [usize; 7] = [0, 1, 2, 3, 4, 128, 255];

/// A user by number: ceiling, grade and categories.
type User = (usize, [u64; 3]);

/// Users set in a case, all of them in range or not.
const USERS: [(&str, &[User]); 7] = [
    ("nobody set", &[]),
    ("good users", &[(0, [3, 3, 65_535]), (15, [1, 2, 256])]),
    ("a ceiling of 4", &[(0, [3, 3, 255]), (7, [4, 0, 0])]),
    ("a ceiling of 255", &[(0, [255, 0, 0])]),
    ("a grade of 4", &[(0, [3, 3, 255]), (15, [0, 4, 0])]),
    ("a grade of 255", &[(8, [0, 255, 0])]),
    ("two bad users", &[(0, [4, 0, 0]), (15, [0, 4, 0])]),
];

/// Labels of a seat and of an entity: grade and categories of each.
const LABELS: [[u64; 4]; 6] = [
    [0, 0, 0, 0],
    [1, 3, 1, 3],
    [1, 3, 1, 1],
    [1, 1, 1, 3],
    [2, 256, 1, 256],
    [1, 256, 2, 256],
];

fn request(call: Call, fields: &[(Field, usize)]) -> Asked {
    Asked::Request(Request::with(call, fields))
}

pub fn script() -> Script {
    let mut script = Script::new();
    for edition in EDITIONS {
        for (title, users) in USERS {
            script.clear();
            for (user, record) in users {
                script.set("user", *user, "ceiling", record);
            }
            script.set_edition(edition);
            script.fresh(&format!("edition {edition}, {title}"));
            script.show();
        }
    }
    for edition in EDITIONS {
        every_call(&mut script, edition);
    }
    for edition in EDITIONS {
        every_open(&mut script, edition);
    }
    for (seat, entity) in [(4, 0), (8, 0), (8, 16), (12, 0), (12, 16), (12, 32)] {
        reading(&mut script, seat, entity);
    }
    for (senior, junior) in (0..256).map(|pair| (pair / 16, pair % 16)) {
        every_tie(&mut script, senior, junior);
    }
    for level in 0..4 {
        every_ring(&mut script, level);
        every_chain(&mut script, level);
    }
    script
}

/// Every request on tables that are sound but, maybe, for their edition.
fn every_call(script: &mut Script, edition: usize) {
    for call in CALLS {
        script.clear();
        script.ask(&request(Call::Login, &[]), "login before");
        script.ask(&request(Call::Take, &[]), "take before");
        script.set_edition(edition);
        let name = |what: &str| format!("{}{what} in edition {edition}", call.word());
        script.ask(&request(call, &[]), &name(""));
        script.ask(&request(call, &[(Field::Seat, 16)]), &name(" past a range"));
        let no_kind = Asked::NoKind { call: 19, seat: 0 };
        script.ask(&no_kind, &name(" and one of no kind"));
        script.show();
    }
}

/// What stands behind an open: whether the role is held, and which of the four rights it has on the entity,
/// read, write, execute and own, where the entity is open for reading and where it is for writing.
const BEHIND: [(&str, bool, [[u64; 4]; 2]); 4] = [
    ("", true, [[1, 0, 0, 0], [0, 1, 0, 0]]),
    (" by other rights", true, [[0, 1, 1, 1], [1, 0, 1, 1]]),
    (" by a role not held", false, [[1, 1, 1, 1]; 2]),
    (" by nothing", true, [[0; 4]; 2]),
];

/// A seat of each level has an object of each level open, for reading or for writing, with labels of all
/// kinds, by the keeper of the object's level or by nothing: sound or not, nothing else being open.
fn every_open(script: &mut Script, edition: usize) {
    for (seat, entity) in (0..16).map(|pair| (pair / 4 * 4 + 1, pair % 4 * 16 + 2)) {
        for [grade, cats, of_entity, cats_of_entity] in LABELS {
            for (way, open) in ["reads", "writes"].into_iter().zip([[1, 0], [0, 1]]) {
                for (behind, held, rights) in BEHIND {
                    script.clear();
                    let keeper = entity / 16 * 4;
                    let root = entity as u64 / 16 * 16;
                    let object = [1, 0, root, 1, of_entity, cats_of_entity, 0];
                    script.set("entity", entity, "live", &object);
                    let rights = rights[open[1]].map(|right| 1 << root | right << entity);
                    script.set("role", keeper, "reads", &rights);
                    let [reading, writing] = open.map(|open| (open as u64) << entity);
                    let roles = u64::from(held) << keeper;
                    let session = [1, 0, grade, cats, roles, reading, writing];
                    script.set("seat", seat, "live", &session);
                    script.set_edition(edition);
                    let label = format!("{grade}/{cats} at {of_entity}/{cats_of_entity}");
                    let open = format!("{way} {entity}{behind}");
                    let name = format!("seat {seat} {open}, {label} in edition {edition}");
                    script.ask(&request(Call::Logout, &[(Field::Seat, seat)]), &name);
                }
            }
        }
    }
}

/// A seat reads down in edition 2; then the edition is another.
fn reading(script: &mut Script, seat: usize, entity: usize) {
    script.clear();
    script.set("user", 0, "ceiling", &[3, 3, 255]);
    script.set_edition(2);
    script.fresh(&format!("edition 2, for seat {seat}"));
    let read = [(Field::Seat, seat), (Field::Entity, entity)];
    let (openr, close) = (request(Call::Openr, &read), request(Call::Close, &read));
    let login = request(Call::Login, &[(Field::Seat, seat)]);
    let keeper = [(Field::Seat, seat), (Field::Role, entity / 4)];
    for asked in [login, request(Call::Take, &keeper), openr] {
        script.ask(&asked, &format!("seat {seat} at {entity}"));
    }
    for edition in [1, 3, 0, 2] {
        script.set_edition(edition);
        let name = format!("seat {seat} reading {entity} in edition {edition}");
        for asked in [
            openr,
            login,
            request(Call::Close, &[(Field::Entity, 64)]),
            request(Call::Logout, &[(Field::Seat, 15)]),
            Asked::NoKind { call: 19, seat },
        ] {
            script.ask(&asked, &name);
        }
        script.show();
    }
    // Closed, the tables are sound in edition 1 too.
    script.ask(&close, "close");
    for edition in [1, 2, 1] {
        script.set_edition(edition);
        script.ask(&openr, &format!("openr in edition {edition}"));
        script.ask(&openr, &format!("openr again in edition {edition}"));
    }
    script.show();
}

/// Tables that have roles which are live, beside the keepers, and ties from a role to another. The answer
/// tells whether they are sound, 5, or not, 1.
fn with_ties(script: &mut Script, live: &[usize], ties: &[(usize, usize)]) {
    script.clear();
    for &role in live {
        script.set("role", role, "live", &[1]);
    }
    for role in 0..16 {
        let juniors = ties.iter().filter(|(senior, _)| *senior == role);
        let juniors: u64 = juniors.map(|(_, junior)| 1 << junior).sum();
        if juniors != 0 {
            script.set("role", role, "juniors", &[juniors]);
        }
    }
}

/// A tie between two roles, both of them live, or one of them not if it is no keeper.
fn every_tie(script: &mut Script, senior: usize, junior: usize) {
    let logout = request(Call::Logout, &[(Field::Seat, 15)]);
    for (what, live) in [
        ("both live", &[senior, junior][..]),
        ("the senior live", &[senior]),
        ("the junior live", &[junior]),
        ("neither live", &[]),
    ] {
        with_ties(script, live, &[(senior, junior)]);
        script.ask(&logout, &format!("{senior} above {junior}, {what}"));
    }
}

/// Roles of a level in every order, tied in a chain, and the last above the first.
fn every_ring(script: &mut Script, level: usize) {
    let logout = request(Call::Logout, &[(Field::Seat, 15)]);
    let roles = [0, 1, 2, 3].map(|place| 4 * level + place);
    for order in 0..256 {
        let order = [64, 16, 4, 1].map(|place| roles[order / place % 4]);
        for length in 2..=4 {
            let chain = &order[..length];
            let once = (1..length).all(|at| !chain[..at].contains(&chain[at]));
            // The orders that differ behind the chain are the same.
            if !once || order[length..].iter().any(|&role| role != roles[0]) {
                continue;
            }
            let mut ties: Vec<(usize, usize)> =
                chain.windows(2).map(|pair| (pair[0], pair[1])).collect();
            with_ties(script, &roles, &ties);
            script.ask(&logout, &format!("chain {chain:?}"));
            ties.push((chain[length - 1], chain[0]));
            with_ties(script, &roles, &ties);
            script.ask(&logout, &format!("ring {chain:?}"));
        }
    }
}

/// A seat has the root of a level open by a role, the right being in the record of one some ties below it, or
/// above it; and the same with one of these ties missing.
fn every_chain(script: &mut Script, level: usize) {
    let logout = request(Call::Logout, &[(Field::Seat, 15)]);
    let roles = [1, 3, 0, 2].map(|place| 4 * level + place);
    let ties = [0, 1, 2].map(|at| (roles[at], roles[at + 1]));
    let root = 16 * level;
    for (held, having, missing) in (0..64).map(|which| (which / 16, which / 4 % 4, which % 4)) {
        for (way, open) in ["reads", "writes"].into_iter().zip([[1, 0], [0, 1]]) {
            let mut left = ties.to_vec();
            if missing < 3 {
                left.remove(missing);
            }
            with_ties(script, &roles, &left);
            let opens = open.map(|open: u64| open << root);
            for (place, role) in roles.into_iter().enumerate() {
                let rights = if place == having { opens } else { [0, 0] };
                script.set("role", role, "reads", &rights);
            }
            let [reading, writing] = opens;
            let session = [1, 0, 0, 0, 1 << roles[held], reading, writing];
            script.set("seat", 4 * level, "live", &session);
            let without = match ties.get(missing) {
                Some((senior, junior)) => format!(" without {senior} above {junior}"),
                None => String::new(),
            };
            let (held, having) = (roles[held], roles[having]);
            script.ask(
                &logout,
                &format!("{held} {way} by {having} in {roles:?}{without}"),
            );
        }
    }
}

#[cfg(test)]
mod tests {
    #[test]
    fn by_the_paper() {
        let script = super::script();
        let text = std::str::from_utf8(script.expected()).unwrap();
        let lines: Vec<&str> = text.lines().collect();
        for line in [
            "edition 1, nobody set: 0 kept",
            "edition 2, nobody set: 0 changed edition",
            "edition 2, good users: 0 changed users { 0 15 } edition",
            "edition 2, a ceiling of 4: 2 kept",
            "edition 1, a grade of 255: 2 kept",
            "edition 0, good users: 2 kept",
            "edition 3, two bad users: 2 kept",
            "edition 255, good users: 2 kept",
            "openr in edition 1: 0 by role 0",
            "openw in edition 2: 0 by role 0",
            "close in edition 2: 16",
            "seat 12 at 32: 0 by role 8",
            "openr in edition 3: 1",
            "share past a range in edition 0: 1",
            "share past a range in edition 2: 2",
            "login and one of no kind in edition 255: 1",
            "seat 13 reads 2, 0/0 at 0/0 in edition 1: 1",
            "seat 13 reads 2, 0/0 at 0/0 in edition 2: 0",
            "seat 13 reads 2, 0/0 at 0/0 in edition 3: 1",
            "seat 13 reads 2, 1/1 at 1/3 in edition 2: 1",
            "seat 13 reads 2, 1/3 at 1/1 in edition 2: 0",
            "seat 13 writes 2, 1/3 at 1/1 in edition 2: 1",
            "seat 1 writes 50, 0/0 at 0/0 in edition 2: 1",
            "seat 13 reads 50, 0/0 at 0/0 in edition 1: 0",
            "seat 13 reads 50 by other rights, 0/0 at 0/0 in edition 1: 1",
            "seat 13 reads 2 by a role not held, 0/0 at 0/0 in edition 2: 1",
            "seat 5 reads 50 by nothing, 0/0 at 0/0 in edition 2: 1",
            "seat 13 writes 50, 1/3 at 1/3 in edition 1: 0",
            "seat 13 writes 2 by other rights, 1/3 at 1/3 in edition 1: 1",
            "seat 5 writes 18 by a role not held, 0/0 at 0/0 in edition 2: 1",
            "seat 12 reading 0 in edition 1: 1",
            "seat 12 reading 0 in edition 2: 16",
            "  tables, edition 255",
            "join in edition 1: 22",
            "unjoin in edition 2: 16",
            "join past a range in edition 2: 2",
            "unjoin past a range in edition 3: 1",
            "5 above 6, both live: 5",
            "5 above 6, the senior live: 1",
            "5 above 6, the junior live: 1",
            "5 above 6, neither live: 1",
            "4 above 6, both live: 5",
            "4 above 6, the junior live: 5",
            "4 above 6, the senior live: 1",
            "6 above 4, the senior live: 5",
            "6 above 6, both live: 1",
            "0 above 0, neither live: 1",
            "5 above 9, both live: 1",
            "12 above 8, both live: 1",
            "8 above 12, neither live: 1",
            "chain [7, 5]: 5",
            "ring [7, 5]: 1",
            "chain [8, 10, 9]: 5",
            "ring [8, 10, 9]: 1",
            "chain [15, 12, 14, 13]: 5",
            "ring [15, 12, 14, 13]: 1",
            "13 reads by 14 in [13, 15, 12, 14]: 5",
            "13 reads by 14 in [13, 15, 12, 14] without 15 above 12: 1",
            "13 writes by 15 in [13, 15, 12, 14] without 15 above 12: 5",
            "12 writes by 13 in [13, 15, 12, 14]: 1",
            "12 writes by 12 in [13, 15, 12, 14] without 13 above 15: 5",
            "4 reads by 6 in [5, 7, 4, 6]: 5",
        ] {
            assert!(lines.contains(&line), "{line}");
        }
    }
}
