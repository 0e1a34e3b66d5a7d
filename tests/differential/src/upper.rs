//! "The upper part for a level L", and the isolation rule on two logs that have been run. Of document 02 it
//! has A.6: "The isolation rule's equal answers include the role"; A.8: "Ties among upper roles join the
//! upper part"; and A.13: "The edition joins the upper part, and the isolation rule speaks of both."

use crate::cases;
use crate::logs::{Asked, Log, Ran};
use crate::paper::{
    entity_level, role_level, seat_level, Field, Tables, EMPTY_ENTITY, EMPTY_ROLE, EMPTY_SEAT,
};
use crate::records;

/// "The upper part holds all users; the live mark, user and label of seats of level L and above; of what
/// those seats hold or have open, the roles and entities of level L and above; the live mark and list of
/// roles of level L and above, and their rights on entities of level L and above; the whole record of
/// entities of level L and above." And ties among these roles, and the edition. What does not belong to it
/// is empty here.
pub fn upper(level: usize, tables: &Tables) -> Tables {
    let mut upper = tables.clone();
    for seat in 0..16 {
        let record = &mut upper.seats[seat];
        if seat_level(seat) < level {
            *record = EMPTY_SEAT;
        }
        for role in (0..16).filter(|&role| role_level(role) < level) {
            record.roles[role] = false;
        }
        for entity in (0..64).filter(|&entity| entity_level(entity) < level) {
            record.reading[entity] = false;
            record.writing[entity] = false;
        }
    }
    for role in 0..16 {
        let record = &mut upper.roles[role];
        if role_level(role) < level {
            *record = EMPTY_ROLE;
        }
        for entity in (0..64).filter(|&entity| entity_level(entity) < level) {
            record.rights[entity] = 0;
        }
        for junior in (0..16).filter(|&junior| role_level(junior) < level) {
            record.juniors[junior] = false;
        }
    }
    for entity in (0..64).filter(|&entity| entity_level(entity) < level) {
        upper.entities[entity] = EMPTY_ENTITY;
    }
    upper
}

/// "A request belongs to the level of its acting seat, one of unknown kind too, a login to the level of the
/// seat it fills, and one whose seat is out of range to no level."
pub fn is_upper(level: usize, asked: &Asked) -> bool {
    asked.seat() <= 15 && seat_level(asked.seat()) >= level
}

/// Whether it names only what is upper. "A request names the seats, roles and entities whose numbers stand
/// in fields that it uses; one of unknown kind names only its seat. A role or entity number past its range
/// counts as upper".
pub fn names_upper(level: usize, asked: &Asked) -> bool {
    let Asked::Request(request) = asked else {
        return is_upper(level, asked);
    };
    request.call.uses().iter().all(|&field| {
        let number = request.at(field);
        match field {
            Field::Seat => is_upper(level, asked),
            Field::Role | Field::Junior => number > 15 || role_level(number) >= level,
            Field::Entity | Field::Parent => number > 63 || entity_level(number) >= level,
            _ => true,
        }
    })
}

/// The places of the log's upper requests.
pub fn places(level: usize, log: &Log) -> Vec<usize> {
    (0..log.entries.len())
        .filter(|&at| is_upper(level, &log.entries[at].asked))
        .collect()
}

/// The answers that were found equal, and how many of them told a role.
#[derive(Clone, Copy, Debug, PartialEq, Eq)]
pub struct Equal {
    pub answers: usize,
    pub roles: usize,
}

/// The isolation rule on two logs with the same upper requests: equal upper parts, and equal answers of the
/// upper requests that name only upper seats, roles and entities, the role included. What an upper read of
/// a lower entity tells may differ.
pub fn isolated(level: usize, logs: [&Log; 2], runs: [&Ran; 2]) -> Result<Equal, String> {
    let [first, second] = logs.map(|log| places(level, log));
    if first.len() != second.len() {
        return Err(String::from("the logs differ in their upper requests"));
    }
    let mut equal = Equal {
        answers: 0,
        roles: 0,
    };
    for (&one, &other) in first.iter().zip(&second) {
        let entry = &logs[0].entries[one];
        if entry.asked != logs[1].entries[other].asked {
            return Err(format!("{}: another upper request in the twin", entry.name));
        }
        if !names_upper(level, &entry.asked) {
            continue;
        }
        let told = |run: &Ran, at: usize| (run.answers[at], run.roles[at]);
        let (told, in_twin) = (told(runs[0], one), told(runs[1], other));
        if told != in_twin {
            let [told, in_twin] = [told, in_twin].map(|(answer, role)| cases::told(answer, role));
            return Err(format!("{}: {told}, in the twin {in_twin}", entry.name));
        }
        equal.answers += 1;
        equal.roles += usize::from(told.1.is_some());
    }
    for (one, other) in runs[0].tables.iter().zip(&runs[1].tables) {
        let (one, other) = (upper(level, one), upper(level, other));
        if one != other {
            let changes = records::changes(&one, &other);
            return Err(format!("upper part, in the twin:{changes}"));
        }
    }
    Ok(equal)
}

#[cfg(test)]
mod tests {
    use super::*;
    use crate::logs::Entry;
    use crate::paper::{fresh, Call, Request, UserRecord};

    fn request(call: Call, fields: &[(Field, usize)]) -> Asked {
        Asked::Request(Request::with(call, fields))
    }

    /// Changes of tables, and the last level for which each shows.
    #[test]
    fn what_belongs_to_the_upper_part() {
        type Change = fn(&mut Tables);
        let changes: [(usize, Change); 21] = [
            (3, |t| t.users[0].ceiling = 1),
            (3, |t| t.edition = 2),
            (0, |t| t.seats[3].live = true),
            (2, |t| t.seats[8].live = true),
            (1, |t| t.seats[7].label.cats = 1),
            (3, |t| t.seats[12].user = 1),
            (1, |t| t.seats[15].roles[4] = true),
            (1, |t| t.seats[4].roles[15] = true),
            // What a seat reads or writes below L is not in it.
            (0, |t| t.seats[15].reading[15] = true),
            (2, |t| t.seats[15].reading[47] = true),
            (1, |t| t.seats[15].writing[16] = true),
            (2, |t| t.seats[8].reading[63] = true),
            (2, |t| t.roles[11].users[0] = true),
            (0, |t| t.roles[12].rights[0] = 1),
            (3, |t| t.roles[12].rights[48] = 1),
            (0, |t| t.roles[0].juniors[3] = true),
            (2, |t| t.roles[11].juniors[9] = true),
            (3, |t| t.roles[12].juniors[15] = true),
            // No sound tables have one like it.
            (1, |t| t.roles[12].juniors[4] = true),
            (1, |t| t.entities[16].shared = 1),
            (3, |t| t.entities[63].name = 1),
        ];
        let tables = fresh(&[UserRecord::default(); 16], 1);
        for (place, (last, change)) in changes.into_iter().enumerate() {
            let mut changed = tables.clone();
            change(&mut changed);
            for level in 0..4 {
                let same = upper(level, &tables) == upper(level, &changed);
                assert_eq!(same, level > last, "change {place}, level {level}");
            }
        }
    }

    #[test]
    fn what_requests_name() {
        let openr = |seat, entity| {
            let named = [(Field::Seat, seat), (Field::Entity, entity)];
            request(Call::Openr, &named)
        };
        assert!(is_upper(3, &openr(12, 0)) && !is_upper(3, &openr(11, 48)));
        assert!(!is_upper(1, &openr(16, 48)));
        assert!(names_upper(2, &openr(12, 32)) && !names_upper(3, &openr(12, 32)));
        assert!(names_upper(3, &openr(12, 64)) && !names_upper(1, &openr(3, 64)));
        let no_kind = |seat| Asked::NoKind { call: 19, seat };
        assert!(names_upper(3, &no_kind(12)) && !names_upper(3, &no_kind(11)));
        let create = |parent| {
            let named = [
                (Field::Seat, 12),
                (Field::Role, 12),
                (Field::Entity, 49),
                (Field::Parent, parent),
            ];
            request(Call::Create, &named)
        };
        assert!(names_upper(3, &create(48)) && !names_upper(3, &create(47)));
        // A field that it does not use is not looked at.
        let logout = request(Call::Logout, &[(Field::Seat, 12), (Field::Role, 0)]);
        assert!(names_upper(3, &logout));
        assert!(!names_upper(3, &request(Call::Take, &[(Field::Seat, 12)])));
        let tie = |call, senior, junior| {
            let named = [
                (Field::Seat, 12),
                (Field::Role, senior),
                (Field::Junior, junior),
            ];
            request(call, &named)
        };
        for call in [Call::Join, Call::Unjoin] {
            assert!(names_upper(3, &tie(call, 12, 15)) && !names_upper(3, &tie(call, 12, 11)));
            assert!(names_upper(2, &tie(call, 12, 11)) && !names_upper(3, &tie(call, 11, 12)));
            assert!(names_upper(3, &tie(call, 16, 16)));
        }
    }

    #[test]
    fn what_is_not_isolated() {
        let login = request(Call::Login, &[(Field::Seat, 12)]);
        let lower = request(Call::Login, &[]);
        let tables = fresh(&[UserRecord::default(); 16], 2);
        let log = |asked: &[Asked]| {
            let entries = asked.iter().map(|&asked| Entry {
                name: String::from("1"),
                asked,
            });
            Log {
                users: tables.users,
                edition: 2,
                entries: entries.collect(),
            }
        };
        let ran = |answers: &[usize], tables: &Tables| Ran {
            answers: answers.to_vec(),
            roles: vec![None; answers.len()],
            tables: vec![tables.clone()],
        };
        let check = |one: &[Asked], other: &[Asked], first: Ran, second: Ran| {
            isolated(3, [&log(one), &log(other)], [&first, &second])
        };
        let (one, both) = (&[login][..], &[lower, login][..]);
        let answering = |answer| check(one, both, ran(&[4], &tables), ran(&[0, answer], &tables));
        let equal = |answers, roles| Ok(Equal { answers, roles });
        assert_eq!(answering(4), equal(1, 0));
        assert!(answering(0).is_err());
        assert!(check(one, &[lower], ran(&[4], &tables), ran(&[4], &tables)).is_err());
        for change in [
            |t: &mut Tables| t.edition = 1,
            |t: &mut Tables| t.seats[12].live = true,
        ] {
            let mut changed = tables.clone();
            change(&mut changed);
            assert!(check(one, one, ran(&[0], &tables), ran(&[0], &changed)).is_err());
        }
        // The role of an upper open counts, unless what is opened is lower.
        let openr = |entity| {
            let named = [(Field::Seat, 12), (Field::Entity, entity)];
            [request(Call::Openr, &named)]
        };
        let telling = |entity, roles: [Option<usize>; 2]| {
            let runs = roles.map(|role| Ran {
                roles: vec![role],
                ..ran(&[0], &tables)
            });
            let [first, second] = runs;
            check(&openr(entity), &openr(entity), first, second)
        };
        assert_eq!(telling(48, [Some(12), Some(12)]), equal(1, 1));
        assert_eq!(telling(48, [None, None]), equal(1, 0));
        for roles in [[Some(12), Some(13)], [None, Some(12)], [Some(0), None]] {
            assert!(telling(48, roles).is_err());
            assert_eq!(telling(47, roles), equal(0, 0));
        }
    }
}
