//! Tables with a field changed, in either edition: "1 the tables are not sound", or the request's own
//! answer. In edition 2 "soundness drops the level condition on reading" (document 02, A.13), and nothing
//! else. Of an open it asks the read or write right (A.3), and not whether the entity is reached; of ties
//! that they "join live roles of one level and no role is below itself" (A.8).

use crate::cases::Script;
use crate::ends::{self, Open};
use crate::logs::Log;
use crate::paper::{
    self, depth, dominates, entity_level, has_right, role_level, seat_level, Tables, EDITIONS,
    READ, WRITE,
};
use crate::random::Random;
use crate::records::{self, Kind, KINDS};
use crate::ties::ties_behind;

/// How often the tables of a log's end are changed.
const TIMES: usize = 90;

type Situation = (&'static str, fn(&Tables) -> bool);

/// What these tables have to show of reading down.
pub static READING_DOWN: &[Situation] = &[
    ("edition 1, unsound for a read down alone", |t| {
        t.edition == 1 && !paper::sound(t) && paper::sound(&in_edition_2(t))
    }),
    ("edition 2, sound with a read down", |t| {
        t.edition == 2 && paper::sound(t) && ends::opens(t).any(|open| reads_down(&open))
    }),
    ("edition 2, unsound for a write up alone", |t| {
        let faulty = |open: &Open| writes_up(open) && open.has_right(t) && labels_allow(t, open);
        t.edition == 2 && alone(t, faulty)
    }),
    (
        "edition 2, unsound for the label of a read down alone",
        |t| {
            let faulty =
                |open: &Open| reads_down(open) && open.has_right(t) && !labels_allow(t, open);
            t.edition == 2 && alone(t, faulty)
        },
    ),
    (
        // Nobody has rights on it either.
        "edition 2, unsound for a read down of what is not live alone",
        |t| {
            let faulty = |open: &Open| reads_down(open) && !t.entities[open.entity].live;
            t.edition == 2 && alone(t, faulty)
        },
    ),
    ("another edition, unsound for that alone", |t| {
        !EDITIONS.contains(&t.edition) && paper::sound(&in_edition_2(t))
    }),
];

/// And of the rights behind opens.
pub static RIGHTS: &[Situation] = &[
    ("unsound for a read without the right alone", |t| {
        alone(t, |open| open.right == READ && lacks_right_alone(t, open))
    }),
    ("unsound for a write without the right alone", |t| {
        alone(t, |open| open.right == WRITE && lacks_right_alone(t, open))
    }),
    ("unsound for a read by the write right alone", |t| {
        alone(t, |open| open.right == READ && by_the_other(t, open))
    }),
    ("unsound for a write by the read right alone", |t| {
        alone(t, |open| open.right == WRITE && by_the_other(t, open))
    }),
    ("unsound for an open by a role not held alone", |t| {
        alone(t, |open| {
            let has = |role: usize| paper::has(t.roles[role].rights[open.entity], open.right);
            lacks_right_alone(t, open) && (0..16).any(has)
        })
    }),
    ("unsound for an open root without the right alone", |t| {
        alone(t, |open| {
            paper::is_root(open.entity) && lacks_right_alone(t, open)
        })
    }),
    (
        "edition 2, unsound for a read down without the right alone",
        |t| t.edition == 2 && alone(t, |open| reads_down(open) && lacks_right_alone(t, open)),
    ),
    ("sound with an open of what is not reached", |t| {
        let unreached = |open: Open| !paper::reaches(t, open.seat, open.entity);
        paper::sound(t) && ends::opens(t).any(unreached)
    }),
];

/// And of ties.
pub static TIES: &[Situation] = &[
    ("unsound for a tie to what is not live alone", |t| {
        by_one_tie(t, |senior, junior| {
            t.roles[senior].live && !t.roles[junior].live
        })
    }),
    ("unsound for a tie of what is not live alone", |t| {
        by_one_tie(t, |senior, junior| {
            !t.roles[senior].live && t.roles[junior].live
        })
    }),
    ("unsound for a tie down to another level alone", |t| {
        by_one_tie(t, |senior, junior| {
            both_live(t, senior, junior) && role_level(senior) > role_level(junior)
        })
    }),
    ("unsound for a tie up to another level alone", |t| {
        by_one_tie(t, |senior, junior| {
            both_live(t, senior, junior) && role_level(senior) < role_level(junior)
        })
    }),
    ("unsound for a tie to itself alone", |t| ring_alone(t, 1)),
    ("unsound for a ring of two alone", |t| ring_alone(t, 2)),
    ("unsound for a ring of three alone", |t| ring_alone(t, 3)),
    ("unsound for a ring of four alone", |t| ring_alone(t, 4)),
    ("unsound for an open whose tie is gone alone", |t| {
        with_one_tie_more(t, |changed| {
            alone(t, |open| {
                lacks_right_alone(t, open) && open.has_right(changed)
            })
        })
    }),
    (
        "unsound for an open by a role above a held one alone",
        |t| {
            alone(t, |open| {
                let has = |role: usize| paper::has(t.roles[role].rights[open.entity], open.right);
                let held_below = |above: usize| {
                    let held = &t.seats[open.seat].roles;
                    (0..16).any(|role| held[role] && depth(t, above, role).is_some())
                };
                lacks_right_alone(t, open) && (0..16).any(|role| has(role) && held_below(role))
            })
        },
    ),
    ("sound with an open by one tie", |t| sound_by_ties(t, 1)),
    ("sound with an open by two ties", |t| sound_by_ties(t, 2)),
    ("sound with an open by three ties", |t| sound_by_ties(t, 3)),
    ("sound with all ties that four roles can have", |t| {
        let ties = |level: usize| {
            let pairs = (0..16).map(|pair| (4 * level + pair / 4, 4 * level + pair % 4));
            pairs.filter(|&(s, j)| t.roles[s].juniors[j]).count()
        };
        paper::sound(t) && (0..4).any(|level| ties(level) == 6)
    }),
];

/// How often each of these came.
pub type Counts = [Vec<usize>; 3];

pub fn counts() -> Counts {
    [READING_DOWN, RIGHTS, TIES].map(|situations| vec![0; situations.len()])
}

fn both_live(tables: &Tables, one: usize, other: usize) -> bool {
    tables.roles[one].live && tables.roles[other].live
}

/// Unsound, and sound without one tie, from a role to another, that is so.
fn by_one_tie(tables: &Tables, so: impl Fn(usize, usize) -> bool) -> bool {
    !paper::sound(tables)
        && (0..256)
            .map(|pair| (pair / 16, pair % 16))
            .any(|(senior, junior)| {
                tables.roles[senior].juniors[junior] && so(senior, junior) && {
                    let mut without = tables.clone();
                    without.roles[senior].juniors[junior] = false;
                    paper::sound(&without)
                }
            })
}

/// The tie closes a ring of so many roles.
fn ring_alone(tables: &Tables, length: usize) -> bool {
    by_one_tie(tables, |senior, junior| {
        let others = if senior == junior {
            Some(0)
        } else {
            depth(tables, junior, senior)
        };
        others == Some(length - 1)
    })
}

/// It is so with one tie more, in a level and among live roles.
fn with_one_tie_more(tables: &Tables, so: impl Fn(&Tables) -> bool) -> bool {
    !paper::sound(tables)
        && (0..64).any(|pair| {
            let (senior, junior) = (pair / 4, pair / 16 * 4 + pair % 4);
            let mut changed = tables.clone();
            changed.roles[senior].juniors[junior] = true;
            both_live(tables, senior, junior) && changed != *tables && so(&changed)
        })
}

fn sound_by_ties(tables: &Tables, ties: usize) -> bool {
    paper::sound(tables) && ends::opens(tables).any(|open| ties_behind(tables, &open) == Some(ties))
}

fn in_edition_2(tables: &Tables) -> Tables {
    Tables {
        edition: 2,
        ..tables.clone()
    }
}

fn reads_down(open: &Open) -> bool {
    open.right == READ && entity_level(open.entity) < seat_level(open.seat)
}

fn writes_up(open: &Open) -> bool {
    open.right == WRITE && entity_level(open.entity) > seat_level(open.seat)
}

fn labels_allow(tables: &Tables, open: &Open) -> bool {
    let own = tables.seats[open.seat].label;
    let entity = tables.entities[open.entity].label;
    match open.right {
        READ => dominates(own, entity),
        _ => own == entity,
    }
}

/// The open has all that soundness asks, but for the right behind it.
fn lacks_right_alone(tables: &Tables, open: &Open) -> bool {
    let level_allows = match open.right {
        READ => tables.edition == 2 || !reads_down(open),
        _ => !writes_up(open),
    };
    tables.seats[open.seat].live
        && tables.entities[open.entity].live
        && level_allows
        && labels_allow(tables, open)
        && !open.has_right(tables)
}

/// And the seat has the other right of the two.
fn by_the_other(tables: &Tables, open: &Open) -> bool {
    let other = READ + WRITE - open.right;
    lacks_right_alone(tables, open) && has_right(tables, open.seat, open.entity, other)
}

/// Unsound, and sound without the opens that are so.
fn alone(tables: &Tables, so: impl Fn(&Open) -> bool) -> bool {
    let mut without = tables.clone();
    for open in ends::opens(tables).filter(so) {
        open.close(&mut without);
    }
    *tables != without && !paper::sound(tables) && paper::sound(&without)
}

/// Changes the script's tables so many times, and each time asks one of the log's requests and goes back.
/// Hands back how many were tables of each edition, and counts what they show.
pub fn ask(script: &mut Script, log: &Log, random: &mut Random, counts: &mut Counts) -> [usize; 2] {
    let mut asked = [0; 2];
    if log.entries.is_empty() {
        return asked;
    }
    script.keep();
    for time in 0..TIMES {
        if random.chance(1, 6) {
            let edition = random.pick(&[0, 1, 2, 3, 255]);
            script.set_edition(edition);
        }
        if random.chance(1, 3) {
            match random.below(3) {
                0 => move_down(script, random),
                _ => change_ties(script, random),
            }
        } else {
            for _ in 0..random.pick(&[1, 1, 1, 2]) {
                change(script, random);
            }
        }
        for (counts, situations) in counts.iter_mut().zip([READING_DOWN, RIGHTS, TIES]) {
            for (count, (_, shows)) in counts.iter_mut().zip(situations) {
                *count += usize::from(shows(&script.tables));
            }
        }
        if let Some(at) = EDITIONS.iter().position(|&of| of == script.tables.edition) {
            asked[at] += 1;
        }
        let entry = &log.entries[random.below(log.entries.len())];
        script.broken(&entry.asked, &format!("change {time}"));
    }
    asked
}

/// A field of some record at another number; often a seat's opens.
fn change(script: &mut Script, random: &mut Random) {
    let kind: &Kind = random.pick(&[
        &KINDS[0], &KINDS[0], &KINDS[0], &KINDS[1], &KINDS[2], &KINDS[3], &KINDS[3],
    ]);
    let field = match kind.word {
        "seat" if random.chance(2, 3) => random.pick(&["reading", "reading", "writing"]),
        _ => random.pick(kind.fields),
    };
    let live = |at: &usize| match kind.word {
        "user" => true,
        word => records::get(&script.tables, word, *at, "live") == 1,
    };
    let living: Vec<usize> = (0..kind.count).filter(live).collect();
    let at = if living.is_empty() || random.chance(1, 6) {
        random.below(kind.count)
    } else {
        random.pick(&living)
    };
    let old = records::get(&script.tables, kind.word, at, field);
    let value = match field {
        "live" => 1 - old,
        "roles" | "users" | "juniors" => old ^ 1 << random.below(16),
        "reading" | "writing" | "reads" | "writes" | "executes" | "owns" => {
            old ^ 1 << some_entity(&script.tables, at, field, random)
        }
        "name" | "cats" => random.pick(&[0, 1, 2, 3, 256, 65_535]),
        _ => random.pick(&[0, 1, 2, 3, 4, 15, 16, 32, 63, 64, 255]),
    };
    script.set(kind.word, at, field, &[value]);
}

/// Ties of a level that are there no longer, or others: between any two roles, in a chain or a ring of one to four, or
/// all that there can be without a ring. Mostly among roles that are live, for which some come to life.
fn change_ties(script: &mut Script, random: &mut Random) {
    let tied: Vec<usize> = (0..16)
        .filter(|&role| script.tables.roles[role].juniors.contains(&true))
        .collect();
    let level = match tied.is_empty() {
        false if random.chance(1, 2) => role_level(random.pick(&tied)),
        _ => random.below(4),
    };
    let mut roles: Vec<usize> = (4 * level..4 * level + 4).collect();
    random.shuffle(&mut roles);
    // From a role to another.
    let mut ties: Vec<(usize, usize)> = Vec::new();
    match random.below(8) {
        0 | 1 if !tied.is_empty() => {
            let senior = random.pick(&tied);
            let juniors = if random.chance(1, 2) {
                0
            } else {
                records::get(&script.tables, "role", senior, "juniors") & random.next()
            };
            script.set("role", senior, "juniors", &[juniors]);
            return;
        }
        0..=2 => {
            let other = random.below(16);
            ties.push(random.pick(&[(roles[0], other), (other, roles[0])]));
        }
        3..=6 => {
            roles.truncate(random.between(1, 4));
            for at in 0..roles.len() {
                ties.push((roles[at], roles[(at + 1) % roles.len()]));
            }
            if random.chance(1, 3) {
                ties.pop();
            }
        }
        _ => {
            for (at, &senior) in roles.iter().enumerate() {
                ties.extend(roles[at + 1..].iter().map(|&junior| (senior, junior)));
            }
        }
    }
    let others_stay = random.chance(1, 2);
    let all_live = random.chance(5, 6);
    for &role in &roles {
        if !script.tables.roles[role].live && all_live {
            script.set("role", role, "live", &[1]);
        }
        if !others_stay {
            script.set("role", role, "juniors", &[0]);
        }
    }
    for (senior, junior) in ties {
        let juniors = records::get(&script.tables, "role", senior, "juniors");
        script.set("role", senior, "juniors", &[juniors | 1 << junior]);
    }
}

/// The right behind an open goes from a role to one that some ties lead to; sometimes one of the ties is missing.
fn move_down(script: &mut Script, random: &mut Random) {
    let opens: Vec<Open> = ends::opens(&script.tables).collect();
    if opens.is_empty() {
        return;
    }
    let open = random.pick(&opens);
    let field = match open.right {
        READ => "reads",
        _ => "writes",
    };
    let entity = 1u64 << open.entity;
    let having: Vec<usize> = (0..16)
        .filter(|&role| records::get(&script.tables, "role", role, field) & entity != 0)
        .collect();
    let held: Vec<usize> = (0..16)
        .filter(|&role| {
            let level_allows = role_level(role) >= entity_level(open.entity);
            script.tables.seats[open.seat].roles[role] && level_allows
        })
        .collect();
    // An open by nothing is not sound in any case.
    if held.is_empty() {
        return;
    }
    for role in having {
        let rights = records::get(&script.tables, "role", role, field);
        script.set("role", role, field, &[rights & !entity]);
    }
    let first = random.pick(&held);
    let level = role_level(first);
    let mut roles: Vec<usize> = (4 * level..4 * level + 4).collect();
    random.shuffle(&mut roles);
    roles.retain(|&role| role != first);
    roles.insert(0, first);
    let ties = random.between(1, 3);
    let missing = random.pick(&[0, ties, ties + 1]);
    for (at, &role) in roles.iter().enumerate() {
        script.set("role", role, "live", &[1]);
        let junior = match at < ties && at + 1 != missing {
            true => 1 << roles[at + 1],
            false => 0,
        };
        script.set("role", role, "juniors", &[junior]);
    }
    let last = roles[ties];
    let rights = records::get(&script.tables, "role", last, field);
    script.set("role", last, field, &[rights | entity]);
}

/// Of the entities any one, a live one, or one on which the seat has the right of the open that is changed, or the other
/// right. There is always a live one.
fn some_entity(tables: &Tables, at: usize, field: &str, random: &mut Random) -> usize {
    let right = match (field, random.below(8)) {
        (_, 0) => return random.below(64),
        ("reading", 1..=3) | ("writing", 4) => Some(READ),
        ("writing", 1..=3) | ("reading", 4) => Some(WRITE),
        _ => None,
    };
    let entities = |so: &dyn Fn(usize) -> bool| (0..64).filter(|&e| so(e)).collect::<Vec<_>>();
    let mut among = Vec::new();
    if let Some(right) = right {
        among = entities(&|entity| has_right(tables, at, entity, right));
    }
    if among.is_empty() {
        among = entities(&|entity| tables.entities[entity].live);
    }
    random.pick(&among)
}

#[cfg(test)]
mod tests {
    use super::*;
    use crate::paper::{fresh, UserRecord};

    fn shown(tables: &Tables) -> Vec<&'static str> {
        let shows = TIES.iter().filter(|(_, shows)| shows(tables));
        shows.map(|(name, _)| *name).collect()
    }

    #[test]
    fn changed_ties() {
        let mut tables = fresh(&[UserRecord::default(); 16], 1);
        for role in [13, 14, 15, 9] {
            tables.roles[role].live = true;
        }
        let shows = |ties: &[(usize, usize)], names: &[&str]| {
            let mut tables = tables.clone();
            for &(senior, junior) in ties {
                tables.roles[senior].juniors[junior] = true;
            }
            assert_eq!(shown(&tables), names, "{ties:?}");
        };
        shows(&[(13, 14)], &[]);
        shows(&[(8, 10)], &["unsound for a tie to what is not live alone"]);
        shows(&[(10, 8)], &["unsound for a tie of what is not live alone"]);
        shows(
            &[(13, 9)],
            &["unsound for a tie down to another level alone"],
        );
        shows(&[(9, 13)], &["unsound for a tie up to another level alone"]);
        shows(&[(9, 9)], &["unsound for a tie to itself alone"]);
        shows(&[(13, 14), (14, 13)], &["unsound for a ring of two alone"]);
        shows(
            &[(13, 14), (14, 12), (12, 13)],
            &["unsound for a ring of three alone"],
        );
        let four = [(13, 14), (14, 12), (12, 15), (15, 13)];
        shows(&four, &["unsound for a ring of four alone"]);
        let two_rings = [(13, 14), (14, 13), (12, 15), (15, 12)];
        shows(&two_rings, &[]);
        let all = [(13, 14), (13, 12), (13, 15), (14, 12), (14, 15), (12, 15)];
        shows(&all, &["sound with all ties that four roles can have"]);
        // An open by the last of a chain, with the chain, without a tie of it, and the other way round.
        tables.seats[12].live = true;
        tables.seats[12].roles[13] = true;
        tables.seats[12].reading[48] = true;
        let chain = [(13, 14), (14, 15), (15, 12)];
        for (place, name) in [
            "sound with an open by one tie",
            "sound with an open by two ties",
            "sound with an open by three ties",
        ]
        .into_iter()
        .enumerate()
        {
            let mut tables = tables.clone();
            tables.roles[12].rights[48] = 0;
            tables.roles[chain[place].1].rights[48] = READ;
            for (senior, junior) in chain {
                tables.roles[senior].juniors[junior] = true;
            }
            assert_eq!(shown(&tables), [name]);
            tables.roles[13].juniors[14] = false;
            let gone = "unsound for an open whose tie is gone alone";
            assert!(shown(&tables).contains(&gone));
        }
        tables.roles[12].juniors[13] = true;
        let above = "unsound for an open by a role above a held one alone";
        assert!(shown(&tables).contains(&above));
    }
}
