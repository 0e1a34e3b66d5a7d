//! What a run has to come across with senior and junior roles (document 02, A.8): "a master adjuster should have what an
//! adjuster has without a second list".

use crate::ends::{self, Open};
use crate::paper::{
    self, depth, is_below, role_has, Call, Field, Request, Side, Tables, EXECUTE, OWN, READ, WRITE,
};

pub struct Situation {
    pub calls: &'static [Call],
    pub name: &'static str,
    shows: fn(&Look) -> bool,
}

const OPENING: &[Call] = &[Call::Openr, Call::Openw];
const OWNING: &[Call] = &[Call::Grant, Call::Revoke, Call::Share];
const IN_SHARED: &[Call] = &[Call::Delete, Call::Rename];
const IN_PARENT: &[Call] = &[Call::Create, Call::Delete, Call::Rename];
/// Those that need a keeper.
const KEEPING: &[Call] = &[
    Call::List,
    Call::Unlist,
    Call::Make,
    Call::Unmake,
    Call::Join,
    Call::Unjoin,
];
const CREATE: &[Call] = &[Call::Create];
const TAKE: &[Call] = &[Call::Take];
const DROP: &[Call] = &[Call::Drop];
const GRANT: &[Call] = &[Call::Grant];
const REVOKE: &[Call] = &[Call::Revoke];
const UNMAKE: &[Call] = &[Call::Unmake];
const JOIN: &[Call] = &[Call::Join];
const UNJOIN: &[Call] = &[Call::Unjoin];

const fn situation(
    calls: &'static [Call],
    name: &'static str,
    shows: fn(&Look) -> bool,
) -> Situation {
    Situation { calls, name, shows }
}

/// At most 64.
pub static SITUATIONS: &[Situation] = &[
    // A right by ties, for every use of one.
    situation(OPENING, "the right by one tie", |at| at.opened_by(1)),
    situation(OPENING, "the right by two ties", |at| at.opened_by(2)),
    situation(OPENING, "the right by three ties", |at| at.opened_by(3)),
    situation(OPENING, "the right by two juniors of one role", |at| {
        at.done() && at.by_ties(at.entity(), at.right()) && {
            let gives = |junior| role_has(at.before, junior, at.entity(), at.right());
            (0..16).any(|held| {
                let juniors = at.before.roles[held].juniors;
                at.holds(held) && (0..16).filter(|&j| juniors[j] && gives(j)).count() > 1
            })
        }
    }),
    situation(OPENING, "reached by ties alone", |at| {
        let mut above = at.entity();
        at.done()
            && loop {
                if paper::is_root(above) {
                    break false;
                }
                above = at.before.entities[above].parent;
                if at.by_ties(above, EXECUTE) {
                    break true;
                }
            }
    }),
    situation(
        OPENING,
        "13 for the right alone, one above a held role having it",
        |at| {
            at.meets_one("x lacks read on e") && at.one_above_has(READ)
                || at.meets_one("x lacks write on e") && at.one_above_has(WRITE)
        },
    ),
    situation(OWNING, "own by ties alone", |at| {
        at.done() && at.by_ties(at.entity(), OWN)
    }),
    situation(OWNING, "13 alone, one above a held role having own", |at| {
        at.meets_one("x lacks own on e") && at.one_above_has(OWN)
    }),
    situation(IN_SHARED, "own by ties alone, the parent shared", |at| {
        let parent = at.before.entities[at.entity()].parent;
        at.done() && at.before.entities[parent].shared == 1 && at.by_ties(at.entity(), OWN)
    }),
    situation(IN_PARENT, "execute on the parent by ties alone", |at| {
        let parent = match at.request.call {
            Call::Create => at.request.at(Field::Parent),
            _ => at.before.entities[at.entity()].parent,
        };
        at.done() && at.by_ties(parent, EXECUTE)
    }),
    // The role that is told.
    situation(
        OPENING,
        "tells the held role, a lower-numbered one below it having the right",
        |at| {
            at.tells_by_ties(|told, below| {
                below < told && !at.holds(below) && at.in_record(below, at.entity(), at.right())
            })
        },
    ),
    situation(
        OPENING,
        "tells the senior, a higher-numbered one below it having the right and being held",
        |at| {
            at.tells_by_ties(|told, below| {
                below > told && at.holds(below) && at.in_record(below, at.entity(), at.right())
            })
        },
    ),
    situation(
        OPENING,
        "tells a junior, a higher-numbered one above it being held",
        |at| {
            at.told.is_some_and(|told| {
                (told + 1..16).any(|above| at.holds(above) && is_below(at.before, told, above))
            })
        },
    ),
    // What a tie does not give.
    situation(
        TAKE,
        "12 alone, the user listed for a role below it",
        |at| at.meets(12) && at.listed_for(|role| is_below(at.before, role, at.role())),
    ),
    situation(
        TAKE,
        "12 alone, the user listed for a role above it",
        |at| at.meets(12) && at.listed_for(|role| is_below(at.before, at.role(), role)),
    ),
    situation(DROP, "16 alone, a role above it held", |at| {
        at.meets(16) && at.holds_above(at.role())
    }),
    situation(CREATE, "12 alone, a role above the named one held", |at| {
        at.meets(12) && at.holds_above(at.role())
    }),
    situation(CREATE, "12 alone, a role below the named one held", |at| {
        at.meets(12) && (0..16).any(|role| at.holds(role) && is_below(at.before, role, at.role()))
    }),
    situation(KEEPING, "12 alone, a role above the keeper held", |at| {
        at.meets(12) && at.holds_above(paper::keeper_of(at.role()))
    }),
    // What else ends opens, or does not.
    situation(DROP, "ends an open that rests on ties", |at| {
        at.ends(|open| at.rests_on(open) > 0)
    }),
    situation(DROP, "an open stays by the ties of another role", |at| {
        at.stays(|open| at.gave(open) && ties_behind(at.after, open) > Some(0))
    }),
    situation(
        GRANT,
        "gives a right to a seat that holds a role above the named one alone",
        |at| {
            let (role, entity) = (at.role(), at.entity());
            at.done()
                && [READ, WRITE, EXECUTE, OWN].iter().any(|&right| {
                    (0..16).any(|seat| {
                        !at.before.seats[seat].roles[role]
                            && !paper::has_right(at.before, seat, entity, right)
                            && paper::has_right(at.after, seat, entity, right)
                    })
                })
        },
    ),
    situation(
        REVOKE,
        "ends an open of a seat that holds a role above the named one alone",
        |at| at.ends(|open| !at.before.seats[open.seat].roles[at.role()]),
    ),
    situation(
        REVOKE,
        "an open stays that a role below the named one has the right for",
        |at| {
            let held = |open: &Open| at.before.seats[open.seat].roles[at.role()];
            let (before, after) = (&at.before.roles, &at.after.roles);
            let taken = |open: &Open| {
                let rights = [before, after].map(|roles| roles[at.role()].rights[open.entity]);
                paper::has(rights[0], open.right) && !paper::has(rights[1], open.right)
            };
            at.stays(|open| {
                held(open) && taken(open) && role_has(at.after, at.role(), open.entity, open.right)
            })
        },
    ),
    situation(UNMAKE, "15 alone, above one and below another", |at| {
        at.meets(15) && at.met.count_ones() == 2
    }),
    situation(UNMAKE, "6 of a keeper with a senior", |at| {
        at.answer() == 6 && (0..16).any(|role| at.before.roles[role].juniors[at.role()])
    }),
    situation(UNMAKE, "6 of a keeper with a junior", |at| {
        at.answer() == 6 && at.before.roles[at.role()].juniors.contains(&true)
    }),
    // Ties made.
    situation(JOIN, "22 alone, one role", |at| {
        at.meets_one("the two are one role")
    }),
    situation(JOIN, "22 alone, by one tie", |at| at.ring(1)),
    situation(JOIN, "22 alone, by two ties", |at| at.ring(2)),
    situation(JOIN, "22 alone, by three ties", |at| at.ring(3)),
    situation(JOIN, "done, the junior below already", |at| {
        at.done() && is_below(at.before, at.junior(), at.role())
    }),
    situation(JOIN, "done, the junior having another senior", |at| {
        at.done() && (0..16).any(|role| at.before.roles[role].juniors[at.junior()])
    }),
    situation(JOIN, "done, the senior having another junior", |at| {
        at.done() && at.before.roles[at.role()].juniors.contains(&true)
    }),
    situation(JOIN, "done, below a keeper", |at| {
        at.done() && paper::is_keeper(at.role())
    }),
    situation(JOIN, "done, above a keeper", |at| {
        at.done() && paper::is_keeper(at.junior())
    }),
    situation(JOIN, "gives a right to a seat two ties up", |at| {
        at.done() && at.gives_above()
    }),
    situation(JOIN, "16, the junior below by other ties as well", |at| {
        at.meets(16) && at.other_way(at.before)
    }),
    // Ties ended.
    situation(UNJOIN, "16 alone, the junior below by others", |at| {
        at.meets(16) && is_below(at.before, at.junior(), at.role())
    }),
    situation(UNJOIN, "16 alone, one role", |at| {
        at.meets(16) && at.role() == at.junior()
    }),
    situation(UNJOIN, "16 alone, a tie the other way round", |at| {
        at.meets(16) && at.before.roles[at.junior()].juniors[at.role()]
    }),
    situation(UNJOIN, "done, the junior below still", |at| {
        at.done() && is_below(at.after, at.junior(), at.role())
    }),
    situation(UNJOIN, "ends an open that rests on one tie", |at| {
        at.ends(|open| at.rests_on(open) == 1)
    }),
    situation(UNJOIN, "ends an open that rests on two ties", |at| {
        at.ends(|open| at.rests_on(open) == 2)
    }),
    situation(UNJOIN, "ends an open that rests on three ties", |at| {
        at.ends(|open| at.rests_on(open) == 3)
    }),
    situation(
        UNJOIN,
        "ends an open of a seat that holds a role above the senior alone",
        |at| at.ends(|open| !at.before.seats[open.seat].roles[at.role()]),
    ),
    situation(UNJOIN, "an open stays by another way of ties", |at| {
        at.stays(|open| at.went_by_the_tie(open) && ties_behind(at.after, open) > Some(0))
    }),
    situation(
        UNJOIN,
        "an open stays by the record of a role above the tie",
        |at| at.stays(|open| at.went_by_the_tie(open) && ties_behind(at.after, open) == Some(0)),
    ),
];

/// By how many ties, at the fewest, a role that the seat holds has the right: 0 for one that has it in its record.
pub fn ties_to(tables: &Tables, seat: usize, entity: usize, right: usize) -> Option<usize> {
    let having = |role: &usize| paper::has(tables.roles[*role].rights[entity], right);
    let held = |role: &usize| {
        tables.seats[seat].roles[*role] && paper::role_level(*role) >= paper::entity_level(entity)
    };
    let ties = |held: usize, role: usize| {
        if held == role {
            Some(0)
        } else {
            depth(tables, held, role)
        }
    };
    (0..16)
        .filter(held)
        .flat_map(|held| {
            let having = (0..16).filter(having);
            having.filter_map(move |role| ties(held, role))
        })
        .min()
}

/// The same for the right behind an open.
pub fn ties_behind(tables: &Tables, open: &Open) -> Option<usize> {
    ties_to(tables, open.seat, open.entity, open.right)
}

/// A request, the tables before and after it, and the role that it tells.
pub struct Look<'a> {
    pub before: &'a Tables,
    pub request: &'a Request,
    pub met: u32,
    pub told: Option<usize>,
    pub after: &'a Tables,
}

impl Look<'_> {
    fn seat(&self) -> usize {
        self.request.at(Field::Seat)
    }

    /// The role, which is the senior of a tie.
    fn role(&self) -> usize {
        self.request.at(Field::Role)
    }

    fn junior(&self) -> usize {
        self.request.at(Field::Junior)
    }

    fn entity(&self) -> usize {
        self.request.at(Field::Entity)
    }

    /// The right that an open asks for.
    fn right(&self) -> usize {
        match self.request.call {
            Call::Openr => READ,
            _ => WRITE,
        }
    }

    fn done(&self) -> bool {
        self.met == 0
    }

    fn answer(&self) -> usize {
        paper::answer(self.request.call, self.met)
    }

    fn sides(&self) -> impl Iterator<Item = &'static Side> + '_ {
        let sides = paper::sides(self.request.call).iter().enumerate();
        sides
            .filter(|(bit, _)| self.met & (1 << bit) != 0)
            .map(|(_, side)| side)
    }

    /// Sides of this number are met, and no others.
    fn meets(&self, number: usize) -> bool {
        self.met != 0 && self.sides().all(|side| side.number == number)
    }

    fn meets_one(&self, text: &str) -> bool {
        self.sides().map(|side| side.text).eq([text])
    }

    fn holds(&self, role: usize) -> bool {
        self.before.seats[self.seat()].roles[role]
    }

    fn holds_above(&self, role: usize) -> bool {
        (0..16).any(|above| self.holds(above) && is_below(self.before, role, above))
    }

    fn in_record(&self, role: usize, entity: usize, right: usize) -> bool {
        paper::has(self.before.roles[role].rights[entity], right)
    }

    /// The seat has the right, and none of the roles that it holds has it in its record.
    fn by_ties(&self, entity: usize, right: usize) -> bool {
        ties_to(self.before, self.seat(), entity, right) > Some(0)
    }

    fn opened_by(&self, ties: usize) -> bool {
        let behind = ties_to(self.before, self.seat(), self.entity(), self.right());
        self.done() && behind == Some(ties)
    }

    /// A role has the right on the entity that stands above one which the seat holds.
    fn one_above_has(&self, right: usize) -> bool {
        (0..16).any(|above| {
            self.in_record(above, self.entity(), right)
                && (0..16).any(|held| self.holds(held) && is_below(self.before, held, above))
        })
    }

    /// A role is told that has the right by ties alone, and one below it is so.
    fn tells_by_ties(&self, so: impl Fn(usize, usize) -> bool) -> bool {
        self.told.is_some_and(|told| {
            !self.in_record(told, self.entity(), self.right())
                && (0..16).any(|below| is_below(self.before, below, told) && so(told, below))
        })
    }

    /// The seat's user is listed for a role that is so.
    fn listed_for(&self, so: impl Fn(usize) -> bool) -> bool {
        let user = self.before.seats[self.seat()].user;
        (0..16).any(|role| self.before.roles[role].users[user] && so(role))
    }

    /// Refused for a ring alone, which would go over so many ties that there are.
    fn ring(&self, ties: usize) -> bool {
        self.meets(22) && depth(self.before, self.junior(), self.role()) == Some(ties)
    }

    /// The junior is below the senior without the very tie.
    fn other_way(&self, tables: &Tables) -> bool {
        let mut without = tables.clone();
        without.roles[self.role()].juniors[self.junior()] = false;
        is_below(&without, self.junior(), self.role())
    }

    /// A seat that holds a role above the senior, and not the senior, has a right that it had not.
    fn gives_above(&self) -> bool {
        (0..16).any(|seat| {
            let held = &self.before.seats[seat].roles;
            let above = |role: usize| held[role] && is_below(self.before, self.role(), role);
            !held[self.role()]
                && (0..16).any(above)
                && (0..64).any(|entity| {
                    [READ, WRITE, EXECUTE, OWN].iter().any(|&right| {
                        let has = |tables| paper::has_right(tables, seat, entity, right);
                        !has(self.before) && has(self.after)
                    })
                })
        })
    }

    /// An open ends that is so.
    fn ends(&self, so: impl Fn(&Open) -> bool) -> bool {
        self.done() && ends::opens(self.before).any(|open| !open.is_in(self.after) && so(&open))
    }

    /// An open is there before and after that is so.
    fn stays(&self, so: impl Fn(&Open) -> bool) -> bool {
        self.done() && ends::opens(self.before).any(|open| open.is_in(self.after) && so(&open))
    }

    /// By how many ties, at the fewest, the seat had the right of the open.
    fn rests_on(&self, open: &Open) -> usize {
        ties_behind(self.before, open).unwrap_or(0)
    }

    /// The role gave the right of the open before, and no longer does.
    fn gave(&self, open: &Open) -> bool {
        let gives = |tables| paper::gives(tables, open.seat, self.role(), open.entity, open.right);
        gives(self.before) && !gives(self.after)
    }

    /// The seat had the right by the tie that is named, whatever other ways there are.
    fn went_by_the_tie(&self, open: &Open) -> bool {
        let at_the_tie =
            |role: usize| role == self.role() || is_below(self.before, self.role(), role);
        role_has(self.before, self.junior(), open.entity, open.right)
            && (0..16).any(|role| self.before.seats[open.seat].roles[role] && at_the_tie(role))
    }
}

/// What the request shows: bit i for `SITUATIONS[i]`. A number past its range shows nothing.
pub fn situations(look: &Look) -> u64 {
    if look.answer() == 2 {
        return 0;
    }
    let mut situations = 0;
    for (bit, situation) in SITUATIONS.iter().enumerate() {
        if situation.calls.contains(&look.request.call) && (situation.shows)(look) {
            situations |= 1 << bit;
        }
    }
    situations
}

#[cfg(test)]
mod tests {
    use super::*;
    use crate::paper::{fresh, EntityRecord, UserRecord, EMPTY_ENTITY};

    /// Roles 12 to 15 with these ties and these rights on the object 49, which lies in root 48. Seat 12 holds the first
    /// roles given, and has the object open where it may; seat 13 holds the keeper, role 12, which has all rights on the
    /// root.
    fn tables(ties: &[(usize, usize)], rights: [usize; 4], held: &[usize]) -> Tables {
        let mut tables = fresh(&[UserRecord::default(); 16], 1);
        tables.entities[49] = EntityRecord {
            live: true,
            parent: 48,
            name: 1,
            ..EMPTY_ENTITY
        };
        for (role, rights) in (12..).zip(rights) {
            tables.roles[role].live = true;
            tables.roles[role].rights[49] = rights;
        }
        for &(senior, junior) in ties {
            tables.roles[senior].juniors[junior] = true;
        }
        for seat in [12, 13] {
            tables.seats[seat].live = true;
        }
        for &role in held {
            tables.seats[12].roles[role] = true;
        }
        tables.seats[13].roles[12] = true;
        assert!(paper::sound(&tables));
        tables
    }

    fn open_object(tables: &mut Tables) {
        tables.seats[12].reading[49] = paper::has_right(tables, 12, 49, READ);
        tables.seats[12].writing[49] = paper::has_right(tables, 12, 49, WRITE);
        assert!(paper::sound(tables));
    }

    /// What the request shows, with its answer.
    fn shown(tables: &Tables, request: &Request) -> (usize, Vec<&'static str>) {
        let mut after = tables.clone();
        let met = paper::met(tables, request);
        let answer = paper::answer(request.call, met);
        if answer == 0 {
            paper::done(&mut after, request);
        }
        let shown = situations(&Look {
            before: tables,
            request,
            met,
            told: paper::told(tables, request, answer),
            after: &after,
        });
        let places = (0..SITUATIONS.len()).filter(|place| shown & (1 << place) != 0);
        (answer, places.map(|place| SITUATIONS[place].name).collect())
    }

    fn at_object(call: Call, seat: usize) -> Request {
        Request::with(call, &[(Field::Seat, seat), (Field::Entity, 49)])
    }

    fn with_role(call: Call, seat: usize, role: usize) -> Request {
        Request::with(call, &[(Field::Seat, seat), (Field::Role, role)])
    }

    fn tie(call: Call, senior: usize, junior: usize) -> Request {
        let mut request = with_role(call, 13, senior);
        request.set(Field::Junior, junior);
        request
    }

    const CHAIN: [(usize, usize); 3] = [(13, 14), (14, 15), (15, 12)];

    #[test]
    fn rights_by_ties() {
        let names = [
            "the right by one tie",
            "the right by two ties",
            "the right by three ties",
        ];
        let openr = at_object(Call::Openr, 12);
        for (place, name) in names.into_iter().enumerate() {
            let mut rights = [0; 4];
            rights[[2, 3, 0][place]] = READ;
            let tables = tables(&CHAIN, rights, &[13]);
            let (answer, shown) = shown(&tables, &openr);
            assert_eq!(answer, 0);
            for other in names {
                assert_eq!(shown.contains(&other), other == name);
            }
            // Reached by role 12, the last.
            assert!(shown.contains(&"reached by ties alone"));
            let lower = "tells the held role, a lower-numbered one below it having the right";
            assert_eq!(shown.contains(&lower), place == 2);
        }
        let own = tables(&CHAIN, [0, READ, 0, 0], &[13]);
        assert_eq!(shown(&own, &openr), (0, vec!["reached by ties alone"]));
        let above = tables(&CHAIN, [0, READ, 0, 0], &[15]);
        let lacking = "13 for the right alone, one above a held role having it";
        assert_eq!(shown(&above, &openr), (13, vec![lacking]));
        let both = tables(&[(13, 14), (13, 15), (13, 12)], [0, 0, READ, READ], &[13]);
        let ways = "the right by two juniors of one role";
        assert!(shown(&both, &openr).1.contains(&ways));
        let one = tables(&[(13, 14), (13, 15), (13, 12)], [0, 0, 0, READ], &[13]);
        assert!(!shown(&one, &openr).1.contains(&ways));
        let share = |rights| {
            let tables = tables(&CHAIN, rights, &[13]);
            let mut grant = at_object(Call::Grant, 12);
            grant.set(Field::Role, 13);
            grant.set(Field::Rights, READ);
            shown(&tables, &grant)
        };
        assert_eq!(share([OWN, 0, 0, 0]), (0, vec!["own by ties alone"]));
        assert_eq!(share([OWN, OWN, 0, 0]), (0, vec![]));
    }

    #[test]
    fn the_role_told() {
        let told = |ties: &[(usize, usize)], rights, held: &[usize]| {
            let shown = shown(&tables(ties, rights, held), &at_object(Call::Openr, 12));
            assert_eq!(shown.0, 0);
            let tells = shown.1.into_iter().filter(|name| name.starts_with("tells"));
            tells.collect::<Vec<_>>()
        };
        let lower = "tells the held role, a lower-numbered one below it having the right";
        let senior =
            "tells the senior, a higher-numbered one below it having the right and being held";
        let junior = "tells a junior, a higher-numbered one above it being held";
        let reach = EXECUTE;
        assert_eq!(told(&[(13, 12)], [READ, 0, 0, 0], &[13]), [lower]);
        assert_eq!(
            told(&[(13, 14), (13, 12)], [reach, 0, READ, 0], &[13, 14]),
            [senior]
        );
        assert_eq!(told(&[(14, 12)], [READ, 0, 0, 0], &[12, 14]), [junior]);
        assert!(told(&[(13, 12)], [0, READ, 0, 0], &[13]).is_empty());
    }

    #[test]
    fn what_a_tie_does_not_give() {
        let mut tables = tables(&CHAIN, [0; 4], &[13]);
        tables.roles[12].users[0] = false;
        tables.roles[14].users[0] = true;
        let shows = |request: Request, answer, names: &[&str]| {
            assert_eq!(shown(&tables, &request), (answer, names.to_vec()));
        };
        shows(
            with_role(Call::Take, 12, 15),
            12,
            &["12 alone, the user listed for a role above it"],
        );
        shows(
            with_role(Call::Take, 13, 13),
            12,
            &["12 alone, the user listed for a role below it"],
        );
        shows(
            with_role(Call::Drop, 12, 15),
            16,
            &["16 alone, a role above it held"],
        );
        let kept = "12 alone, a role above the keeper held";
        for call in [Call::List, Call::Join] {
            let mut request = with_role(call, 12, 14);
            request.set(Field::User, 5);
            request.set(Field::Junior, 12);
            shows(request, 12, &[kept]);
        }
        shows(with_role(Call::Unmake, 13, 13), 15, &[]);
        let between = "15 alone, above one and below another";
        shows(with_role(Call::Unmake, 13, 14), 15, &[between]);
        let keeper = "6 of a keeper with a senior";
        shows(with_role(Call::Unmake, 13, 12), 6, &[keeper]);
    }

    #[test]
    fn ties_made() {
        let tables = tables(&CHAIN, [OWN, 0, 0, READ], &[13]);
        let shows = |senior, junior, answer, names: &[&str]| {
            let request = tie(Call::Join, senior, junior);
            assert_eq!(shown(&tables, &request), (answer, names.to_vec()));
        };
        shows(13, 13, 22, &["22 alone, one role"]);
        shows(14, 13, 22, &["22 alone, by one tie"]);
        shows(15, 13, 22, &["22 alone, by two ties"]);
        shows(12, 13, 22, &["22 alone, by three ties"]);
        shows(13, 14, 16, &[]);
        shows(
            13,
            12,
            0,
            &[
                "done, the junior below already",
                "done, the junior having another senior",
                "done, the senior having another junior",
                "done, above a keeper",
            ],
        );
        // Seat 12 holds 13, to which the tie between the other two gives something.
        let mut parted = tables.clone();
        parted.roles[14].juniors[15] = false;
        let request = tie(Call::Join, 14, 15);
        let gives = "gives a right to a seat two ties up";
        assert_eq!(shown(&parted, &request), (0, vec![gives]));
    }

    #[test]
    fn ties_ended() {
        let ends = |ties: &[(usize, usize)], rights, senior, junior, names: &[&str]| {
            let mut tables = tables(ties, rights, &[13]);
            open_object(&mut tables);
            let request = tie(Call::Unjoin, senior, junior);
            let (answer, shown) = shown(&tables, &request);
            assert_eq!((answer, shown), (0, names.to_vec()), "{senior} {junior}");
        };
        let ended = |ties: usize| match ties {
            1 => "ends an open that rests on one tie",
            2 => "ends an open that rests on two ties",
            _ => "ends an open that rests on three ties",
        };
        let above = "ends an open of a seat that holds a role above the senior alone";
        let below = "done, the junior below still";
        let other_way = "an open stays by another way of ties";
        let record = "an open stays by the record of a role above the tie";
        ends(&CHAIN, [0, 0, READ, 0], 13, 14, &[ended(1)]);
        ends(&CHAIN, [0, 0, READ, 0], 14, 15, &[]);
        ends(&CHAIN, [0, 0, 0, READ], 14, 15, &[ended(2), above]);
        ends(&CHAIN, [READ, 0, 0, 0], 13, 14, &[ended(3)]);
        ends(&CHAIN, [READ, 0, 0, WRITE], 15, 12, &[ended(3), above]);
        let diamond = [(13, 14), (13, 15), (14, 12), (15, 12)];
        ends(&diamond, [READ, 0, 0, 0], 13, 14, &[other_way]);
        ends(&diamond, [READ, 0, 0, 0], 15, 12, &[other_way]);
        ends(
            &[(13, 14), (14, 12), (13, 12)],
            [READ, 0, 0, 0],
            13,
            12,
            &[below, other_way],
        );
        ends(&CHAIN, [0, READ, READ, 0], 13, 14, &[record]);
        let not_there = |senior, junior, name| {
            let tables = tables(&CHAIN, [0; 4], &[13]);
            let request = tie(Call::Unjoin, senior, junior);
            assert_eq!(shown(&tables, &request), (16, vec![name]));
        };
        not_there(13, 15, "16 alone, the junior below by others");
        not_there(14, 14, "16 alone, one role");
        not_there(14, 13, "16 alone, a tie the other way round");
    }

    #[test]
    fn what_else_ends_opens() {
        let mut tables = tables(&CHAIN, [OWN, READ, READ, 0], &[13]);
        open_object(&mut tables);
        let mut revoke = with_role(Call::Revoke, 13, 13);
        revoke.set(Field::Entity, 49);
        revoke.set(Field::Rights, READ);
        let stays = "an open stays that a role below the named one has the right for";
        assert_eq!(shown(&tables, &revoke), (0, vec![stays]));
        paper::done(&mut tables, &revoke);
        revoke.set(Field::Role, 14);
        let ends = "ends an open of a seat that holds a role above the named one alone";
        assert_eq!(shown(&tables, &revoke), (0, vec![ends]));
        let mut grant = Request::with(Call::Grant, &[]);
        grant.values = revoke.values;
        grant.set(Field::Rights, WRITE);
        let gives = "gives a right to a seat that holds a role above the named one alone";
        assert_eq!(shown(&tables, &grant), (0, vec![gives]));
        let drop = with_role(Call::Drop, 12, 13);
        let rests = "ends an open that rests on ties";
        assert_eq!(shown(&tables, &drop), (0, vec![rests]));
        tables.seats[12].roles[14] = true;
        assert_eq!(shown(&tables, &drop), (0, vec![]));
        tables.roles[14].rights[49] = 0;
        tables.roles[15].rights[49] = READ;
        let another = "an open stays by the ties of another role";
        assert_eq!(shown(&tables, &drop), (0, vec![another]));
    }
}
