//! What a run has to come across with opens that end (document 02, A.3): "after drop, revoke and unmake, every seat
//! loses each open for which it no longer has the read or write right"; and "unjoin ends opens as A.3 says" (A.8).

use crate::paper::{self, Call, Field, Request, Side, Tables, EXECUTE, OWN, READ, WRITE};

pub struct Situation {
    pub calls: &'static [Call],
    pub name: &'static str,
    shows: fn(&Look) -> bool,
}

const ENDING: &[Call] = &[Call::Drop, Call::Revoke, Call::Unmake, Call::Unjoin];
const DROP: &[Call] = &[Call::Drop];
const REVOKE: &[Call] = &[Call::Revoke];
/// Those that change the rights of several seats.
const OF_ALL: &[Call] = &[Call::Revoke, Call::Unmake, Call::Unjoin];
const GIVING: &[Call] = &[Call::Take, Call::Grant, Call::Join];
const OPENING: &[Call] = &[Call::Openr, Call::Openw];
const CLOSE: &[Call] = &[Call::Close];
const IN_PARENT: &[Call] = &[Call::Create, Call::Delete, Call::Rename];

const fn situation(
    calls: &'static [Call],
    name: &'static str,
    shows: fn(&Look) -> bool,
) -> Situation {
    Situation { calls, name, shows }
}

/// At most 32.
pub static SITUATIONS: &[Situation] = &[
    situation(
        ENDING,
        "ends an open for reading of the acting seat",
        |at| at.ends(|open| open.seat == at.seat() && open.right == READ),
    ),
    situation(
        ENDING,
        "ends an open for writing of the acting seat",
        |at| at.ends(|open| open.seat == at.seat() && open.right == WRITE),
    ),
    situation(ENDING, "ends an open of a root", |at| {
        at.ends(|open| paper::is_root(open.entity))
    }),
    situation(ENDING, "some opens of a seat end and some stay", |at| {
        at.ends(|ended| at.stays(|open| open.seat == ended.seat))
    }),
    situation(
        ENDING,
        "of an entity open in both ways one ends and the other stays",
        |at| at.leaves_the_other_way(),
    ),
    situation(
        ENDING,
        "ends nothing, another role held giving the right",
        |at| at.ends_nothing() && at.stays(|open| at.gave(open)),
    ),
    situation(
        ENDING,
        "ends one open by the role, not another that a second role gives too",
        |at| at.ends(|_| true) && at.stays(|open| at.gave(open)),
    ),
    situation(ENDING, "an open stays that is no longer reached", |at| {
        at.stays(|open| {
            paper::reaches(at.before, open.seat, open.entity)
                && !paper::reaches(at.after, open.seat, open.entity)
        })
    }),
    situation(
        DROP,
        "the other seats that hold the role keep theirs",
        |at| {
            at.ends(|ended| {
                at.stays(|open| {
                    (open.entity, open.right) == (ended.entity, ended.right)
                        && at.after.seats[open.seat].roles[at.role()]
                })
            })
        },
    ),
    situation(OF_ALL, "ends an open of another seat", |at| {
        at.ends(|open| open.seat != at.seat())
    }),
    situation(OF_ALL, "ends an open of a seat of a lower level", |at| {
        at.ends(|open| at.level_of(open) < at.own_level())
    }),
    situation(OF_ALL, "ends an open of a seat of a higher level", |at| {
        at.ends(|open| at.level_of(open) > at.own_level())
    }),
    situation(OF_ALL, "ends opens of several seats", |at| {
        at.ends(|one| at.ends(|other| other.seat > one.seat))
    }),
    situation(
        OF_ALL,
        "ends an open of one seat, another having the entity open by a second role",
        |at| {
            at.ends(|ended| {
                at.stays(|open| {
                    (open.entity, open.right) == (ended.entity, ended.right) && at.gave(open)
                })
            })
        },
    ),
    situation(OF_ALL, "refused, where done it would end an open", |at| {
        let by_role =
            |open: Open| paper::gives(at.before, open.seat, at.role(), open.entity, open.right);
        at.refused() && opens(at.before).any(by_role) && {
            let mut done = at.before.clone();
            paper::done(&mut done, at.request);
            opens(at.before).any(|open| !open.is_in(&done))
        }
    }),
    situation(
        REVOKE,
        "of read alone, an open for writing of the entity stays",
        |at| at.revokes(READ) && at.leaves_the_other_way(),
    ),
    situation(
        REVOKE,
        "of write alone, an open for reading of the entity stays",
        |at| at.revokes(WRITE) && at.leaves_the_other_way(),
    ),
    situation(
        REVOKE,
        "of execute or own, a holder having the entity open",
        |at| {
            let had = at.before.roles[at.role()].rights[at.entity()];
            [EXECUTE, OWN, EXECUTE + OWN].contains(&at.rights())
                && [EXECUTE, OWN]
                    .iter()
                    .any(|&right| paper::has(at.rights(), right) && paper::has(had, right))
                && at.holder_has_open()
        },
    ),
    situation(
        REVOKE,
        "of read or write that the role has not, a holder having the entity open",
        |at| {
            let had = at.before.roles[at.role()].rights[at.entity()];
            [READ, WRITE]
                .iter()
                .any(|&right| paper::has(at.rights(), right) && !paper::has(had, right))
                && at.before.roles == at.after.roles
                && at.holder_has_open()
        },
    ),
    situation(
        GIVING,
        "gives the right of an open that had ended, which stays so",
        |at| {
            at.done()
                && at.lost.opens().any(|open| {
                    !open.has_right(at.before) && open.has_right(at.after) && !open.is_in(at.after)
                })
        },
    ),
    situation(OPENING, "opens again what had ended", |at| {
        let right = match at.request.call {
            Call::Openr => READ,
            _ => WRITE,
        };
        at.done() && at.lost.has(at.seat(), at.entity(), right)
    }),
    situation(CLOSE, "16 alone for what had ended", |at| {
        at.meets_one("x has e open in neither way")
            && [READ, WRITE]
                .iter()
                .any(|&right| at.lost.has(at.seat(), at.entity(), right))
    }),
    situation(
        IN_PARENT,
        "13 alone, the parent's open for writing having ended",
        |at| {
            let parent = match at.request.call {
                Call::Create => at.request.at(Field::Parent),
                _ => at.before.entities[at.entity()].parent,
            };
            at.meets_one("x has not the parent open for writing")
                && at.lost.has(at.seat(), parent, WRITE)
        },
    ),
];

/// A seat has an entity open: for reading, which is by `READ`, or for writing, which is by `WRITE`.
#[derive(Clone, Copy, Debug, PartialEq, Eq)]
pub struct Open {
    pub seat: usize,
    pub entity: usize,
    pub right: usize,
}

impl Open {
    pub fn is_in(&self, tables: &Tables) -> bool {
        let seat = &tables.seats[self.seat];
        match self.right {
            READ => seat.reading[self.entity],
            _ => seat.writing[self.entity],
        }
    }

    pub fn has_right(&self, tables: &Tables) -> bool {
        paper::has_right(tables, self.seat, self.entity, self.right)
    }

    pub fn close(&self, tables: &mut Tables) {
        let seat = &mut tables.seats[self.seat];
        match self.right {
            READ => seat.reading[self.entity] = false,
            _ => seat.writing[self.entity] = false,
        }
    }
}

fn all() -> impl Iterator<Item = Open> {
    (0..16).flat_map(|seat| {
        (0..64).flat_map(move |entity| {
            [READ, WRITE].map(|right| Open {
                seat,
                entity,
                right,
            })
        })
    })
}

pub fn opens(tables: &Tables) -> impl Iterator<Item = Open> + '_ {
    all().filter(|open| open.is_in(tables))
}

/// Whether the request is one after which opens may have ended.
pub fn may_end(request: &Request, answer: usize) -> bool {
    answer == 0 && ENDING.contains(&request.call)
}

/// The opens that ended for want of their right. One that was opened again since, or whose seat or entity is another
/// one now, is not among them.
pub struct Lost {
    opens: Vec<Open>,
}

impl Lost {
    pub fn new() -> Lost {
        Lost { opens: Vec::new() }
    }

    /// A request that was done, and the tables before and after it.
    pub fn note(&mut self, before: &Tables, request: &Request, after: &Tables) {
        let (seat, entity) = (request.at(Field::Seat), request.at(Field::Entity));
        match request.call {
            Call::Logout => self.opens.retain(|open| open.seat != seat),
            Call::Delete => self.opens.retain(|open| open.entity != entity),
            call if OPENING.contains(&call) => self.opens.retain(|open| !open.is_in(after)),
            call if ENDING.contains(&call) => {
                let ended = opens(before).filter(|open| !open.is_in(after));
                self.opens.extend(ended);
            }
            _ => {}
        }
    }

    fn opens(&self) -> impl Iterator<Item = &Open> {
        self.opens.iter()
    }

    fn has(&self, seat: usize, entity: usize, right: usize) -> bool {
        let open = Open {
            seat,
            entity,
            right,
        };
        self.opens.contains(&open)
    }
}

/// A request, the tables before and after it, and what had ended before.
pub struct Look<'a> {
    pub before: &'a Tables,
    pub request: &'a Request,
    pub met: u32,
    pub after: &'a Tables,
    pub lost: &'a Lost,
}

impl Look<'_> {
    fn seat(&self) -> usize {
        self.request.at(Field::Seat)
    }

    fn role(&self) -> usize {
        self.request.at(Field::Role)
    }

    fn entity(&self) -> usize {
        self.request.at(Field::Entity)
    }

    fn rights(&self) -> usize {
        self.request.at(Field::Rights)
    }

    fn own_level(&self) -> usize {
        paper::seat_level(self.seat())
    }

    fn level_of(&self, open: &Open) -> usize {
        paper::seat_level(open.seat)
    }

    fn done(&self) -> bool {
        self.met == 0
    }

    fn refused(&self) -> bool {
        self.met != 0
    }

    /// An open ends that is so.
    fn ends(&self, so: impl Fn(&Open) -> bool) -> bool {
        self.done() && opens(self.before).any(|open| !open.is_in(self.after) && so(&open))
    }

    fn ends_nothing(&self) -> bool {
        self.done() && !self.ends(|_| true)
    }

    /// An open is there before and after that is so.
    fn stays(&self, so: impl Fn(&Open) -> bool) -> bool {
        self.done() && opens(self.before).any(|open| open.is_in(self.after) && so(&open))
    }

    /// The role gave the right of the open before, and no longer does.
    fn gave(&self, open: &Open) -> bool {
        let gives = |tables| paper::gives(tables, open.seat, self.role(), open.entity, open.right);
        gives(self.before) && !gives(self.after)
    }

    /// It is done and names just these rights.
    fn revokes(&self, rights: usize) -> bool {
        self.done() && self.rights() == rights
    }

    /// A seat loses an open of the entity, and keeps it open in the other way.
    fn leaves_the_other_way(&self) -> bool {
        self.ends(|ended| self.stays(|open| (open.seat, open.entity) == (ended.seat, ended.entity)))
    }

    /// It is done, and a seat that holds the role has the entity open before and after.
    fn holder_has_open(&self) -> bool {
        self.stays(|open| {
            open.entity == self.entity() && self.before.seats[open.seat].roles[self.role()]
        })
    }

    /// This side is met, and nothing else.
    fn meets_one(&self, text: &str) -> bool {
        let sides = paper::sides(self.request.call).iter().enumerate();
        let mut met = sides
            .filter(|(bit, _)| self.met & (1 << bit) != 0)
            .map(|(_, side): (usize, &Side)| side.text);
        met.next() == Some(text) && met.next().is_none()
    }
}

/// What the request shows: bit i for `SITUATIONS[i]`. A number past its range shows nothing.
pub fn situations(look: &Look) -> u32 {
    let call = look.request.call;
    if paper::answer(call, look.met) == 2 {
        return 0;
    }
    let mut situations = 0;
    for (bit, situation) in SITUATIONS.iter().enumerate() {
        if situation.calls.contains(&call) && (situation.shows)(look) {
            situations |= 1 << bit;
        }
    }
    situations
}

#[cfg(test)]
mod tests {
    use super::*;
    use crate::paper::{fresh, EntityRecord, UserRecord, EMPTY_ENTITY};

    /// Seats 12 and 5 hold roles 13 and 14, which have these rights on the object 49, and have it open where they may,
    /// for reading and, seat 12, for writing. Seat 15 holds the keeper, which owns it, and has its root open for reading.
    fn tables(rights: [usize; 2]) -> Tables {
        let mut tables = fresh(&[UserRecord::default(); 16], 1);
        tables.entities[49] = EntityRecord {
            live: true,
            parent: 48,
            name: 1,
            ..EMPTY_ENTITY
        };
        tables.roles[12].rights[49] = OWN;
        tables.seats[15].live = true;
        tables.seats[15].roles[12] = true;
        tables.seats[15].reading[48] = true;
        for (role, rights) in [13, 14].into_iter().zip(rights) {
            tables.roles[role].live = true;
            tables.roles[role].users[0] = true;
            tables.roles[role].rights[49] = rights;
            for seat in [12, 5] {
                tables.seats[seat].live = true;
                tables.seats[seat].roles[role] = true;
            }
        }
        for seat in [12, 5] {
            tables.seats[seat].reading[49] = paper::has_right(&tables, seat, 49, READ);
        }
        tables.seats[12].writing[49] = paper::has_right(&tables, 12, 49, WRITE);
        assert!(paper::sound(&tables));
        tables
    }

    /// What the request shows, which is done on the tables if it may be.
    fn shown(tables: &mut Tables, lost: &mut Lost, request: &Request) -> Vec<&'static str> {
        let before = tables.clone();
        let met = paper::met(tables, request);
        if met == 0 {
            paper::done(tables, request);
        }
        let shown = situations(&Look {
            before: &before,
            request,
            met,
            after: tables,
            lost,
        });
        if met == 0 {
            lost.note(&before, request, tables);
        }
        let places = (0..SITUATIONS.len()).filter(|place| shown & (1 << place) != 0);
        places.map(|place| SITUATIONS[place].name).collect()
    }

    fn with_role(call: Call, seat: usize, role: usize) -> Request {
        Request::with(call, &[(Field::Seat, seat), (Field::Role, role)])
    }

    fn with_rights(call: Call, seat: usize, role: usize, rights: usize) -> Request {
        let mut request = with_role(call, seat, role);
        request.set(Field::Entity, 49);
        request.set(Field::Rights, rights);
        request
    }

    const OWN_READ: &str = "ends an open for reading of the acting seat";
    const OWN_WRITE: &str = "ends an open for writing of the acting seat";
    const SOME_STAY: &str = "some opens of a seat end and some stay";
    const ONE_WAY: &str = "of an entity open in both ways one ends and the other stays";
    const SECOND: &str = "ends nothing, another role held giving the right";
    const OTHERS_KEEP: &str = "the other seats that hold the role keep theirs";
    const ANOTHER: &str = "ends an open of another seat";
    const LOWER: &str = "ends an open of a seat of a lower level";
    const HIGHER: &str = "ends an open of a seat of a higher level";
    const SEVERAL: &str = "ends opens of several seats";
    const REFUSED: &str = "refused, where done it would end an open";
    const READ_ALONE: &str = "of read alone, an open for writing of the entity stays";
    const WRITE_ALONE: &str = "of write alone, an open for reading of the entity stays";
    const NOT_ENDING: &str = "of execute or own, a holder having the entity open";

    #[test]
    fn what_ends_and_what_stays() {
        let shows = |rights, request: Request, names: &[&str]| {
            let shown = shown(&mut tables(rights), &mut Lost::new(), &request);
            for name in [
                OWN_READ,
                OWN_WRITE,
                SOME_STAY,
                ONE_WAY,
                SECOND,
                OTHERS_KEEP,
                ANOTHER,
                LOWER,
                HIGHER,
                SEVERAL,
                REFUSED,
                READ_ALONE,
                WRITE_ALONE,
                NOT_ENDING,
            ] {
                assert_eq!(
                    shown.contains(&name),
                    names.contains(&name),
                    "{request:?} {name}"
                );
            }
        };
        let drop = |seat, role| with_role(Call::Drop, seat, role);
        let unmake = |seat| with_role(Call::Unmake, seat, 13);
        let revoke = |rights| with_rights(Call::Revoke, 15, 13, rights);
        let both = [3, 0];
        shows(both, drop(12, 13), &[OWN_READ, OWN_WRITE, OTHERS_KEEP]);
        shows(both, drop(5, 13), &[OWN_READ, OTHERS_KEEP]);
        shows(both, drop(12, 14), &[]);
        shows(both, drop(15, 13), &[]);
        shows([3, 3], drop(12, 13), &[SECOND]);
        let some = [OWN_READ, SOME_STAY, ONE_WAY, OTHERS_KEEP];
        shows([1, 2], drop(12, 13), &some);
        shows([3, 2], drop(12, 13), &some);
        let all = [ANOTHER, LOWER, SEVERAL];
        shows(both, unmake(15), &all);
        shows([3, 1], unmake(15), &[ANOTHER, SOME_STAY, ONE_WAY]);
        shows([1, 3], unmake(15), &[SECOND]);
        shows(both, unmake(12), &[REFUSED]);
        shows([0, 3], unmake(12), &[]);
        shows(both, revoke(3), &all);
        let of_one = [ANOTHER, LOWER, SEVERAL, SOME_STAY, ONE_WAY, READ_ALONE];
        shows(both, revoke(1), &of_one);
        shows(both, revoke(2), &[ANOTHER, SOME_STAY, ONE_WAY, WRITE_ALONE]);
        shows([15, 0], revoke(12), &[NOT_ENDING]);
        shows([7, 0], revoke(8), &[]);
        shows([3, 3], revoke(3), &[SECOND]);
        shows(both, with_rights(Call::Revoke, 12, 13, 3), &[REFUSED]);
        // Seat 5 keeps level 1 as seat 12 does, which writes in its root.
        let mut tables = tables(both);
        for seat in [12, 5] {
            tables.seats[seat].roles[4] = true;
        }
        tables.seats[12].writing[16] = true;
        assert!(paper::sound(&tables));
        let mut revoke = with_rights(Call::Revoke, 5, 4, 2);
        revoke.set(Field::Entity, 16);
        let shown = shown(&mut tables, &mut Lost::new(), &revoke);
        let names = ["ends an open of a root", SOME_STAY, ANOTHER, HIGHER];
        assert_eq!(shown, names);
    }

    /// As `tables`, with role 13 above 14, and seats 12 and 5 without role 14.
    fn tied(rights: [usize; 2]) -> Tables {
        let mut tables = tables(rights);
        tables.roles[13].juniors[14] = true;
        for seat in [12, 5] {
            tables.seats[seat].roles[14] = false;
        }
        assert!(paper::sound(&tables));
        tables
    }

    #[test]
    fn what_ends_with_a_tie() {
        let tie = |call, seat| {
            let mut request = with_role(call, seat, 13);
            request.set(Field::Junior, 14);
            request
        };
        let shows = |rights, seat, names: &[&str]| {
            let request = tie(Call::Unjoin, seat);
            let shown = shown(&mut tied(rights), &mut Lost::new(), &request);
            assert_eq!(shown, names, "{rights:?}");
        };
        shows([0, 3], 15, &[ANOTHER, LOWER, SEVERAL]);
        shows([1, 2], 15, &[SOME_STAY, ONE_WAY, ANOTHER]);
        shows([3, 3], 15, &[]);
        shows([0, 3], 12, &[REFUSED]);
        shows([3, 0], 12, &[]);
        // Nothing comes back with it.
        let mut tables = tied([0, 3]);
        let mut lost = Lost::new();
        shown(&mut tables, &mut lost, &tie(Call::Unjoin, 15));
        let again = shown(&mut tables, &mut lost, &tie(Call::Join, 15));
        assert_eq!(
            again,
            ["gives the right of an open that had ended, which stays so"]
        );
    }

    #[test]
    fn what_comes_after() {
        let mut tables = tables([3, 0]);
        let mut lost = Lost::new();
        let mut shows = |request: &Request, name: &str| {
            let shown = shown(&mut tables, &mut lost, request);
            assert!(shown.contains(&name), "{request:?} {name}");
        };
        const AGAIN: &str = "gives the right of an open that had ended, which stays so";
        const ENDED: &str = "16 alone for what had ended";
        let at_object =
            |call, seat| Request::with(call, &[(Field::Seat, seat), (Field::Entity, 49)]);
        shows(&with_role(Call::Drop, 12, 13), OWN_WRITE);
        shows(&at_object(Call::Close, 12), ENDED);
        shows(&with_role(Call::Take, 12, 13), AGAIN);
        shows(&at_object(Call::Close, 12), ENDED);
        shows(&with_rights(Call::Revoke, 15, 13, 3), LOWER);
        shows(&with_rights(Call::Grant, 15, 14, 1), AGAIN);
        shows(&at_object(Call::Close, 5), ENDED);
        // Another login has lost nothing.
        for (call, seen) in [
            (Call::Close, true),
            (Call::Logout, false),
            (Call::Login, false),
            (Call::Close, false),
        ] {
            let request = at_object(call, 5);
            let shown = shown(&mut tables, &mut lost, &request);
            assert_eq!(shown.contains(&ENDED), seen);
        }
    }
}
