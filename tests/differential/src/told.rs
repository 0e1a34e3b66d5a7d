//! What a run has to come across with the role that is told (document 02, A.6): "the foreman asks daily why a
//! seat could open a sheet".

use crate::paper::{self, Call, Field, Request, Side, Tables, EXECUTE, READ, WRITE};

pub struct Situation {
    pub calls: &'static [Call],
    pub name: &'static str,
    shows: fn(&Look) -> bool,
}

const OPENR: &[Call] = &[Call::Openr];
const OPENW: &[Call] = &[Call::Openw];
const BOTH: &[Call] = &[Call::Openr, Call::Openw];

const fn situation(
    calls: &'static [Call],
    name: &'static str,
    shows: fn(&Look) -> bool,
) -> Situation {
    Situation { calls, name, shows }
}

/// Unless it is said that none is, a role is told.
pub static SITUATIONS: &[Situation] = &[
    situation(BOTH, "not the only role held that gives the right", |at| {
        at.tells(|told| at.held(|role| role != told && at.gives(role)))
    }),
    situation(
        BOTH,
        "taken after a higher-numbered one that gives it too",
        |at| {
            at.tells(|told| {
                at.held(|role| {
                    role > told && at.gives(role) && at.taken.before(at.seat(), role, told)
                })
            })
        },
    ),
    situation(
        BOTH,
        "a lower-numbered one, which is not held, has the right",
        |at| {
            let has = |role: usize| {
                let rights = at.tables.roles[role].rights[at.entity()];
                !at.holds(role) && paper::has(rights, at.right())
            };
            at.tells(|told| (0..told).any(has))
        },
    ),
    situation(
        OPENW,
        "a lower-numbered one held gives read, not write",
        |at| at.tells(|told| at.held(|role| role < told && at.has(role, READ))),
    ),
    situation(
        OPENR,
        "a lower-numbered one held gives write, not read",
        |at| at.tells(|told| at.held(|role| role < told && at.has(role, WRITE))),
    ),
    situation(
        BOTH,
        "a lower-numbered one held gives execute on the container, not the right",
        |at| at.tells(|told| at.held(|role| role < told && at.executes(role) && !at.gives(role))),
    ),
    situation(
        BOTH,
        "one without execute on the container, reached by others",
        |at| at.tells(|told| !paper::is_root(at.entity()) && !at.executes(told)),
    ),
    situation(BOTH, "of the entity's level", |at| {
        at.tells(|told| paper::role_level(told) == paper::entity_level(at.entity()))
    }),
    situation(BOTH, "above the entity's level", |at| {
        at.tells(|told| paper::role_level(told) > paper::entity_level(at.entity()))
    }),
    situation(BOTH, "role 0", |at| at.role == Some(0)),
    situation(BOTH, "none, 13 for the reach alone", |at| {
        at.meets_one("x does not reach e")
    }),
    situation(BOTH, "none, 11 alone", |at| at.meets(11)),
    situation(BOTH, "none, 16 alone", |at| at.meets(16)),
];

/// When the roles that seats hold were taken.
pub struct Taken {
    times: [[usize; 16]; 16],
    now: usize,
}

impl Taken {
    pub fn new() -> Taken {
        Taken {
            times: [[0; 16]; 16],
            now: 0,
        }
    }

    /// A request that was done.
    pub fn note(&mut self, request: &Request) {
        if request.call == Call::Take {
            self.now += 1;
            self.times[request.at(Field::Seat)][request.at(Field::Role)] = self.now;
        }
    }

    /// Of two roles that the seat holds, whether it took the first before the other.
    fn before(&self, seat: usize, first: usize, other: usize) -> bool {
        self.times[seat][first] < self.times[seat][other]
    }
}

/// An open, the tables before it, and the role that it tells.
pub struct Look<'a> {
    pub tables: &'a Tables,
    pub request: &'a Request,
    pub met: u32,
    pub role: Option<usize>,
    pub taken: &'a Taken,
}

impl Look<'_> {
    fn seat(&self) -> usize {
        self.request.at(Field::Seat)
    }

    fn entity(&self) -> usize {
        self.request.at(Field::Entity)
    }

    fn right(&self) -> usize {
        match self.request.call {
            Call::Openr => READ,
            _ => WRITE,
        }
    }

    fn tells(&self, so: impl Fn(usize) -> bool) -> bool {
        self.role.is_some_and(so)
    }

    fn holds(&self, role: usize) -> bool {
        self.tables.seats[self.seat()].roles[role]
    }

    fn held(&self, so: impl Fn(usize) -> bool) -> bool {
        (0..16).any(|role| self.holds(role) && so(role))
    }

    fn has(&self, role: usize, right: usize) -> bool {
        paper::gives(self.tables, self.seat(), role, self.entity(), right)
    }

    /// The right asked for, on the entity.
    fn gives(&self, role: usize) -> bool {
        self.has(role, self.right())
    }

    /// Execute on the container that the entity lies in.
    fn executes(&self, role: usize) -> bool {
        let container = self.tables.entities[self.entity()].parent;
        !paper::is_root(self.entity())
            && paper::gives(self.tables, self.seat(), role, container, EXECUTE)
    }

    fn sides(&self) -> impl Iterator<Item = &'static Side> + '_ {
        let sides = paper::sides(self.request.call).iter().enumerate();
        sides
            .filter(|(bit, _)| self.met & (1 << bit) != 0)
            .map(|(_, side)| side)
    }

    /// One side of this number is met, and nothing else.
    fn meets(&self, number: usize) -> bool {
        self.sides().map(|side| side.number).eq([number])
    }

    fn meets_one(&self, text: &str) -> bool {
        self.sides().map(|side| side.text).eq([text])
    }
}

/// What the open shows, by their places in `SITUATIONS`. A number past its range shows nothing.
pub fn situations(look: &Look) -> Vec<usize> {
    let call = look.request.call;
    if !BOTH.contains(&call) || paper::answer(call, look.met) == 2 {
        return Vec::new();
    }
    (0..SITUATIONS.len())
        .filter(|&place| {
            let situation = &SITUATIONS[place];
            situation.calls.contains(&call) && (situation.shows)(look)
        })
        .collect()
}

#[cfg(test)]
mod tests {
    use super::*;
    use crate::paper::{fresh, EntityRecord, UserRecord, EMPTY_ENTITY};

    /// What an open of object 49 shows, by seat 12 with role 12, which has execute on its root, and with roles 13, 14
    /// and 15, taken in this order, which have these rights on it.
    fn shown(call: Call, order: [usize; 3], rights: [usize; 3]) -> Vec<&'static str> {
        let mut tables = fresh(&[UserRecord::default(); 16], 1);
        tables.entities[49] = EntityRecord {
            live: true,
            parent: 48,
            name: 1,
            ..EMPTY_ENTITY
        };
        tables.seats[12].live = true;
        tables.seats[12].roles[12] = true;
        let mut taken = Taken::new();
        for role in order {
            let take = Request::with(Call::Take, &[(Field::Seat, 12), (Field::Role, role)]);
            tables.roles[role].live = true;
            tables.roles[role].rights[49] = rights[role - 13];
            tables.seats[12].roles[role] = true;
            taken.note(&take);
        }
        assert!(paper::sound(&tables));
        let request = Request::with(call, &[(Field::Seat, 12), (Field::Entity, 49)]);
        let met = paper::met(&tables, &request);
        let answer = paper::answer(call, met);
        let look = Look {
            tables: &tables,
            request: &request,
            met,
            role: paper::told(&tables, &request, answer),
            taken: &taken,
        };
        situations(&look)
            .into_iter()
            .map(|place| SITUATIONS[place].name)
            .collect()
    }

    #[test]
    fn which_role_let_them_in() {
        const SEVERAL: &str = "not the only role held that gives the right";
        const LATER: &str = "taken after a higher-numbered one that gives it too";
        const READS: &str = "a lower-numbered one held gives read, not write";
        const WRITES: &str = "a lower-numbered one held gives write, not read";
        const EXECUTES: &str =
            "a lower-numbered one held gives execute on the container, not the right";
        let shows = |call, order, rights, names: &[&str]| {
            let shown = shown(call, order, rights);
            for name in [SEVERAL, LATER, READS, WRITES, EXECUTES] {
                assert_eq!(shown.contains(&name), names.contains(&name), "{name}");
            }
        };
        let (up, down) = ([13, 14, 15], [15, 14, 13]);
        shows(Call::Openr, up, [READ, 0, 0], &[EXECUTES]);
        shows(Call::Openr, up, [READ, READ, 0], &[SEVERAL, EXECUTES]);
        shows(
            Call::Openr,
            down,
            [0, READ, READ],
            &[SEVERAL, LATER, EXECUTES],
        );
        shows(Call::Openr, down, [READ, WRITE, 0], &[EXECUTES]);
        shows(Call::Openr, down, [WRITE, 0, READ], &[WRITES, EXECUTES]);
        shows(Call::Openw, down, [READ, 0, WRITE], &[READS, EXECUTES]);
        shows(
            Call::Openw,
            [14, 15, 13],
            [3, 0, 3],
            &[SEVERAL, LATER, EXECUTES],
        );
        shows(Call::Openw, [14, 13, 15], [3, 0, 3], &[SEVERAL, EXECUTES]);
        shows(Call::Openw, up, [READ, READ, READ], &[]);
        assert!(shown(Call::Close, up, [3, 3, 3]).is_empty());
    }
}
