//! What a run has to come across with reading down (document 02, A.13): "a master may read counter notes".

use crate::paper::{self, entity_level, seat_level, Call, Field, Request, Side, Tables};
use crate::ties::ties_to;

pub struct Situation {
    pub edition: usize,
    pub name: &'static str,
    shows: fn(&Look) -> bool,
}

const fn in_1(name: &'static str, shows: fn(&Look) -> bool) -> Situation {
    Situation {
        edition: 1,
        name,
        shows,
    }
}

const fn in_2(name: &'static str, shows: fn(&Look) -> bool) -> Situation {
    Situation {
        edition: 2,
        name,
        shows,
    }
}

/// Down means at a level below the seat's. 5 and 7 never come without 13: a seat that is not live holds
/// nothing, and nobody has rights on an entity that is not.
pub static SITUATIONS: &[Situation] = &[
    in_2("openr from level 3 at level 0, done", |at| at.reads(3, 0)),
    in_2("openr from level 3 at level 1, done", |at| at.reads(3, 1)),
    in_2("openr from level 3 at level 2, done", |at| at.reads(3, 2)),
    in_2("openr from level 2 at level 0, done", |at| at.reads(2, 0)),
    in_2("openr from level 2 at level 1, done", |at| at.reads(2, 1)),
    in_2("openr from level 1 at level 0, done", |at| at.reads(1, 0)),
    in_2("openr down of a root, done", |at| {
        at.down() && at.done() && paper::is_root(at.entity())
    }),
    in_2("openr down of an entity in a container, done", |at| {
        at.down() && at.done() && !paper::is_root(at.entity())
    }),
    in_2(
        "openr down by a role of the entity's level alone, done",
        |at| at.down() && at.done() && at.reading_roles(|role, entity| role > entity) == 0,
    ),
    in_2(
        "openr down by a role above the entity's level alone, done",
        |at| at.down() && at.done() && at.reading_roles(|role, entity| role == entity) == 0,
    ),
    in_2("openr down by ties alone, done", |at| {
        let ties = || ties_to(at.before, at.seat(), at.entity(), paper::READ);
        at.down() && at.done() && ties() > Some(0)
    }),
    in_2("openr down of what is open for writing, done", |at| {
        at.down() && at.done() && at.before.seats[at.seat()].writing[at.entity()]
    }),
    in_2("openr down, 5 (with 13 alone)", |at| {
        at.down() && at.meets(&[5, 13])
    }),
    in_2("openr down, 7 (with 13 alone)", |at| {
        at.down() && at.meets(&[7, 13])
    }),
    in_2("openr down, 11 alone", |at| at.down() && at.meets(&[11])),
    in_2("openr down, 13 alone, the right lacking", |at| {
        at.down() && at.meets_one("x lacks read on e")
    }),
    in_2("openr down, 13 alone, not reached", |at| {
        at.down() && at.meets_one("x does not reach e")
    }),
    in_2("openr down, 16 alone", |at| at.down() && at.meets(&[16])),
    in_2("openr at the seat's own level, done", |at| {
        at.opens() && at.done() && entity_level(at.entity()) == seat_level(at.seat())
    }),
    in_2("openr above the seat's level, done", |at| {
        at.opens() && at.done() && entity_level(at.entity()) > seat_level(at.seat())
    }),
    in_2("openw above the seat's level, 10 alone", |at| {
        at.request.call == Call::Openw && at.meets(&[10])
    }),
    in_2("close of what is read down", |at| {
        at.request.call == Call::Close && at.done() && at.reads_down(at.seat(), at.entity())
    }),
    in_2("close of what is read down and written", |at| {
        at.request.call == Call::Close
            && at.done()
            && at.reads_down(at.seat(), at.entity())
            && at.before.seats[at.seat()].writing[at.entity()]
    }),
    in_2("delete of what a seat above reads", |at| {
        at.request.call == Call::Delete
            && at.done()
            && (0..16).any(|seat| at.reads_down(seat, at.entity()))
    }),
    in_2("revoke, a read down ending with the right", |at| {
        at.request.call == Call::Revoke && at.ends()
    }),
    in_2("drop, a read down ending with the role", |at| {
        at.request.call == Call::Drop && at.ends()
    }),
    in_2("unmake, a read down ending with the role", |at| {
        at.request.call == Call::Unmake && at.ends()
    }),
    in_2("unjoin, a read down ending with the tie", |at| {
        at.request.call == Call::Unjoin && at.ends()
    }),
    in_2("logout of a seat that reads down", |at| {
        at.request.call == Call::Logout
            && at.done()
            && (0..64).any(|entity| at.reads_down(at.seat(), entity))
    }),
    in_1("openr down, 10 alone", |at| at.down() && at.meets(&[10])),
    in_1("openr down, 10 and 11", |at| {
        at.down() && at.meets(&[10, 11])
    }),
    in_1("openr down, 10 and 13", |at| {
        at.down() && at.meets(&[10, 13])
    }),
    in_1("openr at the seat's own level, done", |at| {
        at.opens() && at.done() && entity_level(at.entity()) == seat_level(at.seat())
    }),
];

/// A request, and the tables before and after it.
pub struct Look<'a> {
    pub before: &'a Tables,
    pub request: &'a Request,
    pub met: u32,
    pub after: &'a Tables,
}

impl Look<'_> {
    fn seat(&self) -> usize {
        self.request.at(Field::Seat)
    }

    fn entity(&self) -> usize {
        self.request.at(Field::Entity)
    }

    fn done(&self) -> bool {
        self.met == 0
    }

    fn sides(&self) -> impl Iterator<Item = &'static Side> + '_ {
        let sides = paper::sides(self.request.call).iter().enumerate();
        sides
            .filter(|(bit, _)| self.met & (1 << bit) != 0)
            .map(|(_, side)| side)
    }

    /// Sides of these numbers are met, and no others.
    fn meets(&self, numbers: &[usize]) -> bool {
        let mut met: Vec<usize> = self.sides().map(|side| side.number).collect();
        met.dedup();
        met == numbers
    }

    fn meets_one(&self, text: &str) -> bool {
        self.sides().map(|side| side.text).eq([text])
    }

    fn opens(&self) -> bool {
        self.request.call == Call::Openr
    }

    fn down(&self) -> bool {
        self.opens() && entity_level(self.entity()) < seat_level(self.seat())
    }

    fn reads(&self, upper: usize, lower: usize) -> bool {
        self.opens()
            && self.done()
            && seat_level(self.seat()) == upper
            && entity_level(self.entity()) == lower
    }

    /// How many roles the seat holds that give read on the entity, their level and the entity's being so.
    fn reading_roles(&self, so: fn(usize, usize) -> bool) -> usize {
        let (seat, entity) = (self.seat(), self.entity());
        (0..16)
            .filter(|&role| {
                paper::gives(self.before, seat, role, entity, paper::READ)
                    && so(paper::role_level(role), entity_level(entity))
            })
            .count()
    }

    /// Before it, the seat reads the entity, which lies below.
    fn reads_down(&self, seat: usize, entity: usize) -> bool {
        self.before.seats[seat].reading[entity] && entity_level(entity) < seat_level(seat)
    }

    /// A seat loses read on what it reads down, and the open with it (document 02, A.3 and A.8).
    fn ends(&self) -> bool {
        let may =
            |tables: &Tables, seat, entity| paper::has_right(tables, seat, entity, paper::READ);
        self.done()
            && (0..16).any(|seat| {
                (0..64).any(|entity| {
                    self.reads_down(seat, entity)
                        && !self.after.seats[seat].reading[entity]
                        && may(self.before, seat, entity)
                        && !may(self.after, seat, entity)
                })
            })
    }
}

/// What the request shows, by their places in `SITUATIONS`. A number past its range shows nothing.
pub fn situations(look: &Look) -> Vec<usize> {
    if paper::answer(look.request.call, look.met) == 2 {
        return Vec::new();
    }
    (0..SITUATIONS.len())
        .filter(|&place| {
            let situation = &SITUATIONS[place];
            situation.edition == look.before.edition && (situation.shows)(look)
        })
        .collect()
}
