//! What a run has to come across with shared drawers (document 02, A.2), beside each refusal alone: who may set a mark,
//! and whose mark counts.

use crate::paper::{self, Call, Field, Request, Side, Tables};

pub struct Situation {
    pub calls: &'static [Call],
    pub name: &'static str,
    shows: fn(&Look) -> bool,
}

const SHARE: &[Call] = &[Call::Share];
const CREATE: &[Call] = &[Call::Create];
const BOTH: &[Call] = &[Call::Delete, Call::Rename];

const fn situation(
    calls: &'static [Call],
    name: &'static str,
    shows: fn(&Look) -> bool,
) -> Situation {
    Situation { calls, name, shows }
}

/// At most 32.
pub static SITUATIONS: &[Situation] = &[
    situation(SHARE, "a root, to 1", |at| {
        at.marks(1) && paper::is_root(at.e)
    }),
    situation(SHARE, "a root, to 0", |at| {
        at.marks(0) && paper::is_root(at.e)
    }),
    situation(SHARE, "another container, to 1", |at| {
        at.marks(1) && !paper::is_root(at.e)
    }),
    situation(SHARE, "another container, to 0", |at| {
        at.marks(0) && !paper::is_root(at.e)
    }),
    situation(SHARE, "1 already", |at| {
        at.meets(&[16]) && at.mark_asked() == 1
    }),
    situation(SHARE, "0 already", |at| {
        at.meets(&[16]) && at.mark_asked() == 0
    }),
    situation(SHARE, "an object of its owner's, to 0", |at| {
        at.meets(&[9, 16])
    }),
    situation(SHARE, "no open", |at| {
        let seat = &at.tables.seats[at.x];
        at.done() && !seat.reading[at.e] && !seat.writing[at.e]
    }),
    situation(SHARE, "no reach", |at| {
        at.done() && !paper::reaches(at.tables, at.x, at.e)
    }),
    situation(SHARE, "the labels differ", |at| {
        at.done() && at.tables.seats[at.x].label != at.tables.entities[at.e].label
    }),
    situation(SHARE, "the seat above the entity", |at| {
        at.done() && paper::seat_level(at.x) > paper::entity_level(at.e)
    }),
    situation(CREATE, "in a shared container without own on it", |at| {
        let parent = at.request.at(Field::Parent);
        at.done() && at.shared(parent) && !paper::has_right(at.tables, at.x, parent, paper::OWN)
    }),
    situation(BOTH, "by own, the parent shared", |at| {
        at.done() && at.shared(at.parent)
    }),
    situation(BOTH, "own and execute by different roles", |at| {
        at.done()
            && at.shared(at.parent)
            && !(0..16).any(|role| {
                let rights = &at.tables.roles[role].rights;
                at.tables.seats[at.x].roles[role]
                    && paper::has(rights[at.e], paper::OWN)
                    && paper::has(rights[at.parent], paper::EXECUTE)
            })
    }),
    situation(BOTH, "without own, the parent not shared", |at| {
        at.done() && !at.owns(at.x)
    }),
    situation(BOTH, "without own, itself shared", |at| {
        at.done() && !at.owns(at.x) && at.shared(at.e)
    }),
    situation(BOTH, "without own, one above the parent shared", |at| {
        at.done() && !at.owns(at.x) && !paper::is_root(at.parent) && {
            let mut above = at.tables.entities[at.parent].parent;
            while !at.shared(above) && !paper::is_root(above) {
                above = at.tables.entities[above].parent;
            }
            at.shared(above)
        }
    }),
    situation(BOTH, "for own alone, another seat having it", |at| {
        at.for_own() && at.met.len() == 1 && (0..16).any(|seat| at.owns(seat))
    }),
    situation(BOTH, "for own before 14 or 15", |at| {
        at.for_own() && (at.meets(&[13, 14]) || at.meets(&[13, 15]))
    }),
    situation(
        BOTH,
        "with own, the parent shared and not open, or no execute on it",
        |at| at.meets(&[13]) && at.shared(at.parent) && at.owns(at.x),
    ),
];

/// A request, and the tables before it.
struct Look<'a> {
    tables: &'a Tables,
    request: &'a Request,
    /// The sides that are met.
    met: Vec<&'static Side>,
    x: usize,
    e: usize,
    parent: usize,
}

impl Look<'_> {
    fn done(&self) -> bool {
        self.met.is_empty()
    }

    fn mark_asked(&self) -> usize {
        self.request.at(Field::Shared)
    }

    fn marks(&self, mark: usize) -> bool {
        self.done() && self.mark_asked() == mark
    }

    /// One side of each of these numbers is met, and nothing else.
    fn meets(&self, numbers: &[usize]) -> bool {
        self.met
            .iter()
            .map(|side| side.number)
            .eq(numbers.iter().copied())
    }

    /// Of the sides of 13, own in a shared container alone is met.
    fn for_own(&self) -> bool {
        let mut of_13 = self.met.iter().filter(|side| side.number == 13);
        of_13.next().map(|side| side.text) == Some(paper::NO_OWN_IN_SHARED.text)
            && of_13.next().is_none()
    }

    fn shared(&self, entity: usize) -> bool {
        self.tables.entities[entity].shared == 1
    }

    fn owns(&self, seat: usize) -> bool {
        paper::has_right(self.tables, seat, self.e, paper::OWN)
    }
}

/// What the request shows: bit i for `SITUATIONS[i]`. A number past its range shows nothing.
pub fn situations(tables: &Tables, request: &Request, met: u32) -> u32 {
    let call = request.call;
    if paper::answer(call, met) == 2 {
        return 0;
    }
    let e = request.at(Field::Entity);
    let look = Look {
        tables,
        request,
        met: paper::sides(call)
            .iter()
            .enumerate()
            .filter(|(bit, _)| met & (1 << bit) != 0)
            .map(|(_, side)| side)
            .collect(),
        x: request.at(Field::Seat),
        e,
        parent: tables.entities[e].parent,
    };
    let mut situations = 0;
    for (bit, situation) in SITUATIONS.iter().enumerate() {
        if situation.calls.contains(&call) && (situation.shows)(&look) {
            situations |= 1 << bit;
        }
    }
    situations
}
