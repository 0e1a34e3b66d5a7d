//! A log run as batches, each request a row of them, with the role that it tells (document 02, A.6). As many are run
//! as stand whole in the rows and have room both for their answers and for their roles.

use crate::cases::{Answered, Room, Script, MOST, ROW};
use crate::logs::{Asked, Log};
use crate::random::Random;

pub struct Situation {
    pub name: &'static str,
    shows: fn(&Look) -> bool,
}

const fn situation(name: &'static str, shows: fn(&Look) -> bool) -> Situation {
    Situation { name, shows }
}

/// What batches have to show.
pub static SITUATIONS: &[Situation] = &[
    situation("every row run, with room to spare for both", |at| {
        let room = at.room.answers.min(at.room.roles);
        at.run.len() == at.rows && room > at.rows && at.tells()
    }),
    situation("less room for roles than for answers", |at| {
        at.room.roles < at.room.answers.min(at.rows) && at.tells()
    }),
    situation("less room for answers than for roles", |at| {
        at.room.answers < at.room.roles.min(at.rows) && at.tells()
    }),
    situation("a last row that does not stand whole", |at| {
        at.room.numbers % ROW != 0 && at.run.len() == at.room.numbers / ROW && at.tells()
    }),
    situation("no room for roles", |at| {
        at.room.roles == 0 && at.room.answers > 0
    }),
    situation("no room for answers", |at| {
        at.room.answers == 0 && at.room.roles > 0
    }),
    situation("not one row that stands whole", |at| {
        at.room.numbers < ROW && at.room.answers.min(at.room.roles) > 0
    }),
    situation("the most rows that there can be", |at| {
        at.run.len() == MOST && at.tells()
    }),
    situation("different roles told in one", |at| {
        let mut roles = at.run.iter().filter_map(|answered| answered.role);
        let first = roles.next();
        roles.any(|role| Some(role) != first)
    }),
    situation("unsound tables", |at| {
        at.run.len() > 1 && at.run.iter().all(|answered| answered.answer == 1)
    }),
];

/// A batch that was run.
pub struct Look<'a> {
    rows: usize,
    room: Room,
    run: &'a [Answered],
}

impl Look<'_> {
    fn tells(&self) -> bool {
        self.run.iter().any(|answered| answered.role.is_some())
    }
}

/// Counts of what was run.
pub struct Counts {
    pub batches: usize,
    pub requests: usize,
    pub situations: Vec<usize>,
}

impl Counts {
    pub fn new() -> Counts {
        Counts {
            batches: 0,
            requests: 0,
            situations: vec![0; SITUATIONS.len()],
        }
    }
}

/// The whole log, from its first tables on, as batches of different lengths; the records that they lead to; and
/// one batch more on unsound tables.
pub fn ask(script: &mut Script, log: &Log, random: &mut Random, counts: &mut Counts) {
    let asked: Vec<Asked> = log.entries.iter().map(|entry| entry.asked).collect();
    script.start(log);
    let mut from = 0;
    while from < asked.len() {
        from += batch(script, &asked, from, random, counts);
    }
    script.show();
    if !asked.is_empty() {
        script.set_edition(random.pick(&[0, 3, 255]));
        let from = random.below(asked.len());
        batch(script, &asked, from, random, counts);
    }
}

/// Some of the requests, from that one on, as one batch. Hands back how many were run.
fn batch(
    script: &mut Script,
    requests: &[Asked],
    from: usize,
    random: &mut Random,
    counts: &mut Counts,
) -> usize {
    let most = random.pick(&[3, 12, 40, 120, MOST, MOST]);
    let length = match random.below(4) {
        0 => most,
        _ => random.between(1, most),
    };
    let rows = &requests[from..requests.len().min(from + length)];
    let room = some_room(rows.len(), random);
    script.gather(rows);
    let run = script.run(rows, room, &format!("batch from {from}"));
    counts.batches += 1;
    counts.requests += run.len();
    let look = Look {
        rows: rows.len(),
        room,
        run: &run,
    };
    for (count, situation) in counts.situations.iter_mut().zip(SITUATIONS) {
        *count += usize::from((situation.shows)(&look));
    }
    run.len()
}

/// Room for so many rows, or for more, or for fewer.
fn some_room(rows: usize, random: &mut Random) -> Room {
    let mut spare = || (rows + random.pick(&[0, 0, 0, 1, 2, 20])).min(MOST);
    let mut room = Room {
        numbers: ROW * rows,
        answers: spare(),
        roles: spare(),
    };
    match random.below(10) {
        0 | 1 => room.roles = random.below(rows),
        2 | 3 => room.answers = random.below(rows),
        4 => {
            room.answers = random.below(rows + 1);
            room.roles = random.below(rows + 1);
        }
        5 | 6 => room.numbers = random.below(ROW * rows),
        _ => {}
    }
    // Nearly nothing.
    if random.chance(1, 20) {
        match random.below(3) {
            0 => room.roles = 0,
            1 => room.answers = 0,
            _ => room.numbers = random.below(ROW),
        }
    }
    room
}

#[cfg(test)]
mod tests {
    use super::*;
    use crate::files;
    use crate::logs;
    use crate::program::report_in;

    /// The batches of a log lead to the tables that its requests lead to one by one, and every situation comes.
    #[test]
    fn batches_of_logs() {
        let mut counts = Counts::new();
        let mut requests = 0;
        for index in 0..12 {
            let mut random = Random::for_file(5, index);
            let bytes = files::plain(Random::for_file(5, index), 2, false);
            let log = logs::log(&report_in(2, &bytes), 2, &mut random);
            requests += log.entries.len();
            let mut script = Script::new();
            script.start(&log);
            for entry in &log.entries {
                script.ask(&entry.asked, &entry.name);
            }
            let mut after = script.tables.clone();
            ask(&mut script, &log, &mut random, &mut counts);
            after.edition = script.tables.edition;
            assert!(script.tables == after && after.edition != 2);
        }
        assert!(counts.requests > requests && counts.situations.iter().all(|&count| count > 0));
    }

    #[test]
    fn room_has_its_bounds() {
        let mut random = Random::new(9);
        for rows in [1, 2, 30, MOST] {
            for _ in 0..2_000 {
                let room = some_room(rows, &mut random);
                assert!(room.numbers <= ROW * rows && room.requests() <= rows);
                assert!(room.answers <= MOST && room.roles <= MOST);
            }
        }
    }
}
