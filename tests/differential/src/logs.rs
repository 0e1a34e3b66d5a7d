//! Logs: "a list of requests, of any kind and any length, none at all included, done or refused". A log is
//! made from a file's requests, and a twin from a log.

use crate::paper::{Call, Field, Request, Tables, UserRecord};
use crate::program::{Report, What};
use crate::random::Random;
use crate::upper;

#[derive(Clone, Copy, Debug, PartialEq, Eq)]
pub enum Asked {
    Request(Request),
    /// "A request of none of the sixteen kinds": its number and its acting seat.
    NoKind {
        call: usize,
        seat: usize,
    },
}

#[derive(Clone, Debug, PartialEq, Eq)]
pub struct Entry {
    pub name: String,
    pub asked: Asked,
}

#[derive(Clone, Debug)]
pub struct Log {
    /// What the tables are built from.
    pub users: [UserRecord; 16],
    pub edition: usize,
    pub entries: Vec<Entry>,
}

/// What a log's run told: the answers, the role beside each or none, and the tables after some of the
/// requests.
pub struct Ran {
    pub answers: Vec<usize>,
    pub roles: Vec<Option<usize>>,
    pub tables: Vec<Tables>,
}

/// Numbers of none of the nineteen kinds.
const NO_KINDS: [usize; 6] = [19, 20, 255, 256, 65_536, 4_294_967_295];

impl Asked {
    pub fn seat(&self) -> usize {
        match self {
            Asked::Request(request) => request.at(Field::Seat),
            Asked::NoKind { seat, .. } => *seat,
        }
    }
}

/// The file's requests that can be read, each with its line's number for a name, and a few of no kind.
pub fn log(report: &Report, edition: usize, random: &mut Random) -> Log {
    let mut entries = Vec::new();
    for (index, seen) in report.seen.iter().enumerate() {
        let line = index + 2;
        if let What::Request { request, .. } = seen.what {
            entries.push(Entry {
                name: line.to_string(),
                asked: Asked::Request(request),
            });
            if random.chance(1, 60) {
                let (call, seat) = (random.pick(&NO_KINDS), random.below(17));
                entries.push(Entry {
                    name: format!("{line} and one of no kind"),
                    asked: Asked::NoKind { call, seat },
                });
            }
        }
    }
    Log {
        users: report.users,
        edition,
        entries,
    }
}

/// A log in which the requests of the level and above are the same. Of the others, which are lower or of no
/// level, some are left out, some changed, and some come in addition.
pub fn twin(log: &Log, level: usize, random: &mut Random) -> Log {
    let others: Vec<Asked> = log
        .entries
        .iter()
        .map(|entry| entry.asked)
        .filter(|asked| !upper::is_upper(level, asked))
        .collect();
    // Of a hundred, those that stay; sometimes fewer of those that give or take away rights, in a record or by a tie, so
    // that an upper seat is let in by another role.
    let stay = random.pick(&[0, 20, 50, 80, 95, 99]);
    let of_rights = stay.min(random.pick(&[100, 60, 30]));
    let staying = |asked: &Asked| match asked {
        Asked::Request(request) => match request.call {
            Call::Grant | Call::Revoke | Call::Join | Call::Unjoin => of_rights,
            _ => stay,
        },
        _ => stay,
    };
    let mut entries = Vec::new();
    for entry in &log.entries {
        if !others.is_empty() && random.chance(1, 40) {
            entries.push(Entry {
                name: format!("{} and another", entry.name),
                asked: random.pick(&others),
            });
        }
        if upper::is_upper(level, &entry.asked) || random.chance(staying(&entry.asked), 100) {
            entries.push(entry.clone());
        } else if random.chance(1, 2) {
            entries.push(Entry {
                name: format!("{} changed", entry.name),
                asked: changed(&entry.asked, level, random),
            });
        }
    }
    Log {
        entries,
        ..log.clone()
    }
}

/// A request like this one that is not upper either.
fn changed(asked: &Asked, level: usize, random: &mut Random) -> Asked {
    let lower = random.below(4 * level);
    let Asked::Request(mut request) = *asked else {
        return Asked::NoKind {
            call: random.pick(&NO_KINDS),
            seat: lower,
        };
    };
    let field = random.pick(request.call.uses());
    let past = [field.last() + 1, 65_536, 4_294_967_295];
    let number = match (random.below(8), field) {
        (0, _) => {
            return Asked::NoKind {
                call: random.pick(&NO_KINDS),
                seat: lower,
            }
        }
        (1, _) => random.pick(&past),
        (_, Field::Seat) => lower,
        _ => random.below(field.last() + 1),
    };
    request.set(field, number);
    Asked::Request(request)
}

#[cfg(test)]
mod tests {
    use super::*;
    use crate::files;
    use crate::program::report_in;

    /// The upper requests of twins are the same and in order; the others mostly are not.
    #[test]
    fn twins() {
        let mut differ = 0;
        for index in 0..12 {
            let mut random = Random::for_file(7, index);
            let bytes = files::plain(Random::for_file(7, index), 2, false);
            let log = log(&report_in(2, &bytes), 2, &mut random);
            for level in 1..=3 {
                let twin = twin(&log, level, &mut random);
                let upper = |log: &Log| -> Vec<Entry> {
                    let mut entries = log.entries.clone();
                    entries.retain(|entry| upper::is_upper(level, &entry.asked));
                    entries
                };
                assert_eq!(upper(&log), upper(&twin));
                assert_eq!((log.users, log.edition), (twin.users, twin.edition));
                differ += usize::from(log.entries != twin.entries);
            }
        }
        assert!(differ > 30);
    }
}
