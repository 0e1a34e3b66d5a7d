//! Whole request files, each from a seed: how they begin and end, and how many lines they have.

use crate::generator::Writer;
use crate::lines;
use crate::paper::Field;
use crate::program::{optional, sample_order, Column, EDITION, LAST_LINE};
use crate::random::Random;

pub struct Made {
    pub bytes: Vec<u8>,
    /// The forms of lines and files that are in it, with the line they stand on (0 for a form of the whole file).
    pub forms: Vec<(usize, &'static str)>,
}

/// How a file begins and ends.
#[derive(Clone, Copy)]
enum Shape {
    Names(fn(&mut Random, &[&'static str]) -> Vec<u8>),
    NamesAlone {
        ended: bool,
    },
    Bytes(&'static [u8]),
    RequestFirst,
    End(End),
    Lines {
        count: usize,
        ended: bool,
    },
    /// Good and bad names, and in either case far more input than is read.
    MuchAfter {
        names_good: bool,
    },
}

#[derive(Clone, Copy, PartialEq, Eq)]
enum End {
    Ended,
    Unended,
    UnreadableUnended,
    LongUnended,
    LongEnded,
    EmptyLine,
}

/// A plain file's names: which of the optional ones there are, and whether the order is the sample's, the optional ones
/// behind it.
struct Names {
    form: &'static str,
    optional: &'static [Field],
    as_sample: bool,
}

const fn names(form: &'static str, optional: &'static [Field], as_sample: bool) -> Names {
    Names {
        form,
        optional,
        as_sample,
    }
}

const SHARED: &[Field] = &[Field::Shared];
const JUNIOR: &[Field] = &[Field::Junior];
const BOTH: &[Field] = &[Field::Shared, Field::Junior];
const BOTH_TURNED: &[Field] = &[Field::Junior, Field::Shared];

/// A names line is read with neither of `shared` and `junior`, with either and with both.
static PLAIN: [Names; 9] = [
    names("names in the sample's order", &[], true),
    names("names in another order", &[], false),
    names("names in the sample's order, then `shared`", SHARED, true),
    names("names in another order, `shared` among them", SHARED, false),
    names("names in the sample's order, then `junior`", JUNIOR, true),
    names("names in another order, `junior` among them", JUNIOR, false),
    names(
        "names in the sample's order, then the optional ones",
        BOTH,
        true,
    ),
    names(
        "names in the sample's order, then the optional ones turned round",
        BOTH_TURNED,
        true,
    ),
    names(
        "names in another order, the optional ones among them",
        BOTH,
        false,
    ),
];

static SHAPES: &[(&str, Shape)] = &[
    ("last line without byte 10", Shape::End(End::Unended)),
    (
        "last line unreadable and without byte 10",
        Shape::End(End::UnreadableUnended),
    ),
    (
        "last line over 255 bytes and without byte 10",
        Shape::End(End::LongUnended),
    ),
    ("last line over 255 bytes", Shape::End(End::LongEnded)),
    ("last line empty", Shape::End(End::EmptyLine)),
    ("empty file", Shape::Bytes(b"")),
    ("byte 10 alone", Shape::Bytes(b"\n")),
    ("bytes 10 alone", Shape::Bytes(b"\n\n\n")),
    ("one space", Shape::Bytes(b" ")),
    ("names alone", Shape::NamesAlone { ended: true }),
    (
        "names alone, without byte 10",
        Shape::NamesAlone { ended: false },
    ),
    ("names: none, a request first", Shape::RequestFirst),
    (
        "names: one of the twelve missing",
        Shape::Names(|random, names| {
            let mut names = names.to_vec();
            names.remove(one_of_twelve(random, &names));
            names.join(" ").into_bytes()
        }),
    ),
    (
        "names: one twice, another missing",
        Shape::Names(|random, names| {
            let mut names = names.to_vec();
            let count = names.len();
            let at = random.below(count);
            names[at] = names[(at + random.between(1, count - 1)) % count];
            names.join(" ").into_bytes()
        }),
    ),
    (
        "names: one twice",
        Shape::Names(|random, names| {
            let mut names = names.to_vec();
            let again = random.pick(&names);
            add(random, &mut names, again);
            names.join(" ").into_bytes()
        }),
    ),
    (
        "names: an optional one twice",
        Shape::Names(|random, names| {
            let mut names = twelve(names);
            let name = an_optional(random);
            add(random, &mut names, name);
            add(random, &mut names, name);
            names.join(" ").into_bytes()
        }),
    ),
    (
        "names: an optional one twice, the other once",
        Shape::Names(|random, names| {
            let mut names = twelve(names);
            let again = an_optional(random);
            for column in optional() {
                add(random, &mut names, column.word());
            }
            add(random, &mut names, again);
            names.join(" ").into_bytes()
        }),
    ),
    (
        "names: both optional ones, one of the twelve missing",
        Shape::Names(|random, names| {
            let mut names = twelve(names);
            names.remove(random.below(12));
            for column in optional() {
                add(random, &mut names, column.word());
            }
            names.join(" ").into_bytes()
        }),
    ),
    (
        "names: an optional one for one of the twelve",
        Shape::Names(|random, names| {
            let mut names = twelve(names);
            names[random.below(12)] = an_optional(random);
            names.join(" ").into_bytes()
        }),
    ),
    (
        "names: an optional one twice, one of the twelve missing",
        Shape::Names(|random, names| {
            let mut names = twelve(names);
            let name = an_optional(random);
            names[random.below(12)] = name;
            add(random, &mut names, name);
            names.join(" ").into_bytes()
        }),
    ),
    (
        "names: an optional one, one of the twelve twice",
        Shape::Names(|random, names| {
            let mut names = twelve(names);
            let (again, name) = (random.pick(&names), an_optional(random));
            add(random, &mut names, again);
            add(random, &mut names, name);
            names.join(" ").into_bytes()
        }),
    ),
    (
        "names: an optional one cut short",
        Shape::Names(|random, names| {
            let mut names = twelve(names);
            let name = an_optional(random);
            add(random, &mut names, &name[..name.len() - 1]);
            names.join(" ").into_bytes()
        }),
    ),
    (
        "names: an optional one alone",
        Shape::Names(|random, _| an_optional(random).as_bytes().to_vec()),
    ),
    (
        "names: an unknown one for one",
        Shape::Names(|random, names| {
            let mut names = names.to_vec();
            let at = random.below(names.len());
            names[at] = random.pick(&["grade", "x", "label", "answer", "line", "-", "0", "senior"]);
            names.join(" ").into_bytes()
        }),
    ),
    (
        "names: an unknown one added",
        Shape::Names(|random, names| {
            let mut names = names.to_vec();
            let unknown = random.pick(&["grade", "x", "label", "mark", "-", "senior", "join"]);
            add(random, &mut names, unknown);
            names.join(" ").into_bytes()
        }),
    ),
    (
        "names: one cut short",
        Shape::Names(|random, names| {
            let mut names = names.to_vec();
            let at = random.below(names.len());
            names[at] = &names[at][..names[at].len() - 1];
            names.join(" ").into_bytes()
        }),
    ),
    (
        "names: one with more after it",
        Shape::Names(|random, names| {
            let mut names: Vec<String> = names.iter().map(|name| name.to_string()).collect();
            let at = random.below(names.len());
            names[at].push(random.pick(&['s', '0', '\0', ':', ',']));
            names.join(" ").into_bytes()
        }),
    ),
    (
        "names: a capital",
        Shape::Names(|random, names| {
            let mut names: Vec<String> = names.iter().map(|name| name.to_string()).collect();
            let at = random.below(names.len());
            names[at] = names[at].to_ascii_uppercase();
            names.join(" ").into_bytes()
        }),
    ),
    (
        "names: two in one",
        Shape::Names(|random, names| {
            let line = names.join(" ");
            let space = random.pick(&spaces(&line));
            [&line[..space], &line[space + 1..]].concat().into_bytes()
        }),
    ),
    (
        "names: space after",
        Shape::Names(|_, names| (names.join(" ") + " ").into_bytes()),
    ),
    (
        "names: space before",
        Shape::Names(|_, names| format!(" {}", names.join(" ")).into_bytes()),
    ),
    (
        "names: two spaces for one",
        Shape::Names(|random, names| {
            let line = names.join(" ");
            let space = random.pick(&spaces(&line));
            [&line[..space], " ", &line[space..]].concat().into_bytes()
        }),
    ),
    (
        "names: tab for a space",
        Shape::Names(|random, names| {
            let line = names.join(" ");
            let space = random.pick(&spaces(&line));
            [&line[..space], "\t", &line[space + 1..]]
                .concat()
                .into_bytes()
        }),
    ),
    (
        "names: carriage return after",
        Shape::Names(|_, names| (names.join(" ") + "\r").into_bytes()),
    ),
    (
        "names: NUL after",
        Shape::Names(|_, names| (names.join(" ") + "\0").into_bytes()),
    ),
    (
        "names: byte-order mark before",
        Shape::Names(|_, names| format!("\u{feff}{}", names.join(" ")).into_bytes()),
    ),
    (
        "names: byte from 128",
        Shape::Names(|random, names| {
            let mut line = names.join(" ").into_bytes();
            let at = random.below(line.len());
            line[at] |= 128;
            line
        }),
    ),
    (
        "names: an empty line before",
        Shape::Names(|_, names| format!("\n{}", names.join(" ")).into_bytes()),
    ),
    (
        "names: 255 bytes",
        Shape::Names(|_, names| padded(names, 255)),
    ),
    (
        "names: 256 bytes",
        Shape::Names(|_, names| padded(names, 256)),
    ),
    (
        "names: over 255 bytes",
        Shape::Names(|random, names| padded(names, random.between(257, 70_000))),
    ),
    (
        "names: good ones after 255 or 256 bytes",
        Shape::Names(|random, names| {
            let mut line = vec![random.pick(b" x"); random.between(255, 256)];
            line.extend(names.join(" ").into_bytes());
            line
        }),
    ),
    (
        "65,535 lines",
        Shape::Lines {
            count: LAST_LINE,
            ended: true,
        },
    ),
    (
        "65,535 lines, the last without byte 10",
        Shape::Lines {
            count: LAST_LINE,
            ended: false,
        },
    ),
    (
        "65,536 lines",
        Shape::Lines {
            count: LAST_LINE + 1,
            ended: true,
        },
    ),
    (
        "names bad, and 300,000 bytes after them",
        Shape::MuchAfter { names_good: false },
    ),
    (
        "65,535 lines, and 300,000 bytes after them",
        Shape::MuchAfter { names_good: true },
    ),
    (
        "over 65,536 lines",
        Shape::Lines {
            count: LAST_LINE + 6,
            ended: true,
        },
    ),
];

fn is_optional(name: &str) -> bool {
    optional().iter().any(|column| column.word() == name)
}

/// The names without the optional ones.
fn twelve(names: &[&'static str]) -> Vec<&'static str> {
    let mut names = names.to_vec();
    names.retain(|name| !is_optional(name));
    names
}

/// The place of one of the twelve.
fn one_of_twelve(random: &mut Random, names: &[&'static str]) -> usize {
    loop {
        let at = random.below(names.len());
        if !is_optional(names[at]) {
            return at;
        }
    }
}

fn an_optional(random: &mut Random) -> &'static str {
    random.pick(&optional()).word()
}

fn add(random: &mut Random, names: &mut Vec<&'static str>, name: &'static str) {
    names.insert(random.below(names.len() + 1), name);
}

fn spaces(line: &str) -> Vec<usize> {
    line.match_indices(' ').map(|(at, _)| at).collect()
}

fn padded(names: &[&'static str], length: usize) -> Vec<u8> {
    let mut line = names.join(" ").into_bytes();
    line.resize(length, b' ');
    line
}

/// Every form that a run has to meet: of unreadable lines, of lines only just readable, and of whole files.
pub fn forms() -> Vec<&'static str> {
    let unreadable = [
        lines::UNREADABLE,
        lines::OPTIONAL_USED,
        lines::OPTIONAL_UNUSED,
        lines::OPTIONAL_IN_USER,
        lines::NAMELESS,
    ];
    let mut forms: Vec<&'static str> = Vec::new();
    for list in unreadable {
        forms.extend(list.iter().map(|form| form.name));
    }
    forms.extend(lines::LATE);
    forms.extend(lines::READABLE);
    forms.extend(PLAIN.iter().map(|names| names.form));
    forms.extend(SHAPES.iter().map(|(name, _)| name));
    forms
}

/// File `index` of the run. The first files take each shape once; of the later ones most are plain.
pub fn file(seed: u64, index: usize, long: bool) -> Made {
    let mut random = Random::for_file(seed, index);
    // In another order, and mostly with all names.
    let mut plain = match random.below(16) {
        0 => &PLAIN[1],
        1 => &PLAIN[3],
        2 | 3 => &PLAIN[5],
        _ => &PLAIN[8],
    };
    // None for a plain file.
    let mut name = None;
    let mut shape = Shape::End(End::Ended);
    if let Some(first) = PLAIN.get(index) {
        plain = first;
    } else if let Some(first) = SHAPES.get(index - PLAIN.len()) {
        (name, shape) = (Some(first.0), first.1);
    } else if random.chance(1, 8) {
        // Files of very many lines take their time.
        let one = random.pick(SHAPES);
        match one.1 {
            Shape::Lines { .. } | Shape::MuchAfter { .. } if random.chance(5, 6) => {}
            _ => (name, shape) = (Some(one.0), one.1),
        }
    }
    let mut order = sample_order();
    if name.is_some() {
        order.extend(optional().into_iter().filter(|_| random.chance(2, 3)));
    } else {
        order.extend(plain.optional.iter().map(|&field| Column::Field(field)));
    }
    if name.is_some() || !plain.as_sample {
        let first = order.clone();
        while order == first {
            random.shuffle(&mut order);
        }
    }
    let names: Vec<&'static str> = order.iter().map(|column| column.word()).collect();
    let names_line = names.join(" ").into_bytes();

    let mut writer = Writer::new(random, &names_line, EDITION);
    writer.forms.push((0, name.unwrap_or(plain.form)));
    match shape {
        Shape::Bytes(bytes) => writer.bytes = bytes.to_vec(),
        Shape::NamesAlone { ended } => {
            if !ended {
                writer.bytes.pop();
            }
        }
        Shape::RequestFirst => {
            writer.body(20);
            writer.bytes.drain(..names_line.len() + 1);
        }
        Shape::Names(spoil) => {
            // What follows would be answered if the names were taken.
            writer.body(20);
            let rest = writer.bytes.split_off(names_line.len());
            writer.bytes = spoil(&mut writer.random, &names);
            writer.bytes.extend(rest);
        }
        Shape::End(end) => {
            let count = length(&mut writer.random, long);
            writer.body(count);
            writer.end(end);
        }
        Shape::Lines { count, ended } => {
            writer.body(60);
            writer.short_lines(LAST_LINE - 20);
            while writer.line_count < count {
                writer.aimed();
            }
            if !ended {
                writer.bytes.pop();
            }
        }
        Shape::MuchAfter { names_good } => {
            writer.body(20);
            if names_good {
                writer.short_lines(LAST_LINE);
            } else {
                writer.bytes[0] = b'!';
            }
            let line = writer.random.pick(&["logout 0 - -\n", "\n", "x", "- "]);
            writer
                .bytes
                .extend(line.repeat(300_000 / line.len()).bytes());
        }
    }
    let none_read = matches!(
        shape,
        Shape::Bytes(_)
            | Shape::RequestFirst
            | Shape::Names(_)
            | Shape::MuchAfter { names_good: false }
    );
    if none_read {
        writer.forms.truncate(1);
    }
    Made {
        bytes: writer.bytes,
        forms: writer.forms,
    }
}

/// A plain file with all names, over tables of an edition.
pub fn plain(mut random: Random, edition: usize, long: bool) -> Vec<u8> {
    let mut order = [sample_order(), optional()].concat();
    random.shuffle(&mut order);
    let names: Vec<&'static str> = order.iter().map(|column| column.word()).collect();
    let mut writer = Writer::new(random, names.join(" ").as_bytes(), edition);
    let count = length(&mut writer.random, long);
    writer.body(count);
    writer.bytes
}

fn length(random: &mut Random, long: bool) -> usize {
    random.between(150, if long { 3_000 } else { 1_400 })
}

impl Writer {
    /// Short lines up to and with line `to`: mostly unreadable, so that the file stays small.
    fn short_lines(&mut self, to: usize) {
        while self.line_count < to {
            if self.random.chance(1, 500) {
                self.aimed();
                continue;
            }
            let line = self
                .random
                .pick(&[&b""[..], b"", b"-", b"x", b" ", b"\r", b"0"]);
            self.write(line, None);
        }
    }

    fn end(&mut self, end: End) {
        match end {
            End::Ended => {}
            End::Unended => {
                let call = self.call();
                self.ask(call, &[]);
                self.bytes.pop();
            }
            End::UnreadableUnended => {
                // Without its byte 10 an empty line would be no line.
                loop {
                    let before = self.bytes.len();
                    self.unreadable();
                    if self.bytes.len() > before + 1 {
                        break;
                    }
                }
                self.bytes.pop();
            }
            End::LongUnended | End::LongEnded => {
                let length = self.random.pick(&[256, 257, 511, 512, 513, 5_000]);
                self.write(&vec![b'-'; length], None);
                if end == End::LongUnended {
                    self.bytes.pop();
                }
            }
            End::EmptyLine => {
                self.write(b"", None);
            }
        }
    }
}

#[cfg(test)]
mod tests {
    use super::*;
    use crate::paper::{self, Label};
    use crate::program::Program;

    /// The tables that some files reach: trees deep and at every level, labels, many seats and roles.
    #[test]
    fn files_reach_far() {
        let mut deepest = [0; 4];
        let (mut seats, mut roles, mut entities, mut labelled, mut shared) = (0, 0, 0, 0, 0);
        let (mut ties, mut chains) = (0, [0; 4]);
        let begin = PLAIN.len() + SHAPES.len();
        for index in begin..begin + 60 {
            let made = file(1, index, false);
            let mut lines = made.bytes.split(|&byte| byte == b'\n');
            let names = lines.next();
            let Some(mut program) = names.and_then(|names| Program::start(names, EDITION)) else {
                continue;
            };
            for line in lines.take(2_000) {
                program.answer(line);
                let tables = &program.tables;
                for entity in 0..64 {
                    let mut depth = 0;
                    let mut at = entity;
                    while !paper::is_root(at) {
                        at = tables.entities[at].parent;
                        depth += 1;
                    }
                    let deep = &mut deepest[paper::entity_level(entity)];
                    *deep = depth.max(*deep);
                }
                let live = tables.seats.iter().filter(|seat| seat.live).count();
                seats = live.max(seats);
                roles = tables
                    .roles
                    .iter()
                    .filter(|role| role.live)
                    .count()
                    .max(roles);
                let live = tables.entities.iter().filter(|entity| entity.live);
                entities = live.count().max(entities);
                let opened = tables
                    .seats
                    .iter()
                    .filter(|seat| seat.label != Label::default() && seat.writing.contains(&true));
                labelled = opened.count().max(labelled);
                let marks = tables.entities.iter().map(|entity| entity.shared);
                shared = marks.sum::<usize>().max(shared);
                let all = tables.roles.iter().flat_map(|role| role.juniors);
                ties = all.filter(|&tied| tied).count().max(ties);
                let seniors = (0..16).filter(|&role| tables.roles[role].juniors.contains(&true));
                for senior in seniors {
                    let longest = &mut chains[paper::role_level(senior)];
                    let below = (0..16).filter_map(|role| paper::depth(tables, senior, role));
                    *longest = below.max().unwrap().max(*longest);
                }
            }
        }
        assert!(deepest.iter().all(|&depth| depth >= 8));
        assert!(seats == 16 && roles >= 12 && entities >= 40 && labelled >= 3 && shared >= 8);
        assert!(ties >= 8 && chains == [3; 4]);
    }
}
