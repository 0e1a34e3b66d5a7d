//! Lines that can't be read. Each form takes a good line, one that would be done where it stands, and spoils it in one
//! way, so that a program which reads it nevertheless gives another answer than 17.

use crate::program::{Column, LONGEST_LINE};
use crate::random::Random;

/// A good line, value by value in the order of the file's names.
pub struct Good {
    pub order: Vec<Column>,
    pub values: Vec<Vec<u8>>,
    pub used: Vec<usize>,
    pub unused: Vec<usize>,
    /// Of these, the columns whose names a line of names may leave out.
    pub optional_used: Vec<usize>,
    pub optional_unused: Vec<usize>,
    pub call: usize,
}

impl Good {
    pub fn line(&self) -> Vec<u8> {
        self.values.join(&b' ')
    }

    fn with(&self, column: usize, value: impl AsRef<[u8]>) -> Vec<u8> {
        let mut values = self.values.clone();
        values[column] = value.as_ref().to_vec();
        values.join(&b' ')
    }

    fn used(&self, random: &mut Random) -> usize {
        random.pick(&self.used)
    }

    fn unused(&self, random: &mut Random) -> usize {
        random.pick(&self.unused)
    }

    fn space(&self, random: &mut Random) -> usize {
        let line = self.line();
        let spaces: Vec<usize> = (0..line.len()).filter(|&at| line[at] == b' ').collect();
        random.pick(&spaces)
    }

    /// Any column.
    fn column(&self, random: &mut Random) -> usize {
        random.below(self.values.len())
    }

    fn without(&self, column: usize) -> Vec<u8> {
        let mut values = self.values.clone();
        values.remove(column);
        values.join(&b' ')
    }

    fn word(&self) -> String {
        String::from_utf8(self.values[self.call].clone()).unwrap()
    }
}

pub struct Form {
    pub name: &'static str,
    pub spoil: fn(&mut Random, &Good) -> Vec<u8>,
}

const fn form(name: &'static str, spoil: fn(&mut Random, &Good) -> Vec<u8>) -> Form {
    Form { name, spoil }
}

pub static UNREADABLE: &[Form] = &[
    form("empty line", |_, _| Vec::new()),
    form("spaces alone", |random, _| {
        vec![b' '; random.between(1, 30)]
    }),
    form("the spaces between the values alone", |_, good| {
        vec![b' '; good.values.len() - 1]
    }),
    form("two spaces for one", |random, good| {
        inserted(good.line(), good.space(random), b" ")
    }),
    form("space before", |_, good| inserted(good.line(), 0, b" ")),
    form("space after", |_, good| {
        [good.line(), b" ".to_vec()].concat()
    }),
    form("tab for a space", |random, good| {
        replaced(good.line(), good.space(random), b"\t")
    }),
    form("tab before", |_, good| inserted(good.line(), 0, b"\t")),
    form("tab after", |_, good| {
        [good.line(), b"\t".to_vec()].concat()
    }),
    form("tab beside a space", |random, good| {
        inserted(good.line(), good.space(random), b"\t")
    }),
    form("carriage return after", |_, good| {
        [good.line(), b"\r".to_vec()].concat()
    }),
    form("carriage return before", |_, good| {
        inserted(good.line(), 0, b"\r")
    }),
    form("carriage return for a space", |random, good| {
        replaced(good.line(), good.space(random), b"\r")
    }),
    form("vertical tab or form feed for a space", |random, good| {
        let byte = random.pick(&[11, 12]);
        replaced(good.line(), good.space(random), &[byte])
    }),
    form("comma for a space", |random, good| {
        replaced(good.line(), good.space(random), b",")
    }),
    form("one value", |random, good| {
        good.values[good.column(random)].clone()
    }),
    form("the word alone", |_, good| good.values[good.call].clone()),
    form("one value left out", |random, good| {
        good.without(good.column(random))
    }),
    form("the last value left out", |_, good| {
        good.without(good.values.len() - 1)
    }),
    form("a dash added", |random, good| {
        let mut values = good.values.clone();
        values.insert(random.below(values.len() + 1), b"-".to_vec());
        values.join(&b' ')
    }),
    form("a number added", |random, good| {
        let mut values = good.values.clone();
        let value = digits(random.below(100));
        values.insert(random.below(values.len() + 1), value);
        values.join(&b' ')
    }),
    form("one more value at the end", |random, good| {
        let last = random.pick(&[&b" -"[..], b" 0", b" 1", b" login", b" 17"]);
        [good.line(), last.to_vec()].concat()
    }),
    form("the line twice in one", |_, good| {
        [good.line(), good.line()].join(&b' ')
    }),
    form("six digits, zeros before", |random, good| {
        let column = good.used(random);
        let mut value = good.values[column].clone();
        while value.len() < 6 {
            value.insert(0, b'0');
        }
        good.with(column, value)
    }),
    form("many zeros before", |random, good| {
        let column = good.used(random);
        let zeros = vec![b'0'; random.between(6, 100)];
        good.with(column, [zeros, good.values[column].clone()].concat())
    }),
    form("six digits", |random, good| {
        let value = random.between(100_000, 999_999);
        good.with(good.used(random), digits(value))
    }),
    form("a number that wraps around", |random, good| {
        let column = good.used(random);
        let value: u128 = String::from_utf8(good.values[column].clone())
            .unwrap()
            .parse()
            .unwrap();
        let turn = random.pick(&[1u128 << 17, 1 << 24, 1 << 31, 1 << 32, 1 << 63, 1 << 64]);
        good.with(column, (turn + value).to_string())
    }),
    form("dash in a used field", |random, good| {
        good.with(good.used(random), "-")
    }),
    form("dashes in all used fields", |_, good| {
        let mut values = good.values.clone();
        for &column in &good.used {
            values[column] = b"-".to_vec();
        }
        values.join(&b' ')
    }),
    form("number in an unused field", |random, good| {
        let value = random.pick(&[0, 1, 3, 15, 255, 65_536, 99_999]);
        good.with(good.unused(random), digits(value))
    }),
    form("numbers in all unused fields", |_, good| {
        let mut values = good.values.clone();
        for &column in &good.unused {
            values[column] = b"0".to_vec();
        }
        values.join(&b' ')
    }),
    form("two dashes in an unused field", |random, good| {
        good.with(good.unused(random), "--")
    }),
    form("two dashes in a used field", |random, good| {
        good.with(good.used(random), "--")
    }),
    form("number with minus in a used field", |random, good| {
        let column = good.used(random);
        let text = random.pick(&["-1", "-0", ""]);
        if text.is_empty() {
            return good.with(column, [b"-", &good.values[column][..]].concat());
        }
        good.with(column, text)
    }),
    form("number with minus in an unused field", |random, good| {
        good.with(good.unused(random), "-1")
    }),
    form("dash and more in an unused field", |random, good| {
        let text = random.pick(&["-a", "-,", "-.", "-\0", "-\r", "-\t"]);
        good.with(good.unused(random), text)
    }),
    form("number with minus after it", |random, good| {
        let column = good.used(random);
        good.with(column, [&good.values[column][..], b"-"].concat())
    }),
    form("number with plus", |random, good| {
        let column = good.used(random);
        good.with(column, [b"+", &good.values[column][..]].concat())
    }),
    form("letters for a number", |random, good| {
        let text = random.pick(&["a", "x", "O", "l", "zero", "true", "nil", "NaN", "inf"]);
        good.with(good.used(random), text)
    }),
    form("letter for a dash", |random, good| {
        let text = random.pick(&["a", "x", "none", "_", "*", "?", "~", "."]);
        good.with(good.unused(random), text)
    }),
    form("letter after digits", |random, good| {
        let column = good.used(random);
        let letter = random.pick(b"aAxuoe_");
        good.with(column, [&good.values[column][..], &[letter]].concat())
    }),
    form("letter before digits", |random, good| {
        let column = good.used(random);
        let letter = random.pick(b"aAxuoe_$#");
        good.with(column, [&[letter], &good.values[column][..]].concat())
    }),
    form("number of another base", |random, good| {
        let text = random.pick(&["0x0", "0x1", "0b1", "0o1", "1e0", "c", "f"]);
        good.with(good.used(random), text)
    }),
    form(
        "decimal point, comma or other mark in a number",
        |random, good| {
            let text = random.pick(&["1.0", "0.", ".0", "1,0", "0,", "1'0", "1_0", "\"0\"", "(0)"]);
            good.with(good.used(random), text)
        },
    ),
    form("byte before 0 in a number", |random, good| {
        let column = good.used(random);
        good.with(column, besides(random, &good.values[column], b'/'))
    }),
    form("byte after 9 in a number", |random, good| {
        let column = good.used(random);
        good.with(column, besides(random, &good.values[column], b':'))
    }),
    form("byte before or after the dash", |random, good| {
        let text = random.pick(&[",", "."]);
        good.with(good.unused(random), text)
    }),
    form("NUL in a number", |random, good| {
        let column = good.used(random);
        good.with(column, besides(random, &good.values[column], 0))
    }),
    form("NUL for a dash", |random, good| {
        good.with(good.unused(random), "\0")
    }),
    form("NUL for a space", |random, good| {
        replaced(good.line(), good.space(random), b"\0")
    }),
    form("NUL after", |_, good| {
        [good.line(), b"\0".to_vec()].concat()
    }),
    form("NUL alone", |_, _| vec![0]),
    form("byte from 128 in a number", |random, good| {
        let column = good.used(random);
        let byte = random.between(128, 255) as u8;
        good.with(column, besides(random, &good.values[column], byte))
    }),
    form("digit or dash with the top bit set", |random, good| {
        let column = good.column(random);
        let value: Vec<u8> = good.values[column].iter().map(|byte| byte | 128).collect();
        good.with(column, value)
    }),
    form("space with the top bit set", |random, good| {
        replaced(good.line(), good.space(random), &[b' ' | 128])
    }),
    form("digit or dash of another alphabet", |random, good| {
        if random.chance(1, 2) {
            return good.with(good.used(random), "\u{ff11}");
        }
        good.with(good.unused(random), "\u{2013}")
    }),
    form("space of another alphabet", |random, good| {
        replaced(good.line(), good.space(random), "\u{a0}".as_bytes())
    }),
    form("byte-order mark before", |_, good| {
        inserted(good.line(), 0, "\u{feff}".as_bytes())
    }),
    form("unknown word", |random, good| {
        let text = random.pick(&[
            "open", "read", "write", "move", "quit", "help", "run", "batch", "set", "seat", "call",
            "remove", "add", "deny", "none",
        ]);
        good.with(good.call, text)
    }),
    form("word with a capital", |_, good| {
        let mut word = good.word();
        let first = word.remove(0).to_ascii_uppercase();
        good.with(good.call, format!("{first}{word}"))
    }),
    form("word in capitals", |_, good| {
        good.with(good.call, good.word().to_ascii_uppercase())
    }),
    form("word cut short", |random, good| {
        let word = good.word();
        let end = random.between(1, word.len() - 1);
        good.with(good.call, &word[..end])
    }),
    form("word without its first letter", |_, good| {
        good.with(good.call, &good.word()[1..])
    }),
    form("word with more after it", |random, good| {
        let more = random.pick(&["s", "d", "x", "0", "-", "\0", "\r", "r", "w"]);
        good.with(good.call, format!("{}{more}", good.word()))
    }),
    form("word with more before it", |random, good| {
        let more = random.pick(&["x", "un", "re", "-", "\0"]);
        // "unlist", "unmake" and "unjoin" are words; twice the letters are not.
        let word = good.word();
        let more = if more == "un" && ["list", "make", "join"].contains(&word.as_str()) {
            "unun"
        } else {
            more
        };
        good.with(good.call, format!("{more}{word}"))
    }),
    form("word with one letter changed", |random, good| {
        let mut word = good.word().into_bytes();
        let at = random.below(word.len());
        word[at] = if word[at] == b'q' { b'z' } else { b'q' };
        good.with(good.call, word)
    }),
    form("word twice", |_, good| {
        good.with(good.call, format!("{0}{0}", good.word()))
    }),
    form("word in quotes", |_, good| {
        good.with(good.call, format!("\"{}\"", good.word()))
    }),
    form("dash for the word", |_, good| good.with(good.call, "-")),
    form("number for the word", |random, good| {
        good.with(good.call, digits(random.below(20)))
    }),
    form("word in another column", |random, good| {
        let mut values = good.values.clone();
        let other = (good.call + random.between(1, values.len() - 1)) % values.len();
        values.swap(good.call, other);
        values.join(&b' ')
    }),
    form("word in a used field", |random, good| {
        good.with(good.used(random), good.word())
    }),
    form("word in an unused field", |random, good| {
        good.with(good.unused(random), good.word())
    }),
    form("the names again", |_, good| {
        let names: Vec<&str> = good.order.iter().map(|column| column.word()).collect();
        names.join(" ").into_bytes()
    }),
    form("a remark", |_, good| [b"# ", &good.line()[..]].concat()),
    form("bytes of any kind", |random, _| {
        // A byte 10 would begin another line.
        (0..random.between(1, 90))
            .map(|_| match random.below(256) as u8 {
                b'\n' => b'!',
                byte => byte,
            })
            .collect()
    }),
    form("255 bytes", |random, good| {
        grown(random, good, LONGEST_LINE)
    }),
    form("256 bytes", |random, good| {
        grown(random, good, LONGEST_LINE + 1)
    }),
    form("257 to 600 bytes", |random, good| {
        let length = random.between(LONGEST_LINE + 2, 600);
        grown(random, good, length)
    }),
    form("thousands of bytes", |random, good| {
        let near = random.pick(&[512, 1_024, 4_096, 8_192, 16_384]);
        let length = random.between(near - 1, near + 1);
        grown(random, good, length)
    }),
    form("about 65,536 bytes", |random, good| {
        let length = random.between(65_530, 65_540);
        grown(random, good, length)
    }),
    form("a good line after 255 bytes", |random, good| {
        let before = random.pick(b"x -0");
        [vec![before; LONGEST_LINE], good.line()].concat()
    }),
    form("a good line after 256 bytes", |random, good| {
        let before = random.pick(b"x -0");
        [vec![before; LONGEST_LINE + 1], good.line()].concat()
    }),
    form("a good line before spaces to 300 bytes", |_, good| {
        let mut line = good.line();
        line.resize(300, b' ');
        line
    }),
    form(
        "a good line at a block's end in a long line",
        |random, good| {
            let block = random.pick(&[255, 256, 512, 1_024, 4_096, 65_536]);
            let mut line = vec![b' '; block];
            line.extend(good.line());
            line.extend(vec![b' '; block]);
            line
        },
    ),
];

/// Lines that use a field whose name a line of names may leave out.
pub static OPTIONAL_USED: &[Form] = &[
    form("number below an optional name left out", |random, good| {
        good.without(random.pick(&good.optional_used))
    }),
    form(
        "dash for a number below an optional name",
        |random, good| good.with(random.pick(&good.optional_used), "-"),
    ),
    form("six digits below an optional name", |random, good| {
        let text = random.pick(&["123456", "100000", "999999", "000000", "000001"]);
        good.with(random.pick(&good.optional_used), text)
    }),
    form(
        "number of an optional name below another",
        |random, good| {
            let mut values = good.values.clone();
            values.swap(random.pick(&good.optional_used), good.unused(random));
            values.join(&b' ')
        },
    ),
];

/// Lines that do not use such a field.
pub static OPTIONAL_UNUSED: &[Form] = &[
    form("dash below an optional name left out", |random, good| {
        good.without(random.pick(&good.optional_unused))
    }),
    form(
        "number for a dash below an optional name",
        number_below_optional,
    ),
];

/// And `user` lines, none of which does.
pub static OPTIONAL_IN_USER: &[Form] = &[form(
    "number below an optional name in a `user` line",
    number_below_optional,
)];

fn number_below_optional(random: &mut Random, good: &Good) -> Vec<u8> {
    let value = random.pick(&[0, 1, 2, 65_535, 99_999, 123_456]);
    good.with(random.pick(&good.optional_unused), digits(value))
}

/// Lines of a request that uses a field without a name: no number can be given for it.
pub static NAMELESS: &[Form] = &[
    form("a request whose field has no name", |_, good| good.line()),
    form(
        "a request whose field has no name, and a number at the end",
        |random, good| {
            let mut values = good.values.clone();
            values.push(digits(random.below(3)));
            values.join(&b' ')
        },
    ),
    form(
        "a request whose field has no name, and a number in another",
        |random, good| {
            let value = digits(random.below(3));
            good.with(good.unused(random), value)
        },
    ),
];

/// A line of this length: the good line with zeros, spaces or more before or after.
fn grown(random: &mut Random, good: &Good, length: usize) -> Vec<u8> {
    let line = good.line();
    let missing = length - line.len();
    match random.below(4) {
        0 => [line, vec![b' '; missing]].concat(),
        1 => [vec![b' '; missing], line].concat(),
        2 => {
            let column = good.used(random);
            let zeros = vec![b'0'; missing];
            good.with(column, [zeros, good.values[column].clone()].concat())
        }
        _ => [line, vec![b'x'; missing]].concat(),
    }
}

fn inserted(mut line: Vec<u8>, at: usize, bytes: &[u8]) -> Vec<u8> {
    line.splice(at..at, bytes.iter().copied());
    line
}

fn replaced(mut line: Vec<u8>, at: usize, bytes: &[u8]) -> Vec<u8> {
    line.splice(at..=at, bytes.iter().copied());
    line
}

/// The byte instead of the value, before it or after it.
fn besides(random: &mut Random, value: &[u8], byte: u8) -> Vec<u8> {
    match random.below(3) {
        0 => vec![byte],
        1 => [&[byte], value].concat(),
        _ => [value, &[byte]].concat(),
    }
}

fn digits(number: usize) -> Vec<u8> {
    number.to_string().into_bytes()
}

/// Lines that are readable, though only just. The writer of a file makes them where they fit.
pub const LEADING_ZEROS: &str = "up to five digits, zeros before";
pub const FIVE_DIGITS_PAST: &str = "five digits past the range";
pub const JUST_PAST: &str = "one past the range";
pub const LAST_IN_RANGE: &str = "the last number in range";
pub const MARKS_PAST: [(usize, &str); 3] = [
    (2, "`share` with mark 2"),
    (65_535, "`share` with mark 65,535"),
    (99_999, "`share` with mark 99,999"),
];
pub const JUNIORS_PAST: [(usize, &str); 3] = [
    (16, "`join` or `unjoin` with junior 16"),
    (65_535, "`join` or `unjoin` with junior 65,535"),
    (99_999, "`join` or `unjoin` with junior 99,999"),
];
pub const MADE_AGAIN: &str = "`share` to 0 of a number made again that was shared";
pub const USER_AFTER_UNREADABLE: &str = "`user` after an unreadable line";
pub const USER_TWICE: &str = "`user` again for the same user";
pub const USER_AFTER_FAULT: &str = "`user` after a `user` answered 2";
pub const USER_PAST_USER: &str = "`user`, the user past its range";
pub const USER_PAST_LEVEL: &str = "`user`, the grade past its range";
pub const USER_PAST_CATS: &str = "`user`, the categories past their range";
pub const USER_PAST_CEILING: &str = "`user`, the ceiling past its range";

/// `user` after a readable line with another word: good in itself, and answered 17.
pub const USER_LATE: &str = "`user` after a readable line with another word";
pub const USER_LATE_PAST: &str = "`user` past a range, after a readable line with another word";
pub const USER_LATE_AT_ONCE: &str = "`user` after a first request answered 2";

pub const READABLE: &[&str] = &[
    LEADING_ZEROS,
    FIVE_DIGITS_PAST,
    JUST_PAST,
    LAST_IN_RANGE,
    MARKS_PAST[0].1,
    MARKS_PAST[1].1,
    MARKS_PAST[2].1,
    JUNIORS_PAST[0].1,
    JUNIORS_PAST[1].1,
    JUNIORS_PAST[2].1,
    MADE_AGAIN,
    USER_AFTER_UNREADABLE,
    USER_TWICE,
    USER_AFTER_FAULT,
    USER_PAST_USER,
    USER_PAST_LEVEL,
    USER_PAST_CATS,
    USER_PAST_CEILING,
];

pub const LATE: &[&str] = &[USER_LATE, USER_LATE_PAST, USER_LATE_AT_ONCE];
