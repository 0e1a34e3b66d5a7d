//! Runs the request program and matches what it prints.

use std::io::Write;
use std::process::{Command, Stdio};
use std::thread;

const NAMES: &str = "call seat user role entity parent kind name level cats rights ceiling";

const NAMES_SHARED: &str =
    "call seat user role entity parent kind name level cats rights ceiling shared";

const NAMES_JUNIOR: &str =
    "call seat user role entity parent kind name level cats rights ceiling junior";

const NAMES_BOTH: &str =
    "call seat user role entity parent kind name level cats rights ceiling shared junior";

fn run_with(words: &[&str], input: &[u8]) -> String {
    let mut program = Command::new(env!("CARGO_BIN_EXE_reference"))
        .args(words)
        .stdin(Stdio::piped())
        .stdout(Stdio::piped())
        .spawn()
        .unwrap();
    let mut stdin = program.stdin.take().unwrap();
    let input = input.to_vec();
    // The program may stop before it has read everything.
    let writer = thread::spawn(move || drop(stdin.write_all(&input)));
    let output = program.wait_with_output().unwrap();
    writer.join().unwrap();
    assert!(output.status.success());
    String::from_utf8(output.stdout).unwrap()
}

fn run(input: &[u8]) -> String {
    let output = run_with(&[], input);
    assert_eq!(output, run_with(&["--test-each"], input));
    output
}

/// The answers to the lines below this names line.
fn answers(names: &str, lines: &[&str]) -> Vec<u8> {
    let input = format!("{names}\n{}\n", lines.join("\n"));
    let output = run(input.as_bytes());
    let mut rows = output.strip_suffix('\n').unwrap().split('\n');
    assert_eq!(rows.next(), Some("line answer"));
    rows.enumerate()
        .map(|(place, row)| {
            let (line, answer) = row.split_once(' ').unwrap();
            assert_eq!(line, (place + 2).to_string());
            answer.parse().unwrap()
        })
        .collect()
}

#[track_caller]
fn check_below(names: &str, lines: &[(&str, u8)]) {
    let (texts, expected): (Vec<&str>, Vec<u8>) = lines.iter().copied().unzip();
    assert_eq!(answers(names, &texts), expected);
}

#[track_caller]
fn check(lines: &[(&str, u8)]) {
    check_below(NAMES, lines);
}

const BAD_START: &str = "line answer\n1 17\n";

#[test]
fn the_sample() {
    let input = "\
call seat user role entity parent kind name level cats rights ceiling
user - 0 - - - - - 3 255 - 3
login 12 0 - - - - - 0 0 - -
take 12 - 12 - - - - - - - -
openw 12 - - 48 - - - - - - -
openw 12 - - 48 - - - - - - -
logout 13 - - - - - - - - - -
";
    let output = "line answer\n2 0\n3 0\n4 0\n5 0\n6 16\n7 5\n";
    assert_eq!(run(input.as_bytes()), output);
    assert_eq!(run(input.trim_end().as_bytes()), output);
}

#[test]
fn one_morning() {
    check(&[
        ("user - 0 - - - - - 3 255 - 3", 0),
        ("user - 1 - - - - - 1 0 - 1", 0),
        ("login 12 0 - - - - - 0 0 - -", 0),
        ("login 13 1 - - - - - 0 0 - -", 4),
        ("login 4 1 - - - - - 0 0 - -", 0),
        ("take 12 - 12 - - - - - - - -", 0),
        ("take 4 - 12 - - - - - - - -", 12),
        ("openw 12 - - 48 - - - - - - -", 0),
        ("openr 4 - - 48 - - - - - - -", 13),
        ("openw 4 - - 48 - - - - - - -", 10),
        ("create 12 - 12 49 48 0 7 0 0 - -", 0),
        ("create 12 - 12 50 48 0 7 0 0 - -", 14),
        ("create 12 - 12 33 48 0 7 0 0 - -", 10),
        ("delete 12 - - 48 - - - - - - -", 6),
        ("rename 12 - - 49 - - 7 - - - -", 14),
        ("delete 12 - - 49 - - - - - - -", 0),
    ]);
}

#[test]
fn edges() {
    check(&[
        ("user - 0 - - - - - 3 255 - 3", 0),
        ("login 12 0 - - - - - 4 0 - -", 2),
        ("login 12 0 - - - - - 3 256 - -", 4),
        ("login 12 0 - - - - - 3 65535 - -", 4),
        ("login 12 0 - - - - - 3 65536 - -", 2),
        ("login 12 0 - - - - - 3 99999 - -", 2),
        ("login 12 0 - - - - - 3 100000 - -", 17),
        ("login 12 0 - - - - - 3 065535 - -", 17),
        ("login 12 0 - - - - - 00000 00000 - -", 0),
        ("login 00013 00000 - - - - - 3 255 - -", 0),
        ("login 000013 0 - - - - - 3 255 - -", 17),
        ("take 12 - 12 - - - - - - - -", 0),
        ("openw 12 - - 48 - - - - - - -", 0),
        ("openr 12 - - 63 - - - - - - -", 7),
        ("openr 12 - - 64 - - - - - - -", 2),
        ("create 12 - 12 49 48 0 65535 0 0 - -", 0),
        ("create 12 - 12 50 48 0 65536 0 0 - -", 2),
        ("create 12 - 12 50 48 0 99999 0 0 - -", 2),
        ("create 12 - 12 50 48 0 100000 0 0 - -", 17),
        ("create 12 - 12 50 48 0 0 0 0 - -", 2),
        ("create 12 - 12 50 48 2 1 0 0 - -", 2),
        ("create 12 - 12 50 48 0 1 0 65536 - -", 2),
        ("create 12 - 12 50 48 0 1 0 99999 - -", 2),
        ("create 12 - 12 50 48 0 1 0 100000 - -", 17),
        ("create 12 - 12 50 48 0 1 0 65535 - -", 0),
        ("grant 12 - 12 49 - - - - - 15 -", 0),
        ("grant 12 - 12 49 - - - - - 16 -", 2),
        ("grant 12 - 12 49 - - - - - 0 -", 2),
        ("revoke 12 - 12 49 - - - - - 8 -", 0),
        ("revoke 12 - 12 49 - - - - - 1 -", 13),
        ("close 12 - - 48 - - - - - - -", 0),
        ("list 12 1 12 - - - - - - - -", 0),
        ("unlist 12 1 12 - - - - - - - -", 0),
        ("make 12 - 13 - - - - - - - -", 0),
        ("unmake 12 - 13 - - - - - - - -", 0),
        ("drop 12 - 12 - - - - - - - -", 0),
        ("logout 12 - - - - - - - - - -", 0),
    ]);
}

#[test]
fn faults() {
    let long = "9".repeat(300);
    let edge = format!("logout 1 - - - - - - - - - {}", "-".repeat(255 - 26));
    for line in [
        "",
        " ",
        "logout",
        "logout 12",
        "logout 12 - - - - - - - - -",
        "logout 12 - - - - - - - - - - -",
        "logout 12 - - - - - - - - - - ",
        " logout 12 - - - - - - - - - -",
        "logout  12 - - - - - - - - - -",
        "logout 12 - - - - - - - - -  -",
        "logout 12 - - - - - - - - - -\r",
        "logout\t12 - - - - - - - - - -",
        "logout 12 - - - - - - - - - --",
        "logout 12 - - - - - - - - - -0",
        "logout -1 - - - - - - - - - -",
        "logout +1 - - - - - - - - - -",
        "logout 1a - - - - - - - - - -",
        "logout 0x1 - - - - - - - - - -",
        "logout a - - - - - - - - - -",
        "logout / - - - - - - - - - -",
        "logout : - - - - - - - - - -",
        "logout 1. - - - - - - - - - -",
        "logout 000001 - - - - - - - - - -",
        "logout - - - - - - - - - - -",
        "logout 12 0 - - - - - - - - -",
        "logout 99 0 - - - - - - - - -",
        "logout 12 - - - - - - - - - 0",
        "login 12 0 - - - - - 0 - - -",
        "login 12 0 - - - - - 0 0 - 0",
        "Logout 12 - - - - - - - - - -",
        "logou 12 - - - - - - - - - -",
        "logouts 12 - - - - - - - - - -",
        "logout1 12 - - - - - - - - - -",
        "1 12 - - - - - - - - - -",
        "- 12 - - - - - - - - - -",
        "12 logout - - - - - - - - - -",
        "logout 12 - - - - - logout - - - -",
        "logout\0 12 - - - - - - - - - -",
        "logout 12\0 - - - - - - - - - -",
        "logout 12 - - - - - - - - - -\0",
        "\u{fc}ser - 0 - - - - - 3 255 - 3",
        "logout 12 - - \u{a0} - - - - - - -",
        &long,
        &edge,
    ] {
        check(&[(line, 17), ("logout 12 - - - - - - - - - -", 5)]);
    }
}

#[test]
fn user_lines() {
    check(&[
        ("user - 0 - - - - - 3 255 - 3", 0),
        ("user - 0 - - - - - 4 255 - 3", 2),
        ("user - 0 - - - - - 3 65536 - 3", 2),
        ("user - 0 - - - - - 3 99999 - 3", 2),
        ("user - 0 - - - - - 3 100000 - 3", 17),
        ("user - 0 - - - - - 3 255 - 4", 2),
        ("user - 16 - - - - - 3 255 - 3", 2),
        ("user - 1 - - - - - 3 255 - 3", 0),
        ("user - 1 - - - - - 0 1 - 2", 0),
        ("user 0 0 - - - - - 3 255 - 3", 17),
        ("user - - - - - - - 3 255 - 3", 17),
        ("user - 0 - - - - - 3 255 - -", 17),
        ("nothing", 17),
        ("login - 0 - - - - - 0 0 - -", 17),
        ("user - 2 - - - - - 0 0 - 1", 0),
        // Refused, but readable.
        ("login 99 0 - - - - - 0 0 - -", 2),
        ("user - 3 - - - - - 3 255 - 3", 17),
        ("user - 16 - - - - - 3 255 - 3", 17),
        ("login 12 3 - - - - - 0 0 - -", 4),
        ("login 12 0 - - - - - 3 255 - -", 0),
        ("login 13 1 - - - - - 0 0 - -", 4),
        ("login 8 1 - - - - - 0 2 - -", 4),
        ("login 8 1 - - - - - 0 1 - -", 0),
        ("login 4 2 - - - - - 0 0 - -", 0),
        ("login 5 3 - - - - - 0 0 - -", 4),
        ("login 0 3 - - - - - 0 0 - -", 0),
    ]);
}

#[test]
fn categories() {
    check(&[
        ("user - 0 - - - - - 3 65535 - 3", 0),
        ("user - 1 - - - - - 3 65280 - 3", 0),
        ("user - 2 - - - - - 3 255 - 3", 0),
        ("user - 3 - - - - - 3 32768 - 3", 0),
        ("login 0 2 - - - - - 0 256 - -", 4),
        ("login 0 1 - - - - - 0 255 - -", 4),
        ("login 0 3 - - - - - 0 128 - -", 4),
        ("login 0 3 - - - - - 0 32768 - -", 0),
        ("login 1 1 - - - - - 0 33024 - -", 0),
        ("login 12 0 - - - - - 0 65535 - -", 0),
        ("login 13 0 - - - - - 0 0 - -", 0),
        ("login 14 0 - - - - - 0 259 - -", 0),
        ("login 15 0 - - - - - 0 3 - -", 0),
        ("take 12 - 12 - - - - - - - -", 0),
        ("take 13 - 12 - - - - - - - -", 0),
        ("take 14 - 12 - - - - - - - -", 0),
        ("take 15 - 12 - - - - - - - -", 0),
        ("openw 13 - - 48 - - - - - - -", 0),
        ("create 13 - 12 49 48 1 1 0 259 - -", 0),
        ("grant 13 - 12 49 - - - - - 7 -", 0),
        ("openr 12 - - 49 - - - - - - -", 0),
        ("openw 12 - - 49 - - - - - - -", 11),
        ("openr 15 - - 49 - - - - - - -", 11),
        ("openw 15 - - 49 - - - - - - -", 11),
        ("openw 14 - - 49 - - - - - - -", 0),
        ("create 14 - 12 50 49 0 1 0 3 - -", 11),
        ("create 14 - 12 50 49 0 1 0 515 - -", 11),
        ("create 14 - 12 50 49 0 1 0 33027 - -", 0),
    ]);
}

#[test]
fn dropped_roles() {
    check(&[
        ("user - 0 - - - - - 3 255 - 3", 0),
        ("login 12 0 - - - - - 0 0 - -", 0),
        ("take 12 - 12 - - - - - - - -", 0),
        ("openw 12 - - 48 - - - - - - -", 0),
        ("create 12 - 12 49 48 0 1 0 0 - -", 0),
        ("drop 12 - 12 - - - - - - - -", 0),
        ("rename 12 - - 49 - - 2 - - - -", 13),
        ("close 12 - - 48 - - - - - - -", 16),
        ("take 12 - 12 - - - - - - - -", 0),
        ("rename 12 - - 49 - - 2 - - - -", 13),
        ("openw 12 - - 48 - - - - - - -", 0),
        ("rename 12 - - 49 - - 2 - - - -", 0),
        ("revoke 12 - 12 48 - - - - - 1 -", 0),
        ("rename 12 - - 49 - - 3 - - - -", 0),
        ("revoke 12 - 12 48 - - - - - 2 -", 0),
        ("rename 12 - - 49 - - 4 - - - -", 13),
        ("create 12 - 12 50 48 0 4 0 0 - -", 13),
    ]);
}

#[test]
fn shared_drawers() {
    let opening = [
        ("user - 0 - - - - - 3 255 - 3 -", 0),
        ("login 12 0 - - - - - 0 0 - - -", 0),
        ("take 12 - 12 - - - - - - - - -", 0),
        ("openw 12 - - 48 - - - - - - - -", 0),
        ("create 12 - 12 49 48 0 1 0 0 - - -", 0),
        ("revoke 12 - 12 49 - - - - - 8 - -", 0),
    ];
    let lines = [
        ("share 12 - - 48 - - - - - - - 0", 16),
        ("share 12 - - 48 - - - - - - - 1", 0),
        ("share 12 - - 48 - - - - - - - 00001", 16),
        ("share 12 - - 48 - - - - - - - 2", 2),
        ("share 12 - - 48 - - - - - - - 256", 2),
        ("share 12 - - 48 - - - - - - - 65535", 2),
        ("share 12 - - 48 - - - - - - - 65536", 2),
        ("share 12 - - 48 - - - - - - - 99999", 2),
        ("share 12 - - 48 - - - - - - - 100000", 17),
        ("share 12 - - 48 - - - - - - - 123456", 17),
        ("share 12 - - 48 - - - - - - - 000000", 17),
        ("share 12 - - 64 - - - - - - - 0", 2),
        ("share 16 - - 48 - - - - - - - 0", 2),
        ("share 13 - - 48 - - - - - - - 0", 5),
        ("share 12 - - 50 - - - - - - - 0", 7),
        ("share 12 - - 49 - - - - - - - 0", 9),
        ("share 12 - - 0 - - - - - - - 1", 13),
        ("rename 12 - - 49 - - 2 - - - - -", 13),
        ("delete 12 - - 49 - - - - - - - -", 13),
        ("share 12 - - 48 - - - - - - - 00000", 0),
        ("rename 12 - - 49 - - 2 - - - - -", 0),
        ("delete 12 - - 49 - - - - - - - -", 0),
    ];
    check_below(NAMES_SHARED, &[&opening[..], &lines].concat());
}

#[test]
fn faults_with_shared() {
    for line in [
        // `share` uses its three fields and no other.
        "share 12 - - 48 - - - - - - - -",
        "share 12 - - - - - - - - - - 1",
        "share - - - 48 - - - - - - - 1",
        "share 12 0 - 48 - - - - - - - 1",
        "share 12 - 12 48 - - - - - - - 1",
        "share 12 - - 48 - - - - - - 0 1",
        "share 12 - - 48 - - - - - - 1 -",
        "share 12 - - 48 - - - - - - - -1",
        "share 12 - - 48 - - - - - - - +1",
        "share 12 - - 48 - - - - - - - 1 ",
        "share 12 - - 48 - - - - - - - 1a",
        "shared 12 - - 48 - - - - - - - 1",
        "shar 12 - - 48 - - - - - - - 1",
        "Share 12 - - 48 - - - - - - - 1",
        "unshare 12 - - 48 - - - - - - - 1",
        // The other words do not use it.
        "logout 12 - - - - - - - - - - 0",
        "logout 12 - - - - - - - - - - 1",
        "logout 12 - - - - - - - - - - 99999",
        "logout 12 - - - - - - - - - - 123456",
        "login 12 0 - - - - - 0 0 - - 0",
        "create 12 - 12 49 48 1 7 0 0 - - 0",
        "delete 12 - - 49 - - - - - - - 1",
        "user - 0 - - - - - 3 255 - 3 0",
        "user - 0 - - - - - 3 255 - 3 1",
        // As many values as names.
        "logout 12 - - - - - - - - - -",
        "user - 0 - - - - - 3 255 - 3",
        "share 12 - - 48 - - - - - - 1",
        "logout 12 - - - - - - - - - - - -",
        "share 12 - - 48 - - - - - - - 1 -",
    ] {
        let readable = ("logout 12 - - - - - - - - - - -", 5);
        check_below(NAMES_SHARED, &[(line, 17), readable]);
    }
    // Below the twelve names no line can give the mark.
    for line in [
        "share 12 - - 48 - - - - - - -",
        "share 12 - - 48 - - - - - - 1",
        "share 12 - - 48 - - - - - - - -",
        "share 12 - - 48 - - - - - - - 0",
        "share 12 - - 48 - - - - - - - 1",
        "logout 12 - - - - - - - - - - -",
        "user - 0 - - - - - 3 255 - 3 -",
    ] {
        check(&[
            (line, 17),
            ("user - 0 - - - - - 3 255 - 3", 0),
            ("logout 12 - - - - - - - - - -", 5),
        ]);
    }
}

#[test]
fn names_lines_with_shared() {
    for good in [
        NAMES_SHARED,
        "shared call seat user role entity parent kind name level cats rights ceiling",
        "call shared seat user role entity parent kind name level cats rights ceiling",
    ] {
        assert_eq!(run(good.as_bytes()), "line answer\n");
        assert_eq!(run(format!("{good}\n").as_bytes()), "line answer\n");
        let more = format!("{good}\n{}\n", [NAMES; 2].join("\n"));
        assert_eq!(run(more.as_bytes()), "line answer\n2 17\n3 17\n");
    }
    for bad in [
        "shared",
        "call seat user role entity parent kind name level cats rights shared",
        "shared seat user role entity parent kind name level cats rights ceiling",
        "call seat user role entity parent kind name level cats rights ceiling shared shared",
        "shared call seat user role entity parent kind name level cats rights ceiling shared",
        "call seat user role entity parent kind name level cats rights shared shared",
        "call seat user role entity parent kind name level cats rights rights shared",
        "call seat user role entity parent kind name level cats rights ceiling ceiling shared",
        "call seat user role entity parent kind name level cats rights ceiling share",
        "call seat user role entity parent kind name level cats rights ceiling Shared",
        "call seat user role entity parent kind name level cats rights ceiling shareds",
        "call seat user role entity parent kind name level cats rights ceiling shared ",
        "call seat user role entity parent kind name level cats rights ceiling  shared",
        "call seat user role entity parent kind name level cats rights ceiling shared\r",
        "call seat user role entity parent kind name level cats rights ceiling mark",
        "call seat user role entity parent kind name level cats rights ceiling shared mark",
        "call seat user role entity parent kind name level cats rights ceiling -",
    ] {
        assert_eq!(run(bad.as_bytes()), BAD_START);
        let more = format!("{bad}\nlogout 12 - - - - - - - - - - -\n");
        assert_eq!(run(more.as_bytes()), BAD_START);
    }
}

/// Seat 12 keeps level 3, and seat 13 holds role 13, which may do nothing yet. Roles 13, 14 and 15
/// are there.
const FOUR_ROLES: [(&str, u8); 9] = [
    ("user - 0 - - - - - 3 255 - 3 -", 0),
    ("login 12 0 - - - - - 0 0 - - -", 0),
    ("take 12 - 12 - - - - - - - - -", 0),
    ("make 12 - 13 - - - - - - - - -", 0),
    ("make 12 - 14 - - - - - - - - -", 0),
    ("make 12 - 15 - - - - - - - - -", 0),
    ("list 12 0 13 - - - - - - - - -", 0),
    ("login 13 0 - - - - - 0 0 - - -", 0),
    ("take 13 - 13 - - - - - - - - -", 0),
];

#[test]
fn ties() {
    let lines = [
        ("openr 13 - - 48 - - - - - - - -", 13),
        ("join 12 - 13 - - - - - - - - 14", 0),
        ("join 12 - 14 - - - - - - - - 15", 0),
        ("join 12 - 15 - - - - - - - - 00012", 0),
        ("join 12 - 13 - - - - - - - - 14", 16),
        ("join 12 - 13 - - - - - - - - 13", 22),
        ("join 12 - 14 - - - - - - - - 13", 22),
        ("join 12 - 15 - - - - - - - - 13", 22),
        ("join 12 - 12 - - - - - - - - 13", 22),
        ("join 12 - 13 - - - - - - - - 15", 0),
        ("unjoin 12 - 13 - - - - - - - - 15", 0),
        ("unjoin 12 - 13 - - - - - - - - 15", 16),
        ("unjoin 12 - 13 - - - - - - - - 13", 16),
        // The edges of a role's number.
        ("join 12 - 13 - - - - - - - - 16", 2),
        ("join 12 - 13 - - - - - - - - 256", 2),
        ("join 12 - 13 - - - - - - - - 65535", 2),
        ("join 12 - 13 - - - - - - - - 65536", 2),
        ("unjoin 12 - 13 - - - - - - - - 99999", 2),
        ("unjoin 12 - 13 - - - - - - - - 100000", 17),
        ("unjoin 12 - 13 - - - - - - - - 000014", 17),
        ("join 12 - 16 - - - - - - - - 13", 2),
        ("join 16 - 13 - - - - - - - - 14", 2),
        ("join 14 - 13 - - - - - - - - 14", 5),
        ("unjoin 14 - 13 - - - - - - - - 14", 5),
        ("join 12 - 13 - - - - - - - - 11", 7),
        ("unjoin 12 - 11 - - - - - - - - 13", 7),
        ("join 12 - 13 - - - - - - - - 8", 10),
        ("unjoin 12 - 8 - - - - - - - - 13", 10),
        ("join 13 - 13 - - - - - - - - 15", 12),
        ("unjoin 13 - 13 - - - - - - - - 14", 12),
        // By a right of the last, and without a tie no more.
        ("openw 13 - - 48 - - - - - - - -", 0),
        ("create 13 - 12 49 48 0 7 0 0 - - -", 12),
        ("create 13 - 13 49 48 0 7 0 0 - - -", 0),
        ("unmake 12 - 13 - - - - - - - - -", 15),
        ("unmake 12 - 14 - - - - - - - - -", 15),
        ("unmake 12 - 12 - - - - - - - - -", 6),
        ("unjoin 12 - 14 - - - - - - - - 00015", 0),
        ("rename 13 - - 49 - - 8 - - - - -", 13),
        ("close 13 - - 48 - - - - - - - -", 16),
        ("openw 13 - - 48 - - - - - - - -", 13),
        ("unjoin 12 - 13 - - - - - - - - 14", 0),
        ("unmake 12 - 14 - - - - - - - - -", 0),
        ("join 12 - 13 - - - - - - - - 14", 7),
    ];
    check_below(NAMES_JUNIOR, &[&FOUR_ROLES[..], &lines].concat());
}

#[test]
fn faults_with_junior() {
    for line in [
        // Both words use their three fields and no other.
        "join 12 - 13 - - - - - - - - -",
        "join 12 - - - - - - - - - - 14",
        "join - - 13 - - - - - - - - 14",
        "join 12 0 13 - - - - - - - - 14",
        "join 12 - 13 48 - - - - - - - 14",
        "join 12 - 13 - - - - - - - 0 14",
        "join 12 - 13 - - - - - - - 14 -",
        "join 12 - 13 - - - - - - 14 - -",
        "join 12 - 13 - - - - - - - - -1",
        "join 12 - 13 - - - - - - - - +1",
        "join 12 - 13 - - - - - - - - 1a",
        "join 12 - 13 - - - - - - - - 14 ",
        "unjoin 12 - 13 - - - - - - - - -",
        "unjoin 12 - - - - - - - - - - 14",
        "unjoin 12 - 13 - - - - 0 - - - 14",
        "joins 12 - 13 - - - - - - - - 14",
        "joi 12 - 13 - - - - - - - - 14",
        "Join 12 - 13 - - - - - - - - 14",
        "JOIN 12 - 13 - - - - - - - - 14",
        "rejoin 12 - 13 - - - - - - - - 14",
        "unjoi 12 - 13 - - - - - - - - 14",
        "ununjoin 12 - 13 - - - - - - - - 14",
        "junior 12 - 13 - - - - - - - - 14",
        // The other words do not use it.
        "logout 12 - - - - - - - - - - 0",
        "logout 12 - - - - - - - - - - 15",
        "logout 12 - - - - - - - - - - 99999",
        "logout 12 - - - - - - - - - - 123456",
        "take 12 - 12 - - - - - - - - 12",
        "unmake 12 - 13 - - - - - - - - 14",
        "list 12 0 13 - - - - - - - - 14",
        "user - 0 - - - - - 3 255 - 3 0",
        // Without its name there is no mark.
        "share 12 - - 48 - - - - - - - 1",
        "share 12 - - 48 - - - - - - - -",
        // As many values as names.
        "logout 12 - - - - - - - - - -",
        "user - 0 - - - - - 3 255 - 3",
        "join 12 - 13 - - - - - - - 14",
        "logout 12 - - - - - - - - - - - -",
        "join 12 - 13 - - - - - - - - 14 -",
        "join 12 - 13 - - - - - - - - - 14",
    ] {
        let readable = ("logout 12 - - - - - - - - - - -", 5);
        check_below(NAMES_JUNIOR, &[(line, 17), readable]);
    }
    // Below the twelve names, and below `shared`, no line can give the junior.
    for line in [
        "join 12 - 13 - - - - - - - -",
        "join 12 - 13 - - - - - - - 14",
        "join 12 - 13 - - - - - - - - -",
        "join 12 - 13 - - - - - - - - 14",
        "unjoin 12 - 13 - - - - - - - -",
        "unjoin 12 - 13 - - - - - - - - 14",
    ] {
        check(&[
            (line, 17),
            ("user - 0 - - - - - 3 255 - 3", 0),
            ("logout 12 - - - - - - - - - -", 5),
        ]);
    }
    for line in [
        "join 12 - 13 - - - - - - - - -",
        "join 12 - 13 - - - - - - - - 14",
        "join 12 - 13 - - - - - - - - 1",
        "join 12 - 13 - - - - - - - - - 14",
        "unjoin 12 - 13 - - - - - - - - -",
        "unjoin 12 - 13 - - - - - - - - 14",
    ] {
        check_below(
            NAMES_SHARED,
            &[
                (line, 17),
                ("user - 0 - - - - - 3 255 - 3 -", 0),
                ("share 12 - - 48 - - - - - - - 1", 5),
            ],
        );
    }
    // Each of the two below its own name.
    for line in [
        "join 12 - 13 - - - - - - - - 14 -",
        "join 12 - 13 - - - - - - - - 1 14",
        "join 12 - 13 - - - - - - - - 14",
        "share 12 - - 48 - - - - - - - - 1",
        "share 12 - - 48 - - - - - - - 1 1",
        "share 12 - - 48 - - - - - - - 1",
        "logout 12 - - - - - - - - - - -",
        "logout 12 - - - - - - - - - - 0 -",
        "logout 12 - - - - - - - - - - - 0",
        "logout 12 - - - - - - - - - - - - -",
        "user - 0 - - - - - 3 255 - 3 - 0",
        "user - 0 - - - - - 3 255 - 3 0 -",
        "user - 0 - - - - - 3 255 - 3 -",
    ] {
        check_below(
            NAMES_BOTH,
            &[
                (line, 17),
                ("user - 0 - - - - - 3 255 - 3 - -", 0),
                ("share 12 - - 48 - - - - - - - 1 -", 5),
                ("join 12 - 13 - - - - - - - - - 14", 5),
                ("logout 12 - - - - - - - - - - - -", 5),
            ],
        );
    }
}

#[test]
fn names_lines_with_junior() {
    for good in [
        NAMES_JUNIOR,
        NAMES_BOTH,
        "junior call seat user role entity parent kind name level cats rights ceiling",
        "call junior seat user role entity parent kind name level cats rights ceiling",
        "call seat user role entity parent kind name level cats rights ceiling junior shared",
        "junior call seat user role entity parent kind name level cats rights ceiling shared",
        "shared junior call seat user role entity parent kind name level cats rights ceiling",
        "call seat user role shared entity parent kind name junior level cats rights ceiling",
    ] {
        assert_eq!(run(good.as_bytes()), "line answer\n");
        assert_eq!(run(format!("{good}\n").as_bytes()), "line answer\n");
        let more = format!("{good}\n{}\n", [NAMES; 2].join("\n"));
        assert_eq!(run(more.as_bytes()), "line answer\n2 17\n3 17\n");
    }
    for bad in [
        "junior",
        "junior shared",
        "call seat user role entity parent kind name level cats rights junior",
        "call seat user role entity parent kind name level cats rights shared junior",
        "junior seat user role entity parent kind name level cats rights ceiling shared",
        "call seat user role entity parent kind name level cats rights ceiling junior junior",
        "junior call seat user role entity parent kind name level cats rights ceiling junior",
        "call seat user role entity parent kind name level cats rights ceiling junior shared junior",
        "call seat user role entity parent kind name level cats rights ceiling shared junior shared",
        "call seat user role entity parent kind name level cats rights ceiling shared shared junior",
        "call seat user role entity parent kind name level cats rights ceiling ceiling shared junior",
        "call seat user role role entity parent kind name level cats rights ceiling junior",
        "call seat user role entity parent kind name level cats rights rights shared junior",
        "call seat user role entity parent kind name level cats rights ceiling Junior",
        "call seat user role entity parent kind name level cats rights ceiling juniors",
        "call seat user role entity parent kind name level cats rights ceiling junio",
        "call seat user role entity parent kind name level cats rights ceiling senior junior",
        "call seat user senior entity parent kind name level cats rights ceiling junior",
        "call seat user role entity parent kind name level cats rights ceiling join",
        "call seat user role entity parent kind name level cats rights ceiling sharedjunior",
        "call seat user role entity parent kind name level cats rights ceiling junior ",
        "call seat user role entity parent kind name level cats rights ceiling shared  junior",
        "call seat user role entity parent kind name level cats rights ceiling shared junior\r",
        "call seat user role entity parent kind name level cats rights ceiling shared junior mark",
    ] {
        assert_eq!(run(bad.as_bytes()), BAD_START);
        let more = format!("{bad}\nlogout 12 - - - - - - - - - - - -\n");
        assert_eq!(run(more.as_bytes()), BAD_START);
    }
}

#[test]
fn names_lines() {
    assert_eq!(run(b""), BAD_START);
    assert_eq!(run(b"\n"), BAD_START);
    for bad in [
        "call seat user role entity parent kind name level cats rights",
        "call seat user role entity parent kind name level cats rights ceiling ",
        " call seat user role entity parent kind name level cats rights ceiling",
        "call  seat user role entity parent kind name level cats rights ceiling",
        "call seat user role entity parent kind name level cats rights rights",
        "call seat user role entity parent kind name level cats rights ceiling call",
        "call seat user role entity parent kind name level cats rights Ceiling",
        "call seat user role entity parent kind name level cats rights ceiling\r",
        "call seat user role entity parent kind name level cats rights ceiling\0",
        "logout 12 - - - - - - - - - -",
    ] {
        assert_eq!(run(bad.as_bytes()), BAD_START);
        let more = format!("{bad}\nlogout 12 - - - - - - - - - -\n");
        assert_eq!(run(more.as_bytes()), BAD_START);
    }
    assert_eq!(run(&[b'c'; 200_000]), BAD_START);
    assert_eq!(run(NAMES.as_bytes()), "line answer\n");
    assert_eq!(run(format!("{NAMES}\n").as_bytes()), "line answer\n");
    assert_eq!(
        run(format!("{NAMES}\n\n").as_bytes()),
        "line answer\n2 17\n"
    );
}

/// Runs the lines with the columns in many orders.
fn check_in_any_order(names: &str, lines: &[&str], output: &str) {
    let count = names.split(' ').count();
    // None has a divisor in common with 12 or 13, but one with 14.
    for stride in [1, 5, 7, 11] {
        if stride > 1 && count.is_multiple_of(stride) {
            continue;
        }
        for start in 0..count {
            let turn = |line: &str| {
                let values: Vec<&str> = line.split(' ').collect();
                assert_eq!(values.len(), count);
                let turned: Vec<&str> = (0..count)
                    .map(|place| values[(start + stride * place) % count])
                    .collect();
                turned.join(" ")
            };
            let mut input = turn(names);
            for line in lines {
                input += "\n";
                input += &turn(line);
            }
            assert_eq!(run(input.as_bytes()), output);
        }
    }
}

#[test]
fn names_in_any_order() {
    let lines = [
        "user - 0 - - - - - 3 255 - 3",
        "login 12 0 - - - - - 1 2 - -",
        "login 12 0 - - - - - 1 2 - 3",
        "take 12 - 12 - - - - - - - -",
        "openw 12 - - 48 - - - - - - -",
        "openr 12 - - 48 - - - - - - -",
        "logout 13 - - - - - - - - - -",
        "logout 12 - - - - - - - - - -",
    ];
    let output = "line answer\n2 0\n3 0\n4 17\n5 0\n6 11\n7 0\n8 5\n9 0\n";
    check_in_any_order(NAMES, &lines, output);
    let lines = [
        "user - 0 - - - - - 3 255 - 3 1",
        "user - 0 - - - - - 3 255 - 3 -",
        "login 12 0 - - - - - 1 2 - - -",
        "login 13 0 - - - - - 1 2 - - 0",
        "take 12 - 12 - - - - - - - - -",
        "share 12 - - 48 - - - - - - - 1",
        "share 12 - - 48 - - - - - - - -",
        "share 12 - - 48 - - - - - - - 1",
        "share 12 - - 48 - - - - - - - 2",
        "share 12 - - 0 - - - - - - - 1",
        "logout 12 - - - - - - - - - - -",
    ];
    let output = "line answer\n2 17\n3 0\n4 0\n5 17\n6 0\n7 0\n8 17\n9 16\n10 2\n11 13\n12 0\n";
    check_in_any_order(NAMES_SHARED, &lines, output);
    let lines = [
        "user - 0 - - - - - 3 255 - 3 1",
        "user - 0 - - - - - 3 255 - 3 -",
        "login 12 0 - - - - - 1 2 - - -",
        "take 12 - 12 - - - - - - - - -",
        "make 12 - 13 - - - - - - - - -",
        "join 12 - 13 - - - - - - - - 12",
        "join 12 - 12 - - - - - - - - 13",
        "join 12 - 13 - - - - - - - - -",
        "join 12 - 13 - - - - - - - - 16",
        "unmake 12 - 13 - - - - - - - - 12",
        "unmake 12 - 13 - - - - - - - - -",
        "unjoin 12 - 13 - - - - - - - - 12",
    ];
    let output =
        "line answer\n2 17\n3 0\n4 0\n5 0\n6 0\n7 0\n8 22\n9 17\n10 2\n11 17\n12 15\n13 0\n";
    check_in_any_order(NAMES_JUNIOR, &lines, output);
    let lines = [
        "user - 0 - - - - - 3 255 - 3 - 12",
        "user - 0 - - - - - 3 255 - 3 1 -",
        "user - 0 - - - - - 3 255 - 3 - -",
        "login 12 0 - - - - - 1 2 - - - -",
        "take 12 - 12 - - - - - - - - - -",
        "make 12 - 13 - - - - - - - - - -",
        "join 12 - 13 - - - - - - - - - 12",
        "join 12 - 13 - - - - - - - - 12 -",
        "join 12 - 13 - - - - - - - - 1 12",
        "share 12 - - 48 - - - - - - - 1 -",
        "share 12 - - 48 - - - - - - - - 1",
        "share 12 - - 48 - - - - - - - 1 12",
        "share 12 - - 48 - - - - - - - 1 -",
        "unjoin 12 - 13 - - - - - - - - - 12",
        "unjoin 12 - 13 - - - - - - - - - 12",
    ];
    let output =
        "line answer\n2 17\n3 17\n4 0\n5 0\n6 0\n7 0\n8 0\n9 17\n10 17\n11 0\n12 17\n13 17\n\
                  14 16\n15 0\n16 16\n";
    check_in_any_order(NAMES_BOTH, &lines, output);
}

#[test]
fn sixty_five_thousand_lines() {
    for lines in [65_533, 65_534, 65_535, 70_000] {
        let input = format!(
            "{NAMES}\n{}",
            "logout 13 - - - - - - - - - -\n".repeat(lines)
        );
        let mut output = String::from("line answer\n");
        for line in 2..=(lines + 1).min(65_535) {
            output += &format!("{line} 5\n");
        }
        assert_eq!(run(input.as_bytes()), output);
    }
}

/// Lines of all lengths, so that the ends of the blocks read fall everywhere.
#[test]
fn long_lines() {
    let mut input = format!("{NAMES}\n").into_bytes();
    let mut output = String::from("line answer\n");
    let mut line = 1;
    let mut put = |input: &mut Vec<u8>, text: &[u8], answer: u8| {
        input.extend_from_slice(text);
        input.push(b'\n');
        line += 1;
        output += &format!("{line} {answer}\n");
    };
    for length in (0..2_000).chain([65_534, 65_535, 65_536, 65_537, 131_072, 1_000_000]) {
        put(&mut input, &vec![b'-'; length], 17);
        put(&mut input, b"logout 13 - - - - - - - - - -", 5);
        let mut text = b"logout 13 - - - - - - - - - -".to_vec();
        text.resize(text.len() + length, b' ');
        put(&mut input, &text, if length == 0 { 5 } else { 17 });
    }
    put(&mut input, &[b'x'; 300_000], 17);
    assert_eq!(run(&input), output);
    input.pop();
    assert_eq!(run(&input), output);
}

/// "The program uses 1" (document 02, A.13).
#[test]
fn editions() {
    let lines = "\
user - 0 - - - - - 3 255 - 3
login 12 0 - - - - - 0 0 - -
take 12 - 0 - - - - - - - -
openr 12 - - 0 - - - - - - -
openr 12 - - 0 - - - - - - -
openr 12 - - 48 - - - - - - -
close 12 - - 0 - - - - - - -
login 0 0 - - - - - 0 0 - -
take 0 - 12 - - - - - - - -
openw 0 - - 48 - - - - - - -
openr 0 - - 48 - - - - - - -
";
    let input = format!("{NAMES}\n{lines}");
    let first = "line answer\n2 0\n3 0\n4 0\n5 10\n6 10\n7 13\n8 16\n9 0\n10 0\n11 10\n12 0\n";
    let second = "line answer\n2 0\n3 0\n4 0\n5 0\n6 16\n7 13\n8 0\n9 0\n10 0\n11 10\n12 0\n";
    assert_eq!(run(input.as_bytes()), first);
    for words in [&["--edition", "2"][..], &["--test-each", "--edition", "2"]] {
        assert_eq!(run_with(words, input.as_bytes()), second);
    }
}

/// "The program prints as before" (document 02, A.6).
#[test]
fn roles() {
    let lines = "\
user - 0 - - - - - 3 255 - 3
login 12 0 - - - - - 0 0 - -
take 12 - 12 - - - - - - - -
take 12 - 0 - - - - - - - -
openw 12 - - 48 - - - - - - -
openw 12 - - 48 - - - - - - -
openw 12 - - 0 - - - - - - -
nothing
openr 12 - - 0 - - - - - - -
openr 12 - - 48 - - - - - - -
close 12 - - 48 - - - - - - -
take 12 - 4 - - - - - - - -
openw 12 - - 16 - - - - - - -
";
    let input = format!("{NAMES}\n{lines}");
    let plain = "line answer\n2 0\n3 0\n4 0\n5 0\n6 0\n7 16\n8 0\n9 17\n10 10\n\
                 11 0\n12 0\n13 0\n14 0\n";
    assert_eq!(run(input.as_bytes()), plain);
    let told = plain
        .replace("\n6 0\n", "\n6 0 12\n")
        .replace("\n8 0\n", "\n8 0 0\n")
        .replace("\n11 0\n", "\n11 0 12\n")
        .replace("\n14 0\n", "\n14 0 4\n");
    for words in [&["--roles"][..], &["--test-each", "--roles"]] {
        assert_eq!(run_with(words, input.as_bytes()), told);
    }
    let reading_down = told.replace("\n10 10\n", "\n10 0 0\n");
    for words in [
        &["--roles", "--edition", "2"][..],
        &["--test-each", "--edition", "2", "--roles"],
    ] {
        assert_eq!(run_with(words, input.as_bytes()), reading_down);
    }
}

/// "The role of A.6 is the held one" (document 02, A.8).
#[test]
fn roles_with_ties() {
    let lines = "\
join 12 - 13 - - - - - - - - 14
join 12 - 14 - - - - - - - - 12
openr 13 - - 48 - - - - - - - -
list 12 0 14 - - - - - - - - -
take 13 - 14 - - - - - - - - -
openw 13 - - 48 - - - - - - - -
unjoin 12 - 13 - - - - - - - - 14
close 13 - - 48 - - - - - - - -
openr 13 - - 48 - - - - - - - -
join 12 - 12 - - - - - - - - 14
take 13 - 12 - - - - - - - - -
openw 13 - - 48 - - - - - - - -
";
    let mut input = format!("{NAMES_JUNIOR}\n");
    for (line, _) in FOUR_ROLES {
        input += &format!("{line}\n");
    }
    input += lines;
    let plain =
        "line answer\n2 0\n3 0\n4 0\n5 0\n6 0\n7 0\n8 0\n9 0\n10 0\n11 0\n12 0\n13 0\n14 0\n\
                 15 0\n16 0\n17 0\n18 0\n19 0\n20 22\n21 0\n22 0\n";
    assert_eq!(run(input.as_bytes()), plain);
    let told = plain
        .replace("\n13 0\n", "\n13 0 13\n")
        .replace("\n16 0\n", "\n16 0 13\n")
        .replace("\n19 0\n", "\n19 0 14\n")
        .replace("\n22 0\n", "\n22 0 12\n");
    for words in [&["--roles"][..], &["--test-each", "--roles"]] {
        assert_eq!(run_with(words, input.as_bytes()), told);
    }
}

/// Rows of all lengths, up to the last line.
#[test]
fn roles_on_every_second_line() {
    let opening = "\
user - 0 - - - - - 3 255 - 3
login 12 0 - - - - - 0 0 - -
take 12 - 12 - - - - - - - -
";
    let twice = "openr 12 - - 48 - - - - - - -\nclose 12 - - 48 - - - - - - -\n";
    let input = format!("{NAMES}\n{opening}{}", twice.repeat(33_000));
    let mut output = String::from("line answer\n2 0\n3 0\n4 0\n");
    for line in 5..=65_535 {
        let role = if line % 2 == 1 { " 12" } else { "" };
        output += &format!("{line} 0{role}\n");
    }
    assert_eq!(run_with(&["--roles"], input.as_bytes()), output);
}

#[test]
fn words_that_are_not_known() {
    for words in [
        &["--edition"][..],
        &["--edition", "3"],
        &["--edition", "2", "2"],
        &["--other"],
        &["--role"],
    ] {
        let output = Command::new(env!("CARGO_BIN_EXE_reference"))
            .args(words)
            .stdin(Stdio::null())
            .output()
            .unwrap();
        assert_eq!(output.status.code(), Some(2));
        assert!(output.stdout.is_empty());
    }
}

/// Nobody reads the answers: the program ends without a word.
#[test]
fn a_closed_output() {
    let mut program = Command::new(env!("CARGO_BIN_EXE_reference"))
        .stdin(Stdio::piped())
        .stdout(Stdio::piped())
        .stderr(Stdio::piped())
        .spawn()
        .unwrap();
    drop(program.stdout.take());
    let mut stdin = program.stdin.take().unwrap();
    let input = format!("{NAMES}\n{}", "nothing\n".repeat(60_000));
    let _ = stdin.write_all(input.as_bytes());
    drop(stdin);
    let output = program.wait_with_output().unwrap();
    assert!(output.status.success());
    assert!(output.stderr.is_empty());
}
