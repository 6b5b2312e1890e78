//! `second words` as a child: how a technician steps a card by hand.

use second::pipe::{self, Part};
use std::io::{Read, Write};
use std::process::{Command, Output, Stdio};

const SECOND: &str = env!("CARGO_BIN_EXE_second");

/// The records go straight to a card, whose lines can be waited for.
const TO_A_CARD: [&str; 4] = ["sh", "-c", "\"$0\" words | \"$0\" card", SECOND];

fn parts(sent: &[(&str, usize)]) -> Vec<Part> {
    sent.iter().map(|(line, answers)| (line.as_bytes().to_vec(), *answers)).collect()
}

#[test]
fn a_line_is_answered_before_the_next_is_sent() {
    let sent = [
        ("# a comment\n", 0),
        ("admit 0 id 9 T 10 C 3 pr 1 # comes\n", 1),
        ("\n", 0),
        ("wake 0 id 9\r\n", 1),
        ("tick", 0),
        (" 3\ntick 1", 1),
        ("0\nblock 11 id 9\n", 2),
        ("remove 11 id 9", 0),
    ];
    let lines = "ok 0 - 0 - 0\nok 0 9 3 3 0\nok 3 - 0 10 0\nok 10 9 3 13 3\nok 11 - 0 - 0\nok 11 - 0 - 0\n";
    let said = pipe::talk(&TO_A_CARD, &parts(&sent)).unwrap();
    assert_eq!(String::from_utf8(said).unwrap(), lines);
}

/// What `second words` makes of an input, which closes behind it.
fn words(input: &[u8]) -> Output {
    let piped = || Stdio::piped();
    let start = Command::new(SECOND).arg("words").stdin(piped()).stdout(piped()).stderr(piped()).spawn();
    let mut child = start.expect("second starts");
    // One that has ended already takes no more.
    child.stdin.take().expect("a pipe was asked for").write_all(input).ok();
    child.wait_with_output().expect("second ends")
}

#[test]
fn a_bad_line_keeps_what_came_before() {
    let tick = [5, 0, 8, 0, 0, 0, 0, 0, 0, 0, 1];
    let bad: [(&[u8], &str); 4] = [
        (b"tick 1\n\n# so\ntik 2\ntick 3\n", "line 4: 'tik' is no call\n"),
        (b"tick 1\ntick 2 3", "line 2: '3' is too many\n"),
        (b"tick 1 # so\r\nbytes 5\r\n", "line 2: '5' is no byte of two hexadecimal digits\n"),
        (b"tick 1\n\xc3\n", "line 2: byte 1 is no UTF-8\n"),
    ];
    for (input, complaint) in bad {
        let done = words(input);
        assert_eq!((done.stdout, done.status.code()), (tick.to_vec(), Some(1)));
        assert_eq!(String::from_utf8(done.stderr).unwrap(), complaint);
    }
    let done = words(b"tick 1");
    assert_eq!((done.stdout, done.stderr, done.status.code()), (tick.to_vec(), Vec::new(), Some(0)));
}

/// The record of a line before a bad one is there though the input stays open.
#[test]
fn a_bad_line_ends_it_while_its_input_is_open() {
    let piped = || Stdio::piped();
    let start = Command::new(SECOND).arg("words").stdin(piped()).stdout(piped()).stderr(piped()).spawn();
    let mut child = start.expect("second starts");
    let mut open = child.stdin.take().expect("a pipe was asked for");
    open.write_all(b"tick 1\ntik\n").unwrap();
    let mut said = Vec::new();
    child.stdout.take().expect("a pipe was asked for").read_to_end(&mut said).unwrap();
    assert_eq!((said.len(), child.wait().unwrap().code()), (11, Some(1)));
}

#[test]
fn a_reader_that_is_gone_ends_it_without_a_line() {
    let script = "{ yes 'tick 1' | \"$0\" words; echo $? >&2; } | true";
    let done = Command::new("sh").args(["-c", script, SECOND]).output().expect("a shell starts");
    assert_eq!(String::from_utf8(done.stderr).unwrap(), "1\n");
}
