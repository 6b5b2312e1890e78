//! Records in words, as in the paper's left column, to bytes and back. An admit can end with
//! `kind` and a byte; it is 0 where none is given, and 0 is not written. What is no whole
//! record is written `bytes` with two hexadecimal digits for each. Blank lines are skipped,
//! and `#` begins a comment to the end of its line.

use crate::records;
use crate::turns::{Call, Change, Description, LARGEST_IDENTIFIER};
use std::fmt::Write as _;
use std::io::{self, BufRead, BufReader, BufWriter, Read, Write};

fn number(word: &str, most: u64) -> Result<u64, String> {
    if word.is_empty() || !word.bytes().all(|byte| byte.is_ascii_digit()) {
        return Err(format!("'{word}' is no number"));
    }
    match word.parse() {
        Ok(value) if value <= most => Ok(value),
        _ => Err(format!("{word} is above {most}, the largest that a record can hold here")),
    }
}

/// The word that must stand before a number.
fn name<'a>(words: &mut impl Iterator<Item = &'a str>, name: &str) -> Result<(), String> {
    match words.next() {
        Some(word) if word == name => Ok(()),
        Some(word) => Err(format!("'{name}' should stand where '{word}' does")),
        None => Err(format!("'{name}' is missing")),
    }
}

fn next_number<'a>(words: &mut impl Iterator<Item = &'a str>, most: u64) -> Result<u64, String> {
    number(words.next().ok_or("a number is missing")?, most)
}

fn named<'a>(words: &mut impl Iterator<Item = &'a str>, its: &str, most: u64) -> Result<u64, String> {
    name(words, its)?;
    next_number(words, most)
}

/// The kind is the last word of an admit, so what stands there can be nothing else.
fn kind<'a>(words: &mut impl Iterator<Item = &'a str>) -> Result<u8, String> {
    match words.next() {
        None => Ok(0),
        Some("kind") => Ok(next_number(words, 255)? as u8),
        Some(word) => Err(format!("'{word}' is too many")),
    }
}

fn change<'a>(first: &str, words: &mut impl Iterator<Item = &'a str>) -> Result<Change, String> {
    if first == "tick" {
        return Ok(Change::Tick);
    }
    let identifier = named(words, "id", u64::from(LARGEST_IDENTIFIER))? as u32;
    Ok(match first {
        "wake" => Change::Wake(identifier),
        "block" => Change::Block(identifier),
        "remove" => Change::Remove(identifier),
        _ => Change::Admit(Description {
            identifier,
            period: named(words, "T", u64::from(u32::MAX))? as u32,
            capacity: named(words, "C", u64::from(u32::MAX))? as u32,
            priority: named(words, "pr", 255)? as u8,
            kind: kind(words)?,
        }),
    })
}

fn byte(word: &str) -> Result<u8, String> {
    if word.len() != 2 || !word.bytes().all(|byte| byte.is_ascii_hexdigit()) {
        return Err(format!("'{word}' is no byte of two hexadecimal digits"));
    }
    u8::from_str_radix(word, 16).map_err(|error| error.to_string())
}

/// The bytes of one record.
pub fn record(line: &str) -> Result<Vec<u8>, String> {
    let mut words = line.split_ascii_whitespace();
    let first = words.next().ok_or("an empty line")?;
    if first == "bytes" {
        return words.map(byte).collect();
    }
    if !["admit", "wake", "block", "remove", "tick"].contains(&first) {
        return Err(format!("'{first}' is no call"));
    }
    let time = next_number(&mut words, u64::MAX)?;
    let change = change(first, &mut words)?;
    match words.next() {
        Some(word) => Err(format!("'{word}' is too many")),
        None => Ok(records::write(&Call { time, change })),
    }
}

/// The bytes of one line; a blank one and a comment have none.
fn line_to_record(line: &str) -> Result<Vec<u8>, String> {
    let words = line.split('#').next().unwrap_or("");
    if words.trim().is_empty() {
        return Ok(Vec::new());
    }
    record(words)
}

/// All lines to records.
pub fn to_records(text: &str) -> Result<Vec<u8>, String> {
    let mut bytes = Vec::new();
    for (place, line) in text.lines().enumerate() {
        bytes.extend(line_to_record(line).map_err(|error| format!("line {}: {error}", place + 1))?);
    }
    Ok(bytes)
}

fn bytes_to_record(line: &[u8]) -> Result<Vec<u8>, String> {
    let text = std::str::from_utf8(line);
    line_to_record(text.map_err(|error| format!("byte {} is no UTF-8", error.valid_up_to() + 1))?)
}

/// `words`: lines to records as they come. The record of each line is written before more
/// input is waited for; a last line without a newline counts. A bad line is told by its
/// number, behind the records before it: at a terminal the next line is read then, so that
/// a typo costs one line; anywhere else it is the end, so that no record is left out.
pub fn run(
    input: impl Read,
    output: impl Write,
    mut complaints: impl Write,
    at_a_terminal: bool,
) -> io::Result<Result<(), String>> {
    let (mut input, mut output) = (BufReader::new(input), BufWriter::new(output));
    let mut line = Vec::new();
    for number in 1u64.. {
        if !input.buffer().contains(&b'\n') {
            output.flush()?;
        }
        line.clear();
        if input.read_until(b'\n', &mut line)? == 0 {
            break;
        }
        match bytes_to_record(&line) {
            Ok(record) => output.write_all(&record)?,
            Err(error) => {
                output.flush()?;
                let told = go_on(format!("line {number}: {error}"), &mut complaints, at_a_terminal);
                if told.is_err() {
                    return Ok(told);
                }
            }
        }
    }
    output.flush().map(Ok)
}

/// A complaint that nobody takes is no reason to end.
fn go_on(error: String, complaints: &mut impl Write, at_a_terminal: bool) -> Result<(), String> {
    if !at_a_terminal {
        return Err(error);
    }
    complaints.write_all((error + "\n").as_bytes()).ok();
    Ok(())
}

fn call_in_words(call: &Call) -> String {
    let time = call.time;
    match call.change {
        Change::Tick => format!("tick {time}"),
        Change::Wake(identifier) => format!("wake {time} id {identifier}"),
        Change::Block(identifier) => format!("block {time} id {identifier}"),
        Change::Remove(identifier) => format!("remove {time} id {identifier}"),
        Change::Admit(Description { identifier, period, capacity, priority, kind }) => {
            let kind = if kind == 0 { String::new() } else { format!(" kind {kind}") };
            format!("admit {time} id {identifier} T {period} C {capacity} pr {priority}{kind}")
        }
    }
}

/// The front record in words and its length; what is none, all of it, as bytes.
pub fn front_in_words(bytes: &[u8]) -> (String, usize) {
    match records::read(bytes) {
        Ok((call, length)) => (call_in_words(&call), length),
        Err(_) => {
            let mut line = "bytes".to_string();
            for byte in bytes {
                write!(line, " {byte:02x}").expect("a string takes all");
            }
            (line, bytes.len())
        }
    }
}

/// All records in words, one a line.
pub fn from_records(bytes: &[u8]) -> String {
    let mut text = String::new();
    let mut rest = bytes;
    while !rest.is_empty() {
        let (line, length) = front_in_words(rest);
        text += &line;
        text.push('\n');
        rest = &rest[length..];
    }
    text
}

#[cfg(test)]
mod tests {
    use super::*;

    #[test]
    fn there_and_back() {
        let text = "admit 0 id 65793 T 10 C 3 pr 1\nadmit 0 id 2 T 10 C 3 pr 1 kind 1\n\
                    admit 0 id 2 T 10 C 3 pr 1 kind 255\nwake 0 id 257\nblock 11 id 0\n\
                    remove 18446744073709551615 id 16777215\ntick 3\nbytes 05 00\n";
        let bytes = to_records(text).unwrap();
        assert_eq!(bytes.len(), 3 * 24 + 3 * 14 + 11 + 2);
        assert_eq!(from_records(&bytes), text);
        let admit = "admit 0 id 65793 T 10 C 3 pr 1";
        assert_eq!(record(&format!("{admit} kind 0")), record(admit));
    }

    #[test]
    fn errors_name_the_line() {
        let wrong = [
            "tick",
            "tick x",
            "tick 18446744073709551616",
            "tick 3 4",
            "wake 0 257",
            "wake 0 id 16777216",
            "admit 0 id 1 T 10 C 3",
            "admit 0 id 1 C 3 T 10 pr 1",
            "admit 0 id 1 T 10 C 3 pr 256",
            "admit 0 id 1 T 4294967296 C 3 pr 2",
            "admit 0 id 1 T 10 C 3 pr 1 2",
            "admit 0 id 1 T 10 C 3 pr 1 kind",
            "admit 0 id 1 T 10 C 3 pr 1 kind 256",
            "admit 0 id 1 T 10 C 3 pr 1 kind 2 2",
            "wake 0 id 1 kind 1",
            "sleep 3",
            "bytes 5",
            "bytes +5",
        ];
        for line in wrong {
            let error = to_records(&format!("tick 1\n\n# so\n{line}\n")).unwrap_err();
            assert!(error.starts_with("line 4: "), "{error}");
        }
    }
    /// What is written, what is complained of, and how it ends.
    fn streamed(input: &[u8], at_a_terminal: bool) -> (String, String, Result<(), String>) {
        let (mut output, mut complaints) = (Vec::new(), Vec::new());
        let ended = run(input, &mut output, &mut complaints, at_a_terminal).unwrap();
        (from_records(&output), String::from_utf8(complaints).unwrap(), ended)
    }

    #[test]
    fn comments_and_blanks_stand_anywhere() {
        let text = "# a comment\r\n\n  # another\r\n \t\r\ntick 1 # first\ntick 2# second # twice\r\n\
                    #tick 3\n#\nadmit 0 id 2 T 10 C 3 pr 1 # kind 1\nbytes 05 # 06\r\nbytes # none\ntick 4";
        let right = "tick 1\ntick 2\nadmit 0 id 2 T 10 C 3 pr 1\nbytes 05 05 00 08 00 00 00 00 00 00 00 04\n";
        assert_eq!(streamed(text.as_bytes(), false), (right.to_string(), String::new(), Ok(())));
        assert_eq!(to_records(text), to_records(right));
        for nothing in ["", "\n", "\r\n", "#", "# so\n"] {
            assert_eq!(streamed(nothing.as_bytes(), false), (String::new(), String::new(), Ok(())));
        }
    }

    #[test]
    fn a_last_line_needs_no_newline() {
        for last in ["tick 2", "tick 2\r", "tick 2 # so", "tick 2\n"] {
            let text = format!("tick 1\n{last}");
            assert_eq!(streamed(text.as_bytes(), false).0, "tick 1\ntick 2\n", "{last}");
        }
        let ended = streamed(b"tick 1\ntick", false);
        let error = Err("line 2: a number is missing".to_string());
        assert_eq!(ended, ("tick 1\n".to_string(), String::new(), error));
    }

    const BAD_LINES: &[u8] = b"tick 1\n# so\ntik 2\ntick \xff\n# \xff\n\ntick 3\n";

    #[test]
    fn a_bad_line_ends_it_behind_what_came_before() {
        let error = Err("line 3: 'tik' is no call".to_string());
        assert_eq!(streamed(BAD_LINES, false), ("tick 1\n".to_string(), String::new(), error));
        let no_text = streamed(b"tick 1\n\ntick \xff2\ntick 3\n", false);
        let error = Err("line 3: byte 6 is no UTF-8".to_string());
        assert_eq!(no_text, ("tick 1\n".to_string(), String::new(), error));
    }

    #[test]
    fn at_a_terminal_a_bad_line_is_told_and_the_next_is_read() {
        let told = "line 3: 'tik' is no call\nline 4: byte 6 is no UTF-8\nline 5: byte 3 is no UTF-8\n";
        assert_eq!(streamed(BAD_LINES, true), ("tick 1\ntick 3\n".to_string(), told.to_string(), Ok(())));
    }

    #[test]
    fn a_write_that_fails_ends_it() {
        let full = &mut [0u8; 5][..];
        assert!(run(&b"tick 1\ntick 2\n"[..], full, io::sink(), true).is_err());
    }
}
