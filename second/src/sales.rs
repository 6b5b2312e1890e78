//! `sales`: a question about a sheet of the old tool, answered in both forms. The first line of
//! the input is the question, and all behind it is the sheet.

use crate::sheets::{self, Row};
use crate::sizing::{self, LONGEST_LINE};
use std::io::{self, Read, Write};

/// The answer to `help`, whatever the sheet is.
pub const HELP: &str =
    "help | sheet | check P B | least P | best PMAX, a newline, and the sheet: lines of period, one space, cost";

/// The question, without a carriage return at its end, and the sheet.
pub fn take_apart(input: &[u8]) -> (&[u8], &[u8]) {
    let end = input.iter().position(|&byte| byte == b'\n');
    let (question, sheet) = match end {
        Some(end) => (&input[..end], &input[end + 1..]),
        None => (input, &[][..]),
    };
    (question.strip_suffix(b"\r").unwrap_or(question), sheet)
}

/// What is written to a whole input.
pub fn answer(input: &[u8]) -> Vec<u8> {
    if input.len() as u64 > LONGEST_LINE {
        return b"bad line\n".to_vec();
    }
    let (question, sheet) = take_apart(input);
    if question == b"help" {
        return format!("{HELP}\n").into_bytes();
    }
    match sheets::read(sheet) {
        Err(refusal) => format!("no {} {}\n", refusal.number, refusal.detail).into_bytes(),
        Ok(rows) if question == b"sheet" => sheets::write(&rows),
        Ok(rows) => match fault(question) {
            Some(fault) => format!("{fault}\n").into_bytes(),
            None => in_both_forms(question, &rows).into_bytes(),
        },
    }
}

/// How many fields a word has behind it, if it is one that is asked in both forms.
pub fn wanted(word: &[u8]) -> Option<usize> {
    match word {
        b"check" => Some(2),
        b"least" | b"best" => Some(1),
        _ => None,
    }
}

/// The word of a question, and how many fields are behind it: one behind each space.
pub fn word_and_fields(question: &[u8]) -> (&[u8], usize) {
    let spaces = question.iter().filter(|&&byte| byte == b' ').count();
    let end = question.iter().position(|&byte| byte == b' ').unwrap_or(question.len());
    (&question[..end], spaces)
}

/// What keeps a question from being asked, whatever its fields say: another word, or the first
/// field that is missing or too many.
fn fault(question: &[u8]) -> Option<String> {
    let (word, fields) = word_and_fields(question);
    match wanted(word) {
        None => Some("bad word".to_string()),
        Some(wanted) if fields < wanted => Some(format!("bad field {}", fields + 1)),
        Some(wanted) if fields > wanted => Some(format!("bad field {}", wanted + 1)),
        Some(_) => None,
    }
}

/// The line that `sizing` is asked: the question, and behind it the tasks.
fn line(question: &[u8], rows: &[Row]) -> Vec<u8> {
    let tasks: String = rows.iter().map(|(period, cost)| format!(" {period} {cost}")).collect();
    [question, tasks.as_bytes()].concat()
}

pub fn in_both_forms(question: &[u8], rows: &[Row]) -> String {
    let line = line(question, rows);
    let aligned = [b"aligned ", &line[..]].concat();
    told("ordinary", &line) + &told("aligned", &aligned)
}

/// The one line of a form: what is asked here has a word, and so an answer.
fn told(form: &str, line: &[u8]) -> String {
    sizing::answers(line).iter().map(|answer| format!("{form} {}\n", answer.line())).collect()
}

/// Nothing is written before the input ends, or is too long.
pub fn run(input: impl Read, mut output: impl Write) -> io::Result<()> {
    let mut bytes = Vec::new();
    input.take(LONGEST_LINE + 1).read_to_end(&mut bytes)?;
    output.write_all(&answer(&bytes))?;
    output.flush()
}

#[cfg(test)]
mod tests {
    use super::*;

    fn said(input: &str) -> String {
        String::from_utf8(answer(input.as_bytes())).unwrap()
    }

    #[test]
    fn both_forms_are_told() {
        let asked = [
            ("least 5\n5 1\n10 3\n", "ordinary ok 4\naligned ok 3\n"),
            ("best 5\r\n5 1\n10 3\n", "ordinary ok 3 2\naligned ok 5 3\n"),
            ("check 3 2\n5 1\n10 3\n", "ordinary ok 1\naligned no 36 0\n"),
            ("least 0\n5 1\n12 3\n", "ordinary no 33 0\naligned no 33 0\n"),
            ("least 2\n2 2\n4 1\n", "ordinary no 34 0\naligned no 34 0\n"),
            ("least 5\n5 1\n10 0\n", "ordinary no 31 2\naligned no 31 2\n"),
            ("least 5\n10 1\n5 1\n", "ordinary no 32 2\naligned no 32 2\n"),
            ("least 5\n", "ordinary no 30 0\naligned no 30 0\n"),
            ("least 5", "ordinary no 30 0\naligned no 30 0\n"),
            ("least x\n5 1\n", "ordinary bad field 1\naligned bad field 1\n"),
            ("least \n5 1\n", "ordinary bad field 1\naligned bad field 1\n"),
            ("best \r\n", "ordinary bad field 1\naligned bad field 1\n"),
            ("check 3 \n5 1\n", "ordinary bad field 2\naligned bad field 2\n"),
            ("check  2\n5 1\n", "ordinary bad field 1\naligned bad field 1\n"),
            ("check  \n", "ordinary bad field 1\naligned bad field 1\n"),
        ];
        for (input, output) in asked {
            assert_eq!(said(input), output, "{input}");
        }
    }

    const SHEETS: [&str; 4] = ["", "5 1\n", "5 4\n10 3\n", "0 0\n9999 1\n3 2\n"];

    /// Three words are asked, and no other one, whatever sizing would say to it.
    #[test]
    fn another_word_is_told_once() {
        let sizing = ["demand 2 5", "supply 4 3 7", "demand", "supply", "help ", "help 1"];
        let aligned = ["aligned", "aligned ", "aligned least 5", "aligned check 3 2", "aligned best 5"];
        let near = ["", " ", "sheet ", "sheets", "helpp", "Least 5", "leas 5", "leastt 5", " least 5"];
        let others = ["least5", "least\t5", "least\r 5", "check\r", "check,3 2", "best\0 5", "\0", "5", "\r"];
        for question in [&sizing[..], &aligned, &near, &others].concat() {
            for sheet in SHEETS {
                assert_eq!(said(&format!("{question}\r\n{sheet}")), "bad word\n", "{question}");
            }
            assert_eq!(said(&format!("{question}\r")), "bad word\n", "{question}");
        }
        assert_eq!((said(""), said("\n")), ("bad word\n".to_string(), "bad word\n".to_string()));
    }

    /// No field is taken from the sheet, and none is a task. What stands in them is not read yet.
    #[test]
    fn the_fields_are_those_of_the_word() {
        let asked = [
            ("check", 1),
            ("check ", 2),
            ("check 3", 2),
            ("check x", 2),
            ("check 3 2 ", 3),
            ("check   ", 3),
            ("check 3  2", 3),
            ("check 3 2 5 1", 3),
            ("check x y z", 3),
            ("least", 1),
            ("least  ", 2),
            ("least  5", 2),
            ("least 5 ", 2),
            ("least 5 5 1", 2),
            ("least x y", 2),
            ("best", 1),
            ("best 5 5 1 10 3", 2),
            ("best    ", 2),
        ];
        for (question, place) in asked {
            for sheet in SHEETS {
                let told = format!("bad field {place}\n");
                assert_eq!(said(&format!("{question}\n{sheet}")), told, "{question}");
                assert_eq!(said(&format!("{question}\r\n{sheet}")), told, "{question}");
            }
        }
    }

    /// Both forms are told, each by its name, or there is one line without one.
    #[test]
    fn every_answer_has_its_name() {
        let pieces = ["check", "least", "best", "aligned", "demand", "x", "5", ""];
        for code in 0..8usize.pow(4) {
            let question = [0, 1, 2, 3].map(|place| pieces[code >> (3 * place) & 7]);
            for pieces in 1..=4 {
                let told = said(&format!("{}\n10 1\n", question[..pieces].join(" ")));
                let lines: Vec<&str> = told.lines().collect();
                match lines[..] {
                    [line] => assert!(line == "bad word" || line.starts_with("bad field "), "{told}"),
                    [one, two] => assert!(one.starts_with("ordinary ") && two.starts_with("aligned ")),
                    _ => panic!("{told}"),
                }
            }
        }
    }

    /// A bad sheet is told before anything else but help.
    #[test]
    fn the_sheet_is_read_first() {
        let asked = ["least 5", "sheet", "least x", "least 0", "least ", "check  "];
        let not_asked =
            ["", "no such word", "demand 2 5", "aligned least 5", "check", "least 5 5 1", "help "];
        for question in asked.into_iter().chain(not_asked) {
            assert_eq!(said(&format!("{question}\n5 1\n10  3\n")), "no 37 2\n");
            assert_eq!(said(&format!("{question}\r\n{}", "5 1\n".repeat(17))), "no 37 17\n");
        }
        for behind in ["", "\r", "\n", "\n5 1\n", "\r\n5 1", "\nx", "\n\0\n"] {
            assert_eq!(said(&format!("help{behind}")), format!("{HELP}\n"));
        }
    }

    #[test]
    fn a_sheet_is_written_back() {
        for sheet in ["", "5 1\n", "5 1\n10 3\n", "0 0\n9999 1\n"] {
            assert_eq!(said(&format!("sheet\n{sheet}")), sheet);
            assert_eq!(said(&format!("sheet\r\n{sheet}")), sheet);
        }
        assert_eq!(said("sheet"), "");
        assert_eq!(said("sheet \n5 1\n"), "bad word\n");
    }

    /// With `aligned` before it a line may be too long, though the input is not.
    #[test]
    fn inputs_of_every_length() {
        let input = |bytes: usize| format!("least {}5\n5 1\n10 3\n", "0".repeat(bytes - 17));
        assert_eq!(said(&input(65_528)), "ordinary ok 4\naligned ok 3\n");
        assert_eq!(said(&input(65_529)), "ordinary ok 4\naligned bad line\n");
        assert_eq!(said(&input(65_535)), "ordinary ok 4\naligned bad line\n");
        assert_eq!(said(&input(65_536)), "bad line\n");
        for (question, told) in [("supply ", "bad word\n"), ("check ", "bad field 2\n")] {
            assert_eq!(said(&format!("{question}{}", "0".repeat(65_535 - question.len()))), told);
            assert_eq!(said(&format!("{question}{}", "0".repeat(65_536 - question.len()))), "bad line\n");
        }
        for question in ["help\n", "sheet\n", "\n", "least 5\n"] {
            assert_eq!(said(&format!("{question}{}", "5 1\n".repeat(20_000))), "bad line\n");
        }
        let mut output = Vec::new();
        run(&vec![b'x'; 65_536][..], &mut output).unwrap();
        assert_eq!(output, b"bad line\n");
    }
}
