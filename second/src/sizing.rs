//! `sizing`: queries one a line, answers one a line. A line is taken byte by byte,
//! so that one of any length needs no more memory than a short one; one that is too long
//! is a bad line, whatever stands in it.

use crate::refusal::Refusal;
use crate::shares::{self, Form, List, MOST_TASKS};
use std::io::{self, Read, Write};

/// The bytes of the longest line, without its newline. A carriage return at its end counts.
pub const LONGEST_LINE: u64 = 65_535;

/// The answer to `help`.
pub const HELP: &str = "supply P B t | demand i t TASKS | check P B TASKS | least P TASKS | best PMAX TASKS \
                        (TASKS: period cost period cost ..) | aligned before supply, check, least or best: for \
                        tasks released at starts of a resource period";

/// Two leading numbers and one task more than are allowed.
const KEPT_FIELDS: usize = 2 + 2 * (MOST_TASKS + 1);
/// What stands before a word asked in the aligned form.
const ALIGNED: &[u8] = b"aligned";
/// It has seven bytes, more than any word; an eighth shows that it is none.
const KEPT_WORD: usize = ALIGNED.len() + 1;

#[derive(Clone, PartialEq, Eq, Debug)]
pub enum Answer {
    Numbers(Vec<u64>),
    No(Refusal),
    Help,
    BadLine,
    BadWord,
    BadField(u64),
}

impl Answer {
    pub fn line(&self) -> String {
        match self {
            Answer::Numbers(numbers) => {
                let words: Vec<String> = numbers.iter().map(u64::to_string).collect();
                format!("ok {}", words.join(" "))
            }
            Answer::No(refusal) => format!("no {} {}", refusal.number, refusal.detail),
            Answer::Help => HELP.to_string(),
            Answer::BadLine => "bad line".to_string(),
            Answer::BadWord => "bad word".to_string(),
            Answer::BadField(place) => format!("bad field {place}"),
        }
    }
}

#[derive(Clone, Copy, PartialEq, Eq)]
enum Word {
    Supply,
    Demand,
    Check,
    Least,
    Best,
    Help,
}

impl Word {
    /// Demand and help have one form alone.
    fn from(form: Form, bytes: &[u8]) -> Option<Word> {
        match (form, bytes) {
            (_, b"supply") => Some(Word::Supply),
            (Form::Ordinary, b"demand") => Some(Word::Demand),
            (_, b"check") => Some(Word::Check),
            (_, b"least") => Some(Word::Least),
            (_, b"best") => Some(Word::Best),
            (Form::Ordinary, b"help") => Some(Word::Help),
            _ => None,
        }
    }

    /// The numbers that stand before the tasks.
    fn leading(self) -> u64 {
        match self {
            Word::Supply => 3,
            Word::Demand | Word::Check => 2,
            Word::Least | Word::Best => 1,
            Word::Help => 0,
        }
    }

    fn takes_tasks(self) -> bool {
        !matches!(self, Word::Supply | Word::Help)
    }
}

/// A field as far as it has been read. A number too large stays at the largest
/// u64, which is out of every range.
#[derive(Clone, Copy)]
struct Field {
    value: u64,
    empty: bool,
    digits: bool,
}

impl Field {
    fn new() -> Field {
        Field { value: 0, empty: true, digits: true }
    }

    fn take(&mut self, byte: u8) {
        self.empty = false;
        if byte.is_ascii_digit() {
            let digit = u64::from(byte - b'0');
            self.value = self.value.saturating_mul(10).saturating_add(digit);
        } else {
            self.digits = false;
        }
    }
}

/// A line as far as it has been read.
struct Line {
    length: u64,
    form: Form,
    word: Vec<u8>,
    open: Option<Field>,
    numbers: Vec<u64>,
    fields: u64,
    no_number: Option<u64>,
}

impl Line {
    fn new() -> Line {
        let (form, word, numbers) = (Form::Ordinary, Vec::new(), Vec::new());
        Line { length: 0, form, word, open: None, numbers, fields: 0, no_number: None }
    }

    fn take(&mut self, byte: u8) {
        self.length += 1;
        if byte == b' ' && self.is_behind_aligned() {
            self.form = Form::Aligned;
            self.word.clear();
        } else if byte == b' ' {
            self.close_field();
            self.open = Some(Field::new());
        } else if let Some(field) = &mut self.open {
            field.take(byte);
        } else if self.word.len() < KEPT_WORD {
            self.word.push(byte);
        }
    }

    /// The first piece of the line is `aligned`, and nothing is behind it yet.
    fn is_behind_aligned(&self) -> bool {
        self.form == Form::Ordinary && self.open.is_none() && self.word == ALIGNED
    }

    fn close_field(&mut self) {
        let Some(field) = self.open.take() else { return };
        self.fields += 1;
        if (field.empty || !field.digits) && self.no_number.is_none() {
            self.no_number = Some(self.fields);
        }
        if self.numbers.len() < KEPT_FIELDS {
            self.numbers.push(field.value);
        }
    }

    /// The first field that is missing, too many or no number.
    fn bad_field(&self, word: Word) -> Option<u64> {
        let missing = (self.fields < word.leading()).then_some(self.fields + 1);
        let too_many = !word.takes_tasks() && self.fields > word.leading();
        let extra = too_many.then_some(word.leading() + 1);
        [self.no_number, missing, extra].into_iter().flatten().min()
    }

    /// The answer to the whole line; an empty one has none.
    fn answer(mut self) -> Option<Answer> {
        if self.length == 0 {
            return None;
        }
        self.close_field();
        let Some(word) = Word::from(self.form, &self.word) else {
            return Some(Answer::BadWord);
        };
        if let Some(place) = self.bad_field(word) {
            return Some(Answer::BadField(place));
        }
        Some(ask(self.form, word, &self.numbers))
    }
}

fn ask(form: Form, word: Word, numbers: &[u64]) -> Answer {
    let (lead, list) = numbers.split_at(word.leading() as usize);
    let list = List::of(list);
    let tasks = list.lend();
    let result = match word {
        Word::Supply => shares::supply(form, lead[0], lead[1], lead[2]).map(|n| vec![n]),
        Word::Demand => shares::demand(tasks, lead[0], lead[1]).map(|n| vec![n]),
        Word::Check => shares::check(form, tasks, lead[0], lead[1]).map(|met| vec![u64::from(met)]),
        Word::Least => shares::least(form, tasks, lead[0]).map(|b| vec![b]),
        Word::Best => shares::best(form, tasks, lead[0]).map(|i| vec![i.period, i.budget]),
        Word::Help => return Answer::Help,
    };
    match result {
        Ok(numbers) => Answer::Numbers(numbers),
        Err(refusal) => Answer::No(refusal),
    }
}

/// Takes bytes and gives the answers of the lines that end with them.
pub struct Reader {
    longest: u64,
    /// The bytes of the line so far, all of them.
    length: u64,
    line: Line,
    carriage: bool,
}

impl Reader {
    pub fn new() -> Reader {
        Reader::up_to(LONGEST_LINE)
    }

    /// With another longest line.
    pub fn up_to(longest: u64) -> Reader {
        Reader { longest, length: 0, line: Line::new(), carriage: false }
    }

    pub fn take(&mut self, byte: u8) -> Option<Answer> {
        if byte == b'\n' {
            let next = Reader::up_to(self.longest);
            return std::mem::replace(self, next).end();
        }
        self.length += 1;
        if self.length <= self.longest {
            self.read(byte);
        }
        None
    }

    /// A carriage return that the line's end does not follow is a byte of the line.
    fn read(&mut self, byte: u8) {
        if std::mem::replace(&mut self.carriage, byte == b'\r') {
            self.line.take(b'\r');
        }
        if byte != b'\r' {
            self.line.take(byte);
        }
    }

    /// The answer of a last line without a newline. The end of input ends it as a newline
    /// would, so a carriage return before it is dropped too.
    pub fn end(self) -> Option<Answer> {
        if self.length > self.longest {
            return Some(Answer::BadLine);
        }
        self.line.answer()
    }
}

/// The answers to a whole input.
pub fn answers(input: &[u8]) -> Vec<Answer> {
    let mut reader = Reader::new();
    let mut answers: Vec<Answer> = input.iter().filter_map(|&byte| reader.take(byte)).collect();
    answers.extend(reader.end());
    answers
}

pub fn run(mut input: impl Read, mut output: impl Write) -> io::Result<()> {
    let mut reader = Reader::new();
    let mut buffer = [0; 4096];
    loop {
        let count = input.read(&mut buffer)?;
        if count == 0 {
            break;
        }
        for &byte in &buffer[..count] {
            if let Some(answer) = reader.take(byte) {
                writeln!(output, "{}", answer.line())?;
            }
        }
        output.flush()?;
    }
    if let Some(answer) = reader.end() {
        writeln!(output, "{}", answer.line())?;
    }
    output.flush()
}

#[cfg(test)]
mod tests {
    use super::*;

    fn lines(input: &[u8]) -> Vec<String> {
        answers(input).iter().map(Answer::line).collect()
    }

    fn one(query: &str) -> String {
        let mut all = lines(query.as_bytes());
        assert_eq!(all.len(), 1);
        all.pop().unwrap()
    }

    #[test]
    fn p1_to_p12_as_queries() {
        let asked = [
            ("supply 4 3 2", "ok 0"),
            ("supply 4 3 5", "ok 3"),
            ("supply 4 3 7", "ok 4"),
            ("supply 5 5 9", "ok 9"),
            ("demand 2 5 5 1 10 3", "ok 4"),
            ("demand 2 6 5 1 10 3", "ok 5"),
            ("least 5 5 1 10 3", "ok 4"),
            ("check 3 2 5 1 10 3", "ok 1"),
            ("check 4 2 5 1 10 3", "ok 0"),
            ("best 5 5 1 10 3", "ok 3 2"),
            ("least 1 2 2 4 1", "no 34 0"),
            ("least 5 2 2 4 1", "no 34 0"),
            ("least 2000 2 2 4 1", "no 34 0"),
            ("best 3 1 1", "ok 3 3"),
        ];
        for (query, answer) in asked {
            assert_eq!(one(query), answer, "{query}");
        }
    }

    #[test]
    fn bad_words_and_fields() {
        let asked = [
            ("supply", "bad field 1"),
            ("supply ", "bad field 1"),
            ("supply 1 2", "bad field 3"),
            ("supply 1 2 3 4", "bad field 4"),
            ("supply 1 2 3 ", "bad field 4"),
            ("supply 1 x 3 4", "bad field 2"),
            ("supply 1  2 3", "bad field 2"),
            ("check 3", "bad field 2"),
            ("check 3 2", "no 30 0"),
            ("check 3 2 ", "bad field 3"),
            ("best", "bad field 1"),
            ("least 0 5 1 10 -3", "bad field 5"),
            (" supply 1 1 1", "bad word"),
            ("Supply 1 1 1", "bad word"),
            ("supplyy 1 1 1", "bad word"),
            ("\tbest", "bad word"),
        ];
        for (query, answer) in asked {
            assert_eq!(one(query), answer, "{query}");
        }
    }

    #[test]
    fn numbers_too_large_and_leading_zeros() {
        let asked = [
            ("supply 004 03 7", "ok 4"),
            ("supply 4294967300 3 7", "no 33 0"),
            ("supply 18446744073709551620 3 7", "no 33 0"),
            ("supply 4 3 18446744073709551623", "no 35 0"),
            ("demand 18446744073709551618 5 5 1 10 3", "no 35 0"),
            ("least 5 5 1 10 99999999999999999999999", "no 31 2"),
            ("least 5 4294967301 1 10 3", "no 31 1"),
            ("least 5 5 1 10 1 18446744073709551626 3", "no 31 3"),
        ];
        for (query, answer) in asked {
            assert_eq!(one(query), answer, "{query}");
        }
        let long = format!("supply {}4 3 7", "0".repeat(60_000));
        assert_eq!(one(&long), "ok 4");
    }

    #[test]
    fn help_has_no_fields() {
        let text = "supply P B t | demand i t TASKS | check P B TASKS | least P TASKS | best PMAX TASKS (TASKS: period cost period cost ..) | aligned before supply, check, least or best: for tasks released at starts of a resource period";
        assert_eq!(lines(b"help\nhelp\r\nhelp"), [text; 3]);
        for with_fields in ["help ", "help  ", "help 1", "help x", "help supply 1", "help 1 2 3 4", "help \t"]
        {
            assert_eq!(one(with_fields), "bad field 1", "{with_fields}");
        }
        for no_word in ["helpp", "HELP", "Help", "hel", " help", "help\t", "help\r\r", "?"] {
            assert_eq!(one(no_word), "bad word", "{no_word}");
        }
    }

    #[test]
    fn aligned_stands_before_four_words() {
        let asked = [
            ("aligned supply 4 3 2", "ok 1"),
            ("aligned supply 4 3 5", "ok 3"),
            ("aligned supply 4 3 7", "ok 5"),
            ("aligned check 5 3 5 1 10 3", "ok 1"),
            ("aligned check 5 2 5 1 10 3", "ok 0"),
            ("aligned least 5 5 1 10 3", "ok 3"),
            ("aligned least 5 2 2 4 1", "no 36 0"),
            ("aligned least 2 2 2 4 1", "no 34 0"),
            ("aligned best 9 5 1 10 3", "ok 5 3"),
            ("aligned best 9 5 1 11 3", "no 36 0"),
            ("aligned best 0 5 1 11 3", "no 33 0"),
            ("aligned supply 0 3 7", "no 33 0"),
            ("aligned supply 4 3 2001", "no 35 0"),
            ("aligned least 5", "no 30 0"),
            ("aligned least 0 5 6", "no 31 1"),
            ("aligned best 0 5 1 4 1", "no 32 2"),
        ];
        for (query, answer) in asked {
            assert_eq!(one(query), answer, "{query}");
        }
        assert_eq!(lines(b"aligned least 5 5 1 10 3\r\nleast 5 5 1 10 3"), ["ok 3", "ok 4"]);
    }

    /// The fields are counted from behind the word.
    #[test]
    fn aligned_stands_before_no_other_word() {
        let bad =
            ["", " ", "  supply 4 3 7", " demand 2 5 5 1 10 3", " help", " aligned", " aligned supply 4 3 7"];
        for rest in
            bad.into_iter().chain(["d supply 4 3 7", "\tsupply 4 3 7", " Supply 4 3 7", " supplyyy 4 3 7"])
        {
            assert_eq!(one(&format!("aligned{rest}")), "bad word", "{rest}");
        }
        for no_word in
            [" aligned supply 4 3 7", "Aligned supply 4 3 7", "supply aligned 4 3 7", "aligne best"]
        {
            assert!(one(no_word).starts_with("bad "), "{no_word}");
        }
        let asked = [("supply", 1), ("supply ", 1), ("supply 4 3", 3), ("supply 4 3 7 1", 4), ("least x", 1)];
        for (rest, place) in asked.into_iter().chain([("check 4  5 1", 2), ("best 4 5 1 aligned", 4)]) {
            assert_eq!(one(&format!("aligned {rest}")), format!("bad field {place}"), "{rest}");
        }
    }

    /// A query of so many bytes.
    fn long(bytes: usize) -> String {
        format!("supply 4 3 {}7", "0".repeat(bytes - 12))
    }

    #[test]
    fn a_line_has_a_longest_length() {
        for (bytes, answer) in
            [(65_534, "ok 4"), (65_535, "ok 4"), (65_536, "bad line"), (65_537, "bad line")]
        {
            for line in [long(bytes), long(bytes - 1) + "\r"] {
                assert_eq!(line.len(), bytes);
                assert_eq!(one(&line), answer, "{bytes}");
                assert_eq!(lines(format!("{line}\nhelpp\n").as_bytes()), [answer, "bad word"], "{bytes}");
                assert_eq!(lines(format!("\n{line}\n{line}").as_bytes()), [answer, answer], "{bytes}");
            }
        }
    }

    #[test]
    fn what_stands_in_a_line_too_long_is_skipped() {
        for bytes in [65_536, 65_537, 200_000] {
            for fill in ["x", " ", "\r", "0", "help", "supply 4 3 7\r"] {
                let line = &fill.repeat(bytes)[..bytes];
                assert_eq!(
                    lines(format!("{line}\nsupply 4 3 5\n{line}").as_bytes()),
                    ["bad line", "ok 3", "bad line"]
                );
            }
        }
    }

    #[test]
    fn row_30_by_count_of_fields() {
        assert_eq!(one("least 5 5 1 10"), "no 30 0");
        assert_eq!(one(&format!("least 5{}", " 5 1".repeat(16))), "no 34 0");
        assert_eq!(one(&format!("least 5{}", " 9 9".repeat(17))), "no 30 0");
        assert_eq!(one(&format!("check 5 1{} 5", " 5 1".repeat(16))), "no 30 0");
        assert_eq!(one(&format!("best 5{}", " 5 1".repeat(5000))), "no 30 0");
        assert_eq!(one(&format!("best 5{} x", " 5 1".repeat(5000))), "bad field 10002");
    }

    #[test]
    fn rows_31_and_32_name_the_task() {
        let asked = [
            ("demand 0 0 5 1 10 0", "no 31 2"),
            ("check 0 0 0 1 10 3", "no 31 1"),
            ("least 0 5 1 4 5 3 3", "no 31 2"),
            ("best 0 5 1 4 3 3 3", "no 32 2"),
            ("best 0 5 1 5 3 3 3 2 1", "no 32 3"),
            ("best 0 5 1 4 3 2001 3", "no 31 3"),
        ];
        for (query, answer) in asked {
            assert_eq!(one(query), answer, "{query}");
        }
        assert_eq!(one(&format!("best 5{} 5 6", " 5 1".repeat(15))), "no 31 16");
        assert_eq!(one(&format!("best 5{} 4 1", " 5 1".repeat(15))), "no 32 16");
    }

    #[test]
    fn line_ends() {
        assert_eq!(lines(b""), Vec::<String>::new());
        assert_eq!(lines(b"\n\r\n\n"), Vec::<String>::new());
        assert_eq!(lines(b"supply 1 1 1\r\nsupply 1 1 2"), ["ok 1", "ok 2"]);
        assert_eq!(lines(b"supply 1 1 1\r\r\n"), ["bad field 3"]);
        assert_eq!(lines(b"\r\r\n"), ["bad word"]);
        assert_eq!(lines(b"supply 1 1\r 1\n"), ["bad field 2"]);
        assert_eq!(lines(b"supply 1 1 1\r"), ["ok 1"]);
    }
}
