//! What `compare-sales` sends: each damage of a sheet at each place, each question with each size
//! of sheet and each number of fields, inputs about as long as they can be; and behind these
//! random ones.

use crate::harmonic::Lists;
use crate::random::Random;
use crate::sheets::{self, Row, MOST_LINES};
use crate::sizing::LONGEST_LINE;

/// An input, and the cases that it is made for.
pub struct Sent {
    pub input: Vec<u8>,
    pub made_for: Vec<String>,
}

type Damage = fn(Row) -> String;

/// What can be wrong with a line, and such a line. The numbers have one digit or two.
const DAMAGES: [(&str, Damage); 30] = [
    ("two spaces", |(p, c)| format!("{p}  {c}\n")),
    ("no space", |(p, c)| format!("{p}{c}\n")),
    ("a tab", |(p, c)| format!("{p}\t{c}\n")),
    ("a comma", |(p, c)| format!("{p},{c}\n")),
    ("a space in front", |(p, c)| format!(" {p} {c}\n")),
    ("a space at the end", |(p, c)| format!("{p} {c} \n")),
    ("a carriage return", |(p, c)| format!("{p} {c}\r\n")),
    ("a carriage return between", |(p, c)| format!("{p}\r{c}\n")),
    ("a period of five digits", |(p, c)| format!("{} {c}\n", 10_000 + p)),
    ("a cost of five digits", |(p, c)| format!("{p} {}\n", 10_000 + c)),
    ("a zero before the period", |(p, c)| format!("0{p} {c}\n")),
    ("a zero before the cost", |(p, c)| format!("{p} 0{c}\n")),
    ("00 as the period", |(_, c)| format!("00 {c}\n")),
    ("00 as the cost", |(p, _)| format!("{p} 00\n")),
    ("a sign before the period", |(p, c)| format!("+{p} {c}\n")),
    ("a sign before the cost", |(p, c)| format!("{p} -{c}\n")),
    ("a letter in the period", |(p, c)| format!("{p}x {c}\n")),
    ("a letter in the cost", |(p, c)| format!("{p} {c}e\n")),
    ("a point", |(p, c)| format!("{p}.0 {c}\n")),
    ("a NUL byte", |(p, c)| format!("{p} {c}\0\n")),
    ("a NUL byte for the space", |(p, c)| format!("{p}\0{c}\n")),
    ("a byte above 127", |(p, c)| format!("{p} {c}\u{b2}\n")),
    ("three numbers", |(p, c)| format!("{p} {c} {c}\n")),
    ("no cost", |(p, _)| format!("{p}\n")),
    ("a space and no cost", |(p, _)| format!("{p} \n")),
    ("no period", |(_, c)| format!(" {c}\n")),
    ("a space alone", |_| " \n".to_string()),
    ("a slash for a digit", |(p, c)| format!("{p}/ {c}\n")),
    ("a colon for a digit", |(p, c)| format!("{p} {c}:\n")),
    ("an empty line", |_| "\n".to_string()),
];

/// How many lines a sheet has, and which of them are damaged, counted from 1.
const PLACES: [(&str, usize, &[usize]); 8] = [
    ("alone", 1, &[1]),
    ("first", 3, &[1]),
    ("in the middle", 3, &[2]),
    ("last", 3, &[3]),
    ("first of sixteen", 16, &[1]),
    ("last of sixteen", 16, &[16]),
    ("and again", 5, &[2, 4]),
    ("and at once again", 3, &[1, 2]),
];

/// A good sheet with so many lines. No line is like another, and the periods divide each other.
fn rows(n: usize) -> Vec<Row> {
    (0..n as u64).map(|place| (if place < 8 { 20 } else { 40 }, 1 + place % 3)).collect()
}

/// The lines of a sheet, some of them given otherwise.
fn sheet_with(n: usize, other: impl Fn(usize, Row) -> Option<String>) -> Vec<u8> {
    let line = |(row, place): (Row, usize)| {
        let good = String::from_utf8(sheets::write(&[row])).expect("digits");
        other(place, row).unwrap_or(good)
    };
    rows(n).into_iter().zip(1..).map(line).collect::<String>().into_bytes()
}

/// Questions for a sheet that is bad, in turn.
const TO_BAD: [&str; 13] = [
    "least 20\n",
    "sheet\n",
    "best 9\r\n",
    "check 5 3\n",
    "no such word\n",
    "\n",
    "least 0\n",
    "demand 1 5\n",
    "aligned least 20\n",
    "check 5\n",
    "least\r\n",
    "best 9 20 1\n",
    "help \n",
];

fn sent(question: &str, sheet: &[u8], made_for: impl Into<String>) -> Sent {
    Sent { input: [question.as_bytes(), sheet].concat(), made_for: vec![made_for.into()] }
}

fn damaged() -> Vec<Sent> {
    let mut all = Vec::new();
    for (number, (damage, line)) in DAMAGES.iter().enumerate() {
        for (place, (where_, n, places)) in PLACES.iter().enumerate() {
            let is_damaged = |at: usize, row: Row| places.contains(&at).then(|| line(row));
            let question = TO_BAD[(number + place) % TO_BAD.len()];
            all.push(sent(question, &sheet_with(*n, is_damaged), format!("{damage}, {where_}")));
        }
    }
    all
}

/// Each line of a sheet of sixteen is the bad one once.
fn at_each_line() -> Vec<Sent> {
    let at = |place: usize| {
        let (_, line) = DAMAGES[place];
        let sheet = sheet_with(MOST_LINES, |at, row| (at == place).then(|| line(row)));
        sent(TO_BAD[0], &sheet, format!("line {place} of sixteen is bad"))
    };
    (1..=MOST_LINES).map(at).collect()
}

/// A last line without its newline, and lines behind the sixteenth.
fn too_short_or_too_long() -> Vec<Sent> {
    let whole = |n| sheet_with(n, |_, _| None);
    let cut = |n| whole(n).strip_suffix(b"\n").map(<[u8]>::to_vec).expect("a newline");
    let third_bad = |n| sheet_with(n, |place, (p, c)| (place == 3).then(|| format!("{p}  {c}\n")));
    let sixteen_and = |more: &[u8]| [&whole(16), more].concat();
    let sheets = [
        ("no newline at the end, one line", cut(1)),
        ("no newline at the end, three lines", cut(3)),
        ("no newline at the end, sixteen lines", cut(16)),
        ("no newline at the end, and bad before", third_bad(4).strip_suffix(b"\n").unwrap().to_vec()),
        ("seventeen lines", whole(17)),
        ("eighteen lines", whole(18)),
        ("a thousand lines", whole(1000)),
        ("seventeen lines, no newline at the end", cut(17)),
        ("seventeen lines, and bad before", third_bad(17)),
        ("a seventeenth line that is bad", sixteen_and(b"20  1\n")),
        ("a seventeenth line that is empty", sixteen_and(b"\n")),
        ("a seventeenth line of one byte", sixteen_and(b"2")),
        ("a seventeenth line of a NUL byte", sixteen_and(b"\0")),
    ];
    let of = |(name, sheet): &(&str, Vec<u8>)| {
        TO_BAD[..3].iter().map(|question| sent(question, sheet, *name)).collect::<Vec<Sent>>()
    };
    sheets.iter().flat_map(of).collect()
}

/// The numbers that are tried as a period and as a cost, at the first line, within and at the last.
pub const NUMBERS: [u64; 9] = [0, 1, 9, 10, 99, 100, 999, 1000, 9999];

fn numbers() -> Vec<Sent> {
    let mut all = Vec::new();
    for (number, place) in NUMBERS.iter().flat_map(|&number| [1, 2, 3].map(|place| (number, place))) {
        let as_period = sheet_with(3, |at, (_, c)| (at == place).then(|| format!("{number} {c}\n")));
        let as_cost = sheet_with(3, |at, (p, _)| (at == place).then(|| format!("{p} {number}\n")));
        for question in ["sheet\n", "least 20\n"] {
            all.push(sent(question, &as_period, format!("period {number} in line {place}")));
            all.push(sent(question, &as_cost, format!("cost {number} in line {place}")));
        }
    }
    all
}

/// Questions with their end of line, among them each kind of word that is not asked.
const QUESTIONS: [&str; 83] = [
    "help\n",
    "help\r\n",
    "help \n",
    "help 1\n",
    "helpp\n",
    "HELP\n",
    "sheet\n",
    "sheet\r\n",
    "sheet\r\r\n",
    "sheet \n",
    "sheet 1\n",
    "sheets\n",
    "Sheet\n",
    "check 20 9\n",
    "check 20 20\r\n",
    "check 20 1\n",
    "check 7 3\n",
    "check 20 21\n",
    "check 20\n",
    "check\n",
    "check 20 9 \n",
    "least 20\n",
    "least 10\r\n",
    "least 3\n",
    "least 0\n",
    "least 2001\n",
    "least\n",
    "least x\n",
    "least 020\n",
    "least 20\r\r\n",
    "best 20\n",
    "best 7\r\n",
    "best 0\n",
    "best 30 \n",
    "demand 1 5\n",
    "demand 99 5\n",
    "supply 4 3 7\n",
    "aligned least 20\n",
    "aligned\n",
    "\n",
    "\r\n",
    "\r\r\n",
    " \n",
    "\0\n",
    "demand\n",
    "demand 1\n",
    "demand 1 5 20 1\r\n",
    "supply\n",
    "supply 4 3\n",
    "supply 4 3 7\r\n",
    "aligned \n",
    "aligned check 20 9\n",
    "aligned best 20\n",
    "aligned least 20\r\n",
    "aligned least\n",
    "aligned supply 4 3 7\n",
    "aligned demand 1 5\n",
    "aligned aligned least 20\n",
    "aligned sheet\n",
    "aligned help\n",
    "ordinary least 20\n",
    "help  \n",
    "sheet  \n",
    "sheet \r\n",
    "help\r\r\n",
    "  \n",
    " 20\n",
    " least 20\n",
    " check 20 9\n",
    "least\t20\n",
    "least\r 20\n",
    "least20\n",
    "leas 20\n",
    "leastt 20\n",
    "Least 20\n",
    "chec 20 9\n",
    "checks 20 9\n",
    "best\0 20\n",
    "bes 20\n",
    "least\r\n",
    "check 20\r\n",
    "best 20 \r\n",
    "20 9\n",
];

/// The words that are asked, and how many fields each has behind it.
pub const ASKED: [(&str, usize); 3] = [("check", 2), ("least", 1), ("best", 1)];

/// How many fields too many are tried.
pub const TOO_MANY: usize = 3;

/// What stands in fields.
const FIELDS: [&str; 2 + TOO_MANY] = ["20", "9", "20", "1", "40"];

/// These fields as they are, all of them empty, and each in turn empty or no number.
fn with_gaps(fields: &[&'static str]) -> Vec<Vec<&'static str>> {
    let but = |place: usize, other| {
        let mut all = fields.to_vec();
        all[place] = other;
        all
    };
    let each = (0..fields.len()).flat_map(|place| [but(place, ""), but(place, "x")]);
    [fields.to_vec(), vec![""; fields.len()]].into_iter().chain(each).collect()
}

/// Each word that is asked with each number of fields.
fn counted() -> Vec<String> {
    let mut all = Vec::new();
    for (word, wanted) in ASKED {
        for count in 0..=wanted + TOO_MANY {
            let lists = with_gaps(&FIELDS[..count]);
            let tried = if count > wanted + 1 { 2 } else { lists.len() };
            let line = |list: &Vec<&'static str>| [&[word], &list[..]].concat().join(" ") + "\n";
            all.extend(lists[..tried].iter().map(line));
        }
    }
    all
}

/// Every question, once.
pub fn all_questions() -> Vec<String> {
    let mut all: Vec<String> = QUESTIONS.iter().map(|question| question.to_string()).collect();
    for question in counted() {
        if !all.contains(&question) {
            all.push(question);
        }
    }
    all
}

/// The sizes of sheets that every question is asked with, and of which lists are made.
pub const SIZES: [usize; 6] = [0, 1, 2, 3, 15, 16];

fn questions() -> Vec<Sent> {
    let mut all = Vec::new();
    for question in &all_questions() {
        let name = question.escape_debug();
        for n in SIZES {
            all.push(sent(question, &sheet_with(n, |_, _| None), format!("{name} of {n} lines")));
        }
        all.push(sent(question, b"20 1\n20\n", format!("{name} and a bad sheet")));
        all.push(sent(question, b"\n", format!("{name} and an empty line")));
        let alone = question.strip_suffix('\n').expect("a newline");
        all.push(sent(alone, b"", format!("{name} without its newline")));
    }
    all
}

/// Lists that each row refuses, and some that are not aligned.
const LISTS: [(&str, &str); 12] = [
    ("31 in the first line", "0 1\n20 1\n40 1\n"),
    ("31 in the last line", "20 1\n40 1\n40 41\n"),
    ("31 for a cost of 0", "20 1\n40 0\n40 1\n"),
    ("31 for a period of 2001", "20 1\n2001 1\n"),
    ("31 before 32", "40 1\n20 1\n20 21\n"),
    ("32 in the second line", "40 1\n20 1\n40 1\n"),
    ("32 in the last line", "20 1\n40 1\n20 1\n"),
    ("34", "20 20\n40 1\n"),
    ("36 at the first two", "20 1\n30 1\n60 1\n"),
    ("36 at the last two", "20 1\n40 1\n60 1\n"),
    ("36 before 34", "20 20\n30 30\n"),
    ("36 for P alone", "12 1\n36 2\n"),
];

fn lists() -> Vec<Sent> {
    let questions =
        ["check 20 9\n", "check 20 21\n", "least 20\n", "least 0\n", "best 20\n", "best 2001\n", "sheet\n"];
    let of = |(name, sheet): &(&str, &str)| {
        questions.iter().map(|question| sent(question, sheet.as_bytes(), *name)).collect::<Vec<Sent>>()
    };
    LISTS.iter().flat_map(of).collect()
}

/// The bytes of inputs about as long as one can be: `aligned` before a line makes eight more.
pub const LENGTHS: [u64; 9] = [
    LONGEST_LINE - 8,
    LONGEST_LINE - 7,
    LONGEST_LINE - 6,
    LONGEST_LINE - 5,
    LONGEST_LINE - 1,
    LONGEST_LINE,
    LONGEST_LINE + 1,
    LONGEST_LINE + 2,
    200_000,
];

/// How those begin, go on and end.
const LONG: [(&str, &str, &str, &str); 16] = [
    ("a question", "check 20 ", "0", "9\n"),
    ("a question without its newline", "best ", "0", "7"),
    ("a question with a carriage return", "least ", "0", "7\r\n"),
    ("a question and a sheet", "least ", "0", "20\n20 1\n40 3\n"),
    ("help and a sheet", "help\n", "20 1\n", ""),
    ("a sheet to write back", "sheet\n", "20 1\n", ""),
    ("a bad sheet", "least 5\n20 1\n", "x", "\n"),
    ("newlines", "", "\n", ""),
    ("a word of sizing", "supply 4 3 ", "0", "7\n"),
    ("aligned before a question", "aligned least ", "0", "20\n20 1\n"),
    ("a word without an end", "", "x", ""),
    ("a field that is no number", "least ", "x", "\n20 1\n"),
    ("a field missing", "check ", "0", "20\n20 1\n40 3\n"),
    ("empty fields", "least ", " ", "\n20 1\n"),
    ("a field too many", "check 20 ", "0", "9 20\n20 1\n"),
    ("empty fields and a bad sheet", "least ", " ", "\n20\n"),
];

pub fn length_case(bytes: u64, what: &str) -> String {
    format!("{bytes} bytes, {what}")
}

fn lengths() -> Vec<Sent> {
    let mut all = Vec::new();
    for bytes in LENGTHS {
        for (what, front, fill, end) in LONG {
            let middle = bytes as usize - front.len() - end.len();
            let fill: String = fill.chars().cycle().take(middle).collect();
            all.push(sent(front, format!("{fill}{end}").as_bytes(), length_case(bytes, what)));
        }
    }
    all
}

/// All that does not hang on a seed.
pub fn fixed() -> Vec<Sent> {
    let sheets = [damaged(), at_each_line(), too_short_or_too_long(), numbers()];
    let all = [questions(), lists(), lengths()];
    sheets.into_iter().chain(all).flatten().collect()
}

/// Random questions and sheets, some of them damaged anywhere.
pub struct Inputs {
    random: Random,
    questions: Vec<String>,
}

/// What stands first in a question of pieces: words that are asked and words that are not.
const FIRST: [&str; 10] =
    ["check", "least", "best", "check", "least", "best", "aligned", "demand", "supply", "sheet"];

/// What stands behind it.
const BEHIND: [&str; 8] = ["20", "9", "1", "", "x", "least", "check", "007"];

/// What a byte can become.
const BYTES: &[u8] = b"0159 \n\r\tx+-\0\x80\xff";

impl Inputs {
    pub fn new(seed: u64) -> Inputs {
        Inputs { random: Random::new(seed ^ 0x5a1e5), questions: all_questions() }
    }

    pub fn next(&mut self) -> Sent {
        let rows = self.rows();
        let question = self.question(&rows);
        let mut input = [question.as_bytes(), &sheets::write(&rows)].concat();
        for _ in 0..*self.random.pick(&[0, 0, 0, 1, 1, 2]) {
            self.damage(&mut input);
        }
        Sent { input, made_for: Vec::new() }
    }

    fn rows(&mut self) -> Vec<Row> {
        let mut lists = Lists { random: &mut self.random };
        let mut rows = if lists.random.once_in(3) { lists.apart() } else { lists.small() };
        if self.random.once_in(6) {
            let place = self.random.index(rows.len());
            rows[place] = (self.random.below(10_000), self.random.below(10_000));
        }
        if self.random.once_in(10) {
            let (n, last) = (self.random.between(0, MOST_LINES as u64 + 2), rows[rows.len() - 1]);
            rows.resize(n as usize, last);
        }
        rows
    }

    fn question(&mut self, rows: &[Row]) -> String {
        let mut lists = Lists { random: &mut self.random };
        let p = match (rows.first(), lists.random.below(3)) {
            (None | Some((0, _)), _) => 5,
            (Some(_), 0) => lists.other(rows).min(60),
            (Some((first, _)), _) if *first > 2000 => 7,
            (Some(_), _) => lists.divisor(rows).min(60),
        };
        let b = self.random.between(0, p + 1);
        let question = match *self.random.pick(&ASKED) {
            ("check", _) => format!("check {p} {b}"),
            ("best", _) => format!("best {}", p.min(30)),
            (word, _) => format!("{word} {p}"),
        };
        match self.random.below(12) {
            0 if self.random.once_in(2) => self.random.pick(&self.questions).clone(),
            0 => self.pieces() + "\n",
            1 => question + "\r\n",
            2 => "sheet\n".to_string(),
            _ => question + "\n",
        }
    }

    /// A word and up to five fields.
    fn pieces(&mut self) -> String {
        let mut all = vec![*self.random.pick(&FIRST)];
        for _ in 0..self.random.below(6) {
            all.push(*self.random.pick(&BEHIND));
        }
        all.join(" ")
    }

    /// A byte more, a byte less or another one.
    fn damage(&mut self, input: &mut Vec<u8>) {
        let place = self.random.index(input.len() + 1);
        let byte = *self.random.pick(BYTES);
        match self.random.below(3) {
            0 => input.insert(place, byte),
            1 if place < input.len() => drop(input.remove(place)),
            _ if place < input.len() => input[place] = byte,
            _ => (),
        }
    }
}

#[cfg(test)]
mod tests {
    use super::*;
    use crate::sales;

    /// Each damage is the one bad line that it is meant to be, or the first of two.
    #[test]
    fn every_damage_is_told_at_its_line() {
        let all = damaged();
        assert_eq!(all.len(), DAMAGES.len() * PLACES.len());
        for (place, sent) in all.iter().enumerate() {
            let first = PLACES[place % PLACES.len()].2[0];
            let told = String::from_utf8(sales::answer(&sent.input)).unwrap();
            assert_eq!(told, format!("no 37 {first}\n"), "{:?}", sent.made_for);
        }
    }

    /// Lists are what they are named after.
    #[test]
    fn every_list_is_refused_as_named() {
        for sent in lists() {
            let name = &sent.made_for[0];
            let told = String::from_utf8(sales::answer(&sent.input)).unwrap();
            let row = format!("no {} ", &name[..2]);
            let concerned = sent.input.starts_with(b"least 20\n");
            assert!(!concerned || told.contains(&row), "{name}: {told}");
        }
    }

    #[test]
    fn every_question_is_sent_once() {
        let all = all_questions();
        assert_eq!(&all[..QUESTIONS.len()], &QUESTIONS);
        assert!((1..all.len()).all(|place| !all[..place].contains(&all[place])));
        for (word, wanted) in ASKED {
            for count in 0..=wanted + TOO_MANY {
                let has = |question: &&String| {
                    let line = question.trim_end_matches('\n');
                    line.split(' ').next() == Some(word) && line.matches(' ').count() == count
                };
                assert!(all.iter().any(|question| has(&question)), "{word} {count}");
            }
        }
    }

    #[test]
    fn lengths_are_those_around_the_longest() {
        for (place, sent) in lengths().iter().enumerate() {
            assert_eq!(sent.input.len() as u64, LENGTHS[place / LONG.len()]);
            let too_long = sent.input.len() > 65_535;
            assert_eq!(sales::answer(&sent.input) == b"bad line\n", too_long, "{:?}", sent.made_for);
        }
    }
}
