//! Which cases a sizing query meets, told from its bytes and its answer.

use crate::aligned_cases;
use crate::queries::{LONG, NEAR_ALIGNED};
use crate::reached::Reached;
use crate::refusal::Refusal;
use crate::shares::{self, Form, List};
use crate::sizing::{Answer, LONGEST_LINE};

/// A line taken apart once more, the whole of it at hand.
pub struct Parts<'a> {
    pub form: Form,
    pub word: &'a str,
    bytes: &'a [u8],
    fields: Vec<&'a [u8]>,
}

/// The line has no newline, and no carriage return that is dropped.
pub fn take_apart(line: &[u8]) -> Parts<'_> {
    let mut pieces: Vec<&[u8]> = line.split(|&byte| byte == b' ').collect();
    let is_aligned = pieces.len() > 1 && pieces[0] == b"aligned";
    let form = if is_aligned { Form::Aligned } else { Form::Ordinary };
    let fields = pieces.split_off(if is_aligned { 2 } else { 1 });
    let bytes = pieces[pieces.len() - 1];
    Parts { form, word: std::str::from_utf8(bytes).unwrap_or("?"), bytes, fields }
}

/// Without its newline and one carriage return.
pub fn bare(line: &[u8]) -> &[u8] {
    let line = line.strip_suffix(b"\n").unwrap_or(line);
    line.strip_suffix(b"\r").unwrap_or(line)
}

impl Parts<'_> {
    /// What stands before the cases of an aligned line: they are counted apart.
    fn prefix(&self) -> &'static str {
        match self.form {
            Form::Ordinary => "",
            Form::Aligned => "aligned ",
        }
    }

    /// The numbers before the tasks, and the tasks. What is too large for u64 is its largest.
    pub fn lead_and_list(&self) -> (Vec<u64>, List) {
        let narrow = |number: u128| u64::try_from(number).unwrap_or(u64::MAX);
        let mut lead: Vec<u64> = self.numbers().into_iter().map(narrow).collect();
        let list = lead.split_off(self.leading());
        (lead, List::of(&list))
    }

    fn leading(&self) -> usize {
        match self.word {
            "supply" => 3,
            "demand" | "check" => 2,
            _ => 1,
        }
    }

    fn number(&self, place: usize) -> u128 {
        let text = String::from_utf8_lossy(self.fields[place]);
        let text = text.trim_start_matches('0');
        if text.is_empty() {
            return 0;
        }
        text.parse().unwrap_or(u128::MAX)
    }

    fn numbers(&self) -> Vec<u128> {
        (0..self.fields.len()).map(|place| self.number(place)).collect()
    }
}

pub fn note(line: &[u8], answer: Option<&Answer>, reached: &mut Reached) {
    let (line, bare) = (line.strip_suffix(b"\n").unwrap_or(line), bare(line));
    let Some(answer) = answer else {
        let case = if line.is_empty() { "an empty line" } else { "a carriage return alone" };
        reached.add(case);
        return;
    };
    note_length(line, answer, reached);
    let answered = matches!(answer, Answer::Numbers(_) | Answer::No(_) | Answer::Help);
    reached.add_if(answered && bare.len() < line.len(), "a carriage return dropped");
    reached.add_if(bare.ends_with(b"\r"), "two carriage returns");
    reached.add_if(bare.len() < line.len() && *answer == Answer::Help, "help with a carriage return");
    let (parts, mut own) = (take_apart(bare), Reached::default());
    match answer {
        Answer::BadLine => reached.add("bad line"),
        Answer::Help => reached.add_if(bare.len() == line.len(), "help"),
        Answer::BadWord => note_word(&parts, &mut own),
        Answer::BadField(place) => note_field(&parts, *place, &mut own),
        Answer::Numbers(numbers) => note_ok(&parts, numbers, &mut own),
        Answer::No(refusal) => note_row(&parts, refusal, &mut own),
    }
    if parts.form == Form::Aligned {
        aligned_cases::note(&parts, answer, &mut own);
    }
    reached.join(parts.prefix(), own);
}

fn length_case(bytes: u64, carriage: bool, answer: &str) -> String {
    format!("{bytes} bytes{}: {answer}", if carriage { " with a carriage return" } else { "" })
}

/// Without its newline.
fn note_length(line: &[u8], answer: &Answer, reached: &mut Reached) {
    let bytes = line.len() as u64;
    if LONG.contains(&bytes) {
        let answer = answer.line();
        let front = answer.split(' ').next().unwrap_or("");
        let told = if front == "ok" { front } else { &answer };
        reached.add(length_case(bytes, line.ends_with(b"\r"), told));
    }
}

const NEAR_HELP: [&str; 3] = ["helpp", "HELP", "hel"];

fn note_word(parts: &Parts, reached: &mut Reached) {
    let word = parts.bytes;
    let words: [&[u8]; 5] = [b"supply", b"demand", b"check", b"least", b"best"];
    reached.add("bad word");
    reached.add_if(word.is_empty(), "bad word: empty");
    reached.add_if(words.iter().any(|w| word.len() > w.len() && word.starts_with(w)), "bad word: longer");
    reached.add_if(words.iter().any(|w| word.len() < w.len() && w.starts_with(word)), "bad word: shorter");
    reached.add_if(words.contains(&&word.to_ascii_lowercase()[..]), "bad word: capitals");
    for near in NEAR_HELP.iter().chain(&NEAR_ALIGNED) {
        reached.add_if(word == near.as_bytes(), &format!("bad word: {near}"));
    }
}

fn note_field(parts: &Parts, place: u64, reached: &mut Reached) {
    let (word, count) = (parts.word, parts.fields.len() as u64);
    if place <= 4 {
        reached.add(format!("{word} bad field {place}"));
    }
    reached.add(format!("bad field {place}"));
    reached.add_if(place > 34, "bad field behind the 34th");
    let kind = if place > count {
        "missing"
    } else if word == "help" || word == "supply" && place == 4 {
        "too many"
    } else if parts.fields[place as usize - 1].is_empty() {
        "empty"
    } else {
        "no number"
    };
    reached.add(format!("{word} bad field: {kind}"));
    let first_zero = count > 0 && parts.fields[0] == b"0";
    reached.add_if(first_zero && place > 1, "bad field before row 33 or 35");
    reached.add_if(count > 40, "bad field in a long list");
    if word == "help" {
        note_help_fields(&parts.fields, reached);
    }
}

fn note_help_fields(fields: &[&[u8]], reached: &mut Reached) {
    let (first, alone) = (fields[0], fields.len() == 1);
    let digits = !first.is_empty() && first.iter().all(u8::is_ascii_digit);
    reached.add_if(alone && first.is_empty(), "help with an empty field");
    reached.add_if(alone && digits, "help with a number");
    reached.add_if(alone && !digits && !first.is_empty(), "help with no number");
    reached.add_if(!alone, "help with several fields");
}

fn note_ok(parts: &Parts, answer: &[u64], reached: &mut Reached) {
    let (word, numbers) = (parts.word, parts.numbers());
    reached.add(format!("{word} ok"));
    if word == "check" {
        reached.add(format!("check ok {}", answer[0]));
    }
    let zeros = parts.fields.iter().any(|f| f.len() > 1 && f[0] == b'0');
    reached.add_if(zeros, &format!("{word} leading zeros"));
    let tasks = &numbers[parts.leading()..];
    reached.add_if(tasks.len() == 32, &format!("{word} sixteen tasks"));
    reached.add_if(tasks.contains(&2000), &format!("{word} task period 2000"));
    if word == "supply" || word == "demand" {
        let t = numbers[parts.leading() - 1];
        reached.add_if(t == 0, &format!("{word} length 0"));
        reached.add_if(t == 2000, &format!("{word} length 2000"));
    }
    if word != "demand" {
        reached.add_if(numbers[0] == 2000, &format!("{word} resource period 2000"));
        reached.add_if(numbers[0] == 1, &format!("{word} resource period 1"));
    }
    if word == "supply" || word == "check" {
        reached.add_if(numbers[0] == numbers[1], &format!("{word} budget is the period"));
    }
    if word == "demand" {
        reached.add_if(numbers[0] * 2 == tasks.len() as u128, "demand of the last place");
    }
    if word == "best" && numbers[0] <= 20 {
        note_tie(parts, answer, reached);
    }
}

/// Another period with the same fraction, each with its least budget.
fn note_tie(parts: &Parts, answer: &[u64], reached: &mut Reached) {
    let (lead, list) = parts.lead_and_list();
    let p_max = lead[0];
    let same = |p: u64| match shares::least(parts.form, list.lend(), p) {
        Ok(b) => b * answer[0] == answer[1] * p,
        Err(_) => false,
    };
    let whole = answer[0] == answer[1];
    let tie = (1..=p_max).any(|p| p != answer[0] && same(p));
    reached.add_if(tie, if whole { "best tie at 1" } else { "best tie below 1" });
    reached.add_if(answer[0] < p_max, "best below P_max");
}

fn note_row(parts: &Parts, refusal: &Refusal, reached: &mut Reached) {
    let Refusal { number, detail } = *refusal;
    let (word, numbers) = (parts.word, parts.numbers());
    reached.add(format!("{word} no {number}"));
    reached.add_refusal(number);
    let two32 = 1u128 << 32;
    let two64 = 1u128 << 64;
    let wraps = |m: u128| numbers.iter().any(|&x| x > m && x < u128::MAX && (1..=2000).contains(&(x % m)));
    reached.add_if(wraps(two32), &format!("above 2^32 no {number}"));
    reached.add_if(wraps(two64), &format!("above 2^64 no {number}"));
    if number == 31 || number == 32 {
        reached.add(format!("no {number} {detail}"));
        reached.add(format!("{word} no {number} {detail}"));
    }
    match number {
        30 => note_30(&numbers[parts.leading()..], reached),
        31 => note_31(&numbers[parts.leading()..], reached),
        32 => reached.add_if(falls(&numbers[parts.leading()..]).len() > 1, "32: the first of several"),
        33 => note_33(word, &numbers, reached),
        35 => note_35(word, &numbers, reached),
        _ => (),
    }
}

fn note_30(list: &[u128], reached: &mut Reached) {
    reached.add_if(list.is_empty(), "30: no tasks");
    reached.add_if(list.len() % 2 == 1 && list.len() < 32, "30: a period without its cost");
    reached.add_if(list.len() == 33, "30: sixteen tasks and a period");
    reached.add_if(list.len() == 34, "30: seventeen tasks");
    reached.add_if(list.len() > 100, "30: a long list");
    reached.add_if(list.contains(&0), "30 before 31");
}

/// The places of all tasks whose period is below the one before, counted from 1.
fn falls(list: &[u128]) -> Vec<usize> {
    let periods: Vec<u128> = list.iter().step_by(2).copied().collect();
    (2..=periods.len()).filter(|&place| periods[place - 1] < periods[place - 2]).collect()
}

const REASONS: [&str; 3] = ["its period", "a cost of 0", "a cost above the period"];

/// Why row 31 applies to a task.
fn reason(task: &[u128]) -> Option<&'static str> {
    let (period, cost) = (task[0], task[1]);
    let applies = [!(1..=2000).contains(&period), cost == 0, cost > period];
    REASONS.into_iter().zip(applies).find(|&(_, applies)| applies).map(|(reason, _)| reason)
}

fn first_and_later(first: &str, later: &str) -> String {
    format!("31: {first}, and behind it {later}")
}

fn note_31(list: &[u128], reached: &mut Reached) {
    for task in list.chunks(2) {
        let (period, cost) = (task[0], task[1]);
        reached.add_if(period == 0, "31: period 0");
        reached.add_if(period == 2001 && cost >= 1, "31: period 2001");
        reached.add_if(period > 0 && cost == 0, "31: cost 0");
        reached.add_if(period > 0 && cost.checked_sub(period) == Some(1), "31: cost above the period");
    }
    let bad = || list.chunks(2).zip(1..).filter_map(|(task, place)| Some((reason(task)?, place)));
    let Some((first, place)) = bad().next() else { return };
    bad().skip(1).for_each(|(later, _)| reached.add(first_and_later(first, later)));
    if let Some(&falls) = falls(list).first() {
        reached.add("31 before 32");
        reached.add_if(place > falls, "31 behind a falling period");
        reached.add_if(place < falls, "31 in front of a falling period");
    }
}

fn note_33(word: &str, numbers: &[u128], reached: &mut Reached) {
    let (p, with_budget) = (numbers[0], word == "supply" || word == "check");
    reached.add_if(p == 0, &format!("{word} 33: period 0"));
    reached.add_if(p == 2001, &format!("{word} 33: period 2001"));
    if with_budget && (1..=2000).contains(&p) {
        reached.add_if(numbers[1] == 0, &format!("{word} 33: budget 0"));
        reached.add_if(numbers[1] == p + 1, &format!("{word} 33: budget above the period"));
    }
    reached.add_if(word == "supply" && numbers[2] > 2000, "33 before 35");
}

fn note_35(word: &str, numbers: &[u128], reached: &mut Reached) {
    if word == "supply" {
        reached.add_if(numbers[2] == 2001, "supply 35: length 2001");
        return;
    }
    let n = (numbers.len() as u128 - 2) / 2;
    reached.add_if(numbers[1] == 2001, "demand 35: length 2001");
    reached.add_if(numbers[1] <= 2000 && numbers[0] == 0, "demand 35: place 0");
    reached.add_if(numbers[1] <= 2000 && numbers[0] == n + 1, "demand 35: place behind the last");
}

/// What every word has to meet.
const OF_EACH: [&str; 9] = [
    "ok",
    "leading zeros",
    "bad field 1",
    "bad field 2",
    "bad field 3",
    "bad field 4",
    "bad field: missing",
    "bad field: empty",
    "bad field: no number",
];

const WITH_TASKS: [&str; 9] = [
    "no 30",
    "no 31",
    "no 32",
    "no 31 1",
    "no 31 16",
    "no 32 2",
    "no 32 16",
    "sixteen tasks",
    "task period 2000",
];

const WITH_A_PERIOD: [&str; 5] =
    ["no 33", "resource period 1", "resource period 2000", "33: period 0", "33: period 2001"];

const WITH_A_BUDGET: [&str; 3] = ["budget is the period", "33: budget 0", "33: budget above the period"];

const WITH_A_LENGTH: [&str; 4] = ["no 35", "length 0", "length 2000", "35: length 2001"];

/// What one word alone has to meet.
fn own_cases(word: &str) -> &'static [&'static str] {
    match word {
        "supply" => &["bad field: too many"],
        "check" => &["ok 0", "ok 1"],
        "least" => &["no 34"],
        "best" => &["no 34", "tie at 1", "tie below 1", "below P_max"],
        _ => &["of the last place", "35: place 0", "35: place behind the last"],
    }
}

/// All that a word has to meet, in one form.
fn asked_of(word: &str) -> Vec<String> {
    let groups = [
        (true, &OF_EACH[..]),
        (word != "supply", &WITH_TASKS),
        (word != "demand", &WITH_A_PERIOD),
        (word == "supply" || word == "check", &WITH_A_BUDGET),
        (word == "supply" || word == "demand", &WITH_A_LENGTH),
        (true, own_cases(word)),
    ];
    let cases = groups.into_iter().filter(|(applies, _)| *applies).flat_map(|(_, cases)| cases);
    cases.map(|case| format!("{word} {case}")).collect()
}

/// All that the words of one form have to meet together.
fn asked_in_a_form(words: &[&str]) -> Vec<String> {
    let mut all: Vec<String> = words.iter().flat_map(|word| asked_of(word)).collect();
    all.extend(PLAIN.map(str::to_string));
    all.extend(NEAR_HELP.map(|near| format!("bad word: {near}")));
    all.extend(asked_places());
    all.extend((1..=34).map(|place| format!("bad field {place}")));
    for row in [31, 33, 35] {
        all.push(format!("above 2^32 no {row}"));
        all.push(format!("above 2^64 no {row}"));
    }
    all
}

/// All the cases that a comparison must meet.
pub fn asked() -> Vec<String> {
    let mut all = asked_in_a_form(&["supply", "demand", "check", "least", "best"]);
    all.extend(OF_LINES.map(str::to_string));
    all.extend(asked_lengths());
    all.extend(NEAR_ALIGNED.map(|near| format!("bad word: {near}")));
    let aligned = asked_in_a_form(&["supply", "check", "least", "best"]);
    all.extend(aligned.into_iter().chain(aligned_cases::asked()).map(|case| format!("aligned {case}")));
    all
}

/// Every place that 31 and 32 can give, and one task out of range behind another.
fn asked_places() -> Vec<String> {
    let mut all: Vec<String> = (1..=16).map(|place| format!("no 31 {place}")).collect();
    all.extend((2..=16).map(|place| format!("no 32 {place}")));
    all.extend(REASONS.iter().flat_map(|first| REASONS.map(|later| first_and_later(first, later))));
    all
}

/// Each length, without and with a carriage return.
fn asked_lengths() -> Vec<String> {
    let answer = |bytes| if bytes > LONGEST_LINE { "bad line" } else { "ok" };
    let both = |bytes| [false, true].map(|carriage| length_case(bytes, carriage, answer(bytes)));
    LONG.into_iter().flat_map(both).collect()
}

/// What is met in each form.
const PLAIN: [&str; 23] = [
    "30: no tasks",
    "30: a period without its cost",
    "30: sixteen tasks and a period",
    "30: seventeen tasks",
    "30: a long list",
    "30 before 31",
    "31: period 0",
    "31: period 2001",
    "31: cost 0",
    "31: cost above the period",
    "31 before 32",
    "31 behind a falling period",
    "31 in front of a falling period",
    "32: the first of several",
    "33 before 35",
    "bad field behind the 34th",
    "bad field before row 33 or 35",
    "bad field in a long list",
    "bad word",
    "bad word: empty",
    "bad word: longer",
    "bad word: shorter",
    "bad word: capitals",
];

/// What is met by lines whatever their form, and by `help`, which has one alone.
const OF_LINES: [&str; 13] = [
    "an empty line",
    "a carriage return alone",
    "a carriage return dropped",
    "two carriage returns",
    "a last line without a newline",
    "bad line",
    "help",
    "help with a carriage return",
    "help with an empty field",
    "help with a number",
    "help with no number",
    "help with several fields",
    "help bad field: too many",
];
