//! Which cases an input of `sales` meets, told from its bytes and what is written for it.

use crate::reached::Reached;
use crate::sales;
use crate::sales_inputs::{self, Sent, ASKED, TOO_MANY};
use crate::sheets;

pub fn note(sent: &Sent, output: &[u8], reached: &mut Reached) {
    sent.made_for.iter().for_each(|case| reached.add(case));
    let (question, sheet) = sales::take_apart(&sent.input);
    let output = String::from_utf8_lossy(output);
    let (word, _) = sales::word_and_fields(question);
    if let Some((word, _)) = ASKED.iter().find(|(asked, _)| asked.as_bytes() == word) {
        note_answers(word, &output, reached);
    }
    if output != "bad line\n" {
        note_question(question, sheet, told(&output), reached);
    }
    if let Some(line) = output.strip_prefix("no 37 ") {
        reached.add(format!("37 with {}", line.trim_end()));
        reached.add_refusal(37);
    }
    let written_back = question == b"sheet" && !sheet.is_empty() && output.as_bytes() == sheet;
    reached.add_if(written_back, "a sheet written back");
    reached.add_if(output.is_empty(), "nothing at all");
    let cut = output.starts_with("ordinary ok ") && output.ends_with("\naligned bad line\n");
    reached.add_if(cut, "a line that aligned makes too long");
    if let Ok(rows) = sheets::read(sheet) {
        reached.add_if(rows.len() == 16, "a good sheet of sixteen lines");
    }
}

/// What is told to a question: both forms, or the one line that there is.
fn told(output: &str) -> &str {
    match output.strip_suffix('\n').unwrap_or(output) {
        both if both.contains('\n') => "both forms",
        line if line.starts_with("no 37 ") => "no 37",
        line => line,
    }
}

/// The kinds of sheets.
const SHEETS: [&str; 3] = ["an empty sheet", "a good sheet", "a bad sheet"];

fn kind_of_sheet(sheet: &[u8]) -> &'static str {
    match sheets::read(sheet) {
        Ok(rows) if rows.is_empty() => SHEETS[0],
        Ok(_) => SHEETS[1],
        Err(_) => SHEETS[2],
    }
}

/// The kinds of questions that are not asked, each with how it begins.
const NOT_ASKED: [(&str, &str); 13] = [
    ("help with a field", "help "),
    ("sheet with a field", "sheet "),
    ("demand without a field", "demand"),
    ("demand with fields", "demand "),
    ("supply without a field", "supply"),
    ("supply with fields", "supply "),
    ("aligned alone", "aligned"),
    ("aligned before check", "aligned check "),
    ("aligned before least", "aligned least "),
    ("aligned before best", "aligned best "),
    ("aligned before supply", "aligned supply "),
    ("a space first", " "),
    ("an empty question", ""),
];

/// A beginning with a space at its end may go on; another one is the whole question.
fn is_of_kind(question: &[u8], begins: &str) -> bool {
    question == begins.as_bytes() || begins.ends_with(' ') && question.starts_with(begins.as_bytes())
}

/// A word with so many fields, and the first empty one, if any is.
fn fields_case(word: &str, count: usize, empty: Option<usize>) -> String {
    match empty {
        Some(place) => format!("{word} with {count} fields, field {place} empty"),
        None => format!("{word} with {count} fields"),
    }
}

fn note_question(question: &[u8], sheet: &[u8], told: &str, reached: &mut Reached) {
    let sheet = kind_of_sheet(sheet);
    let mut note = |case: &str| reached.add(question_case(case, sheet, told));
    let kinds = NOT_ASKED.iter().filter(|(_, begins)| is_of_kind(question, begins));
    kinds.for_each(|(kind, _)| note(kind));
    let mut pieces = question.split(|&byte| byte == b' ');
    let word = pieces.next();
    let fields: Vec<&[u8]> = pieces.collect();
    if let Some((word, _)) = ASKED.iter().find(|(asked, _)| word == Some(asked.as_bytes())) {
        let empty = fields.iter().position(|field| field.is_empty());
        note(&fields_case(word, fields.len(), empty.map(|place| place + 1)));
    }
}

fn question_case(case: &str, sheet: &str, told: &str) -> String {
    format!("{case}, {sheet}: {told}")
}

/// What questions have to meet with every kind of sheet: a bad one is told before all else.
fn asked_of_questions() -> Vec<String> {
    let mut told: Vec<(String, String)> =
        NOT_ASKED.iter().map(|(kind, _)| (kind.to_string(), "bad word".to_string())).collect();
    for (word, wanted) in ASKED {
        for count in 0..=wanted + TOO_MANY {
            let told_to = match count {
                few if few < wanted => format!("bad field {}", few + 1),
                many if many > wanted => format!("bad field {}", wanted + 1),
                _ => "both forms".to_string(),
            };
            told.push((fields_case(word, count, None), told_to.clone()));
            let places = if count > wanted + 1 { 1 } else { count };
            told.extend((1..=places).map(|place| (fields_case(word, count, Some(place)), told_to.clone())));
        }
    }
    let with_each = |(case, told): &(String, String)| {
        SHEETS.map(|sheet| question_case(case, sheet, if sheet == SHEETS[2] { "no 37" } else { told }))
    };
    told.iter().flat_map(with_each).collect()
}

/// The reply without its numbers, if it is `ok` or a row.
fn reply(line: &str) -> String {
    let pieces: Vec<&str> = line.split(' ').collect();
    let kept = if pieces.get(1) == Some(&"no") || pieces.get(1) == Some(&"bad") { 3 } else { 2 };
    pieces[..kept.min(pieces.len())].join(" ")
}

fn note_answers(word: &str, output: &str, reached: &mut Reached) {
    let lines: Vec<&str> = output.lines().collect();
    let [ordinary, aligned] = lines[..] else { return };
    let both = format!("{} {}", reply(ordinary), reply(aligned));
    reached.add(format!("{word}: {both}"));
    if word == "least" && both == "ordinary ok aligned ok" {
        let same = ordinary.strip_prefix("ordinary") == aligned.strip_prefix("aligned");
        reached.add(if same { "least: the same in both forms" } else { "least: less in the aligned form" });
    }
}

/// What the three words have to meet, in both forms.
const BOTH: [&str; 8] = [
    "ordinary ok aligned ok",
    "ordinary ok aligned no 36",
    "ordinary no 30 aligned no 30",
    "ordinary no 31 aligned no 31",
    "ordinary no 32 aligned no 32",
    "ordinary no 33 aligned no 33",
    "ordinary bad field aligned bad field",
    "ordinary no 34 aligned no 34",
];

/// All the cases that a comparison must meet: those that inputs are made for, and what is written.
pub fn asked() -> Vec<String> {
    let mut all: Vec<String> = sales_inputs::fixed().into_iter().flat_map(|sent| sent.made_for).collect();
    all.sort();
    all.dedup();
    let no_budget = |word: &str, both: &str| word == "check" && both.contains("34");
    for (word, both) in ASKED.iter().flat_map(|(word, _)| BOTH.map(|both| (word, both))) {
        all.extend((!no_budget(word, both)).then(|| format!("{word}: {both}")));
    }
    all.extend(["least", "best"].map(|word| format!("{word}: ordinary no 34 aligned no 36")));
    all.extend(asked_of_questions());
    all.extend((1..=17).map(|line| format!("37 with {line}")));
    all.extend(PLAIN.map(str::to_string));
    all
}

const PLAIN: [&str; 6] = [
    "least: the same in both forms",
    "least: less in the aligned form",
    "a sheet written back",
    "nothing at all",
    "a line that aligned makes too long",
    "a good sheet of sixteen lines",
];
