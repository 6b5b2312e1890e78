//! `compare-sizing`: the given program and this one on the same random queries.

use crate::aligned_facts;
use crate::long_lines::{self, CUTS};
use crate::pipe::{self, Part};
use crate::queries::Queries;
use crate::query_cases;
use crate::reached::Reached;
use crate::sizing::{self, Answer, Reader};
use std::time::Duration;

/// Inputs whose end or layout matters, each run alone.
pub const ENDS: [&[u8]; 27] = [
    b"",
    b"\n",
    b"\r\n",
    b"\n\n\r\n\n",
    b"supply 4 3 7",
    b"supply 4 3 7\n",
    b"supply 4 3 7\n\n",
    b"supply 4 3 7\r\nbest 3 1 1",
    b"best",
    b"best 3 1 1 ",
    b"check 3",
    b"sup",
    b"supply 4 3 7\r",
    b"\r",
    b"help",
    b"help\r",
    b"help ",
    b"help 1 x",
    b"help\nhelp x\nhelp\r\n",
    b"helpp\nHELP\nhel",
    b"aligned",
    b"aligned ",
    b"aligned\r\n",
    b"aligned best 9 5 1 10 3",
    b"aligned supply 4 3 7\r",
    b"aligned help\naligned demand 2 5 5 1 10 3\naligned aligned best 9 5 1 10 3\n",
    b"aligned least 5 5 1 10 3\nleast 5 5 1 10 3\naligned \nleast 5 5 1 10 3\n",
];

/// Of `compare-sales` too.
pub struct Plan {
    pub program: String,
    pub seed: u64,
    /// All queries or inputs, those included that are the same for every seed.
    pub count: u64,
    pub list: bool,
    /// How long to wait for the program to end.
    pub wait: Duration,
}

pub struct Asked {
    pub line: Vec<u8>,
    pub answer: Option<Answer>,
}

/// The answer of one line. The last may have no newline.
pub fn answer_alone(line: &[u8]) -> Option<Answer> {
    let mut reader = Reader::new();
    for &byte in line {
        if let Some(answer) = reader.take(byte) {
            return Some(answer);
        }
    }
    reader.end()
}

pub fn ask_all(seed: u64, count: u64, reached: &mut Reached) -> Vec<Asked> {
    let mut queries = Queries::new(seed);
    let mut all: Vec<Asked> = Vec::new();
    for _ in 1..count {
        let line = queries.next();
        let answer = answer_alone(&line);
        query_cases::note(&line, answer.as_ref(), reached);
        all.push(Asked { line, answer });
    }
    let line = b"best 5 5 1 10 3".to_vec();
    let answer = answer_alone(&line);
    reached.add("a last line without a newline");
    all.push(Asked { line, answer });
    all
}

pub fn shown(bytes: &[u8]) -> String {
    let text = bytes.escape_ascii().to_string();
    if text.len() <= 2000 {
        return text;
    }
    format!("{}.. ({} bytes)", &text[..2000], bytes.len())
}

/// The first answer that differs, told in words.
pub fn first_difference(asked: &[Asked], output: &[u8]) -> Option<String> {
    let mut rest = output;
    let mut number = 0;
    for query in asked {
        let Some(answer) = &query.answer else { continue };
        number += 1;
        let mine = answer.line() + "\n";
        let end = rest.iter().position(|&byte| byte == b'\n').map_or(rest.len(), |at| at + 1);
        let (theirs, behind) = rest.split_at(end);
        if theirs != mine.as_bytes() {
            return Some(format!(
                "answer {number} differs\n  query:   {}\n  program: {}\n  second:  {}",
                shown(&query.line),
                shown(theirs),
                shown(mine.as_bytes())
            ));
        }
        rest = behind;
    }
    (!rest.is_empty()).then(|| format!("more than {number} answers: {}", shown(rest)))
}

pub fn agree(what: &str, theirs: &[u8], mine: &[u8]) -> Result<(), String> {
    if theirs == mine {
        return Ok(());
    }
    Err(format!("{what} differs\n  program: {}\n  second:  {}", shown(theirs), shown(mine)))
}

fn all_answers(input: &[u8]) -> Vec<u8> {
    sizing::answers(input).iter().map(|answer| answer.line() + "\n").collect::<String>().into_bytes()
}

fn compare_whole(program: &str, input: &[u8]) -> Result<(), String> {
    agree(&format!("whole input \"{}\"", shown(input)), &pipe::feed(program, input)?, &all_answers(input))
}

/// Parts, each with the answers that this program's reader has for it before more comes, and
/// the answers that the end of the input brings.
fn awaited(parts: Vec<Vec<u8>>) -> (Vec<Part>, usize) {
    let mut reader = Reader::new();
    let mut told = |part: Vec<u8>| {
        let answers = part.iter().filter_map(|&byte| reader.take(byte)).count();
        (part, answers)
    };
    let parts = parts.into_iter().map(&mut told).collect();
    (parts, usize::from(reader.end().is_some()))
}

/// Each part is what one read gives. Behind the end nothing more comes, though the input
/// stays open.
fn compare_reads(program: &str, what: &str, parts: Vec<Vec<u8>>, limit: Duration) -> Result<(), String> {
    let mine = all_answers(&parts.concat());
    let (mut parts, last) = awaited(parts);
    parts.push((Vec::new(), last));
    agree(what, &pipe::talk_in_reads(&[program], &parts, limit)?, &mine)
}

fn compare_bytes(program: &str, input: &[u8], limit: Duration) -> Result<(), String> {
    let parts = input.iter().map(|&byte| vec![byte]).collect();
    compare_reads(program, &format!("\"{}\" byte by byte", shown(input)), parts, limit)
}

/// Over a pipe, which keeps what the program has no room for; so the parts need no heed.
fn compare_pipe(program: &str, what: &str, input: &[u8]) -> Result<(), String> {
    let (parts, _) = awaited(input.chunks(4093).map(<[u8]>::to_vec).collect());
    agree(what, &pipe::talk(&[program], &parts)?, &all_answers(input))
}

/// Lines about as long as a line can be, whole and in parts.
fn compare_long(program: &str, limit: Duration) -> Result<(), String> {
    for long in long_lines::inputs() {
        agree(&long.what, &pipe::feed(program, &long.input)?, &all_answers(&long.input))?;
        compare_pipe(program, &format!("in parts, {}", long.what), &long.input)?;
        for cuts in &CUTS {
            let parts = long_lines::in_reads(&long.input, cuts);
            compare_reads(program, &format!("in reads, {}", long.what), parts, limit)?;
        }
    }
    Ok(())
}

fn compare_ends(program: &str, limit: Duration) -> Result<(), String> {
    ENDS.iter().try_for_each(|input| compare_whole(program, input))?;
    ENDS.iter().try_for_each(|input| compare_bytes(program, input, limit))?;
    compare_long(program, limit)
}

/// Each line is answered before the next one is sent.
fn compare_talk(program: &str) -> Result<(), String> {
    let lines = [
        "supply 4 3 7\n",
        "\n",
        "best 5 5 1 10 3\r\n",
        "sup\n",
        "help\n",
        "aligned best 9 5 1 10 3\n",
        "help x\n",
        "least 5 2 2 4 1\n",
    ];
    let mut parts = Vec::new();
    let mut mine = Vec::new();
    for line in lines {
        let answer = answer_alone(line.as_bytes());
        parts.push((line.as_bytes().to_vec(), usize::from(answer.is_some())));
        mine.extend(answer.map(|a| a.line() + "\n"));
    }
    agree("line by line", &pipe::talk(&[program], &parts)?, mine.concat().as_bytes())
}

pub fn run(plan: &Plan) -> Result<String, String> {
    compare_ends(&plan.program, plan.wait)?;
    compare_talk(&plan.program)?;
    let mut reached = Reached::default();
    let asked = ask_all(plan.seed, plan.count, &mut reached);
    let input: Vec<u8> = asked.iter().flat_map(|query| query.line.iter().copied()).collect();
    let output = pipe::feed(&plan.program, &input)?;
    if let Some(difference) = first_difference(&asked, &output) {
        return Err(format!("seed {}: {difference}", plan.seed));
    }
    let cases = query_cases::asked();
    reached.demand(&cases, plan.seed, plan.list)?;
    let lists = aligned_facts::check_all(&asked)?;
    println!("{}; the facts of the aligned form hold on {lists} lists", reached.refusals());
    Ok(format!("compare-sizing: {} queries agree, {} cases reached", asked.len(), cases.len()))
}

#[cfg(test)]
mod tests {
    use super::*;

    fn some_asked() -> Vec<Asked> {
        let lines = ["supply 4 3 7\n", "\n", "least 5 2 2 4 1\n", "best"];
        let asked = |line: &str| Asked { line: line.into(), answer: answer_alone(line.as_bytes()) };
        lines.map(asked).into()
    }

    #[test]
    fn every_kind_of_difference_is_seen() {
        let asked = some_asked();
        assert_eq!(first_difference(&asked, b"ok 4\nno 34 0\nbad field 1\n"), None);
        let wrong: [&[u8]; 7] = [
            b"",
            b"ok 4\nno 34 0\n",
            b"ok 4\nno 34 0\nbad field 1",
            b"ok 4\nno 34 0\nbad field 1\n\n",
            b"ok 4\n\nno 34 0\nbad field 1\n",
            b"ok 4\nno 33 0\nbad field 1\n",
            b"ok 4\r\nno 34 0\nbad field 1\n",
        ];
        for output in wrong {
            assert!(first_difference(&asked, output).is_some(), "{output:?}");
        }
    }

    #[test]
    fn a_difference_shows_the_query() {
        let text = first_difference(&some_asked(), b"ok 4\nno 33 0\n").unwrap();
        assert!(text.contains("least 5 2 2 4 1") && text.contains("no 33 0"));
    }
}
