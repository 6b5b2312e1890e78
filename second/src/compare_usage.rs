//! `compare-usage`: what the given program tells at the end of an input, beside what this one
//! counts from its own history, for inputs that end behind every sort of call.

use crate::compare_card;
use crate::endings;
use crate::generate::{self, Run};
use crate::lines::Card;
use crate::offsets;
use crate::pipe;
use crate::random::Random;
use crate::reached::Reached;
use crate::usage_cases::{self, Watch};
use crate::usage_facts::Facts;
use crate::usage_lines::Told;
use crate::usage_runs::{self, Sent};
use crate::ways::{self, Way};
use crate::words;
use std::time::Duration;

pub struct Plan {
    pub program: String,
    pub seed: u64,
    pub runs: u64,
    pub list: bool,
    /// How long to wait for the program to end.
    pub wait: Duration,
}

/// An end at which the program and this one differ.
#[derive(Debug)]
pub struct Difference {
    pub end: usize,
    pub what: String,
}

pub fn first_difference(right: &Told, output: &[u8]) -> Option<String> {
    let right = right.lines();
    let mut theirs = output.split_inclusive(|&byte| byte == b'\n');
    for (place, line) in right.split_inclusive('\n').enumerate() {
        let other = theirs.next().unwrap_or(&[]);
        if other != line.as_bytes() {
            let (place, other) = (place + 1, other.escape_ascii());
            let line = line.trim_end();
            return Some(format!("line {place} differs\n  program: {other}\n  second:  {line}"));
        }
    }
    theirs.next().map(|more| format!("a line too many: {}", more.escape_ascii()))
}

/// The bytes, and that they tell what they must.
fn judge(right: &Told, output: &[u8], facts: &mut Facts) -> Result<(), String> {
    if let Some(difference) = first_difference(right, output) {
        return Err(difference);
    }
    facts.check(&Told::read(&String::from_utf8_lossy(output))?)
}

/// All ends of an input, each for a fresh start of the program: how many they are, or the first
/// one at which it is wrong.
pub fn compare(
    sent: &Sent,
    program: impl Fn(&[u8]) -> Result<Vec<u8>, String>,
    reached: &mut Reached,
) -> Result<u64, Difference> {
    let (mut watch, mut facts, mut taken) = (Watch::new(), Facts::default(), 0);
    let mut count = 0;
    for &end in &sent.ends {
        for record in &sent.records(end)[taken..] {
            watch.take(record);
            facts.take(record);
        }
        taken = end;
        let input = sent.input(end);
        let judged = program(&input).and_then(|output| judge(&watch.told(), &output, &mut facts));
        judged.map_err(|what| Difference { end, what })?;
        watch.note(reached);
        reached.add_if(input.len() > sent.records(end).concat().len(), "bytes behind a stop");
        count += 1;
    }
    Ok(count)
}

/// What sends the input of a place again, and to whom.
pub struct Again<'a> {
    pub command: &'a str,
    pub seed: u64,
    pub place: u64,
    pub program: &'a str,
}

impl Again<'_> {
    /// The seed and the run, the last records in words, and how to send them again.
    pub fn told(&self, sent: &Sent, difference: &Difference) -> String {
        let (Again { command, seed, place, program }, Difference { end, what }) = (self, difference);
        let records = sent.records(*end);
        let mut text = format!("seed {seed}, run {place}, prefix {end}: {what}\n");
        for record in &records[records.len().saturating_sub(6)..] {
            text += &format!("  before:  {}\n", words::front_in_words(record).0);
        }
        text + &format!("  again:   second {command} --seed {seed} --run {place} --prefix {end} | {program}")
    }
}

/// A run in each of these ways.
fn compare_in(plan: &Plan, run: &Run, ways: Vec<Way>) -> Result<u64, String> {
    let (mut card, mut facts) = (Card::new(), Facts::default());
    for record in &run.records {
        card.take(record);
        facts.take(record);
    }
    card.end();
    let (right, count) = (Told::of(&card), ways.len() as u64);
    for way in ways.into_iter().map(Way::silent) {
        let output = way.send(&plan.program, plan.wait);
        let judged = output.and_then(|output| judge(&right, &output, &mut facts));
        judged.map_err(|error| format!("seed {}, {}: {error}", plan.seed, way.name))?;
    }
    Ok(count)
}

/// Every ending behind a short run, and bad records at every kind of offset, in every way: what is
/// read does not hang on how it comes, and behind a bad record nothing is waited for.
fn compare_ways(plan: &Plan, reached: &mut Reached) -> Result<u64, String> {
    let mut random = Random::new(plan.seed);
    let mut count = 0;
    for place in endings::places() {
        let run = generate::run(plan.seed, place, 10, &mut Reached::default());
        let compared = compare_in(plan, &run, ways::of(&run, place, &mut random));
        count += compared.map_err(|error| format!("ending {place}, {error}"))?;
    }
    for sent in offsets::all(plan.seed) {
        offsets::note(&sent, reached);
        count += compare_in(plan, &sent.run, sent.ways)?;
    }
    Ok(count)
}

fn asked() -> Vec<String> {
    [usage_cases::asked(), offsets::asked()].concat()
}

/// For so many runs of its own, one of `compare-card`'s is sent too: every 25th of those is long.
const OF_CARD_ONCE_FOR: u64 = 10;

/// Runs that a command writes again, each at all of its ends: how many ends they have.
fn compare_runs(
    plan: &Plan,
    (command, runs): (&str, u64),
    at: impl Fn(u64) -> Sent,
    reached: &mut Reached,
) -> Result<u64, String> {
    let Plan { program, seed, .. } = plan;
    let mut ends = 0;
    for place in 0..runs {
        let sent = at(place);
        let again = Again { command, seed: *seed, place, program };
        let compared = compare(&sent, |input| pipe::feed(program, input), reached);
        ends += compared.map_err(|difference| again.told(&sent, &difference))?;
    }
    Ok(ends)
}

pub fn run(plan: &Plan) -> Result<String, String> {
    let mut reached = Reached::default();
    let ways = compare_ways(plan, &mut reached)?;
    let ends =
        compare_runs(plan, ("usage-run", plan.runs), |place| usage_runs::at(plan.seed, place), &mut reached)?;
    let whole = plan.runs / OF_CARD_ONCE_FOR;
    let of_card = |place| usage_runs::of_card(plan.seed, compare_card::RECORDS, place);
    compare_runs(plan, ("run", whole), of_card, &mut Reached::default())?;
    let cases = asked();
    reached.demand(&cases, plan.seed, plan.list)?;
    println!("{} runs with {ends} ends, {whole} of compare-card, {ways} ways to send one", plan.runs);
    Ok(format!("compare-usage: {} outputs agree, {} cases reached", ends + whole + ways, cases.len()))
}

#[cfg(test)]
mod tests {
    use super::*;
    use crate::usage_lines;

    fn own(input: &[u8]) -> Result<Vec<u8>, String> {
        let mut output = Vec::new();
        usage_lines::run(input, &mut output).map_err(|error| error.to_string())?;
        Ok(output)
    }

    /// What the watch tells at an end is what the filter writes for the input up to it; and the
    /// scripts meet every case, whatever the seed.
    #[test]
    fn the_smallest_comparison_meets_every_case() {
        for seed in 1..=5 {
            let mut reached = Reached::default();
            for place in 0..200 {
                compare(&usage_runs::at(seed, place), own, &mut reached).unwrap();
            }
            assert_eq!(reached.missing(&usage_cases::asked()), Vec::<String>::new(), "seed {seed}");
        }
    }

    #[test]
    fn every_kind_of_difference_is_seen() {
        let lines = "time 7\nidle 3\nremoved 1\ntenants 1\ntenant 9 held 3 pending 2 usable 1\n";
        let right = Told::read(lines).unwrap();
        let seen = |other: &str| first_difference(&right, other.as_bytes());
        assert_eq!(seen(lines), None);
        assert!(seen("").is_some_and(|what| what.starts_with("line 1 differs")));
        assert!(
            seen(&lines.replace("held 3", "held 2")).is_some_and(|what| what.starts_with("line 5 differs"))
        );
        assert!(seen(lines.trim_end()).is_some_and(|what| what.starts_with("line 5 differs")));
        assert!(seen(&format!("{lines}\n")).is_some_and(|what| what.starts_with("a line too many")));
    }

    /// A fault is told with the records before it and with how to make them again.
    #[test]
    fn a_difference_says_how_to_make_it_again() {
        let again = Again { command: "usage-run", seed: 3, place: 5, program: "target/bin/usage" };
        let sent = usage_runs::at(again.seed, again.place);
        let wrong = |input: &[u8]| match input.len() {
            0..40 => own(input),
            _ => Ok(b"time 0\n".to_vec()),
        };
        let difference = compare(&sent, wrong, &mut Reached::default()).unwrap_err();
        let told = again.told(&sent, &difference);
        assert_eq!(sent.input(difference.end).len(), 11 + 2 * 24);
        assert!(told.starts_with("seed 3, run 5, prefix 3: line 1 differs"), "{told}");
        assert!(told.contains("before:  admit 6 id 257 T 20 C 9 pr 1"), "{told}");
        assert!(told.ends_with("usage-run --seed 3 --run 5 --prefix 3 | target/bin/usage"), "{told}");
    }
}
