//! `compare-card`: the given program and this one on the same random runs of records.

use crate::card_cases;
use crate::endings;
use crate::generate::{self, Run};
use crate::offsets;
use crate::pipe;
use crate::random::Random;
use crate::reached::Reached;
use crate::ways::{self, Way};
use crate::words;
use std::time::Duration;

pub struct Plan {
    pub program: String,
    pub seed: u64,
    pub records: u64,
    pub list: bool,
    /// How long to wait for the program to end.
    pub wait: Duration,
}

/// The records that all runs have together, if no other number is asked for.
pub const RECORDS: u64 = 2_000_000;

/// How many runs, and about how many records each: enough runs for every ending, and now
/// and then a long one.
struct Lengths {
    runs: u64,
    usual: u64,
    long: u64,
}

const LONG_EVERY: u64 = 25;

fn lengths(records: u64) -> Lengths {
    let runs = (records / 1500).max(300);
    let usual = (records / runs / 2).max(1);
    Lengths { runs, usual, long: usual * LONG_EVERY }
}

impl Lengths {
    fn of(&self, place: u64) -> u64 {
        if place % LONG_EVERY == LONG_EVERY - 1 {
            self.long
        } else {
            self.usual
        }
    }
}

/// The run of a place, as the comparison with these numbers makes it.
pub fn run_at(seed: u64, records: u64, place: u64, reached: &mut Reached) -> Run {
    generate::run(seed, place, lengths(records).of(place), reached)
}

/// The first record whose line differs, in words, with the ones before it.
pub fn first_difference(run: &Run, output: &[u8]) -> Option<String> {
    let mut rest = output;
    for (place, line) in run.lines.iter().enumerate() {
        let end = rest.iter().position(|&byte| byte == b'\n').map_or(rest.len(), |at| at + 1);
        let (theirs, behind) = rest.split_at(end);
        if theirs != line.as_bytes() {
            return Some(told(run, place, theirs));
        }
        rest = behind;
    }
    (!rest.is_empty()).then(|| format!("more lines than records: {}", rest.escape_ascii()))
}

fn told(run: &Run, place: usize, theirs: &[u8]) -> String {
    let mut text = format!("record {} of {} differs\n", place + 1, run.records.len());
    for earlier in place.saturating_sub(5)..place {
        let (record, _) = words::front_in_words(&run.records[earlier]);
        text += &format!("  before:  {record:<45} {}", run.lines[earlier]);
    }
    let (record, _) = words::front_in_words(&run.records[place]);
    let mine = run.lines[place].trim_end();
    text + &format!("  record:  {record}\n  program: {}\n  second:  {mine}", theirs.escape_ascii())
}

fn judge(run: &Run, way: &Way, program: &str, limit: Duration) -> Result<(), String> {
    let difference = match way.send(program, limit) {
        Ok(output) => first_difference(run, &output),
        Err(error) => Some(error),
    };
    difference.map_or(Ok(()), |difference| Err(format!("{}: {difference}", way.name)))
}

/// Every ending, behind a short run, in every way.
fn compare_endings(program: &str, seed: u64, limit: Duration) -> Result<(), String> {
    let mut random = Random::new(seed);
    for place in endings::places() {
        let run = &generate::run(seed, place, 40, &mut Reached::default());
        let ways = ways::of(run, place, &mut random);
        let compared = ways.iter().try_for_each(|way| judge(run, way, program, limit));
        compared.map_err(|error| format!("seed {seed}, ending {place}, {error}"))?;
    }
    Ok(())
}

/// A bad record at every kind of offset.
fn compare_offsets(plan: &Plan, reached: &mut Reached) -> Result<(), String> {
    for sent in offsets::all(plan.seed) {
        let try_way = |way| judge(&sent.run, way, &plan.program, plan.wait);
        sent.ways.iter().try_for_each(try_way).map_err(|error| format!("seed {}, {error}", plan.seed))?;
        offsets::note(&sent, reached);
    }
    Ok(())
}

fn compare_empty(program: &str) -> Result<(), String> {
    let output = pipe::feed(program, b"")?;
    if output.is_empty() {
        return Ok(());
    }
    Err(format!("empty input gives {}", output.escape_ascii()))
}

pub fn run(plan: &Plan) -> Result<String, String> {
    compare_empty(&plan.program)?;
    compare_endings(&plan.program, plan.seed, plan.wait)?;
    let mut reached = Reached::default();
    compare_offsets(plan, &mut reached)?;
    let (mut records, mut accepted) = (0, 0);
    let runs = lengths(plan.records).runs;
    let mut place = 0;
    while place < runs || records < plan.records {
        let run = run_at(plan.seed, plan.records, place, &mut reached);
        let output = pipe::feed(&plan.program, &run.input())?;
        if let Some(difference) = first_difference(&run, &output) {
            return Err(format!("seed {}, records {}, run {place}: {difference}", plan.seed, plan.records));
        }
        records += run.records.len() as u64;
        accepted += run.lines.iter().filter(|line| line.starts_with("ok")).count();
        place += 1;
    }
    let cases = card_cases::asked();
    reached.demand(&cases, plan.seed, plan.list)?;
    println!("{place} runs, {accepted} of {records} calls accepted");
    println!("{}", reached.refusals());
    Ok(format!("compare-card: {records} records agree, {} cases reached", cases.len()))
}

#[cfg(test)]
mod tests {
    use super::*;
    use crate::{return_cases, total_cases};

    #[test]
    fn every_kind_of_difference_is_seen() {
        let run = generate::run(1, 2, 100, &mut Reached::default());
        let right = run.output();
        assert_eq!(first_difference(&run, right.as_bytes()), None);
        assert!(first_difference(&run, &right.as_bytes()[..right.len() - 1]).is_some());
        assert!(first_difference(&run, (right.clone() + "\n").as_bytes()).is_some());
        assert!(first_difference(&run, right.replacen('1', "2", 1).as_bytes()).is_some());
        let (_, without_first) = right.split_once('\n').unwrap();
        assert!(first_difference(&run, without_first.as_bytes()).is_some());
    }

    /// The scripts meet them, whatever the seed.
    #[test]
    fn the_smallest_comparison_meets_every_case_of_the_returns_and_the_totals() {
        let asked = [return_cases::asked(), total_cases::asked()].concat();
        for seed in 1..=5 {
            let mut reached = Reached::default();
            (0..300).for_each(|place| drop(run_at(seed, 20_000, place, &mut reached)));
            assert_eq!(reached.missing(&asked), Vec::<String>::new(), "seed {seed}");
        }
    }

    #[test]
    fn a_comparison_of_usual_size_meets_every_case() {
        let mut reached = Reached::default();
        offsets::all(1).for_each(|sent| offsets::note(&sent, &mut reached));
        for place in 0..700 {
            generate::run(1, place, 400, &mut reached);
        }
        assert_eq!(reached.missing(&card_cases::asked()), Vec::<String>::new());
    }
}
