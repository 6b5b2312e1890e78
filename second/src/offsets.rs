//! Bad records that begin at every kind of offset, behind reads that end in front of them or
//! within them. What the card says to them is for the reader (`lines::Card`) to say.

use crate::generate::{self, Run};
use crate::lines::Card;
use crate::reached::Reached;
use crate::records::{self, HEADER};
use crate::turns::{Call, Change};
use crate::ways::{self, Way};

/// Nothing before it, one record, both sides of what one byte holds, and of what two bytes
/// hold, which is also what the program reads at once; and behind several such reads.
const OFFSETS: [usize; 7] = [0, 11, 255, 256, 65_535, 65_536, 200_000];

/// Each way to be bad, its number, and such a record.
const BAD: [(&str, u32, &[u8]); 4] = [
    ("a short header", 20, &[5, 0]),
    ("an unknown tag", 21, &[6, 0, 13, 0, 0, 0, 0, 0, 0, 0, 0, 0, 0, 1, 1, 2]),
    ("another length", 22, &[5, 0, 7, 0, 0, 0, 0, 0, 0, 0]),
    ("a short payload", 20, &[5, 0, 8, 0, 0]),
];

const AT_ONCE: &str = "at once";
const IN_FRONT: &str = "reads end in front of it";
const WITHIN: &str = "reads end within it";

/// Far less than a buffer, and no multiple of any record's length.
const READ: usize = 4099;

/// A bad record behind good ones, and the ways to send it.
pub struct Sent {
    what: &'static str,
    pub run: Run,
    pub ways: Vec<Way>,
}

pub fn all(seed: u64) -> impl Iterator<Item = Sent> {
    let good = OFFSETS.into_iter().map(move |offset| good_records(offset, seed));
    good.flat_map(|good| BAD.map(|(what, _, bad)| sent(what, good.clone(), bad)))
}

fn sent(what: &'static str, good: Vec<Vec<u8>>, bad: &[u8]) -> Sent {
    let front = good.concat();
    let whole = [&front[..], bad].concat();
    let mut ways = vec![ways::at_once(AT_ONCE, whole.clone())];
    ways.push(ways::in_reads(IN_FRONT, in_reads(&front, bad)));
    // Behind a whole header that is bad there is nothing to wait for.
    let last = if records::read(&bad[..bad.len().min(HEADER)]) == Err(20) { bad.len() } else { HEADER };
    for cut in 1..last {
        let (read, rest) = whole.split_at(front.len() + cut);
        ways.push(ways::in_reads(WITHIN, in_reads(read, rest)));
    }
    Sent { what, run: answered(good, bad), ways }
}

fn in_reads(front: &[u8], last: &[u8]) -> Vec<Vec<u8>> {
    front.chunks(READ).chain([last]).map(<[u8]>::to_vec).collect()
}

fn answered(good: Vec<Vec<u8>>, bad: &[u8]) -> Run {
    let mut card = Card::new();
    let mut lines: Vec<String> = good.iter().map(|record| card.take(record)).collect();
    lines.push(card.take(bad) + &card.end());
    Run { records: [good, vec![bad.to_vec()]].concat(), behind: Vec::new(), lines }
}

/// The first records of a random run, and some more, so many bytes in all: ticks of 11
/// bytes, and wakes of 14, which add up to any number from 130 on.
fn good_records(bytes: usize, seed: u64) -> Vec<Vec<u8>> {
    let run = generate::run(seed, 3, bytes as u64 / 11, &mut Reached::default());
    let mut left = bytes;
    let mut records: Vec<Vec<u8>> = Vec::new();
    for record in run.records.into_iter().take_while(|record| records::read(record).is_ok()) {
        if left < 130 + record.len() {
            break;
        }
        left -= record.len();
        records.push(record);
    }
    records.extend(fillers(left));
    records
}

fn fillers(bytes: usize) -> Vec<Vec<u8>> {
    let [tick, wake] =
        [Change::Tick, Change::Wake(257)].map(|change| records::write(&Call { time: 0, change }));
    let ticks = (0..14).find(|ticks| bytes.checked_sub(11 * ticks).is_some_and(|left| left % 14 == 0));
    let ticks = ticks.expect("such a sum of records");
    let wakes = (bytes - 11 * ticks) / 14;
    [vec![tick; ticks], vec![wake; wakes]].concat()
}

fn case(what: &str, line: &str, way: &str) -> String {
    format!("{what}: {line}, {way}")
}

/// Told by the line that the card has for it.
pub fn note(sent: &Sent, reached: &mut Reached) {
    let line = sent.run.lines.last().map_or("", |line| line.trim_end());
    for way in &sent.ways {
        reached.add(case(sent.what, line, way.name));
    }
}

/// The cases that a comparison must meet.
pub fn asked() -> Vec<String> {
    let bad = BAD.iter().flat_map(|bad| OFFSETS.map(|offset| (bad, offset)));
    let in_all_ways = |(&(what, number, _), offset): (&(&str, u32, &[u8]), usize)| {
        let line = format!("no {number} {offset}");
        [AT_ONCE, IN_FRONT, WITHIN].map(|way| case(what, &line, way))
    };
    bad.flat_map(in_all_ways).collect()
}

#[cfg(test)]
mod tests {
    use super::*;

    fn input(way: &Way) -> Vec<u8> {
        way.parts.iter().flat_map(|(part, _)| part.clone()).collect()
    }

    #[test]
    fn every_offset_is_met_in_every_way() {
        let mut reached = Reached::default();
        for sent in all(1) {
            note(&sent, &mut reached);
            assert!(sent.ways.iter().all(|way| input(way) == sent.run.input()));
        }
        assert_eq!(reached.missing(&asked()), Vec::<String>::new());
    }

    /// Where the parts of a way end.
    fn ends(way: &Way) -> Vec<usize> {
        let mut at = 0;
        let end = |(part, _): &(Vec<u8>, usize)| {
            at += part.len();
            at
        };
        way.parts.iter().map(end).collect()
    }

    #[test]
    fn reads_end_where_they_are_said_to() {
        for sent in all(1) {
            let whole = sent.run.input().len();
            let begins = whole - sent.run.records.last().unwrap().len();
            let is_right = |way: &&Way| {
                let within = ends(way).iter().any(|&end| end > begins && end < whole);
                let in_front = begins == 0 || ends(way).contains(&begins);
                way.name == AT_ONCE || within == (way.name == WITHIN) && (within || in_front)
            };
            assert!(sent.ways.iter().all(|way| is_right(&way)), "{}", sent.what);
        }
    }
}
