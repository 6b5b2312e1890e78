//! Cards with one wrong number or detail each, to see that the comparison finds it: their
//! lines for the runs and the parts that it sends, put beside the right ones as it does.

use crate::compare_card::{first_difference, run_at};
use crate::endings;
use crate::generate::{self, Run};
use crate::lines::{line, Card};
use crate::offsets;
use crate::random::Random;
use crate::reached::Reached;
use crate::records;
use crate::refusal::refuse;
use crate::row_cases;
use crate::turns::Core;
use crate::ways::{self, Way};
use std::collections::BTreeSet;

/// The runs of a small comparison.
fn runs() -> Vec<Run> {
    (0..300).map(|place| run_at(1, 20_000, place, &mut Reached::default())).collect()
}

/// The lines of a card that gives another row where `other` says so, from the row that is
/// right and all that apply.
fn with_other_row(run: &Run, other: &impl Fn(u32, &[u32]) -> u32) -> String {
    let mut core = Core::new();
    let answer = |(record, right): (&Vec<u8>, &String)| {
        let Ok((call, _)) = records::read(record) else { return right.clone() };
        let rows = row_cases::rows(&core, &call);
        match core.call(&call) {
            Err(refusal) if other(refusal.number, &rows) != refusal.number => {
                line(&refuse(other(refusal.number, &rows)))
            }
            answer => line(&answer),
        }
    };
    run.records.iter().zip(&run.lines).map(answer).collect()
}

fn row_is_seen(runs: &[Run], other: impl Fn(u32, &[u32]) -> u32) -> bool {
    runs.iter().any(|run| first_difference(run, with_other_row(run, &other).as_bytes()).is_some())
}

/// The first of all rows that apply is the one given, as the table is read here once more.
#[test]
fn the_right_rows_are_no_difference() {
    assert!(!row_is_seen(&runs(), |number, _| number));
    assert!(!row_is_seen(&runs(), |_, rows| rows[0]));
}

/// Two rows the other way round: 11 before 5, 10 before 12, 6 before 11 and all the others.
#[test]
fn every_other_order_is_seen() {
    let (runs, pairs) = (runs(), row_cases::pairs());
    assert!([(5, 11), (5, 12), (12, 10), (11, 8), (9, 8)].iter().all(|pair| pairs.contains(pair)));
    for (first, behind) in pairs {
        let swapped = |number, rows: &[u32]| {
            let both = number == first && rows.contains(&behind);
            if both {
                behind
            } else {
                number
            }
        };
        assert!(row_is_seen(&runs, swapped), "{behind} before {first}");
    }
}

/// 5 as it was, 12 for a capacity of 0, 11 for one above the period, and 5 and 12 for each other.
#[test]
fn every_other_number_is_seen() {
    let runs = runs();
    for (right, wrong) in [(11, 5), (12, 5), (11, 12), (12, 11), (5, 11), (5, 12), (5, 10)] {
        let other = |number, _: &[u32]| if number == right { wrong } else { number };
        assert!(row_is_seen(&runs, other), "{wrong} for {right}");
    }
}

/// How a card counts where a bad record begins.
#[derive(Clone, Copy, PartialEq, Debug)]
enum Counts {
    Right,
    /// As it was before request 2.
    Nothing,
    /// Where the header that shows the fault ends, or the input does.
    ToItsEnd,
    FromOne,
    /// From the part that came last.
    FromThePart,
    /// All that was read before the part, what is left of a record too.
    LeftOversTwice,
    /// What a byte holds, or two, or the buffer.
    InOneByte,
    InTwoBytes,
    Records,
}

const WRONG: [Counts; 8] = [
    Counts::Nothing,
    Counts::ToItsEnd,
    Counts::FromOne,
    Counts::FromThePart,
    Counts::LeftOversTwice,
    Counts::InOneByte,
    Counts::InTwoBytes,
    Counts::Records,
];

/// What was read, used and answered when a part came.
struct Stood {
    read: u64,
    used: u64,
    answered: u64,
}

fn detail(counts: Counts, right: u64, bad: &[u8], stood: &Stood) -> u64 {
    let header = records::read(&bad[..bad.len().min(records::HEADER)]) != Err(20);
    match counts {
        Counts::Right => right,
        Counts::Nothing => 0,
        Counts::ToItsEnd if header => right + records::HEADER as u64,
        Counts::ToItsEnd => right + bad.len() as u64,
        Counts::FromOne => right + 1,
        Counts::FromThePart => right - stood.used,
        Counts::LeftOversTwice => right - stood.used + stood.read,
        Counts::InOneByte => right % 256,
        Counts::InTwoBytes => right % 65_536,
        Counts::Records => stood.answered,
    }
}

/// The lines of a card that counts so, for the parts of a way. An empty part, or none, ends
/// its input.
fn output(run: &Run, way: &Way, counts: Counts) -> String {
    let (mut card, mut lines) = (Card::new(), String::new());
    let mut stood = Stood { read: 0, used: 0, answered: 0 };
    let bad = run.records.last().expect("some record");
    let mut parts = way.parts.iter().map(|(part, _)| &part[..]);
    while !card.has_stopped() {
        let part = parts.next().unwrap_or(&[]);
        let more = if part.is_empty() { card.end() } else { card.take(part) };
        let (before, last) = more.split_at(more.trim_end().rfind('\n').map_or(0, |at| at + 1));
        lines += before;
        stood.answered += before.lines().count() as u64;
        lines += &recounted(last, |right| detail(counts, right, bad, &stood));
        if part.is_empty() {
            break;
        }
        stood.read += part.len() as u64;
        stood.answered += last.lines().count() as u64;
        stood.used = card.offset();
    }
    lines
}

/// The line, with another detail where it tells of a bad record.
fn recounted(line: &str, detail: impl Fn(u64) -> u64) -> String {
    match line.split_whitespace().collect::<Vec<_>>()[..] {
        ["no", number @ ("20" | "21" | "22"), right] => {
            format!("no {number} {}\n", detail(right.parse().expect("a number")))
        }
        _ => line.to_string(),
    }
}

/// All that the comparison sends in parts.
fn in_parts() -> Vec<(Run, Vec<Way>)> {
    let mut random = Random::new(1);
    let ending = |place| {
        let run = generate::run(1, place, 40, &mut Reached::default());
        let ways = ways::of(&run, place, &mut random);
        (run, ways)
    };
    let endings = endings::places().map(ending).collect::<Vec<_>>();
    endings.into_iter().chain(offsets::all(1).map(|sent| (sent.run, sent.ways))).collect()
}

/// The names of the ways in which a card that counts so is found out.
fn found(sent: &[(Run, Vec<Way>)], counts: Counts) -> Vec<&'static str> {
    let all = sent.iter().flat_map(|(run, ways)| ways.iter().map(move |way| (run, way)));
    let differs =
        |(run, way): &(&Run, &Way)| first_difference(run, output(run, way, counts).as_bytes()).is_some();
    all.filter(differs).map(|(_, way)| way.name).collect()
}

#[test]
fn every_other_offset_is_seen() {
    let sent = in_parts();
    assert_eq!(found(&sent, Counts::Right), [""; 0]);
    for counts in WRONG {
        assert!(!found(&sent, counts).is_empty(), "{counts:?}");
    }
}

/// What is counted from a cut of reads shows where they are cut. A bad header is told in the part
/// that ends it; what is cut short shows only at the end of input, which is a part of its own.
#[test]
fn a_cut_of_reads_shows_what_is_counted_from_it() {
    let all = offsets::all(1).map(|sent| (sent.run, sent.ways));
    let sent: Vec<(Run, Vec<Way>)> = all.filter(|(run, _)| !run.output().contains("no 20 ")).collect();
    let seen = |counts| found(&sent, counts).into_iter().collect::<BTreeSet<_>>();
    assert_eq!(seen(Counts::FromThePart), ["reads end in front of it", "reads end within it"].into());
    assert_eq!(seen(Counts::LeftOversTwice), ["reads end within it"].into());
    let all_ways = ["at once", "reads end in front of it", "reads end within it"];
    assert_eq!(seen(Counts::InTwoBytes), all_ways.into());
}
