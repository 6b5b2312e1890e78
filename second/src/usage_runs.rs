//! The inputs that `compare-usage` sends: its own scripts first, bad records alone, and then the
//! generator's runs with their scripts, cut short at any record or not, some of them at every one.
//! Behind them stand runs of `compare-card`, whole. Those of `outside-usage` are the runs of
//! `outside`.

use crate::compare_card;
use crate::generate::{self, Run};
use crate::held::{self, Ends};
use crate::outside;
use crate::random::Random;
use crate::reached::Reached;
use crate::records;
use crate::script;
use crate::turns::Core;

/// One input. It is sent once for each of its ends: whole, and with fewer records.
pub struct Sent {
    records: Vec<Vec<u8>>,
    /// Not to be looked at: the last record ends the reading.
    behind: Vec<u8>,
    /// How many records each end has, the fewer first.
    pub ends: Vec<usize>,
}

/// Calls behind the script that a run begins with.
const MOST_CALLS: u64 = 60;

/// Of so many runs one is tried at each of its records. The sorts of scripts come round by forties,
/// with which it has no divisor in common: so runs of every sort are among them.
const EACH_END_ONCE_IN: u64 = 19;

/// Each with nothing before it: cut short in its header or behind it, with an unknown tag, and with
/// another length.
const BAD: [&[u8]; 4] = [&[5], &[5, 0, 8, 0], &[6, 0, 13], &[5, 0, 7]];

fn random_at(seed: u64, place: u64) -> Random {
    Random::new(Random::new(seed ^ 0x05a6e).next() ^ place)
}

/// The input of a place.
pub fn at(seed: u64, place: u64) -> Sent {
    let mut random = random_at(seed, place);
    let (scripts, bad) = (held::SCRIPTS.len() as u64, BAD.len() as u64);
    if place < scripts {
        of_script(&held::SCRIPTS[place as usize], &mut random)
    } else if place < scripts + bad {
        let record = BAD[(place - scripts) as usize].to_vec();
        Sent { records: vec![record], behind: Vec::new(), ends: vec![0, 1] }
    } else {
        of_generator(seed, place - scripts - bad, &mut random)
    }
}

fn of_script((script, ends): &Ends, random: &mut Random) -> Sent {
    let calls = script::calls(*script, &Core::new(), random);
    let records: Vec<Vec<u8>> = calls.iter().map(records::write).collect();
    let from = (records.len() + 1).saturating_sub(*ends);
    Sent { ends: (from..=records.len()).collect(), records, behind: Vec::new() }
}

fn of_generator(seed: u64, place: u64, random: &mut Random) -> Sent {
    let run = generate::run(seed ^ 0x05a6e, place, random.between(0, MOST_CALLS), &mut Reached::default());
    let Run { mut records, mut behind, .. } = run;
    if place.is_multiple_of(EACH_END_ONCE_IN) {
        return Sent { ends: (0..=records.len()).collect(), records, behind };
    }
    if random.once_in(2) {
        records.truncate(random.between(0, records.len() as u64) as usize);
        behind.clear();
    }
    Sent { ends: vec![records.len()], records, behind }
}

/// A run of `compare-card`, whole.
pub fn of_card(seed: u64, records: u64, place: u64) -> Sent {
    let run = compare_card::run_at(seed, records, place, &mut Reached::default());
    Sent { ends: vec![run.records.len()], records: run.records, behind: run.behind }
}

/// Of so many runs of `outside` one is cut short, and at so many records.
const CUT_ONCE_IN: u64 = 3;
const CUTS: usize = 6;

/// A run of `outside`, whole and cut short at some records or not.
pub fn of_outside(seed: u64, place: u64) -> Sent {
    let Run { records, behind, .. } = outside::run_at(seed, place);
    let mut random = random_at(seed, place);
    let cuts = if place.is_multiple_of(CUT_ONCE_IN) { CUTS } else { 0 };
    let mut ends: Vec<usize> = (0..cuts).map(|_| random.index(records.len())).collect();
    ends.push(records.len());
    ends.sort_unstable();
    ends.dedup();
    Sent { records, behind, ends }
}

impl Sent {
    pub fn records(&self, end: usize) -> &[Vec<u8>] {
        &self.records[..end.min(self.records.len())]
    }

    /// The bytes up to an end; an end behind the last record is the whole.
    pub fn input(&self, end: usize) -> Vec<u8> {
        let mut bytes = self.records(end).concat();
        if end >= self.records.len() {
            bytes.extend(&self.behind);
        }
        bytes
    }
}

#[cfg(test)]
mod tests {
    use super::*;

    /// Each end has more records than the one before; the whole alone has what stands behind.
    #[test]
    fn ends_are_the_fronts_of_the_whole() {
        for (place, sent) in (0..100).flat_map(|place| [(place, at(1, place)), (place, of_outside(1, place))])
        {
            let whole = sent.input(usize::MAX);
            assert_eq!(sent.ends.last(), Some(&sent.records.len()), "{place}");
            assert!(sent.ends.is_sorted_by(|one, next| one < next), "{place}");
            assert!(sent.ends.iter().all(|&end| whole.starts_with(&sent.input(end))), "{place}");
            assert_eq!(sent.input(sent.records.len()), whole, "{place}");
        }
    }
}
