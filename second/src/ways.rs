//! The ways in which a host can send a run: what goes in one part, how it goes, and how many
//! lines have to come before more does.

use crate::generate::Run;
use crate::lines::Card;
use crate::pipe::{self, Part};
use crate::random::Random;
use crate::records::{self, HEADER};
use crate::turns::{Call, Change};
use std::time::Duration;

enum How {
    /// Over a pipe, which closes behind the last part.
    Closed,
    /// Over a pipe, which has no end of input while it is open.
    LeftOpen,
    /// Each part is what one read gives, and an empty one the end of input.
    Reads,
}

pub struct Way {
    pub name: &'static str,
    how: How,
    pub parts: Vec<Part>,
}

impl Way {
    /// The same for a program that says nothing before its reading ends.
    pub fn silent(mut self) -> Way {
        self.parts.iter_mut().for_each(|(_, awaited)| *awaited = 0);
        self
    }

    /// What the program writes. But for the closed pipe, the input stays open until it has
    /// ended.
    pub fn send(&self, program: &str, limit: Duration) -> Result<Vec<u8>, String> {
        let (command, parts) = ([program], &self.parts[..]);
        match self.how {
            How::Closed => pipe::talk(&command, parts),
            How::LeftOpen => pipe::talk_left_open(&command, parts, limit),
            How::Reads => pipe::talk_in_reads(&command, parts, limit),
        }
    }
}

/// Parts, each with the lines that this program's reader has for it before more comes.
fn awaited(card: &mut Card, parts: Vec<Vec<u8>>) -> Vec<Part> {
    let told = |part: Vec<u8>| {
        let lines = card.take(&part).lines().count();
        (part, lines)
    };
    parts.into_iter().filter(|part| !part.is_empty()).map(told).collect()
}

/// Each record in two parts. The last one is cut behind its header: a bad header is to be
/// answered before more comes.
fn records_in_two(run: &Run, place: u64) -> Vec<Vec<u8>> {
    let mut parts = Vec::new();
    for (number, record) in run.records.iter().enumerate() {
        let is_last = number + 1 == run.records.len();
        let cut = if is_last { HEADER } else { 1 + (number + place as usize) % 10 };
        let (front, rest) = record.split_at(cut.min(record.len()));
        parts.extend([front.to_vec(), rest.to_vec()]);
    }
    parts.push(run.behind.clone());
    parts
}

/// Parts of some length at most, which take no heed of where records end.
fn random_parts(input: &[u8], random: &mut Random) -> Vec<Vec<u8>> {
    let most = *random.pick(&[1, 9, 60]);
    let (mut parts, mut from) = (Vec::new(), 0);
    while from < input.len() {
        let to = input.len().min(from + random.between(1, most) as usize);
        parts.push(input[from..to].to_vec());
        from = to;
    }
    parts
}

/// Behind the parts an empty one, which ends the input, where they do not stop the card.
fn ended(parts: Vec<Vec<u8>>) -> Vec<Part> {
    let mut card = Card::new();
    let mut told = awaited(&mut card, parts);
    if !card.has_stopped() {
        told.push((Vec::new(), card.end().lines().count()));
    }
    told
}

/// A record that comes too late: whoever reads it gives a line too many.
fn later() -> Part {
    (records::write(&Call { time: 0, change: Change::Tick }), 0)
}

/// All the ways for a run.
pub fn of(run: &Run, place: u64, random: &mut Random) -> Vec<Way> {
    // A part may hold no record, or the end of one and some more: what is left of one part
    // goes on with the next.
    let mut in_parts = ended(random_parts(&run.input(), random));
    in_parts.push(later());
    let mut ways = vec![
        Way {
            name: "record by record",
            how: How::Closed,
            parts: awaited(&mut Card::new(), records_in_two(run, place)),
        },
        Way { name: "in parts, and more behind the end", how: How::Reads, parts: in_parts },
        in_reads("in one part, left open", vec![run.input()]),
    ];
    ways.extend(on_a_pipe(run));
    ways
}

/// Each part by one read, and then the end of input.
pub fn in_reads(name: &'static str, parts: Vec<Vec<u8>>) -> Way {
    Way { name, how: How::Reads, parts: ended(parts) }
}

/// All of it at once, in such reads as the program asks for.
pub fn at_once(name: &'static str, input: Vec<u8>) -> Way {
    Way { name, how: How::Closed, parts: vec![(input, 0)] }
}

/// Where the card stops by itself.
fn on_a_pipe(run: &Run) -> Vec<Way> {
    let mut card = Card::new();
    let records = awaited(&mut card, vec![run.records.concat()]);
    if !card.has_stopped() {
        return Vec::new();
    }
    let (late, _) = later();
    let with_more = awaited(&mut Card::new(), vec![[run.records.concat(), late.clone(), late].concat()]);
    let ways = [
        ("on an open pipe, and no more", records.clone()),
        ("on an open pipe, and more in the same write", with_more),
        ("on an open pipe, and more in later writes", [records, vec![later(), later()]].concat()),
    ];
    ways.map(|(name, parts)| Way { name, how: How::LeftOpen, parts }).into()
}

#[cfg(test)]
mod tests {
    use super::*;
    use crate::endings;
    use crate::generate;
    use crate::reached::Reached;

    #[test]
    fn parts_are_the_input_and_await_its_lines() {
        let mut random = Random::new(1);
        for place in endings::places() {
            let run = generate::run(1, place, 30, &mut Reached::default());
            for parts in [records_in_two(&run, place), random_parts(&run.input(), &mut random)] {
                assert_eq!(parts.concat(), run.input());
                let told = ended(parts);
                let lines: usize = told.iter().map(|(_, lines)| lines).sum();
                assert_eq!(lines, run.lines.len());
                assert!(told.iter().rev().skip(1).all(|(part, _)| !part.is_empty()));
            }
        }
    }
}
