//! How a run can end: cut at every offset of a record, a tag that is unknown, a length
//! that isn't the tag's, or nothing of it. What the card says to an ending is not told
//! here: it is for the reader (`lines::Card`) to say.

use crate::records::{self, HEADER};
use crate::turns::{Call, Change, Description};

pub struct Ending {
    pub case: String,
    pub record: Vec<u8>,
}

const UNKNOWN: [u8; 6] = [0, 6, 7, 8, 128, 255];

/// A whole record of each tag, at a time that would be accepted.
fn whole(tag: u8, time: u64, identifier: u32) -> Vec<u8> {
    let change = match tag {
        1 => Change::Admit(Description { identifier, period: 10, capacity: 3, priority: 1, kind: 1 }),
        2 => Change::Wake(identifier),
        3 => Change::Block(identifier),
        4 => Change::Remove(identifier),
        _ => Change::Tick,
    };
    records::write(&Call { time, change })
}

/// The names of all endings, in the order they are gone through.
fn names() -> Vec<(String, Kind)> {
    let mut all = vec![("a clean end".to_string(), Kind::Clean)];
    for tag in 1..=5 {
        let length = HEADER + records::payload_length(tag).unwrap_or(0);
        all.extend((1..length).map(|offset| (format!("tag {tag} cut at {offset}"), Kind::Cut(tag, offset))));
        for (place, plus) in [(1, 1), (2, 1), (2, 255), (1, 128)] {
            all.push((
                format!("length of tag {tag} damaged: byte {place} plus {plus}"),
                Kind::Length(tag, place, plus),
            ));
        }
        all.push((format!("length 0 of tag {tag}"), Kind::Zero(tag)));
    }
    all.extend(UNKNOWN.map(|tag| (format!("unknown tag {tag}"), Kind::Unknown(tag))));
    all.push(("one byte that is no tag".to_string(), Kind::Bytes(&[255])));
    all.push(("two bytes that are no header".to_string(), Kind::Bytes(&[7, 255])));
    all
}

#[derive(Clone, Copy)]
enum Kind {
    Clean,
    Cut(u8, usize),
    Length(u8, usize, u8),
    Zero(u8),
    Unknown(u8),
    Bytes(&'static [u8]),
}

pub fn all_cases() -> Vec<String> {
    names().into_iter().map(|(name, _)| name).collect()
}

/// The places of all endings.
pub fn places() -> std::ops::Range<u64> {
    0..names().len() as u64
}

pub fn ending(place: u64, time: u64, identifier: u32) -> Ending {
    let mut all = names();
    let (case, kind) = all.swap_remove((place % all.len() as u64) as usize);
    let record = match kind {
        Kind::Clean => Vec::new(),
        Kind::Cut(tag, offset) => whole(tag, time, identifier)[..offset].to_vec(),
        Kind::Bytes(bytes) => bytes.to_vec(),
        Kind::Unknown(tag) => unknown(tag, time, identifier),
        Kind::Length(tag, place, plus) => {
            let mut record = whole(tag, time, identifier);
            record[place] = record[place].wrapping_add(plus);
            record
        }
        Kind::Zero(tag) => vec![tag, 0, 0],
    };
    Ending { case, record }
}

/// Tags 6 and 7 with the layout that is kept for them; the others with a tick's.
fn unknown(tag: u8, time: u64, identifier: u32) -> Vec<u8> {
    let mut payload = time.to_be_bytes().to_vec();
    let device = &identifier.to_be_bytes()[1..];
    match tag {
        6 => payload.extend([device, &[1, 2]].concat()),
        7 => payload.extend([device, device].concat()),
        _ => (),
    }
    let mut record = vec![tag, 0, payload.len() as u8];
    record.extend(payload);
    record
}

#[cfg(test)]
mod tests {
    use super::*;
    use crate::lines::Card;
    use crate::turns::Core;

    /// The number that each kind is meant to be refused with.
    fn meant(kind: Kind) -> Option<u32> {
        match kind {
            Kind::Clean => None,
            Kind::Cut(..) | Kind::Bytes(_) => Some(20),
            Kind::Unknown(_) => Some(21),
            Kind::Length(..) | Kind::Zero(_) => Some(22),
        }
    }

    #[test]
    fn every_ending_reads_as_its_number_and_its_offset() {
        for (place, (case, kind)) in names().into_iter().enumerate() {
            let ending = ending(place as u64, 77, 257);
            for offset in [0, 137, 70_000] {
                let mut card = Card::after(Core::new(), offset);
                let lines = card.take(&ending.record) + &card.end();
                let right = meant(kind).map_or(String::new(), |number| format!("no {number} {offset}\n"));
                assert_eq!(lines, right, "{case}");
            }
        }
    }
}
