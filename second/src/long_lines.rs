//! Inputs for `sizing` with lines about as long as a line can be, and the reads in which they
//! are sent.

use crate::sizing::LONGEST_LINE;

const LONGEST: usize = LONGEST_LINE as usize;

/// The bytes of a line without its newline: the last two that are read, the first two that
/// are not, and far above.
const LENGTHS: [usize; 5] = [LONGEST - 1, LONGEST, LONGEST + 1, LONGEST + 2, 200_000];

/// What stands behind such a line.
const BEHIND: [(&str, &str); 3] = [
    ("the end of the input", ""),
    ("a newline", "\n"),
    ("more lines", "\nsupply 4 3 5\n\nhelp\nsupply 4 3 2"),
];

const MORE: &[u8] = b"\nsupply 4 3 5\n";

pub struct Long {
    pub what: String,
    pub input: Vec<u8>,
}

impl Long {
    fn new(what: impl Into<String>, lines: &[&[u8]]) -> Long {
        Long { what: what.into(), input: lines.concat() }
    }
}

/// A line of so many bytes. The fill is cut where the end has to begin.
pub fn filled(front: &[u8], fill: &[u8], end: &[u8], bytes: usize) -> Vec<u8> {
    let middle = bytes - front.len() - end.len();
    let fill = fill.iter().copied().cycle().take(middle);
    front.iter().copied().chain(fill).chain(end.iter().copied()).collect()
}

/// A query whose answer hangs on its last digit.
fn query(bytes: usize, carriage: bool) -> Vec<u8> {
    filled(b"supply 4 3 ", b"0", if carriage { b"7\r" } else { b"7" }, bytes)
}

pub fn inputs() -> Vec<Long> {
    [at_every_length(), in_a_row(), of_one_fill(), with_a_query_within()].into_iter().flatten().collect()
}

fn at_every_length() -> Vec<Long> {
    let mut all = Vec::new();
    for bytes in LENGTHS {
        for (carriage, with) in [(false, ""), (true, " with a carriage return")] {
            for (what, behind) in BEHIND {
                let what = format!("a line of {bytes} bytes{with}, and then {what}");
                all.push(Long::new(what, &[b"help\n", &query(bytes, carriage), behind.as_bytes()]));
            }
        }
    }
    all
}

fn in_a_row() -> Vec<Long> {
    let lengths =
        [(LONGEST + 1, LONGEST + 1), (LONGEST + 1, 200_000), (LONGEST, LONGEST + 1), (200_000, LONGEST)];
    let two = |(first, second): (usize, usize)| {
        let what = format!("a line of {first} bytes and one of {second}");
        [&b"\n"[..], MORE, b""].map(|behind| {
            Long::new(what.clone(), &[&query(first, true), b"\n", &query(second, false), behind])
        })
    };
    lengths.into_iter().flat_map(two).collect()
}

fn of_one_fill() -> Vec<Long> {
    let fills: [(&[u8], &[u8]); 9] = [
        (b"", b"x"),
        (b"", b" "),
        (b"", b"\r"),
        (b"", b"\0\xff"),
        (b"least 5", b" 5 1"),
        (b"best 5 5 1 10 3", b" "),
        (b"help", b" "),
        (b"aligned supply 4 3 ", b"0"),
        (b"aligned", b" "),
    ];
    let both = |(front, fill): (&[u8], &[u8])| {
        let what = format!("\"{}{}\" and so on", front.escape_ascii(), fill.escape_ascii());
        [LONGEST, LONGEST + 1].map(|bytes| {
            Long::new(format!("{what}, {bytes} bytes"), &[&filled(front, fill, b"", bytes), MORE])
        })
    };
    fills.into_iter().flat_map(both).collect()
}

/// Whoever begins anew within a line finds a query there.
fn with_a_query_within() -> Vec<Long> {
    let mut all: Vec<Long> = (LONGEST - 1..=LONGEST + 2)
        .map(|front| {
            Long::new(format!("a query behind {front} bytes"), &[&vec![b'x'; front], b"supply 4 3 7", MORE])
        })
        .collect();
    let line = filled(b"", b"supply 4 3 7\r", b"", 3 * LONGEST);
    all.push(Long::new("a query between carriage returns", &[&line, MORE]));
    let line = filled(b"help\r", b"\0", b"\rhelp", LONGEST + 1);
    all.push(Long::new("a query at both ends", &[&line, MORE]));
    all
}

/// How long reads are, and where in a long line one has to end.
pub struct Cuts {
    reads: usize,
    ends: &'static [usize],
}

/// What a read gives goes to waste where the program has no room for it, and one that keeps a
/// begun line may have room for 65,536 bytes of it, no more. So a read always ends there.
pub const CUTS: [Cuts; 3] = [
    Cuts { reads: 4099, ends: &[LONGEST - 1, LONGEST, LONGEST + 1, LONGEST + 2] },
    Cuts { reads: 1021, ends: &[LONGEST + 1] },
    Cuts { reads: 4096, ends: &[LONGEST + 1, LONGEST + 2] },
];

/// The parts of an input that one read each gives. A long line begins with a read.
pub fn in_reads(input: &[u8], cuts: &Cuts) -> Vec<Vec<u8>> {
    let (mut places, mut start) = (Vec::new(), 0);
    for line in input.split_inclusive(|&byte| byte == b'\n') {
        if line.len() >= LONGEST - 1 {
            places.push(start);
            places.extend(cuts.ends.iter().map(|end| start + end));
        }
        start += line.len();
    }
    places.retain(|&place| place < input.len());
    places.push(input.len());
    places.sort_unstable();
    let (mut parts, mut from) = (Vec::new(), 0);
    for place in places {
        parts.extend(input[from..place].chunks(cuts.reads).map(<[u8]>::to_vec));
        from = place;
    }
    parts
}

#[cfg(test)]
mod tests {
    use super::*;
    use crate::sizing::{self, Answer};

    #[test]
    fn the_lengths_are_those_around_the_longest() {
        assert_eq!(LENGTHS, [65_534, 65_535, 65_536, 65_537, 200_000]);
        for bytes in LENGTHS {
            let answers = [false, true].map(|carriage| {
                let line = query(bytes, carriage);
                assert_eq!((line.len(), line.ends_with(b"\r")), (bytes, carriage));
                sizing::answers(&line)
            });
            let right = if bytes > 65_535 { Answer::BadLine } else { Answer::Numbers(vec![4]) };
            assert_eq!(answers, [[right.clone()], [right]]);
        }
    }

    #[test]
    fn reads_end_where_they_are_said_to() {
        for cuts in &CUTS {
            for long in inputs() {
                let parts = in_reads(&long.input, cuts);
                assert!(parts.iter().all(|part| (1..=cuts.reads).contains(&part.len())), "{}", long.what);
                assert_eq!(parts.concat(), long.input, "{}", long.what);
            }
            let parts = in_reads(&[&query(65_537, false), MORE].concat(), cuts);
            let ends: Vec<usize> = (1..=parts.len()).map(|count| parts[..count].concat().len()).collect();
            assert!(cuts.ends.contains(&65_536) && cuts.ends.iter().all(|end| ends.contains(end)));
        }
        assert_eq!(CUTS[0].ends, [65_534, 65_535, 65_536, 65_537]);
    }
}
