//! `card`: event records to lines.

use crate::records;
use crate::refusal::{refuse_with, Refusal};
use crate::turns::{Core, Reply};
use std::io::{self, Read, Write};

fn or_dash(number: Option<u64>) -> String {
    number.map_or("-".to_string(), |number| number.to_string())
}

/// The line of a reply, with its newline.
pub fn line(answer: &Result<Reply, Refusal>) -> String {
    match answer {
        Ok(reply) => {
            let (run, timer) = (or_dash(reply.run.map(u64::from)), or_dash(reply.timer));
            format!("ok {} {run} {} {timer} {}\n", reply.time, reply.usable, reply.total)
        }
        Err(refusal) => format!("no {} {}\n", refusal.number, refusal.detail),
    }
}

/// The card as far as the input has been read.
pub struct Card {
    core: Core,
    /// Where the first byte that is not used up stands, from the start of input.
    offset: u64,
    unread: Vec<u8>,
    /// What ended the reading.
    stopped: Option<Refusal>,
}

impl Card {
    pub fn new() -> Card {
        Card::after(Core::new(), 0)
    }

    /// The card that has answered all its records so far, of so many bytes, and stands so.
    pub fn after(core: Core, offset: u64) -> Card {
        Card { core, offset, unread: Vec::new(), stopped: None }
    }

    /// The bytes of all that it has answered so far.
    #[cfg(test)]
    pub fn offset(&self) -> u64 {
        self.offset
    }

    pub fn has_stopped(&self) -> bool {
        self.stopped.is_some()
    }

    pub fn stopped(&self) -> Option<Refusal> {
        self.stopped
    }

    pub fn core(&self) -> &Core {
        &self.core
    }

    /// The bad record begins where the last good one ended.
    fn stop(&mut self, number: u32) -> String {
        let refused = refuse_with(number, self.offset);
        self.stopped = refused.err();
        line(&refused)
    }

    /// The lines that can be given before more bytes come.
    pub fn take(&mut self, bytes: &[u8]) -> String {
        let mut lines = String::new();
        self.unread.extend(bytes);
        let mut used = 0;
        while !self.has_stopped() {
            match records::read(&self.unread[used..]) {
                Ok((call, length)) => {
                    used += length;
                    self.offset = self.offset.saturating_add(length as u64);
                    lines += &line(&self.core.call(&call));
                }
                Err(20) => break,
                Err(number) => lines += &self.stop(number),
            }
        }
        self.unread.drain(..used);
        lines
    }

    /// What the end of the input adds.
    pub fn end(&mut self) -> String {
        if self.has_stopped() || self.unread.is_empty() {
            return String::new();
        }
        match records::read(&self.unread) {
            Err(number) => self.stop(number),
            Ok(_) => String::new(),
        }
    }
}

/// Reads until the card stops or the input ends; the lines of each read are told before the next.
pub fn follow(mut input: impl Read, mut tell: impl FnMut(&str) -> io::Result<()>) -> io::Result<Card> {
    let mut card = Card::new();
    let mut buffer = [0; 65536];
    while !card.has_stopped() {
        let count = input.read(&mut buffer)?;
        if count == 0 {
            break;
        }
        tell(&card.take(&buffer[..count]))?;
    }
    tell(&card.end())?;
    Ok(card)
}

pub fn run(input: impl Read, mut output: impl Write) -> io::Result<()> {
    let tell = |lines: &str| {
        output.write_all(lines.as_bytes())?;
        output.flush()
    };
    follow(input, tell).map(drop)
}

#[cfg(test)]
mod tests {
    use super::*;
    use crate::turns::{Call, Change, Description};
    use crate::words;

    const WHOLE_CASE: [(&str, &str); 10] = [
        ("admit 0 id 65793 T 10 C 3 pr 1", "ok 0 - 0 - 0"),
        ("admit 0 id 257 T 8 C 8 pr 2", "ok 0 - 0 - 0"),
        ("wake 0 id 65793", "ok 0 65793 3 3 0"),
        ("wake 0 id 257", "ok 0 65793 3 3 0"),
        ("tick 3", "ok 3 257 8 10 0"),
        ("tick 11", "no 3 10"),
        ("tick 10", "ok 10 65793 3 13 3"),
        ("block 11 id 65793", "ok 11 257 8 19 7"),
        ("remove 11 id 65537", "no 7 0"),
        ("bytes 05", "no 20 137"),
    ];

    fn whole_case() -> (Vec<u8>, String) {
        let bytes = WHOLE_CASE.iter().flat_map(|(left, _)| words::record(left).unwrap()).collect();
        let lines = WHOLE_CASE.iter().map(|(_, right)| format!("{right}\n")).collect();
        (bytes, lines)
    }

    #[test]
    fn the_whole_case() {
        let (bytes, lines) = whole_case();
        let mut output = Vec::new();
        run(&bytes[..], &mut output).unwrap();
        assert_eq!(String::from_utf8(output).unwrap(), lines);
    }

    #[test]
    fn the_whole_case_cut_anywhere() {
        let (bytes, lines) = whole_case();
        for cut in 0..=bytes.len() {
            let mut card = Card::new();
            let mut given = card.take(&bytes[..cut]);
            given += &card.take(&bytes[cut..]);
            given += &card.end();
            assert_eq!(given, lines);
        }
    }

    #[test]
    fn empty_input_gives_nothing() {
        let mut output = Vec::new();
        run(&[][..], &mut output).unwrap();
        assert!(output.is_empty());
    }

    const TICK: [u8; 11] = [5, 0, 8, 0, 0, 0, 0, 0, 0, 0, 0];

    /// All bad records, of which 20 shows at the end of input alone.
    const BAD: [(&[u8], u32); 5] = [
        (&[5, 0], 20),
        (&[6, 0, 13], 21),
        (&[5, 0, 7], 22),
        (&[5, 0, 8], 20),
        (&[5, 0, 8, 0, 0, 0, 0, 0, 0, 0], 20),
    ];

    /// The detail is where the bad record begins, however the input comes in parts: each part
    /// ends in front of it, or within it.
    #[test]
    fn a_bad_record_is_told_by_its_beginning() {
        for ticks in [0, 1, 23, 24, 5_957, 5_958, 20_000] {
            let before = TICK.repeat(ticks);
            for (record, number) in BAD {
                let meant = "ok 0 - 0 - 0\n".repeat(ticks) + &format!("no {number} {}\n", 11 * ticks);
                let input = [&before[..], record].concat();
                let told = |cut| {
                    let mut card = Card::new();
                    let (front, rest) = input.split_at(before.len() + cut);
                    card.take(front) + &card.take(rest) + &card.end()
                };
                assert!((0..record.len()).all(|cut| told(cut) == meant), "{number} behind {ticks}");
            }
        }
    }

    /// The detail is 64 bits wide, and stays at the largest that there is.
    #[test]
    fn an_offset_of_64_bits() {
        let from = [1 << 32, u64::MAX - 11, u64::MAX - 10, u64::MAX];
        for (offset, told) in from.into_iter().zip([(1 << 32) + 11, u64::MAX, u64::MAX, u64::MAX]) {
            for (record, number) in BAD {
                let mut card = Card::after(Core::new(), offset);
                let lines = card.take(&TICK) + &card.take(record) + &card.end();
                assert_eq!(lines, format!("ok 0 - 0 - 0\nno {number} {told}\n"));
            }
        }
    }

    #[test]
    fn a_bad_header_is_answered_at_once_and_stops() {
        for (header, answer) in [([6, 0, 13], "no 21 11\n"), ([5, 0, 7], "no 22 11\n")] {
            let mut card = Card::new();
            assert_eq!(card.take(&TICK), "ok 0 - 0 - 0\n");
            assert_eq!(card.take(&header[..2]), "");
            assert_eq!(card.take(&header[2..]), answer);
            assert_eq!(card.take(&TICK), "");
            assert_eq!(card.end(), "");
        }
    }

    /// The calls of the proved program `wide`: row 4, which a record's three bytes cannot
    /// reach, and the rows before and behind it.
    #[test]
    fn row_4_on_the_library() {
        const LARGEST: u32 = 16_777_215;
        let admit = |identifier, period, capacity, kind| {
            Change::Admit(Description { identifier, period, capacity, priority: 1, kind })
        };
        let refused = [
            (0, admit(LARGEST, 10, 3, 0)),
            (0, Change::Wake(LARGEST)),
            (0, admit(LARGEST + 1, 10, 3, 0)),
            (0, Change::Wake(33_554_431)),
            (0, Change::Block(33_554_431)),
            (0, Change::Remove(u32::MAX)),
            (0, Change::Tick),
        ];
        let bad_terms = [(1_000_001, 3, 0), (10, 0, 0), (10, 11, 0), (10, 3, 3)];
        let behind = [LARGEST + 1, LARGEST].map(|identifier| {
            bad_terms.map(|(period, capacity, kind)| (0, admit(identifier, period, capacity, kind)))
        });
        let ordered = [
            (1_000_000_000_001, Change::Wake(LARGEST + 1)),
            (4, Change::Wake(LARGEST + 1)),
            (2, Change::Tick),
            (1, Change::Remove(LARGEST + 1)),
            (3, Change::Tick),
        ];
        let calls = [&refused[..], behind.as_flattened(), &ordered].concat();
        let mut core = Core::new();
        let lines = calls.into_iter().map(|(time, change)| line(&core.call(&Call { time, change })));
        assert_eq!(lines.collect::<String>(), include_str!("../../crates/wide/stdout"));
    }
}
