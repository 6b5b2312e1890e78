//! Records to lines, as the program `card` does it: what can be answered is written before more is
//! waited for.

use crate::call::{Refusal, Scheduler};
use crate::lines::Lines;
use crate::records;
use std::io::{self, Read, Write};

const ROOM: usize = 65536;
const CUT_SHORT: u8 = 20;

/// Answers the whole records at the front: how many bytes they had, and the number that ended it.
fn serve<W: Write>(
    core: &mut impl Scheduler,
    input: &[u8],
    lines: &mut Lines<W>,
) -> io::Result<(usize, u8)> {
    let mut used = 0;
    loop {
        match records::read(&input[used..]) {
            Ok((now, change, length)) => {
                used += length;
                lines.put(&core.turn(now, change))?;
            }
            Err(number) => return Ok((used, number)),
        }
    }
}

pub fn run(core: &mut impl Scheduler, mut from: impl Read, to: impl Write) -> io::Result<()> {
    let mut lines = Lines::new(to);
    let mut bytes = vec![0; ROOM];
    let mut held = 0;
    // Where the first byte that is not used up stands, from the start of input.
    let mut detail = 0;
    loop {
        let count = from.read(&mut bytes[held..])?;
        let (used, number) = serve(core, &bytes[..held + count], &mut lines)?;
        let rest = held + count - used;
        detail += used as u64;
        let ends = count == 0 && rest > 0;
        if ends || number != CUT_SHORT {
            lines.put(&Err(Refusal { number, detail }))?;
        }
        lines.flush()?;
        if count == 0 || number != CUT_SHORT {
            return Ok(());
        }
        bytes.copy_within(used..held + count, 0);
        held = rest;
    }
}

#[cfg(test)]
mod tests {
    use super::*;
    use crate::{plain, twin};

    const RECORDS: &[u8] = include_bytes!("../../crates/card/stdin");
    const LINES: &[u8] = include_bytes!("../../crates/card/stdout");

    fn lines_of(mut core: impl Scheduler, from: impl Read) -> Vec<u8> {
        let mut written = Vec::new();
        run(&mut core, from, &mut written).unwrap();
        written
    }

    #[test]
    fn the_whole_case_cut_anywhere() {
        for cut in 0..=RECORDS.len() {
            let (front, rest) = RECORDS.split_at(cut);
            assert_eq!(lines_of(plain::Core::empty(), front.chain(rest)), LINES);
            assert_eq!(lines_of(twin::Core::empty(), front.chain(rest)), LINES);
        }
    }

    #[test]
    fn no_input() {
        assert_eq!(lines_of(plain::Core::empty(), &[][..]), b"");
    }

    const TICK: [u8; 11] = [5, 0, 8, 0, 0, 0, 0, 0, 0, 0, 0];

    /// Behind so many ticks, with a read that ends in front of the bad record or within it: the detail is where it begins.
    #[test]
    fn a_bad_record_is_told_by_its_beginning() {
        let cases: [(&[u8], &str); 4] = [
            (&[5, 0], "20"),
            (&[6, 0, 13], "21"),
            (&[5, 0, 7, 0, 0, 0], "22"),
            (&[5, 0, 8, 0, 0, 0], "20"),
        ];
        for ticks in [0, 1, 23, 24, 5_957, 5_958, 20_000] {
            for (bad, number) in cases {
                let input = [&TICK.repeat(ticks)[..], bad].concat();
                let meant = format!("no {number} {}\n", 11 * ticks);
                let is_told = |cut| {
                    let (front, rest) = input.split_at(cut);
                    lines_of(plain::Core::empty(), front.chain(rest)).ends_with(meant.as_bytes())
                };
                assert!((11 * ticks..input.len()).all(is_told), "{meant}");
            }
        }
    }
}
