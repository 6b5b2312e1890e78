//! Replies to lines, through one buffer.

use crate::call::{Refusal, Reply, Report};
use std::io::{self, Write};

const ROOM: usize = 65536;
/// Two letters, five numbers of at most 20 digits, each behind a space, and a newline.
const LONGEST_LINE: usize = 108;

pub struct Lines<W: Write> {
    to: W,
    at: usize,
    bytes: Box<[u8; ROOM]>,
}

const PAIRS: [[u8; 2]; 100] = pairs();

const fn pairs() -> [[u8; 2]; 100] {
    let mut all = [[0; 2]; 100];
    let mut k = 0;
    while k < 100 {
        all[k] = [b'0' + (k / 10) as u8, b'0' + (k % 10) as u8];
        k += 1;
    }
    all
}

/// A space and the digits at the front of `out`, two at a time from the last; how many bytes.
fn put_number(number: u64, out: &mut [u8]) -> usize {
    let end = 2 + number.checked_ilog10().unwrap_or(0) as usize;
    let mut place = end;
    let mut rest = number;
    while rest >= 10 {
        place -= 2;
        out[place..place + 2].copy_from_slice(&PAIRS[(rest % 100) as usize]);
        rest /= 100;
    }
    if place > 1 {
        out[1] = b'0' + rest as u8;
    }
    out[0] = b' ';
    end
}

fn put_or_dash(number: Option<u64>, out: &mut [u8]) -> usize {
    match number {
        Some(number) => put_number(number, out),
        None => {
            out[..2].copy_from_slice(b" -");
            2
        }
    }
}

fn put_report(report: &Report, out: &mut [u8]) -> usize {
    out[..2].copy_from_slice(b"ok");
    let mut at = 2;
    at += put_number(report.time, &mut out[at..]);
    at += put_or_dash(report.run.map(u64::from), &mut out[at..]);
    at += put_number(u64::from(report.usable), &mut out[at..]);
    at += put_or_dash(report.timer, &mut out[at..]);
    at += put_number(u64::from(report.brought), &mut out[at..]);
    at
}

fn put_refusal(refusal: &Refusal, out: &mut [u8]) -> usize {
    out[..2].copy_from_slice(b"no");
    let mut at = 2;
    at += put_number(u64::from(refusal.number), &mut out[at..]);
    at += put_number(refusal.detail, &mut out[at..]);
    at
}

impl<W: Write> Lines<W> {
    pub fn new(to: W) -> Lines<W> {
        Lines {
            to,
            at: 0,
            bytes: Box::new([0; ROOM]),
        }
    }

    pub fn put(&mut self, reply: &Reply) -> io::Result<()> {
        if self.at + LONGEST_LINE > ROOM {
            self.flush()?;
        }
        let out = &mut self.bytes[self.at..];
        let length = match reply {
            Ok(report) => put_report(report, out),
            Err(refusal) => put_refusal(refusal, out),
        };
        out[length] = b'\n';
        self.at += length + 1;
        Ok(())
    }

    pub fn flush(&mut self) -> io::Result<()> {
        self.to.write_all(&self.bytes[..self.at])?;
        self.at = 0;
        Ok(())
    }
}

#[cfg(test)]
mod tests {
    use super::*;

    #[test]
    fn numbers_of_every_length() {
        let mut numbers = vec![0, u64::MAX];
        for digits in 0..20 {
            let power = 10u64.pow(digits);
            numbers.extend([power - 1, power, power + 1, power + power / 2]);
        }
        for number in numbers {
            let mut out = [b'x'; 21];
            let length = put_number(number, &mut out);
            assert_eq!(out[..length], *format!(" {number}").as_bytes());
        }
    }

    #[test]
    fn more_lines_than_the_buffer_has_room_for() {
        let mut written = Vec::new();
        let mut lines = Lines::new(&mut written);
        for number in 0..30_000 {
            lines
                .put(&Err(Refusal {
                    number: 3,
                    detail: number,
                }))
                .unwrap();
        }
        lines.flush().unwrap();
        let expected: String = (0..30_000)
            .map(|number| format!("no 3 {number}\n"))
            .collect();
        assert!(written == expected.as_bytes());
    }
}
