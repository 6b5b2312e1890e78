//! Sheets of the old tool: at most sixteen lines of period, one space, cost and newline.

use crate::refusal::{refuse_with, Refusal};

pub const MOST_LINES: usize = 16;
const MOST_DIGITS: usize = 4;

/// The period and cost of a line.
pub type Row = (u64, u64);

/// One to four digits; only 0 itself begins with 0.
fn number(digits: &[u8]) -> Option<u64> {
    let is_long = digits.is_empty() || digits.len() > MOST_DIGITS;
    let leads_with_zero = digits.len() > 1 && digits[0] == b'0';
    if is_long || leads_with_zero || !digits.iter().all(u8::is_ascii_digit) {
        return None;
    }
    Some(digits.iter().fold(0, |value, digit| 10 * value + u64::from(digit - b'0')))
}

/// What a line with its newline says; one without it is bad.
fn row(line: &[u8]) -> Option<Row> {
    let line = line.strip_suffix(b"\n")?;
    let space = line.iter().position(|&byte| byte == b' ')?;
    Some((number(&line[..space])?, number(&line[space + 1..])?))
}

/// The lines of a whole sheet, or row 37 with the number of the first bad one, counted from 1.
/// A seventeenth is bad whatever stands in it.
pub fn read(sheet: &[u8]) -> Result<Vec<Row>, Refusal> {
    let mut rows = Vec::new();
    for line in sheet.split_inclusive(|&byte| byte == b'\n') {
        match row(line).filter(|_| rows.len() < MOST_LINES) {
            Some(row) => rows.push(row),
            None => return refuse_with(37, rows.len() as u64 + 1),
        }
    }
    Ok(rows)
}

/// The bytes of the sheet with these lines.
pub fn write(rows: &[Row]) -> Vec<u8> {
    rows.iter().map(|(period, cost)| format!("{period} {cost}\n")).collect::<String>().into_bytes()
}

#[cfg(test)]
mod tests {
    use super::*;

    fn bad_line(sheet: &[u8]) -> u64 {
        let refusal = read(sheet).unwrap_err();
        assert_eq!(refusal.number, 37, "{}", sheet.escape_ascii());
        refusal.detail
    }

    #[test]
    fn a_good_sheet_is_written_back() {
        let all: [(&[u8], &[Row]); 4] = [
            (b"", &[]),
            (b"5 1\n10 3\n", &[(5, 1), (10, 3)]),
            (b"0 0\n9999 9999\n", &[(0, 0), (9999, 9999)]),
            (b"1000 7\n10 9\n", &[(1000, 7), (10, 9)]),
        ];
        for (bytes, rows) in all {
            assert_eq!(read(bytes).as_deref(), Ok(rows));
            assert_eq!(write(rows), bytes);
        }
    }

    #[test]
    fn sixteen_lines_and_no_more() {
        let sixteen = b"5 1\n".repeat(16);
        assert_eq!(read(&sixteen), Ok(vec![(5, 1); 16]));
        for more in [&b"5 1\n"[..], b"5 1", b"x", b"\n", b"\0"] {
            assert_eq!(bad_line(&[&sixteen, more].concat()), 17);
            assert_eq!(bad_line(&[&b"5 1\nx\n"[..], &sixteen, more].concat()), 2);
        }
        assert_eq!(bad_line(&b"\n".repeat(70_000)), 1);
    }

    /// Every one of them is bad, wherever it stands.
    const BAD: [&[u8]; 31] = [
        b"\n",
        b" \n",
        b"5\n",
        b"5 \n",
        b" 1\n",
        b"5  1\n",
        b"5\t1\n",
        b" 5 1\n",
        b"5 1 \n",
        b"5 1\r\n",
        b"51\n",
        b"12345 1\n",
        b"5 12345\n",
        b"05 1\n",
        b"5 01\n",
        b"00 1\n",
        b"5 00\n",
        b"+5 1\n",
        b"5 -1\n",
        b"5x 1\n",
        b"5 x\n",
        b"5\0 1\n",
        b"5 1\0\n",
        b"5 \xb2\n",
        b"\xff5 1\n",
        b"5 1 2\n",
        b"5,1\n",
        b"5.0 1\n",
        b"0x5 1\n",
        b"5 1\x0b\n",
        b"\r\n",
    ];

    #[test]
    fn the_first_bad_line_is_told() {
        for line in BAD {
            for front in 0..16 {
                let sheet = [&b"5 1\n".repeat(front), line].concat();
                assert_eq!(bad_line(&sheet), front as u64 + 1, "{}", line.escape_ascii());
                assert_eq!(bad_line(&[&sheet, line].concat()), front as u64 + 1, "{}", line.escape_ascii());
                assert_eq!(bad_line(&[&sheet[..], b"5 1\n"].concat()), front as u64 + 1);
            }
        }
        assert_eq!(bad_line(b"5 1"), 1);
        assert_eq!(bad_line(b"5 1\n10 3"), 2);
        assert_eq!(bad_line(b"5 1\n10 3\n\n"), 3);
    }

    /// Reading and writing are each other's way back, whatever the bytes are: those that are read
    /// are written back, and those that are not read stand for no list.
    #[test]
    fn every_short_input_is_read_or_refused() {
        let bytes = b"019 \n\r";
        let mut good = 0;
        for code in 0..6u32.pow(7) {
            let sheet: Vec<u8> = (0..7).map(|place| bytes[(code / 6u32.pow(place) % 6) as usize]).collect();
            if let Ok(rows) = read(&sheet) {
                assert_eq!(write(&rows), sheet);
                good += 1;
            }
        }
        // Of seven bytes: one line of five digits, in four ways to part them, with 3 kinds of digit.
        let of_length = [0, 3, 2 * 3, 2 * 9, 2 * 27];
        let one: u32 = (1..=4).map(|period| of_length[period] * of_length[5 - period]).sum();
        assert_eq!(good, one);
    }
}
