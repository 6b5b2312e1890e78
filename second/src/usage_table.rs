//! `usage`: the totals that the given program tells for the records of standard input, as a table
//! for people: whose work was it?

use crate::pipe;
use crate::refusal::Refusal;
use crate::usage_lines::{Row, Told};

const COLUMNS: [&str; 5] = ["tenant", "held", "share", "pending", "usable"];

pub fn run(program: &str, records: &[u8]) -> Result<String, String> {
    let output = pipe::feed(program, records)?;
    table(&Told::read(&String::from_utf8_lossy(&output))?)
}

/// Of the time, in percent to the nearest decimal; there is none of no time.
fn share(ticks: u64, time: u64) -> String {
    if time == 0 {
        return "-".to_string();
    }
    let tenths = (u128::from(ticks) * 2000 / u128::from(time)).div_ceil(2);
    format!("{}.{}%", tenths / 10, tenths % 10)
}

fn table(told: &Told) -> Result<String, String> {
    let totals = &told.totals;
    let time = totals.time;
    let sum = totals.sum().ok_or("the ticks are too many to add up")?;
    if sum != time {
        return Err(format!("the ticks held, removed and idle are {sum} together, and the time is {time}"));
    }
    let tenant = |row: &Row| {
        let Row { identifier, held, pending, usable } = row;
        [
            identifier.to_string(),
            held.to_string(),
            share(*held, time),
            pending.to_string(),
            usable.to_string(),
        ]
    };
    let plain = |name: &str, ticks: u64| {
        [name.to_string(), ticks.to_string(), share(ticks, time), String::new(), String::new()]
    };
    let mut rows = vec![COLUMNS.map(str::to_string)];
    rows.extend(totals.tenants.iter().map(tenant));
    rows.extend([plain("removed", totals.removed), plain("idle", totals.idle), plain("time", sum)]);
    let refusal = told.refusal.map_or(String::new(), |refusal| in_words(&refusal) + "\n");
    Ok(aligned(&rows) + &refusal)
}

/// Each column as wide as its widest word, all to the right.
fn aligned(rows: &[[String; 5]]) -> String {
    let width = |column: usize| rows.iter().map(|row| row[column].len()).max().unwrap_or(0);
    let line = |row: &[String; 5]| {
        let words = row.iter().enumerate().map(|(column, word)| format!("{word:>0$}", width(column)));
        words.collect::<Vec<_>>().join("  ").trim_end().to_string() + "\n"
    };
    rows.iter().map(line).collect()
}

/// As `explain` says it.
fn in_words(refusal: &Refusal) -> String {
    let Refusal { number, detail } = refusal;
    match number {
        20 => format!("byte {detail}: the record is cut short"),
        21 => format!("byte {detail}: the tag is unknown"),
        22 => format!("byte {detail}: the length is not that of the tag"),
        _ => format!("refused with number {number} and detail {detail}"),
    }
}

#[cfg(test)]
mod tests {
    use super::*;

    fn of(lines: &str) -> Result<String, String> {
        table(&Told::read(lines).unwrap())
    }

    #[test]
    fn a_table_has_a_row_for_each_and_the_sum() {
        let lines = "time 3000\nidle 1\nremoved 999\ntenants 2\ntenant 257 held 2000 pending 0 usable 8\n\
                     tenant 65793 held 0 pending 12 usable 20\nno 20 137\n";
        let right = " tenant  held   share  pending  usable\n    \
                         257  2000   66.7%        0       8\n  \
                       65793     0    0.0%       12      20\n\
                     removed   999   33.3%\n   \
                        idle     1    0.0%\n   \
                        time  3000  100.0%\n\
                     byte 137: the record is cut short\n";
        assert_eq!(of(lines).unwrap(), right);
    }

    #[test]
    fn nothing_is_a_table_too() {
        let empty = " tenant  held  share  pending  usable\nremoved     0      -\n   idle     0      -\n   time     0      -\n";
        assert_eq!(of("time 0\nidle 0\nremoved 0\ntenants 0\n").unwrap(), empty);
    }

    #[test]
    fn shares_are_rounded() {
        let shares = [(1, 2000), (1, 2001), (1999, 2000), (10_u64.pow(12), 10_u64.pow(12)), (1, 3)];
        assert_eq!(
            shares.map(|(ticks, time)| share(ticks, time)),
            ["0.1%", "0.0%", "100.0%", "100.0%", "33.3%"]
        );
    }

    #[test]
    fn ticks_that_are_not_the_time_are_an_error() {
        let wrong =
            of("time 8\nidle 3\nremoved 1\ntenants 1\ntenant 9 held 3 pending 2 usable 1\n").unwrap_err();
        assert!(wrong.contains("7 together") && wrong.contains("time is 8"), "{wrong}");
    }

    /// What stands in the script of the project that says refusals in words.
    #[test]
    fn a_refusal_is_said_as_explain_says_it() {
        let explain = include_str!("../../explain");
        for number in [20, 21, 22] {
            let words = in_words(&Refusal { number, detail: 5 }).replacen('5', "\\1", 1);
            assert!(explain.contains(&format!("s/^no {number} ([0-9]+)$/{words}/")), "{words}");
        }
    }
}
