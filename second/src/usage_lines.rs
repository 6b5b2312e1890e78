//! `usage-lines`: event records to the totals of request 6, told once, where reading ends. Also
//! reads such lines again.

use crate::lines::{self, Card};
use crate::refusal::Refusal;
use crate::turns::{Core, Vcpu};
use std::io::{self, Read, Write};

#[derive(Clone, PartialEq, Eq, Debug, Default)]
pub struct Row {
    pub identifier: u32,
    pub held: u64,
    pub pending: u64,
    pub usable: u64,
}

#[derive(Clone, PartialEq, Eq, Debug, Default)]
pub struct Totals {
    pub time: u64,
    pub idle: u64,
    pub removed: u64,
    /// Of those on the card, the smaller identifiers first.
    pub tenants: Vec<Row>,
}

impl Totals {
    pub fn of(core: &Core) -> Totals {
        let row = |vcpu: &Vcpu| Row {
            identifier: vcpu.description.identifier,
            held: core.held(vcpu),
            pending: vcpu.pending_total(core.last),
            usable: vcpu.usable(core.last),
        };
        Totals {
            time: core.last,
            idle: core.idle(),
            removed: core.held_by_removed(),
            tenants: core.vcpus.values().map(row).collect(),
        }
    }

    /// All ticks told: each belongs to one tenant or to idle. Numbers may come from anywhere, so
    /// they can be too large for a sum.
    pub fn sum(&self) -> Option<u64> {
        let held = self.tenants.iter().map(|row| row.held);
        held.chain([self.removed, self.idle]).try_fold(0, u64::checked_add)
    }

    pub fn row(&self, identifier: u32) -> Option<&Row> {
        self.tenants.iter().find(|row| row.identifier == identifier)
    }
}

/// What is told at the end.
#[derive(Clone, PartialEq, Eq, Debug, Default)]
pub struct Told {
    pub totals: Totals,
    /// What ended the reading, if the input did not.
    pub refusal: Option<Refusal>,
}

impl Told {
    pub fn of(card: &Card) -> Told {
        Told { totals: Totals::of(card.core()), refusal: card.stopped() }
    }

    pub fn lines(&self) -> String {
        let Totals { time, idle, removed, tenants } = &self.totals;
        let count = tenants.len();
        let mut lines = format!("time {time}\nidle {idle}\nremoved {removed}\ntenants {count}\n");
        for Row { identifier, held, pending, usable } in tenants {
            lines += &format!("tenant {identifier} held {held} pending {pending} usable {usable}\n");
        }
        lines + &self.refusal.map_or(String::new(), |refusal| lines::line(&Err(refusal)))
    }

    /// What such lines tell.
    pub fn read(output: &str) -> Result<Told, String> {
        let mut told = Told::default();
        for line in output.lines() {
            told.add(line).ok_or_else(|| format!("no line of the totals: {line:?}"))?;
        }
        // A line that is missing, comes twice or in another place, or is not plainly written.
        match told.lines() == output {
            true => Ok(told),
            false => Err(format!("not the lines of the totals: {output:?}")),
        }
    }

    fn add(&mut self, line: &str) -> Option<()> {
        let number = |word: &str| word.parse::<u64>().ok();
        match line.split(' ').collect::<Vec<_>>()[..] {
            ["time", time] => self.totals.time = number(time)?,
            ["idle", idle] => self.totals.idle = number(idle)?,
            ["removed", removed] => self.totals.removed = number(removed)?,
            // `read` writes the count of its rows again, and so finds another one.
            ["tenants", _] => {}
            ["tenant", identifier, "held", held, "pending", pending, "usable", usable] => {
                let identifier = identifier.parse().ok()?;
                let (held, pending, usable) = (number(held)?, number(pending)?, number(usable)?);
                self.totals.tenants.push(Row { identifier, held, pending, usable });
            }
            ["no", given, detail] => {
                self.refusal = Some(Refusal { number: given.parse().ok()?, detail: number(detail)? });
            }
            _ => return None,
        }
        Some(())
    }
}

/// Nothing is written before reading ends.
pub fn run(input: impl Read, mut output: impl Write) -> io::Result<()> {
    let card = lines::follow(input, |_| Ok(()))?;
    output.write_all(Told::of(&card).lines().as_bytes())?;
    output.flush()
}

#[cfg(test)]
mod tests {
    use super::*;
    use crate::words;

    /// What is written for records in words.
    fn told(text: &str) -> String {
        let mut output = Vec::new();
        run(&words::to_records(text).unwrap()[..], &mut output).unwrap();
        String::from_utf8(output).unwrap()
    }

    #[test]
    fn empty_input_has_four_lines() {
        assert_eq!(told(""), "time 0\nidle 0\nremoved 0\ntenants 0\n");
        assert_eq!(told("bytes 05"), "time 0\nidle 0\nremoved 0\ntenants 0\nno 20 0\n");
    }

    /// Document 01's case: 65793 holds from 0 to 3 and from 10 to 11, 257 between. Of its seven
    /// ticks, taken at 3, all are back at 11; 65793 has the one of its second slice pending.
    #[test]
    fn the_whole_case() {
        let case = "admit 0 id 65793 T 10 C 3 pr 1\nadmit 0 id 257 T 8 C 8 pr 2\nwake 0 id 65793\n\
                    wake 0 id 257\ntick 3\ntick 11\ntick 10\nblock 11 id 65793\nremove 11 id 65537\nbytes 05";
        let lines = "time 11\nidle 0\nremoved 0\ntenants 2\ntenant 257 held 7 pending 0 usable 8\n\
                     tenant 65793 held 4 pending 1 usable 2\nno 20 137\n";
        assert_eq!(told(case), lines);
    }

    /// Idle to 2 and from 6 to 7. The removal at 10 charges the three ticks from 7 on; then 9 is
    /// back at 17, at which its last return is due, and holds again from 20 to 21.
    #[test]
    fn a_stay_counts_from_its_own_admission() {
        let first = "tick 2\nadmit 2 id 9 T 10 C 9 pr 1\nwake 2 id 9\nblock 6 id 9\nwake 7 id 9\n";
        assert_eq!(told(first), "time 7\nidle 3\nremoved 0\ntenants 1\ntenant 9 held 4 pending 4 usable 5\n");
        let gone = first.to_string() + "remove 10 id 9\n";
        assert_eq!(told(&gone), "time 10\nidle 3\nremoved 7\ntenants 0\n");
        let back = gone + "admit 16 id 9 T 10 C 9 pr 1\nadmit 17 id 9 T 10 C 9 pr 1\n";
        assert_eq!(
            told(&back),
            "time 17\nidle 10\nremoved 7\ntenants 1\ntenant 9 held 0 pending 0 usable 9\n"
        );
        let again = back + "wake 20 id 9\ntick 21\n";
        assert_eq!(
            told(&again),
            "time 21\nidle 13\nremoved 7\ntenants 1\ntenant 9 held 1 pending 1 usable 8\n"
        );
    }

    /// The calls at 3 count no tick twice, and those refused, though later, none at all.
    #[test]
    fn a_call_at_the_last_one_and_a_refused_one_change_no_total() {
        let start = "admit 0 id 1 T 10 C 5 pr 1\nwake 0 id 1\ntick 3\n";
        let lines = "time 3\nidle 0\nremoved 0\ntenants 1\ntenant 1 held 3 pending 3 usable 2\n";
        assert_eq!(told(start), lines);
        for more in
            ["tick 3", "wake 3 id 1", "block 3 id 1", "wake 4 id 2", "tick 6", "tick 2", "remove 5 id 7"]
        {
            assert_eq!(told(&format!("{start}{more}")), lines, "{more}");
        }
    }

    /// Three slices of 1, 2 and 1 ticks at 0, 3 and 6, the second one in two charges; they come back
    /// one by one.
    #[test]
    fn the_pending_total_is_that_of_the_entries_pending() {
        let start =
            "admit 0 id 1 T 10 C 5 pr 1\nwake 0 id 1\nblock 1 id 1\nwake 3 id 1\ntick 4\nblock 5 id 1\n\
                     wake 6 id 1\nblock 7 id 1\n";
        for (time, pending, idle) in [(9, 4, 5), (10, 3, 6), (12, 3, 8), (13, 1, 9), (16, 0, 12)] {
            let (usable, told) = (5 - pending, told(&format!("{start}tick {time}\n")));
            let row = format!("tenant 1 held 4 pending {pending} usable {usable}");
            assert_eq!(told, format!("time {time}\nidle {idle}\nremoved 0\ntenants 1\n{row}\n"));
        }
    }

    /// T 10 and C 4, admitted at 0. The polling one's first refill is at 10; when it is blocked its
    /// ticks are gone.
    #[test]
    fn the_refilled_have_nothing_pending() {
        let admits = |kind: u8| format!("admit 0 id 1 T 10 C 4 pr 1 kind {kind}\nwake 0 id 1\n");
        let deferrable = admits(1) + "tick 4\ntick 10\n";
        assert_eq!(
            told(&deferrable),
            "time 10\nidle 6\nremoved 0\ntenants 1\ntenant 1 held 4 pending 0 usable 4\n"
        );
        let polling = admits(2) + "tick 10\nblock 13 id 1\n";
        assert_eq!(
            told(&polling),
            "time 13\nidle 10\nremoved 0\ntenants 1\ntenant 1 held 3 pending 0 usable 0\n"
        );
    }

    #[test]
    fn what_is_told_reads_back_and_nothing_else_does() {
        let lines = "time 7\nidle 3\nremoved 1\ntenants 1\ntenant 9 held 3 pending 2 usable 1\nno 21 99\n";
        let told = Told::read(lines).unwrap();
        assert_eq!((told.totals.sum(), told.refusal.map(|no| no.detail)), (Some(7), Some(99)));
        assert_eq!(told.lines(), lines);
        let others =
            [("7\n", "07\n"), ("9 held", "9  held"), ("time 7\n", ""), ("3\n", "3\nidle 3\n"), ("no", "No")];
        for (from, to) in others {
            assert!(Told::read(&lines.replacen(from, to, 1)).is_err(), "{to:?}");
        }
        assert!(Told::read(lines.trim_end()).is_err() && Told::read("").is_err());
        let largest = Totals { idle: u64::MAX, removed: 1, ..Totals::default() };
        assert_eq!(largest.sum(), None);
    }
}
