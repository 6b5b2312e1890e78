//! What the lines of a usage program must satisfy, seen from the records and the lines alone: no
//! second card says which call was accepted.

use crate::records;
use crate::row_cases;
use crate::turns::{Change, Description, LARGEST_TIME, MOST_VCPUS};
use crate::usage_lines::{Row, Told, Totals};
use std::collections::BTreeMap;

/// The admits of an input whose terms are good, and what was told one record before.
#[derive(Default)]
pub struct Facts {
    admits: BTreeMap<u32, Vec<Description>>,
    before: Option<Totals>,
}

impl Facts {
    pub fn take(&mut self, record: &[u8]) {
        let Ok((call, _)) = records::read(record) else { return };
        let Change::Admit(description) = call.change else { return };
        if row_cases::of_terms(&description).iter().all(|&(_, applies)| !applies) {
            self.admits.entry(description.identifier).or_default().push(description);
        }
    }

    /// What is told behind the records taken so far.
    pub fn check(&mut self, told: &Told) -> Result<(), String> {
        let totals = &told.totals;
        check_sum(totals)?;
        check_order(totals)?;
        totals.tenants.iter().try_for_each(|row| self.check_row(row))?;
        if let Some(before) = &self.before {
            check_step(before, totals)?;
        }
        self.before = Some(totals.clone());
        Ok(())
    }

    /// One of its admits is that of its stay.
    fn check_row(&self, row: &Row) -> Result<(), String> {
        let admits = self.admits.get(&row.identifier).map_or(&[][..], Vec::as_slice);
        match admits.iter().any(|terms| fits(row, terms)) {
            true => Ok(()),
            false => Err(format!("no admit fits {row:?}")),
        }
    }
}

/// Usable and pending are C for a sporadic one; the others have nothing pending.
fn fits(row: &Row, terms: &Description) -> bool {
    let capacity = u64::from(terms.capacity);
    match terms.kind {
        0 => row.usable.checked_add(row.pending) == Some(capacity),
        _ => row.pending == 0 && row.usable <= capacity,
    }
}

fn check_sum(totals: &Totals) -> Result<(), String> {
    match totals.sum() {
        Some(sum) if sum == totals.time && sum <= LARGEST_TIME => Ok(()),
        _ => Err(format!("held, removed and idle ticks are not {}, the time, together", totals.time)),
    }
}

fn check_order(totals: &Totals) -> Result<(), String> {
    let rising = totals.tenants.is_sorted_by(|one, next| one.identifier < next.identifier);
    match rising && totals.tenants.len() <= MOST_VCPUS {
        true => Ok(()),
        false => Err("the tenants are too many, or do not rise".to_string()),
    }
}

/// One record: it removes one or admits one at the most, and all the ticks that it lets pass belong
/// to one that was there before, or to idle. Who leaves takes along what it held, and who comes has
/// held nothing.
fn check_step(before: &Totals, after: &Totals) -> Result<(), String> {
    let (left, came) = (missing(before, after), missing(after, before));
    let changes = left.len() + came.len() <= 1 && came.iter().all(|row| row.held == 0);
    let stay = before.tenants.iter().filter_map(|row| Some((row.held, after.row(row.identifier)?.held)));
    let mut grown: Vec<(u64, u64)> = stay.chain([(before.idle, after.idle)]).collect();
    let removed: u64 = before.removed + left.iter().map(|row| row.held).sum::<u64>();
    grown.push((removed, after.removed));
    let passed = after.time.checked_sub(before.time);
    let of_one = |(one, next): &(u64, u64)| one == next || next.checked_sub(*one) == passed;
    let removed_alone = !left.is_empty() || removed == after.removed;
    match changes && removed_alone && passed.is_some() && grown.iter().all(of_one) {
        true => Ok(()),
        false => Err(format!("not the step of one call: {before:?} and then {after:?}")),
    }
}

/// Whom the first has and the second has not.
fn missing<'a>(from: &'a Totals, other: &Totals) -> Vec<&'a Row> {
    from.tenants.iter().filter(|row| other.row(row.identifier).is_none()).collect()
}

#[cfg(test)]
mod tests {
    use super::*;
    use crate::words;

    /// What the facts say to these lines, one behind the other, the records being these.
    fn checked(records: &str, outputs: &[&str]) -> Result<(), String> {
        let mut facts = Facts::default();
        records.lines().for_each(|line| facts.take(&words::record(line).unwrap()));
        outputs.iter().try_for_each(|output| facts.check(&Told::read(&output.replace("; ", "\n")).unwrap()))
    }

    const ADMITS: &str =
        "admit 0 id 1 T 10 C 5 pr 1\nadmit 0 id 2 T 10 C 4 pr 1 kind 1\nadmit 0 id 3 T 4 C 5 pr 1";

    #[test]
    fn numbers_that_add_up_pass_and_others_do_not() {
        let told = |time, rows: &str| format!("time {time}; idle 3; removed 2; tenants 2; {rows}");
        let row = "tenant 1 held 4 pending 4 usable 1\ntenant 2 held 1 pending 0 usable 3\n";
        assert_eq!(checked(ADMITS, &[&told(10, row)]), Ok(()));
        assert!(checked(ADMITS, &[&told(11, row)]).is_err());
        let wrong = [("4 usable 1", "4 usable 2"), ("0 usable 3", "1 usable 3"), ("usable 3", "usable 5")];
        for (from, to) in wrong.into_iter().chain([("tenant 1", "tenant 3"), ("tenant 2", "tenant 1")]) {
            assert!(checked(ADMITS, &[&told(10, &row.replace(from, to))]).is_err(), "{to}");
        }
    }

    #[test]
    fn the_ticks_of_a_call_belong_to_one() {
        let of = |idle, removed, held| {
            format!(
                "time {}; idle {idle}; removed {removed}; tenants 1; tenant 1 held {held} pending 0 usable 5\n",
                idle + removed + held
            )
        };
        let step = |after: &str| checked(ADMITS, &[&of(3, 2, 5), after]);
        for right in [of(3, 2, 5), of(4, 2, 5), of(3, 2, 9)] {
            assert_eq!(step(&right), Ok(()), "{right}");
        }
        for wrong in [of(4, 2, 6), of(4, 2, 4), of(2, 2, 5), of(2, 3, 5), of(3, 2, 4), of(3, 3, 5)] {
            assert!(step(&wrong).is_err(), "{wrong}");
        }
        assert_eq!(step("time 13; idle 3; removed 10\ntenants 0\n"), Ok(()));
        assert_eq!(step("time 13; idle 6; removed 7\ntenants 0\n"), Ok(()));
        assert!(step("time 13; idle 4; removed 9\ntenants 0\n").is_err());
        assert!(step("time 10; idle 8; removed 2\ntenants 0\n").is_err());
        let came = |held| {
            format!(
                "{}tenant 2 held {held} pending 0 usable 4\n",
                of(3, 2, 5).replace("10;", &format!("{};", 10 + held)).replace("tenants 1", "tenants 2")
            )
        };
        assert_eq!(step(&came(0)), Ok(()));
        assert!(step(&came(1)).is_err());
    }
}
