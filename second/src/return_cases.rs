//! Which cases of step 2 a call meets: how many of how many pending entries return at once, to
//! whom, and what becomes of those that are left. Told from the card before the call, as its
//! charge leaves it, and from the card after it.

use crate::reached::Reached;
use crate::turns::{Call, Change, Charged, Core, Vcpu};
use crate::turns::{LARGEST_TIME, MOST_PENDING};
use std::collections::BTreeMap;

/// One to whom entries return, as it stands behind the charge.
struct Returning {
    identifier: u32,
    runnable: bool,
    due: usize,
    pending: usize,
    /// When the last of those that are due was.
    last_due: u64,
    ticks: u64,
}

impl Returning {
    fn left(&self) -> usize {
        self.pending - self.due
    }
}

#[derive(Default)]
pub struct Before {
    /// Who holds the core.
    held: Option<u32>,
    returning: Vec<Returning>,
}

/// A return of several entries, and how many of those that it left are pending still.
struct Left {
    due: usize,
    pending: usize,
    still: usize,
}

#[derive(Default)]
pub struct Notes {
    left: BTreeMap<u32, Vec<Left>>,
    /// When the latest folded entry is due.
    folded: BTreeMap<u32, u64>,
    /// Who held the core at the last accepted call, and had several returns.
    several: Option<u32>,
}

pub fn before(core: &Core, call: &Call) -> Before {
    let now = call.time;
    let latest = core.timer.unwrap_or(LARGEST_TIME).min(LARGEST_TIME);
    let held = core.running;
    // A call that is too late is refused, and nobody is charged.
    if now <= core.last || now > latest {
        return Before { held, ..Before::default() };
    }
    let holder = core.holder_charged(now);
    let waits = |vcpu: &&Vcpu| held != Some(vcpu.description.identifier);
    let all = core.vcpus.values().filter(waits).chain(&holder);
    Before { held, returning: all.filter_map(|vcpu| returning(vcpu, core.last, now)).collect() }
}

fn returning(vcpu: &Vcpu, last: u64, now: u64) -> Option<Returning> {
    let pending = vcpu.pending_count(last);
    let due = pending - vcpu.pending_count(now);
    if due == 0 {
        return None;
    }
    let last_due = vcpu.return_of(due, last);
    let identifier = vcpu.description.identifier;
    let ticks = vcpu.usable(now) - vcpu.usable(last);
    Some(Returning { identifier, runnable: vcpu.runnable(), due, pending, last_due, ticks })
}

/// What an accepted call met.
pub fn note(before: &Before, call: &Call, core: &Core, notes: &mut Notes, to: &mut Reached) {
    note_charge(core, before.held, notes, to);
    for returning in &before.returning {
        let Returning { identifier, due, pending, .. } = *returning;
        to.add(count_case(due, pending));
        to.add_if(!returning.runnable, "a return to one not runnable");
        note_left(returning, notes, to);
        let folded = notes.folded.get(&identifier) == Some(&returning.last_due);
        to.add_if(due > 1 && folded, "several return, the last of them folded");
        to.add_if(folded, "a folded entry returns");
        let alone = core.reports.iter().filter(|report| report.brought > 0).count() == 1;
        to.add_if(folded && !alone, "a folded entry returns, and another VCPU has ticks back too");
        if due > 1 {
            let held = before.held == Some(identifier);
            note_several(returning, call, core, held, to);
            notes.several = notes.several.or(held.then_some(identifier));
        }
    }
    to.add_if(before.returning.len() > 1, "returns to two");
    let several: Vec<usize> =
        before.returning.iter().map(|returning| returning.due).filter(|&due| due > 1).collect();
    to.add_if(several.iter().any(|&due| due != several[0]), "several return to two, not as many to each");
    if let Change::Remove(identifier) = call.change {
        notes.left.remove(&identifier);
        notes.folded.remove(&identifier);
    }
}

/// A join and a fold give an entry that was left another amount or time.
fn note_charge(core: &Core, held: Option<u32>, notes: &mut Notes, to: &mut Reached) {
    let several = notes.several.take();
    let (Some(held), Charged::Join | Charged::Fold) = (held, core.charged) else { return };
    to.add_if(several == Some(held) && core.charged == Charged::Join, "a join behind a return of several");
    notes.left.remove(&held);
    let latest = core.vcpus.get(&held).and_then(|vcpu| vcpu.latest_return(core.last));
    if core.charged == Charged::Fold {
        notes.folded.extend(latest.map(|due| (held, due)));
    }
}

fn note_left(returning: &Returning, notes: &mut Notes, to: &mut Reached) {
    let earlier = notes.left.entry(returning.identifier).or_default();
    earlier.iter_mut().for_each(|left| left.still = left.still.saturating_sub(returning.due));
    for left in earlier.iter().filter(|left| left.still == 0) {
        to.add(left_case(left.due, left.pending));
    }
    earlier.retain(|left| left.still > 0);
    if returning.due > 1 && returning.left() > 0 {
        let Returning { due, pending, .. } = *returning;
        earlier.push(Left { due, pending, still: returning.left() });
    }
}

/// Several entries return to one. `held` is whether that held the core.
fn note_several(returning: &Returning, call: &Call, core: &Core, held: bool, to: &mut Reached) {
    if call.change == Change::Remove(returning.identifier) {
        let left = if returning.left() == 0 { "none is" } else { "some are" };
        to.add(format!("several return to one that the call removes, {left} left"));
    }
    to.add_if(returning.ticks > 65_535, "several return, of more than 65,535 ticks");
    let whom = match (held, returning.runnable, core.charged) {
        (true, _, Charged::Entry) => "the running one, charged with a new entry",
        (true, _, Charged::Join) => "the running one, charged with a join",
        (true, _, _) => "the running one, charged with a fold",
        (_, false, _) => "one not runnable",
        // In idle it could not be: the timer is the earliest return of a runnable one.
        (_, true, _) => "one that waits while another is charged",
    };
    to.add(format!("several return to {whom}"));
}

fn count_case(due: usize, pending: usize) -> String {
    format!("{due} of {pending} pending entries return at one call")
}

fn left_case(due: usize, pending: usize) -> String {
    format!("what {due} of {pending} left behind returns later")
}

/// How many can be due, and of how many.
pub fn counts() -> impl Iterator<Item = (usize, usize)> {
    (1..=MOST_PENDING).flat_map(|pending| (1..=pending).map(move |due| (due, pending)))
}

/// The cases that a comparison must meet.
pub fn asked() -> Vec<String> {
    let mut all: Vec<String> = PLAIN.map(str::to_string).to_vec();
    all.extend(counts().map(|(due, pending)| count_case(due, pending)));
    let several = counts().filter(|&(due, pending)| due > 1 && due < pending);
    all.extend(several.map(|(due, pending)| left_case(due, pending)));
    all
}

const PLAIN: [&str; 15] = [
    "a return to one not runnable",
    "returns to two",
    "several return to two, not as many to each",
    "several return, the last of them folded",
    "a folded entry returns",
    "a folded entry returns, and another VCPU has ticks back too",
    "several return to one that the call removes, none is left",
    "several return to one that the call removes, some are left",
    "several return to the running one, charged with a new entry",
    "several return to the running one, charged with a join",
    "several return to the running one, charged with a fold",
    "several return to one not runnable",
    "several return to one that waits while another is charged",
    "several return, of more than 65,535 ticks",
    "a join behind a return of several",
];

#[cfg(test)]
mod tests {
    use super::*;
    use crate::turns::Description;

    /// The cases of returns that the last of the calls meets. All are accepted; VCPU 1 has T 40 and
    /// C 30.
    fn met(calls: &[(u64, Change)]) -> Vec<String> {
        let own = Description { identifier: 1, period: 40, capacity: 30, priority: 1, kind: 0 };
        let (mut core, mut notes, mut reached) = (Core::new(), Notes::default(), Reached::default());
        for &(time, change) in [(0, Change::Admit(own))].iter().chain(calls) {
            let call = Call { time, change };
            let before = before(&core, &call);
            core.call(&call).unwrap();
            reached = Reached::default();
            note(&before, &call, &core, &mut notes, &mut reached);
        }
        asked().into_iter().filter(|case| reached.count(case) > 0).collect()
    }

    /// So many uses of a tick each, every other tick from 0 on.
    fn uses(count: u64) -> Vec<(u64, Change)> {
        let one = |place| [(2 * place, Change::Wake(1)), (2 * place + 1, Change::Block(1))];
        (0..count).flat_map(one).collect()
    }

    fn behind(count: u64, more: &[(u64, Change)]) -> Vec<String> {
        met(&[&uses(count), more].concat())
    }

    #[test]
    fn the_entries_are_counted_behind_the_charge() {
        let runs = |end| [(38, Change::Wake(1)), (end, Change::Tick)];
        let new_entry = ["several return to the running one, charged with a new entry"];
        let fold = ["several return to the running one, charged with a fold"];
        let and_count = |case: [&str; 1], count: &str| {
            [case[0].to_string(), format!("{count} pending entries return at one call")]
        };
        assert_eq!(behind(3, &runs(42)), and_count(new_entry, "2 of 4"));
        assert_eq!(behind(7, &runs(44)), and_count(new_entry, "3 of 8"));
        assert_eq!(behind(8, &runs(44)), and_count(fold, "3 of 8"));
        assert_eq!(behind(8, &runs(55)), and_count(fold, "7 of 8"));
    }

    #[test]
    fn one_that_the_call_removes_has_its_return() {
        let removed = |time| behind(3, &[(time, Change::Remove(1))]);
        let [none, some] = ["none is", "some are"]
            .map(|left| format!("several return to one that the call removes, {left} left"));
        assert!(removed(42).contains(&some) && removed(42).contains(&count_case(2, 3)));
        assert!(removed(44).contains(&none) && removed(44).contains(&count_case(3, 3)));
        assert!(removed(43).contains(&some) && !removed(40).contains(&some));
    }

    #[test]
    fn what_is_left_is_followed_until_all_of_it_has_come() {
        let case = left_case(2, 4);
        let later = [(42, Change::Tick), (44, Change::Tick), (46, Change::Tick)];
        assert!(!behind(4, &later[..2]).contains(&case));
        assert!(behind(4, &later).contains(&case));
        let again = [later[0], (42, Change::Remove(1))];
        assert!(!behind(4, &again).contains(&case));
    }

    /// Ten uses: the last entry has the amount of three, and the time of the tenth.
    #[test]
    fn a_folded_entry_is_known_by_its_time() {
        let case = "several return, the last of them folded".to_string();
        assert!(!behind(10, &[(57, Change::Tick)]).contains(&case));
        assert!(behind(10, &[(58, Change::Tick)]).contains(&case));
        assert!(!behind(8, &[(58, Change::Tick)]).contains(&case));
    }
}
