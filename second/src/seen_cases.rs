//! Which cases the end of an input meets, as far as they are seen from outside: whose ticks are in
//! the totals there, and how they got there.

use crate::outside::{Told, View, OF_TIME};
use crate::reached::Reached;
use crate::records;
use crate::refusal::Refusal;
use crate::stay_cases::{of_each, KINDS};
use crate::stays::Stay;
use crate::turns::{Change, MOST_VCPUS};
use crate::usage_lines::Totals;
use std::collections::BTreeSet;

/// What the view does not keep.
#[derive(Default)]
pub struct Watch {
    /// How stays have ended.
    removals: BTreeSet<String>,
    /// Of the last whole record: whether its time is later than the last accepted one, and what
    /// refused it.
    later: bool,
    refused: Option<u32>,
    /// Whether nobody holds the core where time went by last.
    idles: bool,
}

impl Watch {
    /// A record and its line, which the view has not followed yet.
    pub fn take(&mut self, view: &View, record: &[u8], told: &Result<Told, Refusal>) {
        let Ok((call, _)) = records::read(record) else { return };
        self.later = call.time > view.last.time;
        self.refused = told.as_ref().err().map(|refusal| refusal.number);
        if self.refused.is_some() {
            return;
        }
        self.idles = if self.later { view.last.run.is_none() } else { self.idles };
        let Change::Remove(identifier) = call.change else { return };
        let Some(stay) = view.stays.get(&identifier) else { return };
        let charges = self.later && view.last.run == Some(identifier);
        let how = match stay.ticks() {
            _ if charges => "by the call that charges it",
            0 => "with nothing held",
            _ => "without a charge",
        };
        self.removals.insert(format!("removed: {how}, {}", stay.kind()));
    }

    /// What the end behind the records taken so far meets, `told` being right there.
    pub fn note(&self, view: &View, told: &Totals, stopped: Option<Refusal>, to: &mut Reached) {
        match stopped {
            Some(refusal) => to.add(format!("end: by {}", refusal.number)),
            None => self.note_last(view, to),
        }
        self.note_time(view, to);
        self.note_removed(view, to);
        let count = view.stays.len();
        to.add(format!("tenants: {}", COUNTS[count.min(COUNTS.len() - 1)]));
        to.add_if(count == MOST_VCPUS, "tenants: 32");
        view.stays.values().for_each(|stay| note_stay(view, stay, told, to));
    }

    fn note_last(&self, view: &View, to: &mut Reached) {
        let Some(number) = self.refused else {
            to.add("last: accepted");
            return;
        };
        let of_time = OF_TIME.contains(&number);
        to.add(if of_time { "last: refused by its time" } else { "last: refused by another row" });
        let how = if view.last.run.is_some() { "while one holds the core" } else { "in idle" };
        to.add_if(!of_time && self.later, &format!("last: refused and later, {how}"));
    }

    fn note_time(&self, view: &View, to: &mut Reached) {
        let (time, idle) = (view.last.time, view.idle);
        to.add_if(time == 0, "time: 0");
        to.add_if(time > u64::from(u32::MAX), "time: above 32 bits");
        to.add_if(time > 0 && idle == 0, "idle: never");
        to.add_if(idle > 0 && idle == time, "idle: all the time");
        to.add_if(idle > 0 && idle < time, "idle: a part of the time");
        to.add_if(self.idles && idle < time, "idle: at the end, behind held ticks");
    }

    fn note_removed(&self, view: &View, to: &mut Reached) {
        self.removals.iter().for_each(|case| to.add(case));
        let held = |stays: &Vec<Stay>| stays.iter().filter(|stay| stay.ticks() > 0).count();
        to.add_if(view.ended.values().any(|stays| held(stays) > 1), "removed: two stays of one identifier");
        let some = view.ended.values().any(|stays| held(stays) > 0);
        to.add_if(some && view.stays.is_empty(), "removed: and nobody is on the card");
        to.add_if(!some && !view.stays.is_empty(), "removed: no ticks");
        for stay in view.stays.values() {
            if view.ended.get(&stay.identifier).is_some_and(|stays| held(stays) > 0) {
                to.add(format!("back: with {} ticks, {}", some_or_no(stay.ticks()), stay.kind()));
            }
        }
    }
}

fn some_or_no(ticks: u64) -> &'static str {
    match ticks {
        0 => "no",
        _ => "held",
    }
}

fn note_stay(view: &View, stay: &Stay, told: &Totals, to: &mut Reached) {
    let Some(row) = told.row(stay.identifier) else { return };
    let kind = stay.kind();
    to.add(format!("held: {} ticks, {kind}", some_or_no(row.held)));
    let runs = view.last.run == Some(stay.identifier);
    to.add_if(runs && row.held > 0, &format!("usable: told by the last line, {kind}"));
    let amount = match row.usable {
        0 => "nothing",
        usable if usable == stay.capacity => "all",
        _ => "a part",
    };
    to.add_if(!runs && row.held > 0, &format!("usable: {amount}, not on the core, {kind}"));
    if !stay.is_sporadic() {
        return;
    }
    let amount = match row.pending {
        0 => "nothing",
        pending if pending == row.held => "all that is held",
        _ => "a part of what is held",
    };
    to.add_if(row.held > 0, &format!("pending: {amount}"));
    if stay.folded {
        let late = row.pending > stay.pending_ticks(view.last.time);
        to.add(if late { "pending: late by a fold" } else { "pending: not late behind a fold" });
        to.add_if(runs, "pending: behind a fold, on the core");
    }
}

const COUNTS: [&str; 3] = ["none", "one", "several"];

/// The cases that a comparison must meet.
pub fn asked() -> Vec<String> {
    let mut all: Vec<String> = PLAIN.map(str::to_string).to_vec();
    all.extend(of_each(&COUNTS, &["tenants: {}"]));
    all.extend(of_each(&KINDS, &OF_EACH));
    all
}

const OF_EACH: [&str; 11] = [
    "removed: by the call that charges it, {}",
    "removed: with nothing held, {}",
    "removed: without a charge, {}",
    "back: with no ticks, {}",
    "back: with held ticks, {}",
    "held: no ticks, {}",
    "held: held ticks, {}",
    "usable: told by the last line, {}",
    "usable: nothing, not on the core, {}",
    "usable: a part, not on the core, {}",
    "usable: all, not on the core, {}",
];

const PLAIN: [&str; 26] = [
    "end: by 20",
    "end: by 21",
    "end: by 22",
    "last: accepted",
    "last: refused by its time",
    "last: refused by another row",
    "last: refused and later, in idle",
    "last: refused and later, while one holds the core",
    "time: 0",
    "time: above 32 bits",
    "idle: never",
    "idle: all the time",
    "idle: a part of the time",
    "idle: at the end, behind held ticks",
    "removed: two stays of one identifier",
    "removed: and nobody is on the card",
    "removed: no ticks",
    "tenants: 32",
    "pending: nothing",
    "pending: a part of what is held",
    "pending: all that is held",
    "pending: late by a fold",
    "pending: not late behind a fold",
    "pending: behind a fold, on the core",
    "sent: whole",
    "sent: cut short",
];
