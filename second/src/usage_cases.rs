//! Which cases of request 6 the end of an input meets. A watch goes through the records with a card
//! of its own, and tells at any of them what the totals there have behind them.

use crate::card_cases::word;
use crate::lines::Card;
use crate::outside;
use crate::reached::Reached;
use crate::records;
use crate::row_cases;
use crate::stay_cases::{kind_of, of_each, KINDS};
use crate::turns::{Call, Change, Charged, Core, Vcpu};
use crate::turns::{LARGEST_PERIOD, LARGEST_TIME, MOST_PENDING, MOST_VCPUS};
use crate::usage_lines::Told;
use std::collections::BTreeSet;

const OF_32_BITS: u64 = u32::MAX as u64;
const OF_16_BITS: u64 = u16::MAX as u64;

/// The numbers that end the reading.
const STOPS: [u32; 3] = [20, 21, 22];

const WORDS: [&str; 5] = ["admit", "wake", "block", "remove", "tick"];

/// The last call, and what it met.
struct Seen {
    call: Call,
    refused: Option<u32>,
    /// Than the last accepted one before it.
    later: bool,
    /// At the moment of one that charged ticks.
    behind_a_charge: bool,
    holder: Option<u32>,
    named: Option<Named>,
}

/// The one that a wake, block or removal names, with the ticks that it has held up to the call.
struct Named {
    kind: &'static str,
    runnable: bool,
    holds: bool,
    held: u64,
    pending: u64,
}

/// A stay that has ended with ticks held.
struct Ended {
    identifier: u32,
    held: u64,
}

/// When nobody held the core.
#[derive(Default)]
struct Idle {
    before: bool,
    between: bool,
    /// Since somebody held it last, if anybody has.
    since: bool,
    held: bool,
}

pub struct Watch {
    card: Card,
    last: Option<Seen>,
    ended: Vec<Ended>,
    idle: Idle,
    admitted: bool,
    charged: bool,
    /// Words of calls that were refused with ticks held, and of those that an accepted one followed.
    refused: BTreeSet<&'static str>,
    between: BTreeSet<&'static str>,
}

impl Watch {
    pub fn new() -> Watch {
        let (ended, idle, refused, between) = Default::default();
        let card = Card::new();
        Watch { card, last: None, ended, idle, admitted: false, charged: false, refused, between }
    }

    /// What is right at this end.
    pub fn told(&self) -> Told {
        Told::of(&self.card)
    }

    pub fn take(&mut self, record: &[u8]) {
        let Ok((call, _)) = records::read(record) else {
            // Cut short, it ends the reading where the input ends.
            self.card.take(record);
            self.card.end();
            return;
        };
        let seen = self.before(&call);
        let last = self.card.core().last;
        let line = self.card.take(record);
        let refused = outside::read_line(line.trim_end()).ok().and_then(Result::err).map(|no| no.number);
        match refused {
            Some(_) => self.refuse(&call),
            None => self.accept(&call, last, &seen),
        }
        self.last = Some(Seen { refused, ..seen });
    }

    fn before(&self, call: &Call) -> Seen {
        let core = self.card.core();
        let behind_a_charge = self.charged && call.time == core.last;
        let named = named(core, call);
        let later = call.time > core.last;
        Seen { call: *call, refused: None, later, behind_a_charge, holder: core.running, named }
    }

    fn refuse(&mut self, call: &Call) {
        if self.core().vcpus.values().any(|vcpu| self.core().held(vcpu) > 0) {
            self.refused.insert(word(&call.change));
        }
    }

    fn accept(&mut self, call: &Call, last: u64, seen: &Seen) {
        self.between.append(&mut self.refused);
        let passed = last < call.time;
        match seen.holder {
            None if passed => {
                self.idle.before |= !self.admitted;
                self.idle.since = self.idle.held;
            }
            Some(_) if passed => {
                self.idle.between |= self.idle.since;
                (self.idle.since, self.idle.held) = (false, true);
            }
            _ => (),
        }
        self.charged = seen.holder.is_some() && passed || self.charged && !passed;
        self.admitted |= matches!(call.change, Change::Admit(_));
        if let (Change::Remove(identifier), Some(Named { held: held @ 1.., .. })) = (call.change, &seen.named)
        {
            self.ended.push(Ended { identifier, held: *held });
        }
    }

    fn core(&self) -> &Core {
        self.card.core()
    }

    /// What the end behind the records taken so far meets.
    pub fn note(&self, to: &mut Reached) {
        self.note_end(to);
        self.note_time(to);
        self.note_tenants(to);
        self.core().vcpus.values().for_each(|vcpu| self.note_tenant(vcpu, to));
        self.note_removed(to);
        if let Some(seen) = self.last.as_ref() {
            self.note_last(seen, to);
            if seen.refused.is_none() {
                self.note_pending(seen, to);
            }
        }
    }

    fn held_by(&self, counts: impl Fn(&Vcpu) -> bool) -> Vec<u32> {
        let held = self.core().vcpus.values().filter(|vcpu| self.core().held(vcpu) > 0 && counts(vcpu));
        held.map(|vcpu| vcpu.description.identifier).collect()
    }

    fn note_end(&self, to: &mut Reached) {
        let nothing = self.last.is_none();
        let Some(refusal) = self.card.stopped() else {
            to.add(if nothing { "end: no record at all" } else { "end: that of the input" });
            return;
        };
        let number = refusal.number.to_string();
        to.add(["end: by ", &number].concat());
        to.add_if(nothing, &format!("end: by {number}, the first record"));
        to.add_if(!self.held_by(|_| true).is_empty(), &format!("end: by {number}, ticks are held"));
    }

    fn note_time(&self, to: &mut Reached) {
        let core = self.core();
        let (time, idle) = (core.last, core.idle());
        to.add_if(time == 0 && !core.vcpus.is_empty(), "time: 0 with tenants on the card");
        to.add_if(time == LARGEST_TIME, "time: the largest");
        to.add_if(time > OF_32_BITS, "time: above 32 bits");
        to.add_if(time > 0 && idle == 0, "idle: never");
        to.add_if(time > 0 && idle == time && !core.vcpus.is_empty(), "idle: all the time, with tenants");
        to.add_if(idle > OF_32_BITS, "idle: above 32 bits");
        to.add_if(idle == LARGEST_TIME, "idle: the largest time");
        to.add_if(self.idle.before, "idle: before the first tenant");
        to.add_if(self.idle.between, "idle: between");
        to.add_if(self.idle.since, "idle: at the end");
        let waits = core.running.is_none() && core.vcpus.values().any(Vcpu::runnable);
        to.add_if(self.idle.since && waits, "idle: while one waits for ticks");
        for word in &self.between {
            to.add(format!("between: a refused {word}"));
        }
    }

    fn note_tenants(&self, to: &mut Reached) {
        let core = self.core();
        let count = core.vcpus.len();
        to.add(format!("tenants: {}", COUNTS[count.min(COUNTS.len() - 1)]));
        to.add_if(count == MOST_VCPUS, "tenants: 32");
        let held = self.held_by(|_| true);
        to.add_if(held.len() == MOST_VCPUS, "tenants: 32, all with held ticks");
        let low: BTreeSet<u32> = held.iter().map(|identifier| identifier & 0xffff).collect();
        to.add_if(low.len() < held.len(), "tenants: equal low 16 bits, with held ticks");
        let is_left = |&identifier: &u32| {
            self.ended.iter().any(|ended| {
                ended.identifier != identifier && ended.identifier & 0xffff == identifier & 0xffff
            })
        };
        to.add_if(held.iter().any(is_left), "tenants: the low 16 bits of one that left, with held ticks");
        let all = (0..3).all(|kind| !self.held_by(|vcpu| vcpu.description.kind == kind).is_empty());
        to.add_if(all, "held: by one of each kind");
        to.add_if(!self.held_by(|vcpu| !vcpu.runnable()).is_empty(), "held: by one not runnable");
    }

    fn note_tenant(&self, vcpu: &Vcpu, to: &mut Reached) {
        let (core, kind) = (self.core(), kind_of(&vcpu.description));
        let (held, pending) = (core.held(vcpu), vcpu.pending_total(core.last));
        let usable = vcpu.usable(core.last);
        to.add(format!("held: {}, {kind}", if held > 0 { "above 0" } else { "0" }));
        to.add_if(held > OF_16_BITS, "held: above 16 bits");
        to.add_if(held > OF_32_BITS, &format!("held: above 32 bits, {kind}"));
        to.add_if(usable > OF_16_BITS, "usable: above 16 bits");
        to.add_if(usable == u64::from(LARGEST_PERIOD), "usable: the largest");
        if vcpu.description.kind == 0 {
            let entries = vcpu.pending_count(core.last);
            to.add_if(held > 0, &format!("pending: of {entries} entries, with held ticks"));
            to.add_if(pending > OF_16_BITS, "pending: above 16 bits");
            to.add_if(usable == 0, "pending: all, and nothing usable");
        } else {
            let used = held > 0 && vcpu.runnable() && usable < u64::from(vcpu.description.capacity);
            to.add_if(used, &format!("pending: 0 where ticks are used, {kind}"));
            to.add_if(held > 0 && usable == 0, &format!("usable: 0 with held ticks, {kind}"));
        }
    }

    fn note_removed(&self, to: &mut Reached) {
        let core = self.core();
        let Some(ended) = self.ended.last() else { return };
        let of = |identifier| self.ended.iter().filter(move |ended| ended.identifier == identifier).count();
        to.add(format!("removed: {} with held ticks", if self.ended.len() > 1 { "several" } else { "one" }));
        to.add_if(
            self.ended.iter().any(|ended| of(ended.identifier) > 1),
            "removed: two stays of one identifier",
        );
        to.add_if(core.vcpus.is_empty(), "removed: and nobody is on the card");
        to.add_if(core.held_by_removed() > OF_32_BITS, "removed: above 32 bits");
        to.add_if(ended.held > OF_32_BITS, "removed: above 32 bits by one stay");
        let remembered = core.remembered_until(ended.identifier, core.last).is_some();
        to.add(if remembered { "removed: still remembered" } else { "removed: forgotten" });
        for vcpu in core.vcpus.values().filter(|vcpu| of(vcpu.description.identifier) > 0) {
            let held = if core.held(vcpu) > 0 { "held" } else { "no" };
            to.add(format!("removed: back with {held} ticks, {}", kind_of(&vcpu.description)));
        }
    }

    fn note_last(&self, seen: &Seen, to: &mut Reached) {
        let word = word(&seen.call.change);
        if let Some(number) = seen.refused {
            to.add(format!("last: refused by {number}"));
            let time = outside::OF_TIME.contains(&number);
            let how = if seen.holder.is_some() { "while one holds the core" } else { "in idle" };
            to.add_if(!time && seen.later, &format!("last: refused and later, {how}"));
            return;
        }
        to.add(format!("last: {word}"));
        to.add_if(seen.behind_a_charge, &format!("last: {word} at the moment of a charge"));
        if let Some(named) = &seen.named {
            self.note_named(seen, named, word, to);
        }
        for report in
            self.core().reports.iter().filter(|report| report.due > 0 && report.description.kind > 0)
        {
            let held = self.held_by(|vcpu| vcpu.description == report.description);
            let kind = kind_of(&report.description);
            to.add_if(!held.is_empty(), &format!("last: a boundary of one with held ticks, {kind}"));
        }
    }

    fn note_named(&self, seen: &Seen, named: &Named, word: &str, to: &mut Reached) {
        let Named { kind, runnable, holds, held, pending } = *named;
        if word != "remove" {
            to.add_if(held > 0, &format!("last: {word} with held ticks, {kind}"));
            to.add_if(pending > 0, &format!("last: {word} with pending ticks"));
            let changes = runnable == (word == "block");
            to.add_if(held > 0 && !changes, &format!("last: {word} with held ticks that changes nothing"));
            return;
        }
        let how = match (held, holds) {
            (0, _) => "with nothing held",
            (_, true) if seen.later => "by the call that charges it",
            (_, true) => "holding the core, with nothing to charge",
            _ => "not holding the core",
        };
        to.add(format!("last: removed {how}, {kind}"));
    }

    /// Behind an accepted call, of those that are on the card still.
    fn note_pending(&self, seen: &Seen, to: &mut Reached) {
        let core = self.core();
        let stays = |identifier: u32| core.vcpus.contains_key(&identifier);
        let how = match core.charged {
            Charged::Entry => "a new entry",
            Charged::Join => "a join",
            Charged::Fold => "a fold",
            _ => "",
        };
        let charged = seen.holder.is_some_and(stays) && !how.is_empty();
        to.add_if(charged, &format!("pending: behind {how}"));
        for report in core.reports.iter().filter(|of| of.brought > 0 && of.description.kind == 0) {
            if let Some(vcpu) = core.vcpus.get(&report.description.identifier) {
                let part = vcpu.pending_total(core.last) > 0;
                to.add(if part { "pending: a part came back" } else { "pending: all came back" });
                to.add_if(!vcpu.runnable(), "pending: came back to one not runnable");
            }
        }
    }
}

fn named(core: &Core, call: &Call) -> Option<Named> {
    let (Change::Wake(identifier) | Change::Block(identifier) | Change::Remove(identifier)) = call.change
    else {
        return None;
    };
    let vcpu = core.vcpus.get(&identifier)?;
    let holds = core.running == Some(identifier);
    let charge = if holds { call.time.saturating_sub(core.last) } else { 0 };
    Some(Named {
        kind: kind_of(&vcpu.description),
        runnable: vcpu.runnable(),
        holds,
        held: core.held(vcpu).saturating_add(charge),
        pending: vcpu.pending_total(call.time),
    })
}

const COUNTS: [&str; 4] = ["none", "one", "two", "several"];

/// The cases that a comparison must meet.
pub fn asked() -> Vec<String> {
    let mut all: Vec<String> = PLAIN.map(str::to_string).to_vec();
    let ends = ["end: by {}", "end: by {}, the first record", "end: by {}, ticks are held"];
    all.extend(of_each(&STOPS.map(|number| number.to_string()).each_ref().map(String::as_str), &ends));
    all.extend(of_each(&COUNTS, &["tenants: {}"]));
    all.extend(of_each(&WORDS, &["last: {}", "last: {} at the moment of a charge", "between: a refused {}"]));
    all.extend((0..=MOST_PENDING).map(|count| format!("pending: of {count} entries, with held ticks")));
    all.extend(row_cases::IN_ORDER.map(|row| format!("last: refused by {row}")));
    all.extend(of_each(&KINDS, &OF_EACH));
    all.extend(of_each(&KINDS[1..], &OF_REFILLED));
    let named = ["last: {} with pending ticks", "last: {} with held ticks that changes nothing"];
    all.extend(of_each(&["wake", "block"], &named));
    all
}

const OF_EACH: [&str; 11] = [
    "held: 0, {}",
    "held: above 0, {}",
    "held: above 32 bits, {}",
    "removed: back with no ticks, {}",
    "removed: back with held ticks, {}",
    "last: wake with held ticks, {}",
    "last: block with held ticks, {}",
    "last: removed with nothing held, {}",
    "last: removed by the call that charges it, {}",
    "last: removed holding the core, with nothing to charge, {}",
    "last: removed not holding the core, {}",
];

const OF_REFILLED: [&str; 3] = [
    "last: a boundary of one with held ticks, {}",
    "pending: 0 where ticks are used, {}",
    "usable: 0 with held ticks, {}",
];

const PLAIN: [&str; 41] = [
    "end: that of the input",
    "end: no record at all",
    "time: 0 with tenants on the card",
    "time: the largest",
    "time: above 32 bits",
    "idle: never",
    "idle: all the time, with tenants",
    "idle: above 32 bits",
    "idle: the largest time",
    "idle: before the first tenant",
    "idle: between",
    "idle: at the end",
    "idle: while one waits for ticks",
    "tenants: 32",
    "tenants: 32, all with held ticks",
    "tenants: equal low 16 bits, with held ticks",
    "tenants: the low 16 bits of one that left, with held ticks",
    "held: by one of each kind",
    "held: by one not runnable",
    "held: above 16 bits",
    "usable: above 16 bits",
    "usable: the largest",
    "pending: above 16 bits",
    "pending: all, and nothing usable",
    "pending: behind a new entry",
    "pending: behind a join",
    "pending: behind a fold",
    "pending: a part came back",
    "pending: all came back",
    "pending: came back to one not runnable",
    "removed: one with held ticks",
    "removed: several with held ticks",
    "removed: two stays of one identifier",
    "removed: and nobody is on the card",
    "removed: above 32 bits",
    "removed: above 32 bits by one stay",
    "removed: still remembered",
    "removed: forgotten",
    "last: refused and later, while one holds the core",
    "last: refused and later, in idle",
    "bytes behind a stop",
];

#[cfg(test)]
mod tests {
    use super::*;
    use crate::words;

    /// The cases that begin so at the end of records in words.
    fn met(text: &str, front: &str) -> Vec<String> {
        let (mut watch, mut reached) = (Watch::new(), Reached::default());
        text.lines().for_each(|line| watch.take(&words::record(line).unwrap()));
        watch.note(&mut reached);
        let met = asked().into_iter().filter(|case| reached.count(case) > 0);
        met.filter_map(|case| case.strip_prefix(front).map(str::to_string)).collect()
    }

    /// T 10 and C 8 of each kind; the polling one has its ticks from 10 on.
    #[test]
    fn a_removal_is_told_by_who_held_the_core() {
        for (kind, name) in (0..).zip(KINDS) {
            let start = format!("admit 0 id 1 T 10 C 8 pr 1 kind {kind}\n");
            let holds = format!("{start}wake 0 id 1\ntick {}\n", if kind == 2 { 10 } else { 0 });
            let at = if kind == 2 { 13 } else { 3 };
            let removed = |text: String| met(&text, "last: removed ");
            let by = |how: &str| vec![format!("{how}, {name}")];
            assert_eq!(removed(format!("{start}remove 3 id 1")), by("with nothing held"));
            assert_eq!(removed(format!("{holds}remove {at} id 1")), by("by the call that charges it"));
            let charged = format!("{holds}tick {at}\nremove {at} id 1");
            assert_eq!(removed(charged), by("holding the core, with nothing to charge"));
            let blocked = format!("{holds}block {at} id 1\nremove {at} id 1");
            assert_eq!(removed(blocked), by("not holding the core"));
        }
    }

    #[test]
    fn idle_ticks_are_told_by_when_they_came() {
        let idle = |calls: &str| met(calls, "idle: ");
        assert_eq!(idle("tick 3"), ["before the first tenant"]);
        let held = "admit 0 id 1 T 10 C 5 pr 1\nwake 0 id 1\ntick 5\n";
        assert_eq!(idle(held), ["never"]);
        let waits = format!("{held}tick 8\n");
        assert_eq!(idle(&waits), ["at the end", "while one waits for ticks"]);
        assert_eq!(idle(&format!("{waits}tick 10\ntick 11")), ["between"]);
        assert_eq!(idle(&format!("{waits}block 9 id 1\ntick 11")), ["at the end"]);
    }

    /// Slices at 0 and 3, which come back at 10 and 13.
    #[test]
    fn what_is_pending_is_told_by_the_last_call() {
        let start = "admit 0 id 1 T 10 C 5 pr 1\nwake 0 id 1\nblock 1 id 1\nwake 3 id 1\n";
        let pending = |calls: &str| met(&format!("{start}{calls}"), "pending: ");
        let of = |count: u32| format!("of {count} entries, with held ticks");
        assert_eq!(pending("tick 4"), ["behind a new entry".to_string(), of(2)]);
        assert_eq!(pending("tick 4\ntick 5"), ["behind a join".to_string(), of(2)]);
        let blocked = ["a part came back", "came back to one not runnable"].map(str::to_string);
        assert_eq!(pending("block 5 id 1\ntick 10"), [&blocked[..], &[of(1)]].concat());
        let all = ["all came back", "came back to one not runnable"].map(str::to_string);
        assert_eq!(pending("block 5 id 1\ntick 13"), [&all[..], &[of(0)]].concat());
    }

    #[test]
    fn a_refused_call_is_told_by_its_number_and_its_moment() {
        let start = "admit 0 id 1 T 10 C 5 pr 1\nwake 0 id 1\ntick 3\n";
        let last = |calls: &str| met(&format!("{start}{calls}"), "last: ");
        assert_eq!(last("wake 3 id 2"), ["refused by 7"]);
        assert_eq!(last("wake 4 id 2"), ["refused and later, while one holds the core", "refused by 7"]);
        assert_eq!(last("block 4 id 1\nwake 5 id 2"), ["refused and later, in idle", "refused by 7"]);
        assert_eq!(last("tick 6"), ["refused by 3"]);
        assert_eq!(last("tick 3"), ["tick", "tick at the moment of a charge"]);
        assert_eq!(met(&format!("{start}remove 4 id 2\ntick 5"), "between: "), ["a refused remove"]);
    }
}
