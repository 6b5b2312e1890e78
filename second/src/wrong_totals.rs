//! Cards whose totals have one fault each, to see that the comparison finds it and that `outside`
//! does. A card here is the second program's, but for the total, which it takes from the reports in
//! another way.

use crate::generate::Run;
use crate::lines::line;
use crate::records;
use crate::turns::{Call, Change, Charged, Core, Description, Reply, Report, Vcpu, MOST_VCPUS};
use crate::wrong_memories::{compared, differs, first_seen, from_outside, has_a_wrong_total};
use std::collections::BTreeMap;

#[derive(Clone, Copy, PartialEq, Debug)]
enum Fault {
    None,
    /// Without one of those on the card, or without that one of them by its place, the smaller
    /// identifiers first.
    Without(Who),
    WithoutPlace(usize),
    /// One of those on the card alone, or so many, the smaller identifiers first.
    Alone(Who),
    AtMost(usize),
    /// As it was before request 5.
    NoTotal,
    /// Those on the card behind step 3: one that the call removes is missing.
    BehindTheChange,
    /// One that the call admits has its capacity from it.
    TheAdmittedToo,
    /// What is lost in step 3 is taken off: a polling one that the call blocks brings nothing.
    LessWhatIsLost,
    /// Of one kind, one that such a call names.
    NamedLeftOut(u8, Word),
    NoneAt(Word),
    KindLeftOut(u8),
    RunnableAlone,
    RunnableBehindTheChange,
    /// A refill tells the capacity, or that for each boundary.
    RefillTellsCapacity,
    EachBoundary,
    /// The one that holds the core as it stood before the charge, if it is of that kind. What the
    /// charge of a sporadic one posts is due at once where C is T.
    BeforeTheCharge(u8),
    /// What a fold has added is missing.
    WithoutWhatFolded,
    /// The usable ticks, the pending ones, or how often something was due.
    Usable,
    Pending,
    Due,
    /// That of the call before it, always or at one moment.
    OneCallLate,
    AgainAtOneMoment,
    /// Of all calls so far.
    SinceTheStart,
    OneMore,
    OneLess,
    /// Cut to so many bits, or to so many ticks.
    Bits(u32),
    NoMoreThan(u64),
}

#[derive(Clone, Copy, PartialEq, Debug)]
enum Who {
    SmallestIdentifier,
    LargestIdentifier,
    MostUrgent,
    LeastUrgent,
    Holder,
    Chosen,
}

#[derive(Clone, Copy, PartialEq, Debug)]
enum Word {
    Admit,
    Wake,
    Block,
    Remove,
    Tick,
}

const WHO: [Who; 6] = [
    Who::SmallestIdentifier,
    Who::LargestIdentifier,
    Who::MostUrgent,
    Who::LeastUrgent,
    Who::Holder,
    Who::Chosen,
];

const WORDS: [Word; 5] = [Word::Admit, Word::Wake, Word::Block, Word::Remove, Word::Tick];

const PLAIN: [Fault; 17] = [
    Fault::NoTotal,
    Fault::BehindTheChange,
    Fault::TheAdmittedToo,
    Fault::LessWhatIsLost,
    Fault::RunnableAlone,
    Fault::RunnableBehindTheChange,
    Fault::RefillTellsCapacity,
    Fault::EachBoundary,
    Fault::WithoutWhatFolded,
    Fault::Usable,
    Fault::Pending,
    Fault::Due,
    Fault::OneCallLate,
    Fault::AgainAtOneMoment,
    Fault::SinceTheStart,
    Fault::OneMore,
    Fault::OneLess,
];

fn faults() -> Vec<Fault> {
    let mut all = PLAIN.to_vec();
    all.extend(WHO.map(Fault::Without));
    all.extend(WHO.map(Fault::Alone));
    all.extend([1, 2, 3, 4, 31].map(Fault::AtMost));
    all.extend((0..MOST_VCPUS).map(Fault::WithoutPlace));
    all.extend(WORDS.map(Fault::NoneAt));
    all.extend([8, 16, 20, 24].map(Fault::Bits));
    all.extend([65_535, 1_000_000, 31_999_999].map(Fault::NoMoreThan));
    for kind in 0..3 {
        all.extend([Fault::KindLeftOut(kind), Fault::BeforeTheCharge(kind)]);
        all.extend(WORDS[1..4].iter().map(|&word| Fault::NamedLeftOut(kind, word)));
    }
    all
}

fn word(change: &Change) -> Word {
    match change {
        Change::Admit(_) => Word::Admit,
        Change::Wake(_) => Word::Wake,
        Change::Block(_) => Word::Block,
        Change::Remove(_) => Word::Remove,
        Change::Tick => Word::Tick,
    }
}

fn names(change: &Change, report: &Report) -> bool {
    let own = report.description.identifier;
    [Change::Wake(own), Change::Block(own), Change::Remove(own)].contains(change)
}

/// What a fold has put into the last entry of one, and when that is due.
#[derive(Clone, Copy)]
struct Folded {
    due: u64,
    ticks: u64,
}

struct Card {
    fault: Fault,
    core: Core,
    /// The right total of the last accepted call, and of all.
    before: u64,
    since_the_start: u64,
    folded: BTreeMap<u32, Folded>,
}

/// An accepted call, and the card as it was.
struct Made<'a> {
    call: &'a Call,
    last: u64,
    held: Option<u32>,
    uncharged: u64,
}

impl Card {
    fn line(&mut self, call: &Call) -> String {
        let Core { last, running: held, .. } = self.core;
        let uncharged = self.uncharged(call.time);
        let answer = self.core.call(call);
        let Ok(reply) = answer else { return line(&answer) };
        let made = Made { call, last, held, uncharged };
        let total = self.total(&made, reply.total);
        self.before = reply.total;
        line(&Ok(Reply { total, ..reply }))
    }

    /// What a call at `now` would bring to the one that holds the core if it were not charged.
    fn uncharged(&self, now: u64) -> u64 {
        let last = self.core.last;
        let brought = |vcpu: &Vcpu| vcpu.usable(now.max(last)) - vcpu.usable(last);
        self.core.chosen().map_or(0, brought)
    }

    fn total(&mut self, made: &Made, right: u64) -> u64 {
        self.since_the_start += right;
        let missing = self.what_folded(made);
        match self.fault {
            Fault::NoTotal => 0,
            Fault::NoneAt(one) if one == word(&made.call.change) => 0,
            Fault::OneCallLate => self.before,
            Fault::AgainAtOneMoment if made.call.time == made.last => self.before,
            Fault::SinceTheStart => self.since_the_start,
            Fault::OneMore => right + u64::from(right > 0),
            Fault::OneLess => right.saturating_sub(1),
            Fault::Bits(bits) => right % (1 << bits),
            Fault::NoMoreThan(most) => right.min(most),
            Fault::WithoutWhatFolded => right - missing,
            Fault::TheAdmittedToo => right + self.admitted(made.call),
            Fault::WithoutPlace(place) => right - self.core.reports.get(place).map_or(0, |of| of.brought),
            Fault::AtMost(most) => self.core.reports.iter().take(most).map(|report| report.brought).sum(),
            _ => self.core.reports.iter().map(|report| self.told(report, made)).sum(),
        }
    }

    fn admitted(&self, call: &Call) -> u64 {
        match call.change {
            Change::Admit(description) => self.core.vcpus[&description.identifier].usable(call.time),
            _ => 0,
        }
    }

    /// What one that folded has back at this call of the ticks that joined by a fold.
    fn what_folded(&mut self, made: &Made) -> u64 {
        let Made { call, last, held, .. } = *made;
        if let (Charged::Fold, Some(held)) = (self.core.charged, held) {
            let report = self.core.reports.iter().find(|report| report.description.identifier == held);
            let due = last + u64::from(report.expect("it was charged").description.period);
            let earlier = self.folded.get(&held).filter(|folded| folded.due > last);
            let ticks = earlier.map_or(0, |folded| folded.ticks) + call.time - last;
            self.folded.insert(held, Folded { due, ticks });
        }
        let comes = |folded: &&Folded| last < folded.due && folded.due <= call.time;
        let missing = self.folded.values().filter(comes).map(|folded| folded.ticks).sum();
        if let Change::Remove(identifier) = call.change {
            self.folded.remove(&identifier);
        }
        missing
    }

    /// What the card with the fault counts of one report.
    fn told(&self, report: &Report, made: &Made) -> u64 {
        let Report { description, runnable, left, brought, due, .. } = *report;
        let identifier = description.identifier;
        let capacity = u64::from(description.capacity);
        let stands = self.core.vcpus.get(&identifier);
        let refilled = description.kind == 1 || description.kind == 2 && runnable;
        let counts = match self.fault {
            Fault::Without(who) => self.who(who, made) != Some(identifier),
            Fault::Alone(who) => self.who(who, made) == Some(identifier),
            Fault::BehindTheChange => stands.is_some(),
            Fault::LessWhatIsLost => stands.is_none_or(|vcpu| vcpu.usable(made.call.time) > 0),
            Fault::NamedLeftOut(kind, one) => {
                kind != description.kind
                    || one != word(&made.call.change)
                    || !names(&made.call.change, report)
            }
            Fault::KindLeftOut(kind) => kind != description.kind,
            Fault::RunnableAlone => runnable,
            Fault::RunnableBehindTheChange => stands.is_some_and(|vcpu| vcpu.runnable()),
            _ => true,
        };
        match self.fault {
            _ if !counts => 0,
            Fault::RefillTellsCapacity if refilled && due > 0 => capacity,
            Fault::EachBoundary if refilled && due > 0 => brought + (due - 1) * capacity,
            Fault::BeforeTheCharge(kind) if made.held == Some(identifier) && kind == description.kind => {
                made.uncharged
            }
            Fault::Usable => left + brought,
            Fault::Pending => capacity - left - brought,
            Fault::Due => due,
            _ => brought,
        }
    }

    fn who(&self, who: Who, made: &Made) -> Option<u32> {
        let all = self.core.reports.iter().map(|report| report.description);
        let urgency = |of: &Description| (of.priority, of.identifier);
        match who {
            Who::SmallestIdentifier => all.map(|of| of.identifier).min(),
            Who::LargestIdentifier => all.map(|of| of.identifier).max(),
            Who::MostUrgent => all.min_by_key(urgency).map(|of| of.identifier),
            Who::LeastUrgent => all.max_by_key(urgency).map(|of| of.identifier),
            Who::Holder => made.held,
            Who::Chosen => self.core.running,
        }
    }
}

/// What the card with the fault writes.
fn output(run: &Run, fault: Fault) -> String {
    let (before, since_the_start, folded) = Default::default();
    let mut card = Card { fault, core: Core::new(), before, since_the_start, folded };
    let line = |(record, right): (&Vec<u8>, &String)| match records::read(record) {
        Ok((call, _)) => card.line(&call),
        Err(_) => right.clone(),
    };
    run.records.iter().zip(&run.lines).map(line).collect()
}

#[test]
fn a_right_total_passes() {
    let right = |run: &Run| output(run, Fault::None);
    assert_eq!(first_seen(&compared(), right, differs), None);
    assert_eq!(first_seen(&from_outside(), right, has_a_wrong_total), None);
}

/// In the first thirty runs, the last nine of which begin with scripts of the totals. `outside`
/// counts the totals from the ticks held, and so sees what the comparison does.
#[test]
fn every_fault_is_seen() {
    let (compared, from_outside) = (compared(), from_outside());
    for fault in faults() {
        let wrong = |run: &Run| output(run, fault);
        let places =
            [first_seen(&compared, wrong, differs), first_seen(&from_outside, wrong, has_a_wrong_total)];
        assert!(places.iter().all(|place| place.is_some_and(|place| place < 30)), "{fault:?}: {places:?}");
    }
}
