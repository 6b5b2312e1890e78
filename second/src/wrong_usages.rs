//! Usage programs with one fault each, to see that the comparison finds it. One here makes the calls
//! with the second program's card and keeps its totals as running sums, which nothing there does.

use crate::compare_usage::compare;
use crate::held::SCRIPTS;
use crate::lines::Card;
use crate::reached::Reached;
use crate::records;
use crate::refusal::Refusal;
use crate::turns::{Call, Change, Charged, Core, Description, Vcpu, MOST_VCPUS};
use crate::usage_facts::Facts;
use crate::usage_lines::{Row, Told, Totals};
use crate::usage_runs::{self, Sent};
use std::collections::BTreeMap;

#[derive(Clone, Copy, PartialEq, Debug)]
pub enum Fault {
    None,
    /// By a call at the moment of the last one.
    HeldResetAtLast,
    /// By a wake or a block of the tenant, one that changes nothing too.
    HeldResetBy(Word),
    PendingResetBy(Word),
    /// What one held is not added to the removed at its removal, or not what the removing call
    /// charges, which is lost or goes to idle.
    RemovalDropsHeld,
    RemovalWithoutItsCharge,
    RemovalChargesIdle,
    /// Of one that held the core, or of one that did not.
    DropsHeldOf(bool),
    /// The removed lose what one held that comes back or is forgotten, or are the last one alone.
    BackTakesItsOwn,
    ForgottenTakesItsOwn,
    LastRemovedAlone,
    IdleToTheLastThatRan,
    IdleFromTheFirstTenant,
    /// Idle with a timer, or without one.
    NoIdle(bool),
    ChargesTheChosen,
    NotLowered,
    /// By a return that leaves something pending, or by one that leaves nothing.
    NotLoweredWhere(bool),
    /// To one not runnable.
    NotLoweredOfTheBlocked,
    NotRaisedBy(Charged),
    PendingOf(u8),
    /// Held is kept at the next admission, or pending.
    KeepsHeld,
    KeepsPending,
    /// A refused call, its time being right, is charged to idle, to a tenant, or to the time.
    RefusedIdle,
    RefusedHeld,
    RefusedTime,
    Bits(Number, u32),
    By16Bits,
    /// Of a refilled one: the first charge of a round alone, nothing before a boundary is passed, or
    /// what it held since the latest.
    FirstOfARound,
    AtTheBoundary,
    SinceTheBoundary,
    NothingOf(u8),
    /// Other rows: by urgency, of runnable ones, of those with ticks held, or without that place.
    ByUrgency,
    RunnableAlone,
    HeldAlone,
    WithoutPlace(usize),
    NoHeldAt(usize),
    /// Usable as it was before the returns of the last call.
    UsableBeforeReturns,
    /// All as it was before the last accepted call.
    OneCallLate,
    NoLastLine,
    NoOffset,
}

#[derive(Clone, Copy, PartialEq, Debug)]
pub enum Word {
    Wake,
    Block,
}

#[derive(Clone, Copy, PartialEq, Debug)]
pub enum Number {
    Time,
    Idle,
    Removed,
    Held,
    Pending,
    Usable,
}

const PLAIN: [Fault; 29] = [
    Fault::HeldResetAtLast,
    Fault::RemovalDropsHeld,
    Fault::RemovalWithoutItsCharge,
    Fault::RemovalChargesIdle,
    Fault::BackTakesItsOwn,
    Fault::ForgottenTakesItsOwn,
    Fault::LastRemovedAlone,
    Fault::IdleToTheLastThatRan,
    Fault::IdleFromTheFirstTenant,
    Fault::ChargesTheChosen,
    Fault::NotLowered,
    Fault::NotLoweredOfTheBlocked,
    Fault::KeepsHeld,
    Fault::KeepsPending,
    Fault::RefusedIdle,
    Fault::RefusedHeld,
    Fault::RefusedTime,
    Fault::By16Bits,
    Fault::FirstOfARound,
    Fault::AtTheBoundary,
    Fault::SinceTheBoundary,
    Fault::ByUrgency,
    Fault::RunnableAlone,
    Fault::HeldAlone,
    Fault::UsableBeforeReturns,
    Fault::OneCallLate,
    Fault::NoLastLine,
    Fault::NoOffset,
    Fault::PendingOf(2),
];

pub fn faults() -> Vec<Fault> {
    let mut all = PLAIN.to_vec();
    all.push(Fault::PendingOf(1));
    all.extend([Word::Wake, Word::Block].map(Fault::HeldResetBy));
    all.extend([Word::Wake, Word::Block].map(Fault::PendingResetBy));
    all.extend([false, true].map(Fault::DropsHeldOf));
    all.extend([false, true].map(Fault::NoIdle));
    all.extend([false, true].map(Fault::NotLoweredWhere));
    all.extend([Charged::Entry, Charged::Join, Charged::Fold].map(Fault::NotRaisedBy));
    all.extend([0, 1, 2].map(Fault::NothingOf));
    for number in [Number::Time, Number::Idle, Number::Removed, Number::Held] {
        all.extend([16, 32].map(|bits| Fault::Bits(number, bits)));
    }
    for number in [Number::Pending, Number::Usable] {
        all.extend([8, 16].map(|bits| Fault::Bits(number, bits)));
    }
    all.extend((0..MOST_VCPUS).map(Fault::WithoutPlace));
    all.extend((0..MOST_VCPUS).map(Fault::NoHeldAt));
    all
}

impl Fault {
    /// Thousands of calls, or all the places, are more than the generator's runs have.
    pub fn takes_a_script(&self) -> bool {
        matches!(self, Fault::Bits(_, 32) | Fault::NoHeldAt(8..))
    }
}

/// The sums of one tenant.
#[derive(Clone, Copy, Default)]
struct Sums {
    held: u64,
    pending: u64,
    /// Usable as the charge of the last call left it.
    left: u64,
    /// Ticks of a round that are not counted yet, and whether some are.
    waiting: u64,
    charged: bool,
}

/// What a call met.
struct Made<'a> {
    call: &'a Call,
    last: u64,
    holder: Option<u32>,
    timer: bool,
}

struct Usage {
    fault: Fault,
    core: Core,
    time: u64,
    idle: u64,
    removed: u64,
    /// Those on the card, and what those held that left.
    sums: BTreeMap<u32, Sums>,
    gone: BTreeMap<u32, Sums>,
    ran: Option<u32>,
    before: Totals,
}

impl Usage {
    fn new(fault: Fault) -> Usage {
        let (time, idle, removed, sums, gone, before) = Default::default();
        Usage { fault, core: Core::new(), time, idle, removed, sums, gone, ran: None, before }
    }

    fn key(&self, identifier: u32) -> u32 {
        match self.fault {
            Fault::By16Bits => identifier & 0xffff,
            _ => identifier,
        }
    }

    fn sums(&mut self, identifier: u32) -> &mut Sums {
        let key = self.key(identifier);
        self.sums.entry(key).or_default()
    }

    fn take(&mut self, call: &Call) {
        let before = (self.fault == Fault::OneCallLate).then(|| self.totals());
        let Core { last, running: holder, timer, .. } = self.core;
        let made = Made { call, last, holder, timer: timer.is_some() };
        match self.core.call(call) {
            Ok(_) => {
                self.before = before.unwrap_or_default();
                self.time = call.time;
                self.charge(&made);
                self.bring_in();
                self.change(&made);
                self.forget();
            }
            Err(refusal) => self.refuse(&made, &refusal),
        }
    }

    /// Rows 1 to 3 are of a time that is wrong itself.
    fn refuse(&mut self, made: &Made, refusal: &Refusal) {
        if refusal.number <= 3 {
            return;
        }
        let ticks = made.call.time - made.last;
        match (self.fault, made.holder) {
            (Fault::RefusedIdle, None) => self.idle += ticks,
            (Fault::RefusedHeld, Some(holder)) => self.sums(holder).held += ticks,
            (Fault::RefusedTime, _) => self.time = made.call.time,
            _ => (),
        }
    }

    fn charge(&mut self, made: &Made) {
        let ticks = made.call.time - made.last;
        let charged = match self.fault {
            Fault::ChargesTheChosen => self.core.running,
            _ => made.holder,
        };
        if self.fault == Fault::HeldResetAtLast && ticks == 0 {
            self.sums.values_mut().for_each(|sums| sums.held = 0);
        }
        match charged.filter(|_| ticks > 0) {
            Some(holder) => {
                self.charge_one(holder, ticks, made);
                self.ran = Some(holder);
            }
            None => self.charge_idle(ticks, made),
        }
    }

    fn charge_idle(&mut self, ticks: u64, made: &Made) {
        let ran = self.ran.filter(|ran| self.core.reports.iter().any(|of| of.description.identifier == *ran));
        match (self.fault, ran) {
            (Fault::IdleToTheLastThatRan, Some(ran)) => self.sums(ran).held += ticks,
            (Fault::IdleFromTheFirstTenant, _) if self.core.reports.is_empty() && self.removed == 0 => (),
            (Fault::NoIdle(timer), _) if timer == made.timer => (),
            _ => self.idle += ticks,
        }
    }

    /// The reports have all that were on the card before the change.
    fn charge_one(&mut self, holder: u32, ticks: u64, made: &Made) {
        let Some(report) = self.core.reports.iter().find(|of| of.description.identifier == holder) else {
            return;
        };
        let (kind, left, passes) = (report.description.kind, report.left, report.due > 0);
        let (charged, fault) = (self.core.charged, self.fault);
        let removes = made.call.change == Change::Remove(holder);
        if removes && fault == Fault::RemovalChargesIdle {
            self.idle += ticks;
        }
        let counts = match fault {
            Fault::RemovalWithoutItsCharge | Fault::RemovalChargesIdle => !removes,
            Fault::NothingOf(none) => none != kind,
            Fault::AtTheBoundary => kind == 0,
            _ => true,
        };
        let sums = self.sums(holder);
        let again = fault == Fault::FirstOfARound && kind > 0 && sums.charged;
        sums.held += if counts && !again { ticks } else { 0 };
        sums.waiting += ticks;
        sums.charged = !passes;
        let raises = kind == 0 || fault == Fault::PendingOf(kind);
        sums.pending += if raises && fault != Fault::NotRaisedBy(charged) { ticks } else { 0 };
        sums.left = left;
    }

    fn bring_in(&mut self) {
        let fault = self.fault;
        for report in self.core.reports.clone() {
            let Description { identifier, kind, .. } = report.description;
            let sums = self.sums(identifier);
            sums.left = report.left;
            if report.due > 0 && kind > 0 {
                sums.charged = false;
                sums.held += if fault == Fault::AtTheBoundary { sums.waiting } else { 0 };
                sums.held = if fault == Fault::SinceTheBoundary { 0 } else { sums.held };
                sums.waiting = 0;
            }
            let lowers = match fault {
                Fault::NotLowered => false,
                Fault::NotLoweredWhere(something) => something != report.next.is_some(),
                Fault::NotLoweredOfTheBlocked => report.runnable,
                _ => true,
            };
            let lowers = lowers && (kind == 0 || fault == Fault::PendingOf(kind));
            sums.pending = sums.pending.saturating_sub(if lowers { report.brought } else { 0 });
        }
    }

    fn change(&mut self, made: &Made) {
        match (made.call.change, self.fault) {
            (Change::Admit(description), _) => self.admit(&description),
            (Change::Remove(identifier), _) => self.remove(identifier, made),
            (Change::Wake(identifier), Fault::HeldResetBy(Word::Wake))
            | (Change::Block(identifier), Fault::HeldResetBy(Word::Block)) => self.sums(identifier).held = 0,
            (Change::Wake(identifier), Fault::PendingResetBy(Word::Wake))
            | (Change::Block(identifier), Fault::PendingResetBy(Word::Block)) => {
                self.sums(identifier).pending = 0
            }
            _ => (),
        }
    }

    fn admit(&mut self, description: &Description) {
        let identifier = description.identifier;
        let former = self.gone.get(&identifier).copied().unwrap_or_default();
        let new = match self.fault {
            Fault::KeepsHeld => Sums { held: former.held, ..Sums::default() },
            Fault::KeepsPending => Sums { pending: former.pending, ..Sums::default() },
            Fault::By16Bits => *self.sums(identifier),
            _ => Sums::default(),
        };
        if self.fault == Fault::BackTakesItsOwn {
            self.removed -= former.held;
            self.gone.remove(&identifier);
        }
        *self.sums(identifier) = Sums { left: self.core.vcpus[&identifier].usable(self.core.last), ..new };
    }

    fn remove(&mut self, identifier: u32, made: &Made) {
        let key = self.key(identifier);
        let sums = self.sums.remove(&key).unwrap_or_default();
        let holds = made.holder == Some(identifier);
        self.removed = match self.fault {
            Fault::RemovalDropsHeld => self.removed,
            Fault::DropsHeldOf(one) if one == holds => self.removed,
            Fault::LastRemovedAlone => sums.held,
            _ => self.removed + sums.held,
        };
        let former = self.gone.get(&identifier).map_or(0, |sums| sums.held);
        self.gone.insert(identifier, Sums { held: former + sums.held, ..sums });
    }

    fn forget(&mut self) {
        let remembered = &self.core.remembered;
        if self.fault == Fault::ForgottenTakesItsOwn {
            let forgotten = self.gone.extract_if(.., |identifier, _| !remembered.contains_key(identifier));
            self.removed -= forgotten.map(|(_, sums)| sums.held).sum::<u64>();
        }
    }

    fn cut(&self, number: Number, right: u64) -> u64 {
        match self.fault {
            Fault::Bits(cut, bits) if cut == number => right % (1 << bits),
            _ => right,
        }
    }

    fn row(&self, place: usize, vcpu: &Vcpu) -> Row {
        let identifier = vcpu.description.identifier;
        let sums = self.sums.get(&self.key(identifier)).copied().unwrap_or_default();
        let held = if self.fault == Fault::NoHeldAt(place) { 0 } else { sums.held };
        let usable = match self.fault {
            Fault::UsableBeforeReturns => sums.left,
            _ => vcpu.usable(self.core.last),
        };
        let (held, pending) = (self.cut(Number::Held, held), self.cut(Number::Pending, sums.pending));
        Row { identifier, held, pending, usable: self.cut(Number::Usable, usable) }
    }

    fn totals(&self) -> Totals {
        let mut vcpus: Vec<&Vcpu> = self.core.vcpus.values().collect();
        if self.fault == Fault::ByUrgency {
            vcpus.sort_by_key(|vcpu| (vcpu.description.priority, vcpu.description.identifier));
        }
        let rows = vcpus.into_iter().enumerate();
        let shown = |(place, vcpu): &(usize, &Vcpu)| match self.fault {
            Fault::RunnableAlone => vcpu.runnable(),
            Fault::WithoutPlace(without) => without != *place,
            _ => true,
        };
        let rows = rows.filter(shown).map(|(place, vcpu)| self.row(place, vcpu));
        let tenants = rows.filter(|row| self.fault != Fault::HeldAlone || row.held > 0).collect();
        let (time, idle) = (self.cut(Number::Time, self.time), self.cut(Number::Idle, self.idle));
        Totals { time, idle, removed: self.cut(Number::Removed, self.removed), tenants }
    }

    fn told(&self, stopped: Option<Refusal>) -> Told {
        let late = self.fault == Fault::OneCallLate;
        let totals = if late { self.before.clone() } else { self.totals() };
        let refusal = match self.fault {
            Fault::NoLastLine => None,
            Fault::NoOffset => stopped.map(|refusal| Refusal { detail: 0, ..refusal }),
            _ => stopped,
        };
        Told { totals, refusal }
    }
}

/// What the program with the fault tells for an input.
pub fn told(input: &[u8], fault: Fault) -> Told {
    let (mut usage, mut rest) = (Usage::new(fault), input);
    while let Ok((call, length)) = records::read(rest) {
        usage.take(&call);
        rest = &rest[length..];
    }
    let mut card = Card::after(Core::new(), (input.len() - rest.len()) as u64);
    card.take(rest);
    card.end();
    usage.told(card.stopped())
}

/// The first inputs of a comparison.
fn inputs() -> Vec<Sent> {
    (0..300).map(|place| usage_runs::at(1, place)).collect()
}

/// The place of the first input that shows the fault.
fn first_seen(inputs: &[Sent], fault: Fault) -> Option<usize> {
    let program = |input: &[u8]| Ok(told(input, fault).lines().into_bytes());
    inputs.iter().position(|sent| compare(sent, program, &mut Reached::default()).is_err())
}

/// What is counted from the history is what running sums give, after every call.
#[test]
fn right_sums_pass() {
    assert_eq!(first_seen(&inputs(), Fault::None), None);
}

/// In the first thirty inputs, most of which are scripts.
#[test]
fn every_fault_is_seen() {
    let inputs = inputs();
    for fault in faults() {
        let place = first_seen(&inputs, fault);
        assert!(place.is_some_and(|place| place < 30), "{fault:?}: {place:?}");
    }
}

/// But for what takes thousands of calls or all the places, the generator's runs see it too.
#[test]
fn most_faults_are_seen_without_the_scripts() {
    let mut inputs = inputs();
    let runs = inputs.split_off(SCRIPTS.len());
    for fault in faults().into_iter().filter(|fault| !fault.takes_a_script()) {
        assert!(first_seen(&runs, fault).is_some(), "{fault:?}");
    }
}

/// Whether the lines alone show the fault, with no second card beside them.
fn is_no_fact(sent: &Sent, fault: Fault) -> bool {
    let mut facts = Facts::default();
    sent.records(usize::MAX).iter().for_each(|record| facts.take(record));
    sent.ends.iter().any(|&end| facts.check(&told(&sent.input(end), fault)).is_err())
}

#[test]
fn what_does_not_add_up_is_seen_from_the_lines_alone() {
    let inputs = inputs();
    let seen = |fault| inputs.iter().any(|sent| is_no_fact(sent, fault));
    assert!(!seen(Fault::None));
    let wrong = [
        Fault::HeldResetAtLast,
        Fault::HeldResetBy(Word::Wake),
        Fault::PendingResetBy(Word::Block),
        Fault::RemovalDropsHeld,
        Fault::RemovalWithoutItsCharge,
        Fault::BackTakesItsOwn,
        Fault::LastRemovedAlone,
        Fault::NoIdle(false),
        Fault::NotLowered,
        Fault::NotRaisedBy(Charged::Join),
        Fault::NotRaisedBy(Charged::Fold),
        Fault::PendingOf(1),
        Fault::KeepsHeld,
        Fault::RefusedIdle,
        Fault::RefusedHeld,
        Fault::Bits(Number::Held, 32),
        Fault::By16Bits,
        Fault::FirstOfARound,
        Fault::HeldAlone,
        Fault::ByUrgency,
    ];
    for fault in wrong {
        assert!(seen(fault), "{fault:?}");
    }
}
