//! Turns: the section "What a call does" of the scope paper with requests 1 to 6, read plainly. A
//! VCPU keeps what it used and since when it is runnable; what is pending or usable at a
//! moment is counted from that, so that the step "Return", refills included, is the passing
//! of time: what it brought is what is usable more at its end than at its start. What is
//! remembered of a removed one is a time, and whether that has come is counted in the same way.
//! The totals of request 6 are counted from the history when they are asked for.

use crate::history::History;
use crate::refusal::{refuse, refuse_with, Refusal};
use std::collections::BTreeMap;

pub const LARGEST_TIME: u64 = 1_000_000_000_000;
pub const LARGEST_IDENTIFIER: u32 = 0xff_ffff;
pub const LARGEST_PERIOD: u32 = 1_000_000;
pub const MOST_VCPUS: usize = 32;
pub const MOST_PENDING: usize = 8;

#[derive(Clone, Copy, PartialEq, Eq, Debug)]
pub struct Description {
    pub identifier: u32,
    pub period: u32,
    pub capacity: u32,
    pub priority: u8,
    /// The byte that was asked for: 0 sporadic, 1 deferrable, 2 polling; others are refused.
    pub kind: u8,
}

#[derive(Clone, Copy, PartialEq, Eq, Debug)]
pub enum Change {
    Admit(Description),
    Wake(u32),
    Block(u32),
    Remove(u32),
    Tick,
}

#[derive(Clone, Copy, PartialEq, Eq, Debug)]
pub struct Call {
    pub time: u64,
    pub change: Change,
}

#[derive(Clone, Copy, PartialEq, Eq, Debug)]
pub struct Reply {
    pub time: u64,
    pub run: Option<u32>,
    pub usable: u64,
    pub timer: Option<u64>,
    /// All ticks that step 2 brought.
    pub total: u64,
}

/// What step 1 did.
#[derive(Clone, Copy, PartialEq, Eq, Debug)]
pub enum Charged {
    Nobody,
    Nothing,
    Entry,
    Join,
    Fold,
    /// Ticks of one that has no queue.
    Taken,
}

/// What step 2 did for one VCPU, and what that is told from.
#[derive(Clone, Copy, PartialEq, Eq, Debug)]
pub struct Report {
    pub description: Description,
    /// Before the call.
    pub runnable: bool,
    /// The usable ticks that step 1 left it.
    pub left: u64,
    pub brought: u64,
    /// How many entries have returned, or how many boundaries were passed.
    pub due: u64,
    /// The earliest time still pending, or the next boundary.
    pub next: Option<u64>,
}

/// Ticks that were used, and when they come back.
#[derive(Clone, Copy, PartialEq, Eq, Debug)]
struct Entry {
    due: u64,
    amount: u64,
}

/// What a kind keeps of its own.
#[derive(Clone, Debug)]
enum Kept {
    /// Every entry that it was ever charged, and where its latest use ended.
    Sporadic {
        entries: Vec<Entry>,
        use_ended: Option<u64>,
    },
    Deferrable(Round),
    Polling(Round),
}

/// A round goes from the admission, or from a boundary, to the next boundary. Kept are the
/// number of the latest one with any use, and the ticks used in it.
#[derive(Clone, Copy, Debug)]
struct Round {
    admitted: u64,
    period: u64,
    number: u64,
    used: u64,
}

impl Round {
    fn first(admitted: u64, period: u32) -> Round {
        Round { admitted, period: u64::from(period), number: 0, used: 0 }
    }

    /// How many boundaries have passed at a moment, those at it too.
    fn number(&self, moment: u64) -> u64 {
        (moment - self.admitted) / self.period
    }

    fn next_boundary(&self, moment: u64) -> u64 {
        self.admitted + (self.number(moment) + 1) * self.period
    }

    fn used(&self, moment: u64) -> u64 {
        if self.number(moment) == self.number {
            self.used
        } else {
            0
        }
    }

    /// No use goes on over a boundary: the timer is not later, so it is all of one round.
    fn charge(&mut self, last: u64, now: u64) {
        let used = self.used(last) + now - last;
        (self.number, self.used) = (self.number(last), used);
    }
}

#[derive(Clone, Debug)]
pub struct Vcpu {
    pub description: Description,
    admitted: u64,
    /// The call from which on it has been runnable, if it is.
    woken: Option<u64>,
    kept: Kept,
}

impl Vcpu {
    /// None for an unknown kind.
    fn new(description: Description, now: u64) -> Option<Vcpu> {
        let round = Round::first(now, description.period);
        let kept = match description.kind {
            0 => Kept::Sporadic { entries: Vec::new(), use_ended: None },
            1 => Kept::Deferrable(round),
            2 => Kept::Polling(round),
            _ => return None,
        };
        Some(Vcpu { description, admitted: now, woken: None, kept })
    }

    pub fn runnable(&self) -> bool {
        self.woken.is_some()
    }

    /// A wake of a runnable one changes nothing.
    fn set_runnable(&mut self, runnable: bool, now: u64) {
        self.woken = if runnable { self.woken.or(Some(now)) } else { None };
    }

    pub fn use_ended(&self) -> Option<u64> {
        match self.kept {
            Kept::Sporadic { use_ended, .. } => use_ended,
            _ => None,
        }
    }

    /// The entries not yet returned at a moment, the latest first. Later entries are due
    /// later, so the first one returned ends the search.
    fn pending(&self, moment: u64) -> impl Iterator<Item = &Entry> {
        let entries: &[Entry] = match &self.kept {
            Kept::Sporadic { entries, .. } => entries,
            _ => &[],
        };
        entries.iter().rev().take_while(move |entry| entry.due > moment)
    }

    pub fn pending_count(&self, moment: u64) -> usize {
        self.pending(moment).count()
    }

    /// The ticks of all entries that are pending at a moment.
    pub fn pending_total(&self, moment: u64) -> u64 {
        self.pending(moment).map(|entry| entry.amount).sum()
    }

    pub fn usable(&self, moment: u64) -> u64 {
        let capacity = u64::from(self.description.capacity);
        match &self.kept {
            Kept::Sporadic { .. } => capacity - self.pending_total(moment),
            Kept::Deferrable(round) => capacity - round.used(moment),
            Kept::Polling(round) if self.polled(round, moment) => capacity - round.used(moment),
            Kept::Polling(_) => 0,
        }
    }

    /// Whether it was runnable just before the call that passed its latest boundary, and
    /// ever since. The call that woke it had passed all boundaries up to its own time.
    fn polled(&self, round: &Round, moment: u64) -> bool {
        self.woken.is_some_and(|woken| round.number(woken) < round.number(moment))
    }

    /// Of the kinds that have one.
    pub fn next_boundary(&self, moment: u64) -> Option<u64> {
        self.round().map(|round| round.next_boundary(moment))
    }

    /// How many boundaries a call at `now` passes, where the last one was at `last`.
    pub fn boundaries_passed(&self, last: u64, now: u64) -> u64 {
        self.round().map_or(0, |round| round.number(now) - round.number(last))
    }

    fn round(&self) -> Option<&Round> {
        match &self.kept {
            Kept::Sporadic { .. } => None,
            Kept::Deferrable(round) | Kept::Polling(round) => Some(round),
        }
    }

    pub fn earliest_return(&self, moment: u64) -> Option<u64> {
        self.pending(moment).map(|entry| entry.due).min()
    }

    /// When so many of the entries that are pending at a moment have come back.
    pub fn return_of(&self, count: usize, moment: u64) -> u64 {
        (0..count).fold(moment, |due, _| self.earliest_return(due).expect("so many are pending"))
    }

    pub fn latest_return(&self, moment: u64) -> Option<u64> {
        self.pending(moment).map(|entry| entry.due).max()
    }

    /// Up to when it is remembered if it is removed at a moment: its next boundary, or its
    /// latest pending return.
    fn remembered_until(&self, moment: u64) -> Option<u64> {
        self.next_boundary(moment).or_else(|| self.latest_return(moment))
    }

    /// When ticks may come to it next: its earliest return, or its next boundary.
    fn comes_next(&self, moment: u64) -> Option<u64> {
        self.next_boundary(moment).or_else(|| self.earliest_return(moment))
    }

    /// Step 2 of a call at `now` for one that was charged up to then, the last call being at
    /// `last`. All that the charge has posted is pending at `last`.
    fn report(&self, last: u64, now: u64) -> Report {
        let left = self.usable(last);
        let returned = self.pending_count(last) - self.pending_count(now);
        Report {
            description: self.description,
            runnable: self.runnable(),
            left,
            brought: self.usable(now) - left,
            due: returned as u64 + self.boundaries_passed(last, now),
            next: self.comes_next(now),
        }
    }

    /// The same VCPU, the entries that have returned at a moment left out.
    pub fn without_history(&self, moment: u64) -> Vcpu {
        let kept = match self.kept {
            Kept::Sporadic { use_ended, .. } => {
                // They are given the latest first, and kept the oldest first.
                let mut entries: Vec<Entry> = self.pending(moment).copied().collect();
                entries.reverse();
                Kept::Sporadic { entries, use_ended }
            }
            Kept::Deferrable(round) => Kept::Deferrable(round),
            Kept::Polling(round) => Kept::Polling(round),
        };
        Vcpu { kept, ..*self }
    }

    /// Smaller is more urgent.
    fn urgency(&self) -> (u8, u32) {
        (self.description.priority, self.description.identifier)
    }

    pub fn more_urgent_than(&self, other: &Vcpu) -> bool {
        self.urgency() < other.urgency()
    }

    /// Step 1 for the VCPU that held the core from `last` to `now`.
    fn charge(&mut self, last: u64, now: u64) -> Charged {
        if now == last {
            return Charged::Nothing;
        }
        let pending = self.pending_count(last);
        let due = last + u64::from(self.description.period);
        match &mut self.kept {
            Kept::Sporadic { entries, use_ended } => {
                let goes_on = use_ended.replace(now) == Some(last) && pending > 0;
                post(entries, Entry { due, amount: now - last }, goes_on, pending)
            }
            Kept::Deferrable(round) | Kept::Polling(round) => {
                round.charge(last, now);
                Charged::Taken
            }
        }
    }
}

/// Posts a return; a use that goes on joins the last one, whose time stays.
fn post(entries: &mut Vec<Entry>, new: Entry, goes_on: bool, pending: usize) -> Charged {
    match entries.last_mut() {
        Some(entry) if goes_on => {
            entry.amount += new.amount;
            Charged::Join
        }
        Some(entry) if pending == MOST_PENDING => {
            *entry = Entry { due: new.due, amount: entry.amount + new.amount };
            Charged::Fold
        }
        _ => {
            entries.push(new);
            Charged::Entry
        }
    }
}

#[derive(Clone, Debug)]
pub struct Core {
    pub last: u64,
    pub running: Option<u32>,
    pub timer: Option<u64>,
    pub vcpus: BTreeMap<u32, Vcpu>,
    /// The identifiers that were removed, each with its time.
    pub remembered: BTreeMap<u32, u64>,
    /// What steps 1 and 2 of the last accepted call did.
    pub charged: Charged,
    pub reports: Vec<Report>,
    history: History,
}

impl Core {
    /// The empty card.
    pub fn new() -> Core {
        Core {
            last: 0,
            running: None,
            timer: None,
            vcpus: BTreeMap::new(),
            remembered: BTreeMap::new(),
            charged: Charged::Nobody,
            reports: Vec::new(),
            history: History::default(),
        }
    }

    pub fn call(&mut self, call: &Call) -> Result<Reply, Refusal> {
        self.validate_time(call.time)?;
        self.validate_change(call)?;
        self.history.add(self.running, self.last, call.time);
        self.charge(call.time);
        let report = |vcpu: &Vcpu| vcpu.report(self.last, call.time);
        self.reports = self.vcpus.values().map(report).collect();
        self.last = call.time;
        self.remembered.retain(|_, until| call.time < *until);
        self.change(&call.change);
        self.running = self.choose();
        self.timer = self.next_timer();
        Ok(self.reply())
    }

    /// Rows 1 to 3.
    fn validate_time(&self, time: u64) -> Result<(), Refusal> {
        if time > LARGEST_TIME {
            return refuse(1);
        }
        if time < self.last {
            return refuse(2);
        }
        match self.timer {
            Some(timer) if time > timer => refuse_with(3, timer),
            _ => Ok(()),
        }
    }

    /// Rows 4 to 8, with 11, 12 and 10 behind 5, and 9 behind 6.
    fn validate_change(&self, call: &Call) -> Result<(), Refusal> {
        match &call.change {
            Change::Tick => Ok(()),
            Change::Admit(description) => self.validate_admit(description, call.time),
            Change::Wake(identifier) | Change::Block(identifier) | Change::Remove(identifier) => {
                if *identifier > LARGEST_IDENTIFIER {
                    return refuse(4);
                }
                if !self.vcpus.contains_key(identifier) {
                    return refuse(7);
                }
                Ok(())
            }
        }
    }

    fn validate_admit(&self, description: &Description, now: u64) -> Result<(), Refusal> {
        let Description { identifier, period, capacity, .. } = *description;
        if identifier > LARGEST_IDENTIFIER {
            return refuse(4);
        }
        if !(1..=LARGEST_PERIOD).contains(&period) {
            return refuse(5);
        }
        if capacity == 0 {
            return refuse(11);
        }
        if capacity > period {
            return refuse(12);
        }
        if Vcpu::new(*description, self.last).is_none() {
            return refuse(10);
        }
        if self.vcpus.contains_key(&identifier) {
            return refuse(6);
        }
        if let Some(until) = self.remembered_until(identifier, now) {
            return refuse_with(9, until);
        }
        if self.vcpus.len() + self.remembered_count(now) >= MOST_VCPUS {
            return refuse(8);
        }
        Ok(())
    }

    /// The time of an identifier that is remembered at a moment. Once its time has come it is
    /// not, though no call may have come since.
    pub fn remembered_until(&self, identifier: u32, moment: u64) -> Option<u64> {
        self.remembered.get(&identifier).copied().filter(|&until| moment < until)
    }

    pub fn remembered_count(&self, moment: u64) -> usize {
        self.remembered.values().filter(|&&until| moment < until).count()
    }

    fn charge(&mut self, now: u64) {
        let last = self.last;
        self.charged = match self.running.and_then(|identifier| self.vcpus.get_mut(&identifier)) {
            Some(vcpu) => vcpu.charge(last, now),
            None => Charged::Nobody,
        };
    }

    fn change(&mut self, change: &Change) {
        match *change {
            Change::Admit(description) => {
                let vcpu = Vcpu::new(description, self.last).expect("a known kind");
                self.vcpus.insert(description.identifier, vcpu);
            }
            Change::Wake(identifier) => self.set_runnable(identifier, true),
            Change::Block(identifier) => self.set_runnable(identifier, false),
            Change::Remove(identifier) => self.remove(identifier),
            Change::Tick => (),
        }
    }

    fn remove(&mut self, identifier: u32) {
        let Some(vcpu) = self.vcpus.remove(&identifier) else { return };
        if let Some(until) = vcpu.remembered_until(self.last) {
            self.remembered.insert(identifier, until);
        }
    }

    fn set_runnable(&mut self, identifier: u32, runnable: bool) {
        if let Some(vcpu) = self.vcpus.get_mut(&identifier) {
            vcpu.set_runnable(runnable, self.last);
        }
    }

    /// Step 4: the most urgent VCPU that is runnable and has usable ticks.
    fn choose(&self) -> Option<u32> {
        let able = self.vcpus.values().filter(|vcpu| vcpu.runnable() && vcpu.usable(self.last) > 0);
        able.min_by_key(|vcpu| vcpu.urgency()).map(|vcpu| vcpu.description.identifier)
    }

    /// The ticks that one on the card has held since its admission.
    pub fn held(&self, vcpu: &Vcpu) -> u64 {
        self.history.held(vcpu.description.identifier, vcpu.admitted)
    }

    /// The ticks that all stays held which have ended.
    pub fn held_by_removed(&self) -> u64 {
        self.history.removed(|identifier| self.vcpus.get(&identifier).map(|vcpu| vcpu.admitted))
    }

    /// The ticks up to the last accepted call during which nobody held the core.
    pub fn idle(&self) -> u64 {
        self.history.idle()
    }

    pub fn chosen(&self) -> Option<&Vcpu> {
        self.running.map(|identifier| &self.vcpus[&identifier])
    }

    /// The one that holds the core, as step 1 of a call at `now` leaves it.
    pub fn holder_charged(&self, now: u64) -> Option<Vcpu> {
        let mut holder = self.chosen()?.without_history(self.last);
        holder.charge(self.last, now);
        Some(holder)
    }

    /// The earliest reported time of a runnable VCPU more urgent than the chosen one; in idle, of
    /// any runnable VCPU. One that the call admitted has no report, and is not runnable.
    pub fn awaited(&self) -> Option<u64> {
        let chosen = self.chosen();
        let counts = |vcpu: &Vcpu| vcpu.runnable() && chosen.is_none_or(|other| vcpu.more_urgent_than(other));
        let stands = |report: &&Report| self.vcpus.get(&report.description.identifier).is_some_and(counts);
        self.reports.iter().filter(stands).filter_map(|report| report.next).min()
    }

    /// The boundary that was reported of the chosen one; a sporadic one has none.
    fn own_boundary(&self) -> Option<u64> {
        let own = self.running?;
        let is_own = |of: &Description| of.identifier == own && of.kind != 0;
        self.reports.iter().find(|report| is_own(&report.description))?.next
    }

    fn next_timer(&self) -> Option<u64> {
        let used_up = self.chosen().map(|vcpu| self.last + vcpu.usable(self.last));
        [used_up, self.own_boundary(), self.awaited()].into_iter().flatten().min()
    }

    fn reply(&self) -> Reply {
        let usable = self.chosen().map_or(0, |vcpu| vcpu.usable(self.last));
        let total = self.reports.iter().map(|report| report.brought).sum();
        Reply { time: self.last, run: self.running, usable, timer: self.timer, total }
    }
}

#[cfg(test)]
mod tests {
    use super::*;
    use crate::row_cases::TERMS;

    fn admit(time: u64, identifier: u32, period: u32, capacity: u32, priority: u8) -> Call {
        of_kind(0, admit_terms(identifier, period, capacity, priority), time)
    }

    fn admit_terms(identifier: u32, period: u32, capacity: u32, priority: u8) -> Description {
        Description { identifier, period, capacity, priority, kind: 0 }
    }

    fn of_kind(kind: u8, description: Description, time: u64) -> Call {
        Call { time, change: Change::Admit(Description { kind, ..description }) }
    }

    fn wake(time: u64, identifier: u32) -> Call {
        Call { time, change: Change::Wake(identifier) }
    }

    fn block(time: u64, identifier: u32) -> Call {
        Call { time, change: Change::Block(identifier) }
    }

    fn remove(time: u64, identifier: u32) -> Call {
        Call { time, change: Change::Remove(identifier) }
    }

    fn tick(time: u64) -> Call {
        Call { time, change: Change::Tick }
    }

    fn core(calls: &[Call]) -> Core {
        let mut core = Core::new();
        for call in calls {
            core.call(call).unwrap_or_else(|refusal| panic!("{call:?}: {refusal:?}"));
        }
        core
    }

    fn entries(core: &Core, identifier: u32) -> &[Entry] {
        match &core.vcpus[&identifier].kept {
            Kept::Sporadic { entries, .. } => entries,
            kept => panic!("{kept:?} has no entries"),
        }
    }

    fn ran(core: &mut Core, call: Call) -> (Option<u32>, u64, Option<u64>) {
        let reply = core.call(&call).unwrap();
        (reply.run, reply.usable, reply.timer)
    }

    fn number(core: &Core, call: Call) -> (u32, u64) {
        let refusal = core.clone().call(&call).unwrap_err();
        (refusal.number, refusal.detail)
    }

    #[test]
    fn use_that_goes_on_joins() {
        let mut core = core(&[admit(0, 1, 10, 5, 1), wake(0, 1), tick(2)]);
        assert_eq!(core.charged, Charged::Entry);
        assert_eq!(ran(&mut core, tick(3)), (Some(1), 2, Some(5)));
        assert_eq!(core.charged, Charged::Join);
        assert_eq!(entries(&core, 1), [Entry { due: 10, amount: 3 }]);
        assert_eq!(ran(&mut core, tick(5)), (None, 0, Some(10)));
        assert_eq!(ran(&mut core, tick(10)), (Some(1), 5, Some(15)));
    }

    #[test]
    fn a_call_at_one_moment_breaks_no_slice() {
        let mut core = core(&[admit(0, 1, 10, 5, 1), admit(0, 2, 10, 5, 0), wake(0, 1), wake(2, 2)]);
        assert_eq!(core.running, Some(2));
        core.call(&block(2, 2)).unwrap();
        assert_eq!(core.charged, Charged::Nothing);
        core.call(&tick(4)).unwrap();
        assert_eq!(core.charged, Charged::Join);
    }

    /// Nine slices of one tick each, two apart: the ninth folds into the eighth.
    #[test]
    fn the_ninth_slice_folds() {
        let mut core = core(&[admit(0, 7, 1000, 100, 1)]);
        for slice in 0..9 {
            core.call(&wake(2 * slice, 7)).unwrap();
            core.call(&block(2 * slice + 1, 7)).unwrap();
            assert_eq!(core.charged, if slice < 8 { Charged::Entry } else { Charged::Fold });
        }
        let vcpu = &core.vcpus[&7];
        assert_eq!(vcpu.pending_count(17), 8);
        assert_eq!(entries(&core, 7)[7], Entry { due: 1016, amount: 2 });
        assert_eq!(entries(&core, 7)[6], Entry { due: 1012, amount: 1 });
        assert_eq!(vcpu.usable(17), 91);
        assert_eq!(vcpu.usable(1014), 98);
        assert_eq!(vcpu.usable(1016), 100);
    }

    #[test]
    fn use_that_goes_on_joins_a_full_queue() {
        let mut core = core(&[admit(0, 7, 1000, 100, 1)]);
        for slice in 0..8 {
            core.call(&wake(2 * slice, 7)).unwrap();
            core.call(&block(2 * slice + 1, 7)).unwrap();
        }
        core.call(&wake(15, 7)).unwrap();
        core.call(&tick(18)).unwrap();
        assert_eq!(core.charged, Charged::Join);
        assert_eq!(entries(&core, 7)[7], Entry { due: 1014, amount: 4 });
    }

    #[test]
    fn a_slice_is_cut_where_capacity_is_the_period() {
        let mut core = core(&[admit(0, 1, 5, 5, 0), wake(0, 1), tick(2)]);
        assert_eq!(ran(&mut core, tick(5)), (Some(1), 5, Some(10)));
        assert_eq!(core.charged, Charged::Join);
        assert_eq!(ran(&mut core, tick(8)), (Some(1), 2, Some(10)));
        assert_eq!(core.charged, Charged::Entry);
        assert_eq!(entries(&core, 1).last(), Some(&Entry { due: 10, amount: 3 }));
        assert_eq!(ran(&mut core, tick(10)), (Some(1), 5, Some(15)));
        assert_eq!(ran(&mut core, tick(15)), (Some(1), 5, Some(20)));
        assert_eq!(core.charged, Charged::Entry);
    }

    #[test]
    fn a_return_is_counted_from_the_slice_start() {
        let mut core = core(&[admit(0, 1, 10, 3, 2), admit(0, 2, 10, 4, 1), wake(0, 1), wake(1, 2)]);
        assert_eq!(ran(&mut core, tick(5)), (Some(1), 2, Some(7)));
        assert_eq!(ran(&mut core, tick(7)), (None, 0, Some(10)));
        assert_eq!(ran(&mut core, tick(10)), (Some(1), 1, Some(11)));
    }

    #[test]
    fn the_refusals_of_a_call() {
        let core = core(&[admit(5, 1, 10, 3, 2), wake(5, 1)]);
        assert_eq!(number(&core, tick(LARGEST_TIME + 1)), (1, 0));
        assert_eq!(number(&core, tick(u64::MAX)), (1, 0));
        assert_eq!(number(&core, wake(4, u32::MAX)), (2, 0));
        assert_eq!(number(&core, wake(9, u32::MAX)), (3, 8));
        assert_eq!(number(&core, wake(8, u32::MAX)), (4, 0));
        assert_eq!(number(&core, admit(8, 1 << 24, 0, 0, 0)), (4, 0));
        assert_eq!(number(&core, admit(8, 1, 5, 5, 0)), (6, 0));
        assert_eq!(number(&core, block(8, 65537)), (7, 0));
        assert_eq!(number(&core, remove(8, 2)), (7, 0));
    }

    /// Request 2: 5 for the period alone, 11 for no capacity, 12 for one above the period,
    /// for an identifier on the card or not; row 4 stands before them.
    #[test]
    fn a_period_or_a_capacity_out_of_range_has_its_own_row() {
        let core = core(&[admit(5, 1, 10, 3, 2)]);
        let inner = [(256, 0, 11), (255, 256, 12), (256, 65_536, 12), (65_537, 65_536, 0)];
        for (period, capacity, row) in TERMS.into_iter().chain(inner) {
            let number = |identifier| match core.clone().call(&admit(8, identifier, period, capacity, 0)) {
                Err(Refusal { number, detail: 0 }) => number,
                answer => u32::from(answer.is_err()),
            };
            let on_card = if row == 0 { 6 } else { row };
            assert_eq!([1 << 24, 1, 2].map(number), [4, on_card, row], "{period} {capacity}");
        }
    }

    #[test]
    fn a_full_card_refuses_known_identifiers_first() {
        let mut core = Core::new();
        for identifier in 0..32 {
            core.call(&admit(0, identifier, 10, 1, 0)).unwrap();
        }
        assert_eq!(number(&core, admit(0, 32, 10, 1, 0)), (8, 0));
        assert_eq!(number(&core, admit(0, 31, 10, 1, 0)), (6, 0));
        let terms_of = |identifier| [(0, 1), (10, 0), (10, 11)].map(|(t, c)| admit(0, identifier, t, c, 0));
        let refused = |identifier| terms_of(identifier).map(|call| number(&core, call));
        assert_eq!([31, 32].map(refused), [[(5, 0), (11, 0), (12, 0)]; 2]);
        core.call(&remove(0, 3)).unwrap();
        core.call(&admit(0, 32, 10, 1, 0)).unwrap();
    }

    #[test]
    fn a_new_stay_has_no_earlier_use() {
        let again = [admit(0, 1, 5, 5, 0), wake(0, 1), remove(5, 1), admit(5, 1, 5, 5, 0)];
        let mut core = core(&again);
        assert_eq!(ran(&mut core, wake(5, 1)), (Some(1), 5, Some(10)));
        core.call(&tick(7)).unwrap();
        assert_eq!(core.charged, Charged::Entry);
    }

    /// Slices at 0 and 3, so that the returns are due at 10 and 13.
    #[test]
    fn a_removed_one_is_remembered_until_its_latest_return() {
        let mut core =
            core(&[admit(0, 1, 10, 4, 0), wake(0, 1), block(1, 1), wake(3, 1), remove(5, 1), tick(6)]);
        for time in [6, 10, 12] {
            assert_eq!(number(&core, admit(time, 1, 10, 4, 0)), (9, 13));
            for call in [wake(time, 1), block(time, 1), remove(time, 1)] {
                assert_eq!(number(&core, call), (7, 0));
            }
        }
        for clears in [None, Some(tick(13)), Some(tick(14))] {
            let mut core = core.clone();
            if let Some(call) = clears {
                core.call(&call).unwrap();
            }
            let time = core.last.max(13);
            assert_eq!(ran(&mut core, admit(time, 1, 7, 2, 0)), (None, 0, None));
            assert_eq!(ran(&mut core, wake(time, 1)), (Some(1), 2, Some(time + 2)));
        }
        core.call(&tick(10)).unwrap();
        assert_eq!(number(&core, admit(12, 1, 10, 4, 0)), (9, 13));
    }

    /// The charge and the return of the removal itself count.
    #[test]
    fn what_is_remembered_is_the_queue_as_the_removal_leaves_it() {
        let charged = core(&[admit(0, 1, 10, 4, 0), wake(0, 1), remove(2, 1)]);
        assert_eq!(charged.remembered, [(1, 10)].into());
        let start = [admit(0, 1, 10, 4, 0), wake(0, 1), block(2, 1)];
        let returned = core(&[&start[..], &[remove(10, 1)]].concat());
        assert_eq!(returned.remembered, BTreeMap::new());
        let one_before = core(&[&start[..], &[remove(9, 1)]].concat());
        assert_eq!(one_before.remembered, [(1, 10)].into());
        let mut unused = core(&[admit(0, 1, 10, 4, 0), remove(0, 1)]);
        assert_eq!(ran(&mut unused, admit(0, 1, 10, 4, 0)), (None, 0, None));
    }

    #[test]
    fn a_folded_return_is_remembered_by_its_own_time() {
        let mut core = core(&[admit(0, 7, 1000, 100, 1)]);
        for slice in 0..9 {
            core.call(&wake(2 * slice, 7)).unwrap();
            core.call(&block(2 * slice + 1, 7)).unwrap();
        }
        core.call(&remove(17, 7)).unwrap();
        assert_eq!(number(&core, admit(1015, 7, 1000, 100, 1)), (9, 1016));
        core.call(&admit(1016, 7, 1000, 100, 1)).unwrap();
    }

    /// Admitted at 2: boundaries at 12, 22, 32.
    #[test]
    fn the_other_kinds_are_remembered_until_their_next_boundary() {
        for kind in [1, 2] {
            for (removed, until) in [(2, 12), (3, 12), (11, 12), (12, 22), (13, 22), (31, 32), (32, 42)] {
                let core = with(kind, &[remove(removed, 1)]);
                let again = |time| of_kind(0, admit_terms(1, 10, 4, 5), time);
                assert_eq!(number(&core, again(removed)), (9, until));
                assert_eq!(number(&core, again(until - 1)), (9, until));
                assert!(core.clone().call(&again(until)).is_ok());
            }
        }
    }

    /// Before request 3 the card would have had room for it.
    #[test]
    fn those_remembered_take_places_until_their_time() {
        let mut core = Core::new();
        for identifier in 0..32 {
            core.call(&of_kind(1, admit_terms(identifier, 10 + identifier % 2, 1, 0), 0)).unwrap();
        }
        for identifier in 0..32 {
            core.call(&remove(0, identifier)).unwrap();
            assert_eq!(number(&core, admit(0, 32, 10, 1, 0)), (8, 0));
            assert_eq!(number(&core, admit(9, identifier, 10, 1, 0)), (9, 10 + u64::from(identifier % 2)));
        }
        assert_eq!(number(&core, admit(9, 32, 10, 1, 0)), (8, 0));
        core.call(&admit(10, 32, 10, 1, 0)).unwrap();
        assert_eq!((core.vcpus.len(), core.remembered.len()), (1, 16));
        assert_eq!(number(&core, admit(10, 31, 10, 1, 0)), (9, 11));
    }

    #[test]
    fn a_refused_call_clears_nothing() {
        let mut core = core(&[admit(0, 1, 10, 4, 0), wake(0, 1), remove(4, 1)]);
        for refused in [wake(20, 1), admit(20, 2, 0, 1, 0), tick(LARGEST_TIME + 1), tick(3)] {
            core.call(&refused).unwrap_err();
            assert_eq!(number(&core, admit(9, 1, 10, 4, 0)), (9, 10));
        }
    }

    #[test]
    fn remembered_identifiers_are_compared_by_24_bits() {
        for (left, new) in [(65793, 257), (257, 65793)] {
            let mut core = core(&[admit(0, left, 10, 4, 0), wake(0, left), remove(4, left)]);
            core.call(&admit(4, new, 10, 4, 0)).unwrap();
            assert_eq!(number(&core, admit(4, left, 10, 4, 0)), (9, 10));
            assert_eq!(number(&core, wake(4, left)), (7, 0));
            assert_eq!(ran(&mut core, wake(4, new)), (Some(new), 4, Some(8)));
        }
    }

    #[test]
    fn the_time_remembered_may_lie_above_the_largest_time() {
        let last = LARGEST_TIME - 2;
        for (kind, until) in [(0, LARGEST_TIME + 8), (1, LARGEST_TIME + 8)] {
            let start = [tick(last), of_kind(kind, admit_terms(1, 10, 4, 0), last), wake(last, 1)];
            let core = core(&[&start[..], &[remove(LARGEST_TIME, 1)]].concat());
            assert_eq!(number(&core, admit(LARGEST_TIME, 1, 10, 4, 0)), (9, until));
            assert_eq!(number(&core, admit(until, 1, 10, 4, 0)), (1, 0));
        }
    }

    /// 9 stands behind 6, which excludes it, and before 8.
    #[test]
    fn a_remembered_identifier_has_its_place_among_the_rows() {
        let mut core = Core::new();
        for identifier in 0..32 {
            core.call(&admit(0, identifier, 10, 4, 0)).unwrap();
        }
        core.call(&wake(0, 5)).unwrap();
        core.call(&remove(2, 5)).unwrap();
        assert_eq!(number(&core, admit(2, 5, 10, 4, 0)), (9, 10));
        assert_eq!(number(&core, admit(2, 32, 10, 4, 0)), (8, 0));
        assert_eq!(number(&core, admit(2, 6, 10, 4, 0)), (6, 0));
        assert_eq!(number(&core, admit(1, 5, 10, 4, 0)), (2, 0));
        assert_eq!(number(&core, admit(2, 5, 0, 4, 0)), (5, 0));
        assert_eq!(number(&core, admit(2, 5, 10, 0, 0)), (11, 0));
        assert_eq!(number(&core, admit(2, 5, 10, 11, 0)), (12, 0));
        assert_eq!(number(&core, of_kind(3, admit_terms(5, 10, 4, 0), 2)), (10, 0));
        core.call(&wake(2, 6)).unwrap();
        assert_eq!(number(&core, admit(7, 5, 10, 4, 0)), (3, 6));
    }

    #[test]
    fn the_timer_may_lie_above_the_largest_time() {
        let last = LARGEST_TIME - 1;
        let mut core = core(&[tick(last), admit(last, 1, 10, 3, 0)]);
        assert_eq!(ran(&mut core, wake(last, 1)), (Some(1), 3, Some(LARGEST_TIME + 2)));
        assert_eq!(ran(&mut core, tick(LARGEST_TIME)), (Some(1), 2, Some(LARGEST_TIME + 2)));
        assert_eq!(number(&core, tick(LARGEST_TIME + 3)), (1, 0));
    }

    #[test]
    fn equal_priority_goes_to_the_smaller_identifier() {
        let core = core(&[admit(0, 65793, 10, 3, 1), admit(0, 257, 10, 3, 1), wake(0, 65793), wake(0, 257)]);
        assert_eq!(core.running, Some(257));
    }

    /// Admitted at 2 with T 10 and C 4: boundaries at 12, 22, 32.
    fn with(kind: u8, more: &[Call]) -> Core {
        let mut core = core(&[of_kind(kind, admit_terms(1, 10, 4, 5), 2)]);
        for call in more {
            core.call(call).unwrap_or_else(|refusal| panic!("{call:?}: {refusal:?}"));
        }
        core
    }

    #[test]
    fn a_deferrable_one_is_refilled_to_its_capacity_at_its_boundaries() {
        let mut core = with(1, &[wake(3, 1)]);
        assert_eq!(ran(&mut core, block(4, 1)), (None, 0, None));
        assert_eq!(core.charged, Charged::Taken);
        assert_eq!(ran(&mut core, wake(10, 1)), (Some(1), 3, Some(12)));
        assert_eq!(ran(&mut core, tick(12)), (Some(1), 4, Some(16)));
        assert_eq!(ran(&mut core, tick(16)), (None, 0, Some(22)));
        assert_eq!(number(&core, tick(23)), (3, 22));
        assert_eq!(ran(&mut core, block(22, 1)), (None, 0, None));
        assert_eq!(ran(&mut core, wake(51, 1)), (Some(1), 4, Some(52)));
    }

    #[test]
    fn a_deferrable_one_can_hold_two_capacities_in_a_row() {
        let mut core = with(1, &[]);
        assert_eq!(ran(&mut core, wake(8, 1)), (Some(1), 4, Some(12)));
        assert_eq!(ran(&mut core, tick(12)), (Some(1), 4, Some(16)));
        assert_eq!(ran(&mut core, tick(16)), (None, 0, Some(22)));
    }

    #[test]
    fn a_polling_one_that_wakes_late_waits_for_the_next_boundary() {
        let mut core = with(2, &[]);
        assert_eq!(ran(&mut core, wake(2, 1)), (None, 0, Some(12)));
        assert_eq!(ran(&mut core, tick(12)), (Some(1), 4, Some(16)));
        assert_eq!(ran(&mut core, block(13, 1)), (None, 0, None));
        assert_eq!(ran(&mut core, wake(13, 1)), (None, 0, Some(22)));
        assert_eq!(ran(&mut core, block(22, 1)), (None, 0, None));
        assert_eq!(ran(&mut core, wake(32, 1)), (None, 0, Some(42)));
        assert_eq!(ran(&mut core, wake(42, 1)), (Some(1), 4, Some(46)));
    }

    #[test]
    fn a_refill_of_a_preempted_one_counts_and_its_boundary_is_not_looked_at() {
        for kind in [1, 2] {
            let mut core = with(kind, &[wake(3, 1), tick(7 + 5 * u64::from(kind == 2))]);
            core.call(&admit(core.last, 9, 100, 50, 0)).unwrap();
            let start = core.last;
            assert_eq!(ran(&mut core, wake(start, 9)), (Some(9), 50, Some(start + 50)));
            core.call(&tick(40)).unwrap();
            assert_eq!(ran(&mut core, block(41, 9)), (Some(1), 4, Some(42)));
        }
    }

    #[test]
    fn the_running_one_is_woken_for_its_own_boundary_and_a_sporadic_one_is_not() {
        let mut core = with(1, &[wake(10, 1)]);
        assert_eq!(core.timer, Some(12));
        core.call(&tick(12)).unwrap();
        let mut sporadic = with(0, &[wake(3, 1), block(5, 1)]);
        assert_eq!(ran(&mut sporadic, wake(12, 1)), (Some(1), 2, Some(14)));
    }

    #[test]
    fn one_with_the_whole_period_keeps_the_core_over_its_boundaries() {
        for kind in [1, 2] {
            let mut core = core(&[of_kind(kind, admit_terms(1, 5, 5, 0), 0), wake(0, 1), tick(5)]);
            assert_eq!(ran(&mut core, tick(7)), (Some(1), 3, Some(10)));
            assert_eq!(ran(&mut core, tick(10)), (Some(1), 5, Some(15)));
        }
    }

    #[test]
    fn one_call_may_pass_very_many_boundaries() {
        for kind in [1, 2] {
            let mut core = core(&[of_kind(kind, admit_terms(1, 1, 1, 0), 0), tick(LARGEST_TIME - 1)]);
            let woken = ran(&mut core, wake(LARGEST_TIME - 1, 1));
            let own = Some(LARGEST_TIME);
            assert_eq!(woken, if kind == 1 { (Some(1), 1, own) } else { (None, 0, own) });
            assert_eq!(ran(&mut core, tick(LARGEST_TIME)), (Some(1), 1, Some(LARGEST_TIME + 1)));
        }
    }

    /// What each call brings.
    fn totals(calls: &[Call]) -> Vec<u64> {
        let mut core = Core::new();
        calls
            .iter()
            .map(|call| core.call(call).unwrap_or_else(|no| panic!("{call:?}: {no:?}")).total)
            .collect()
    }

    /// Slices at 0 and 3; at 13 both have come back.
    #[test]
    fn a_total_is_what_has_fallen_due() {
        let start = [admit(0, 1, 10, 4, 0), wake(0, 1), block(1, 1), wake(3, 1), block(5, 1)];
        let behind = |more: &[Call]| totals(&[&start[..], more].concat())[start.len()..].to_vec();
        assert_eq!(totals(&start), [0; 5]);
        assert_eq!(behind(&[tick(9), tick(10), tick(12), tick(13), tick(13)]), [0, 1, 0, 2, 0]);
        assert_eq!(behind(&[tick(13)]), [3]);
        assert_eq!(behind(&[remove(10, 1), tick(13)]), [1, 0]);
        assert_eq!(behind(&[admit(11, 2, 10, 4, 0), wake(13, 1)]), [1, 2]);
    }

    /// What the call itself charges is due at once where C is T.
    #[test]
    fn a_whole_period_comes_back_at_its_end() {
        let start = [admit(0, 1, 5, 5, 0), wake(0, 1)];
        let behind = |more: &[Call]| totals(&[&start[..], more].concat())[start.len()..].to_vec();
        assert_eq!(behind(&[tick(5), tick(10)]), [5, 5]);
        assert_eq!(behind(&[tick(2), tick(5), block(8, 1), tick(10)]), [0, 5, 0, 3]);
    }

    #[test]
    fn a_folded_entry_comes_back_whole() {
        let slices = (0..9).flat_map(|slice| [wake(2 * slice, 7), block(2 * slice + 1, 7)]);
        let calls: Vec<Call> = [admit(0, 7, 1000, 100, 1)].into_iter().chain(slices).collect();
        let behind = |more: &[Call]| totals(&[&calls[..], more].concat())[calls.len()..].to_vec();
        assert_eq!(behind(&[tick(1014), tick(1015), tick(1016)]), [7, 0, 2]);
        assert_eq!(behind(&[remove(1016, 7)]), [9]);
    }

    /// Admitted at 2 with T 10 and C 4: boundaries at 12, 22, 32.
    #[test]
    fn a_refill_brings_what_it_adds() {
        let of = |kind, more: &[Call]| {
            totals(&[&[of_kind(kind, admit_terms(1, 10, 4, 5), 2)], more].concat())[1..].to_vec()
        };
        assert_eq!(of(1, &[tick(12), wake(13, 1), block(14, 1), tick(21), tick(22)]), [0, 0, 0, 0, 1]);
        assert_eq!(of(1, &[wake(3, 1), block(7, 1), tick(90)]), [0, 0, 4]);
        assert_eq!(of(1, &[wake(10, 1), remove(12, 1)]), [0, 2]);
        assert_eq!(of(2, &[tick(12), wake(13, 1), tick(22), block(25, 1)]), [0, 0, 4, 0]);
        assert_eq!(of(2, &[wake(3, 1), block(12, 1), tick(22)]), [0, 4, 0]);
        assert_eq!(of(2, &[wake(3, 1), remove(12, 1)]), [0, 4]);
        assert_eq!(of(2, &[wake(3, 1), block(11, 1), wake(12, 1), tick(22)]), [0, 0, 0, 4]);
    }

    #[test]
    fn the_largest_total_is_that_of_32_polling_ones() {
        let largest = |identifier| of_kind(2, admit_terms(identifier, 1_000_000, 1_000_000, 0), 0);
        let calls = (0..32).map(largest).chain((0..32).map(|identifier| wake(0, identifier)));
        let calls: Vec<Call> = calls.chain([tick(1_000_000)]).collect();
        assert_eq!(totals(&calls)[63..], [0, 32_000_000]);
    }

    /// 10 stands behind 4, 5, 11 and 12 and before 6 and 8.
    #[test]
    fn an_unknown_kind_has_its_place_among_the_rows() {
        let mut core = core(&[admit(0, 1, 10, 3, 0)]);
        for kind in [3, 128, 255] {
            let row = |core: &Core, description| number(core, of_kind(kind, description, 0));
            assert_eq!(row(&core, admit_terms(1 << 24, 10, 3, 0)), (4, 0));
            assert_eq!(row(&core, admit_terms(1, 0, 3, 0)), (5, 0));
            assert_eq!(row(&core, admit_terms(1, 10, 0, 0)), (11, 0));
            assert_eq!(row(&core, admit_terms(1, 10, 11, 0)), (12, 0));
            assert_eq!(row(&core, admit_terms(1, 10, 3, 0)), (10, 0));
            assert_eq!(row(&core, admit_terms(2, 10, 3, 0)), (10, 0));
        }
        for identifier in 2..=32 {
            core.call(&admit(0, identifier, 10, 1, 0)).unwrap();
        }
        assert_eq!(number(&core, of_kind(3, admit_terms(33, 10, 3, 0), 0)), (10, 0));
        assert_eq!(number(&core, of_kind(2, admit_terms(33, 10, 3, 0), 0)), (8, 0));
    }
}
