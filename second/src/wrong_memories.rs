//! Cards that remember wrongly who left, one fault each, to see that the comparison finds it and
//! that `outside` does. A card here is the second program's, which is made to forget all, and a
//! memory of its own beside it.

use crate::brought;
use crate::compare_card::{self, first_difference};
use crate::generate::Run;
use crate::lines::line;
use crate::outside;
use crate::reached::Reached;
use crate::records;
use crate::refusal::{refuse, refuse_with, Refusal};
use crate::stays::Counts;
use crate::turns::{Call, Change, Core, Description, Reply, Vcpu};
use crate::turns::{LARGEST_IDENTIFIER, LARGEST_PERIOD, LARGEST_TIME, MOST_VCPUS};
use std::collections::BTreeMap;

#[derive(Clone, Copy, PartialEq, Debug)]
enum Fault {
    None,
    /// As before request 3.
    ForgetsAtTheRemoval,
    ForgetsTheSporadic,
    ForgetsTheRefilled,
    /// The queue as it stood before the charge of the removal.
    BeforeTheCharge,
    FirstReturn,
    /// One removed at a boundary has that one.
    ThatBoundary,
    /// From the removal on.
    AWholePeriod,
    /// One with nothing pending, too.
    NeverForgotAtOnce,
    JudgedAtLast,
    JudgedOneTickLate,
    /// 8 as it was.
    EightOnTheCardAlone,
    EightJudgedAtLast,
    ClearedByARefusal,
    NeverClearedAtAll,
    By16Bits,
    /// All bits but this one are compared.
    WithoutBit(u32),
    NineBehindEight,
    /// The last one to leave is all that is remembered.
    OneAlone,
    NoDetail,
    /// A wake of a remembered one gives 9 too.
    NineForAWake,
    /// Ticks alone clear, so that who leaves may find none of the 32 places free, and is forgotten.
    TicksAloneClear,
    /// The largest time stands for none, or the greatest that there is.
    ForgetsTheLargest,
    ForgetsTheGreatest,
    /// Those whose time never comes take no place.
    EightWithinTheLargest,
}

const FAULTS: [Fault; 23] = [
    Fault::ForgetsAtTheRemoval,
    Fault::ForgetsTheSporadic,
    Fault::ForgetsTheRefilled,
    Fault::BeforeTheCharge,
    Fault::FirstReturn,
    Fault::ThatBoundary,
    Fault::AWholePeriod,
    Fault::NeverForgotAtOnce,
    Fault::JudgedAtLast,
    Fault::JudgedOneTickLate,
    Fault::EightOnTheCardAlone,
    Fault::EightJudgedAtLast,
    Fault::ClearedByARefusal,
    Fault::NeverClearedAtAll,
    Fault::By16Bits,
    Fault::NineBehindEight,
    Fault::OneAlone,
    Fault::NoDetail,
    Fault::NineForAWake,
    Fault::TicksAloneClear,
    Fault::ForgetsTheLargest,
    Fault::ForgetsTheGreatest,
    Fault::EightWithinTheLargest,
];

const BITS: u32 = LARGEST_IDENTIFIER.count_ones();
const GREATEST: u64 = LARGEST_TIME + LARGEST_PERIOD as u64;

struct Card {
    fault: Fault,
    core: Core,
    memory: BTreeMap<u32, u64>,
}

impl Card {
    fn call(&mut self, call: &Call) -> Result<Reply, Refusal> {
        let answer = self.answer(call);
        let clears = answer.is_ok() || self.fault == Fault::ClearedByARefusal;
        let keeps = match self.fault {
            Fault::NeverClearedAtAll => true,
            Fault::TicksAloneClear => call.change != Change::Tick,
            _ => false,
        };
        if clears && !keeps {
            self.memory.retain(|_, until| call.time <= *until);
        }
        answer
    }

    /// The card that forgets all says what the memory does not decide.
    fn answer(&mut self, call: &Call) -> Result<Reply, Refusal> {
        let mut next = self.core.clone();
        let answer = next.call(call);
        let number = answer.as_ref().map_or_else(|refusal| refusal.number, |_| 0);
        match (call.change, number) {
            (Change::Admit(description), 0 | 8) => self.judge(&description, call.time)?,
            (Change::Wake(identifier), 7) if self.fault == Fault::NineForAWake => {
                self.nine(identifier, call.time)?;
            }
            (Change::Remove(identifier), 0) => self.remember(identifier, call.time, &next),
            _ => (),
        }
        if number == 0 {
            next.remembered.clear();
            self.core = next;
        }
        answer
    }

    fn judge(&self, description: &Description, now: u64) -> Result<(), Refusal> {
        if self.fault == Fault::NineBehindEight {
            self.eight(now)?;
            return self.nine(description.identifier, now);
        }
        self.nine(description.identifier, now)?;
        self.eight(now)
    }

    fn waits(&self, until: u64, now: u64) -> bool {
        match self.fault {
            Fault::NeverClearedAtAll => true,
            Fault::JudgedOneTickLate => now <= until,
            _ => now < until,
        }
    }

    fn nine(&self, identifier: u32, now: u64) -> Result<(), Refusal> {
        let now = if self.fault == Fault::JudgedAtLast { self.core.last } else { now };
        let bits = match self.fault {
            Fault::By16Bits => 0xffff,
            Fault::WithoutBit(bit) => !(1 << bit),
            _ => u32::MAX,
        };
        let same =
            |&(other, until): &(&u32, &u64)| other & bits == identifier & bits && self.waits(*until, now);
        match self.memory.iter().find(same) {
            Some(_) if self.fault == Fault::NoDetail => refuse(9),
            Some((_, &until)) => refuse_with(9, until),
            None => Ok(()),
        }
    }

    fn eight(&self, now: u64) -> Result<(), Refusal> {
        let now = if self.fault == Fault::EightJudgedAtLast { self.core.last } else { now };
        let most = if self.fault == Fault::EightWithinTheLargest { LARGEST_TIME } else { u64::MAX };
        let counts = |until: &&u64| **until <= most && self.waits(**until, now);
        let waiting = self.memory.values().filter(counts).count();
        let counted = if self.fault == Fault::EightOnTheCardAlone { 0 } else { waiting };
        if self.core.vcpus.len() + counted >= MOST_VCPUS {
            return refuse(8);
        }
        Ok(())
    }

    fn remember(&mut self, identifier: u32, now: u64, next: &Core) {
        let right = next.remembered.get(&identifier).copied();
        let stood = &self.core.vcpus[&identifier];
        let period = u64::from(stood.description.period);
        let sporadic = stood.description.kind == 0;
        let until = match self.fault {
            Fault::ForgetsAtTheRemoval => None,
            Fault::ForgetsTheSporadic if sporadic => None,
            Fault::ForgetsTheRefilled if !sporadic => None,
            Fault::BeforeTheCharge if sporadic => stood.latest_return(now),
            Fault::FirstReturn if sporadic => self.charged(identifier, now).earliest_return(now),
            Fault::ThatBoundary if self.is_boundary(stood, now) => None,
            Fault::AWholePeriod => right.map(|_| now + period),
            Fault::NeverForgotAtOnce => right.or(Some(now + period)),
            Fault::TicksAloneClear if self.memory.len() == MOST_VCPUS => None,
            Fault::ForgetsTheLargest => right.filter(|&until| until != LARGEST_TIME),
            Fault::ForgetsTheGreatest => right.filter(|&until| until != GREATEST),
            _ => right,
        };
        if self.fault == Fault::OneAlone {
            self.memory.clear();
        }
        self.memory.extend(until.map(|until| (identifier, until)));
    }

    /// A tick charges and returns, and changes nothing else.
    fn charged(&self, identifier: u32, now: u64) -> Vcpu {
        let mut core = self.core.clone();
        core.call(&Call { time: now, change: Change::Tick }).expect("what is in time");
        core.vcpus[&identifier].clone()
    }

    fn is_boundary(&self, vcpu: &Vcpu, now: u64) -> bool {
        vcpu.boundaries_passed(self.core.last, now) > 0 && vcpu.next_boundary(now - 1) == Some(now)
    }
}

/// What the card with the fault writes.
fn output(run: &Run, fault: Fault) -> String {
    let mut card = Card { fault, core: Core::new(), memory: BTreeMap::new() };
    let line = |(record, right): (&Vec<u8>, &String)| match records::read(record) {
        Ok((call, _)) => line(&card.call(&call)),
        Err(_) => right.clone(),
    };
    run.records.iter().zip(&run.lines).map(line).collect()
}

/// The runs of a small comparison.
pub fn compared() -> Vec<Run> {
    (0..300).map(|place| compare_card::run_at(1, 20_000, place, &mut Reached::default())).collect()
}

pub fn from_outside() -> Vec<Run> {
    (0..300).map(|place| outside::run_at(1, place)).collect()
}

/// In how many runs a check sees the fault.
fn seen(runs: &[Run], fault: Fault, sees: impl Fn(&Run, &str) -> bool) -> usize {
    runs.iter().filter(|run| sees(run, &output(run, fault))).count()
}

pub fn differs(run: &Run, output: &str) -> bool {
    first_difference(run, output.as_bytes()).is_some()
}

/// By another sentence than that of the totals.
pub fn fails_outside(run: &Run, output: &str) -> bool {
    let found = outside::check_run(run, output, &mut Counts::default());
    found.is_err_and(|fault| !brought::is_of_a_total(&fault))
}

pub fn has_a_wrong_total(run: &Run, output: &str) -> bool {
    let found = outside::check_run(run, output, &mut Counts::default());
    found.is_err_and(|fault| brought::is_of_a_total(&fault))
}

/// The place of the first run in which a check sees what is written for it.
pub fn first_seen(
    runs: &[Run],
    output: impl Fn(&Run) -> String,
    sees: impl Fn(&Run, &str) -> bool,
) -> Option<usize> {
    runs.iter().position(|run| sees(run, &output(run)))
}

#[test]
fn a_right_memory_passes() {
    assert_eq!(seen(&compared(), Fault::None, differs), 0);
    let right = |run: &Run| outside::check_run(run, &output(run, Fault::None), &mut Counts::default());
    assert!(from_outside().iter().all(|run| right(run).is_ok()));
}

#[test]
fn every_fault_is_seen() {
    let (compared, from_outside) = (compared(), from_outside());
    for fault in FAULTS.into_iter().chain((0..BITS).map(Fault::WithoutBit)) {
        assert!(seen(&compared, fault, differs) > 0, "{fault:?}");
        assert!(seen(&from_outside, fault, fails_outside) > 0, "{fault:?}, from outside");
    }
}

/// What is remembered too short breaks the bound itself, which is counted from the lines alone.
#[test]
fn a_card_that_forgets_breaks_the_bound_over_two_stays() {
    let runs = from_outside();
    let breaks = |run: &Run, output: &str| {
        outside::check_held(run, output).is_err_and(|fault| fault.contains("it may hold"))
    };
    let short = [Fault::ForgetsAtTheRemoval, Fault::ForgetsTheSporadic, Fault::ForgetsTheRefilled];
    for fault in short.into_iter().chain([Fault::BeforeTheCharge, Fault::FirstReturn]) {
        assert!(seen(&runs, fault, breaks) > 0, "{fault:?}");
    }
    assert_eq!(seen(&runs, Fault::None, breaks), 0);
}
