//! Cards whose step 2 has one fault each, in what it brings or in what it says of that, to see that
//! the comparison finds it and that `outside` does. A card here has sporadic tenants alone, each
//! with the arrays of the paper.

use crate::compare_card;
use crate::generate::{self, Run};
use crate::outside;
use crate::plain_card::{self, Kept, Tenant};
use crate::reached::Reached;
use crate::return_cases;
use crate::turns::MOST_PENDING;
use crate::wrong_memories::{differs, fails_outside, first_seen, has_a_wrong_total};

#[derive(Clone, Copy, PartialEq, Debug)]
enum Fault {
    None,
    /// So many return at one call at the most.
    AtMost(usize),
    /// One that is due at the very moment of the call stays.
    StaysAtItsTime,
    ATickEarly,
    /// Who is not runnable has no return.
    RunnableAlone,
    /// What several bring is cut to so many bits.
    Cut(u32),
    /// Where several return, the use that went on is forgotten.
    ForgetsTheUse,
    /// All that is due returns, and the first of it is told alone, or the last, or all but the last.
    TellsTheFirst,
    TellsTheLast,
    TellsNotTheLast,
    /// Where so many of so many are due.
    Where(usize, usize, Wrong),
}

#[derive(Clone, Copy, PartialEq, Debug)]
enum Wrong {
    /// The last of those that are due stays.
    OneTooFew,
    /// The first of those that are not due is lost.
    OneTooMany,
    /// The last of those that are due brings nothing, or the first that is not due brings its
    /// ticks too.
    LastAmountLost,
    NextAmountToo,
    /// The amounts move by one place more than the times, or by one less.
    AmountsMoveFurther,
    AmountsMoveLess,
    /// What stays is turned round, or its first entry goes last.
    TurnedRound,
    FirstGoesLast,
    /// The count falls by one less than the entries move.
    CountedOneLess,
    /// What should have moved to this place has not: its time, or its amount.
    TimeStands(usize),
    AmountStands(usize),
}

/// With how many entries must be left for it.
const WRONGS: [(Wrong, usize); 9] = [
    (Wrong::OneTooFew, 0),
    (Wrong::OneTooMany, 1),
    (Wrong::LastAmountLost, 0),
    (Wrong::NextAmountToo, 1),
    (Wrong::AmountsMoveFurther, 1),
    (Wrong::AmountsMoveLess, 1),
    (Wrong::TurnedRound, 2),
    (Wrong::FirstGoesLast, 2),
    (Wrong::CountedOneLess, 0),
];

fn faults() -> Vec<Fault> {
    let mut all = vec![Fault::StaysAtItsTime, Fault::ATickEarly, Fault::RunnableAlone, Fault::ForgetsTheUse];
    all.extend([Fault::TellsTheFirst, Fault::TellsTheLast, Fault::TellsNotTheLast]);
    all.extend([8, 12, 16].map(Fault::Cut));
    all.extend((1..MOST_PENDING).map(Fault::AtMost));
    let stands = |place| [(Wrong::TimeStands(place), place + 1), (Wrong::AmountStands(place), place + 1)];
    for (wrong, least) in WRONGS.into_iter().chain((0..MOST_PENDING).flat_map(stands)) {
        let enough = return_cases::counts().filter(|(due, pending)| pending - due >= least);
        all.extend(enough.map(|(due, pending)| Fault::Where(due, pending, wrong)));
    }
    all
}

/// The first `count` places are pending entries.
#[derive(Default)]
struct Queue {
    times: [u64; MOST_PENDING],
    amounts: [u64; MOST_PENDING],
    count: usize,
}

impl Queue {
    fn post(&mut self, due: u64, amount: u64, goes_on: bool) {
        let joins = goes_on && self.count > 0;
        let folds = !joins && self.count == MOST_PENDING;
        self.count += usize::from(!joins && !folds);
        let last = self.count - 1;
        self.times[last] = if joins { self.times[last] } else { due };
        self.amounts[last] = amount + if joins || folds { self.amounts[last] } else { 0 };
    }

    fn due(&self, now: u64, fault: Fault) -> usize {
        let (early, late) =
            (u64::from(fault == Fault::ATickEarly), u64::from(fault == Fault::StaysAtItsTime));
        self.times[..self.count].iter().take_while(|&&time| time + late <= now + early).count()
    }

    /// What is said to be brought, before it is.
    fn told(&self, now: u64, fault: Fault) -> Option<u64> {
        let due = &self.amounts[..self.due(now, fault)];
        let last = due.last()?;
        match fault {
            Fault::TellsTheFirst => Some(due[0]),
            Fault::TellsTheLast => Some(*last),
            Fault::TellsNotTheLast => Some(due.iter().sum::<u64>() - last),
            _ => None,
        }
    }

    /// The ticks that all entries that are due bring, which leave it at once.
    fn sweep(&mut self, now: u64, fault: Fault) -> u64 {
        let due = self.due(now, fault);
        let wrong = match fault {
            Fault::Where(some, all, wrong) if (some, all) == (due, self.count) => Some(wrong),
            _ => None,
        };
        let leave = match (fault, wrong) {
            (Fault::AtMost(most), _) => due.min(most),
            (_, Some(Wrong::OneTooFew)) => due - 1,
            _ => due,
        };
        let bring = match wrong {
            Some(Wrong::LastAmountLost) => leave - 1,
            Some(Wrong::NextAmountToo) => leave + 1,
            _ => leave,
        };
        let brought: u64 = self.amounts[..bring].iter().sum();
        self.shift(leave, wrong);
        match fault {
            Fault::Cut(bits) if leave > 1 => brought % (1 << bits),
            _ => brought,
        }
    }

    fn shift(&mut self, leave: usize, wrong: Option<Wrong>) {
        let (of_times, of_amounts) = match wrong {
            Some(Wrong::OneTooMany) => (leave + 1, leave + 1),
            Some(Wrong::AmountsMoveFurther) => (leave, leave + 1),
            Some(Wrong::AmountsMoveLess) => (leave, leave - 1),
            _ => (leave, leave),
        };
        let (times, amounts) = (self.times, self.amounts);
        self.times.copy_within(of_times..self.count, 0);
        self.amounts.copy_within(of_amounts..self.count, 0);
        self.count -= of_times - usize::from(wrong == Some(Wrong::CountedOneLess));
        match wrong {
            Some(Wrong::TimeStands(place)) => self.times[place] = times[place],
            Some(Wrong::AmountStands(place)) => self.amounts[place] = amounts[place],
            Some(Wrong::TurnedRound) => self.reorder(<[u64]>::reverse),
            Some(Wrong::FirstGoesLast) => self.reorder(|places| places.rotate_left(1)),
            _ => (),
        }
    }

    fn reorder(&mut self, order: fn(&mut [u64])) {
        order(&mut self.times[..self.count]);
        order(&mut self.amounts[..self.count]);
    }
}

struct Returns {
    fault: Fault,
    use_ended: Option<u64>,
    queue: Queue,
}

impl Kept for Returns {
    fn charge(tenant: &mut Tenant<Returns>, last: u64, now: u64) {
        if last < now {
            let due = last + u64::from(tenant.terms.period);
            let goes_on = tenant.kept.use_ended.replace(now) == Some(last);
            tenant.kept.queue.post(due, now - last, goes_on);
        }
    }

    fn bring_in(tenant: &mut Tenant<Returns>, now: u64) -> u64 {
        let Returns { fault, queue, use_ended } = &mut tenant.kept;
        if *fault == Fault::ForgetsTheUse && queue.due(now, *fault) > 1 {
            *use_ended = None;
        }
        if *fault == Fault::RunnableAlone && !tenant.runnable {
            return 0;
        }
        let told = queue.told(now, *fault);
        let brought = queue.sweep(now, *fault);
        tenant.usable += brought;
        told.unwrap_or(brought)
    }

    fn leave(_: &mut Tenant<Returns>, _: bool, _: u64) {}

    fn comes_next(tenant: &Tenant<Returns>, _: u64, runs: bool) -> Option<u64> {
        let queue = &tenant.kept.queue;
        queue.times[..queue.count].first().copied().filter(|_| !runs)
    }
}

/// What the card with the fault writes.
fn output(run: &Run, fault: Fault) -> String {
    plain_card::output(run, |_, _| Returns { fault, use_ended: None, queue: Queue::default() })
}

/// The runs in which all are sporadic.
fn all_sporadic(run_at: impl Fn(u64) -> Run) -> Vec<Run> {
    (0..300).filter(|&place| generate::is_sporadic(place)).map(run_at).collect()
}

fn compared() -> Vec<Run> {
    all_sporadic(|place| compare_card::run_at(1, 20_000, place, &mut Reached::default()))
}

fn from_outside() -> Vec<Run> {
    all_sporadic(|place| outside::run_at(1, place))
}

#[test]
fn a_right_return_passes() {
    let right = |run: &Run| output(run, Fault::None);
    assert_eq!(first_seen(&compared(), right, differs), None);
    for sees in [fails_outside, has_a_wrong_total] {
        assert_eq!(first_seen(&from_outside(), right, sees), None);
    }
}

/// In the first twenty runs of sporadic ones alone, which begin with every script of the returns, some
/// twice. `outside` counts the usable ticks from the ticks held, where nothing has folded, and the
/// scripts have them told at each return: so it sees what the comparison does. What is wrong in the
/// telling alone it sees by the totals.
#[test]
fn every_fault_is_seen() {
    let (compared, from_outside) = (compared(), from_outside());
    for fault in faults() {
        let wrong = |run: &Run| output(run, fault);
        let sees = match fault {
            Fault::TellsTheFirst | Fault::TellsTheLast | Fault::TellsNotTheLast => has_a_wrong_total,
            _ => fails_outside,
        };
        let places = [first_seen(&compared, wrong, differs), first_seen(&from_outside, wrong, sees)];
        assert!(places.iter().all(|place| place.is_some_and(|place| place < 20)), "{fault:?}: {places:?}");
    }
}
