//! Which cases of request 5 a call meets: whose ticks are in its total, and how many of each. Told
//! from the reports of its step 2.

use crate::reached::Reached;
use crate::stay_cases::{kind_of, of_each, KINDS};
use crate::turns::{Call, Change, Charged, Core, Report};
use crate::turns::{LARGEST_PERIOD, MOST_VCPUS};

/// Thirty-two that get all the ticks which a VCPU can have.
const LARGEST: u64 = MOST_VCPUS as u64 * LARGEST_PERIOD as u64;

/// What fits into one byte, two and three, and what one VCPU brings at the most.
const ABOVE: [u64; 4] = [255, 65_535, 1_000_000, 16_777_215];

const COUNTS: [&str; 5] = ["one", "two", "three", "four", "five or more"];

/// The total of the last accepted call.
#[derive(Default)]
pub struct Notes {
    total: u64,
}

/// What an accepted call met. `held` is who held the core since `last`.
pub fn note(
    last: u64,
    held: Option<u32>,
    call: &Call,
    word: &str,
    core: &Core,
    notes: &mut Notes,
    to: &mut Reached,
) {
    let brings: Vec<&Report> = core.reports.iter().filter(|report| report.brought > 0).collect();
    let total = brings.iter().map(|report| report.brought).sum();
    if total > 0 {
        to.add(format!("total: at {word}"));
        note_total(total, &brings, core, to);
        to.add_if(notes.total > 0 && notes.total != total, "total: behind another one");
    } else {
        note_none(last < call.time, notes.total > 0, core, to);
    }
    for report in core.reports.iter().filter(|report| report.due > 0) {
        note_refill(report, to);
        if report.brought > 0 {
            note_change(report, call, to);
            let others = brings.len() > 1;
            to.add_if(others && entries(report) > 1, "total: several entries of one, and another's ticks");
            if held == Some(report.description.identifier) {
                note_holder(report, core, others, to);
            }
        }
    }
    notes.total = total;
}

fn entries(report: &Report) -> u64 {
    if report.description.kind == 0 {
        report.due
    } else {
        0
    }
}

fn note_none(later: bool, behind: bool, core: &Core, to: &mut Reached) {
    let passes = core.reports.iter().any(|report| report.due > 0);
    let awaits = core.reports.iter().any(|report| report.next.is_some());
    to.add_if(later && awaits && !passes, "total 0: time passes and nothing is due");
    to.add_if(passes, "total 0: a boundary is passed and brings nothing");
    to.add_if(behind && later, "total 0: behind one that is not");
    to.add_if(behind && !later, "total 0: at the moment of one that is not");
}

fn note_total(total: u64, brings: &[&Report], core: &Core, to: &mut Reached) {
    to.add(count_case(COUNTS[brings.len().min(COUNTS.len()) - 1]));
    to.add_if(brings.len() == MOST_VCPUS, "total: of 32 VCPUs");
    let has = |kind: &&usize| brings.iter().any(|report| usize::from(report.description.kind) == **kind);
    to.add(kinds_case(&[0, 1, 2].iter().filter(has).map(|&kind| KINDS[kind]).collect::<Vec<_>>()));
    ABOVE.iter().filter(|&&bound| total > bound).for_each(|&bound| to.add(above_case(bound)));
    to.add_if(total == LARGEST, "total: the largest, 32,000,000");
    let runnable = brings.iter().filter(|report| report.runnable).count();
    to.add_if(runnable == 0, "total: of ones not runnable alone");
    to.add_if(runnable > 0 && runnable < brings.len(), "total: of runnable ones and others");
    to.add_if(core.running.is_none(), "total: at a call that leaves the core idle");
}

/// Of one that passes a boundary.
fn note_refill(report: &Report, to: &mut Reached) {
    let Report { description, runnable, left, brought, due, .. } = *report;
    let kind = kind_of(&description);
    if description.kind == 0 {
        return;
    }
    let adds = match (brought, left, runnable) {
        (0, 0, _) => "nothing to one not runnable",
        (0, ..) => "nothing to a full one",
        (_, 0, _) => "the whole capacity",
        _ => "a part",
    };
    to.add(format!("total: a refill adds {adds}, {kind}"));
    if due > 1 && brought > 0 {
        to.add(format!("total: several boundaries add once, {kind}"));
    }
}

/// Of one to whom ticks come back.
fn note_change(report: &Report, call: &Call, to: &mut Reached) {
    let own = report.description.identifier;
    let word = match call.change {
        Change::Wake(identifier) if identifier == own => "wakes",
        Change::Block(identifier) if identifier == own && report.runnable => "blocks",
        Change::Remove(identifier) if identifier == own => "removes",
        _ => return,
    };
    to.add(format!("total: one that the call {word}, {}", kind_of(&report.description)));
}

/// Of the one that was charged.
fn note_holder(report: &Report, core: &Core, others: bool, to: &mut Reached) {
    let kind = kind_of(&report.description);
    let case = if others { "and others" } else { "alone" };
    to.add(format!("total: the one that held the core {case}, {kind}"));
    // With nothing left pending, what was just charged has come back too.
    let at_once = report.description.kind == 0 && report.next.is_none();
    to.add_if(at_once && core.charged == Charged::Entry, "total: a new entry comes back at once");
    to.add_if(at_once && core.charged == Charged::Join, "total: what joins an entry comes back at once");
}

fn count_case(count: &str) -> String {
    format!("total: of {count}")
}

fn above_case(bound: u64) -> String {
    format!("total: above {bound}")
}

fn kinds_case(kinds: &[&str]) -> String {
    format!("total: {}", kinds.join(" and "))
}

/// The cases that a comparison must meet.
pub fn asked() -> Vec<String> {
    let mut all: Vec<String> = PLAIN.map(str::to_string).to_vec();
    all.extend(COUNTS.map(count_case));
    all.extend(ABOVE.map(above_case));
    let [sporadic, deferrable, polling] = KINDS;
    let pairs = [[sporadic, deferrable], [sporadic, polling], [deferrable, polling]];
    all.extend(KINDS.iter().map(|&kind| kinds_case(&[kind])));
    all.extend(pairs.iter().map(|pair| kinds_case(pair)));
    all.push(kinds_case(&KINDS));
    all.extend(of_each(&["admit", "wake", "block", "remove", "tick"], &["total: at {}"]));
    all.extend(of_each(&KINDS, &OF_EACH));
    all.extend(of_each(&KINDS[1..], &OF_REFILLED));
    all
}

const OF_EACH: [&str; 5] = [
    "total: one that the call wakes, {}",
    "total: one that the call blocks, {}",
    "total: one that the call removes, {}",
    "total: the one that held the core alone, {}",
    "total: the one that held the core and others, {}",
];

const OF_REFILLED: [&str; 4] = [
    "total: a refill adds nothing to a full one, {}",
    "total: a refill adds a part, {}",
    "total: a refill adds the whole capacity, {}",
    "total: several boundaries add once, {}",
];

const PLAIN: [&str; 14] = [
    "total 0: time passes and nothing is due",
    "total 0: a boundary is passed and brings nothing",
    "total 0: behind one that is not",
    "total 0: at the moment of one that is not",
    "total: behind another one",
    "total: of 32 VCPUs",
    "total: the largest, 32,000,000",
    "total: of ones not runnable alone",
    "total: of runnable ones and others",
    "total: at a call that leaves the core idle",
    "total: several entries of one, and another's ticks",
    "total: a refill adds nothing to one not runnable, polling",
    "total: a new entry comes back at once",
    "total: what joins an entry comes back at once",
];

#[cfg(test)]
mod tests {
    use super::*;
    use crate::turns::Description;

    /// The cases that the last of the calls meets. All are accepted; VCPU 1 is admitted at 0 with
    /// T 10 and this capacity and kind.
    fn met(kind: u8, capacity: u32, calls: &[(u64, Change)]) -> Vec<String> {
        let own = Description { identifier: 1, period: 10, capacity, priority: 1, kind };
        let (mut core, mut notes, mut reached) = (Core::new(), Notes::default(), Reached::default());
        for &(time, change) in [(0, Change::Admit(own))].iter().chain(calls) {
            let (last, held) = (core.last, core.running);
            let call = Call { time, change };
            core.call(&call).unwrap();
            reached = Reached::default();
            note(last, held, &call, "a call", &core, &mut notes, &mut reached);
        }
        asked().into_iter().filter(|case| reached.count(case) > 0).collect()
    }

    const WAKE: Change = Change::Wake(1);
    const BLOCK: Change = Change::Block(1);

    #[test]
    fn a_refill_is_told_by_what_it_adds() {
        let adds = |kind, calls: &[(u64, Change)]| {
            let met = met(kind, 4, calls);
            let adds = met.iter().filter_map(|case| case.strip_prefix("total: a refill adds "));
            adds.map(|case| case.split(',').next().unwrap_or("").to_string()).collect::<Vec<_>>()
        };
        let tick = (10, Change::Tick);
        assert_eq!(adds(1, &[tick]), ["nothing to a full one"]);
        assert_eq!(adds(1, &[(3, WAKE), (5, BLOCK), tick]), ["a part"]);
        assert_eq!(adds(1, &[(3, WAKE), (7, BLOCK), tick]), ["the whole capacity"]);
        assert_eq!(adds(1, &[(3, WAKE), (5, BLOCK), (9, Change::Tick)]), [""; 0]);
        assert_eq!(adds(2, &[tick]), ["nothing to one not runnable"]);
        assert_eq!(adds(2, &[(3, WAKE), tick]), ["the whole capacity"]);
        assert_eq!(adds(0, &[(0, WAKE), (4, BLOCK), tick]), [""; 0]);
    }

    #[test]
    fn one_that_the_call_blocks_or_removes_is_known_by_its_kind() {
        let named = |kind, change| {
            let calls = [(0, WAKE), (4, Change::Tick), (10, change)];
            met(kind, 4, &calls).into_iter().filter(|case| case.contains("that the call")).collect::<Vec<_>>()
        };
        for (kind, name) in (0..).zip(KINDS) {
            assert_eq!(named(kind, BLOCK), [format!("total: one that the call blocks, {name}")]);
            assert_eq!(named(kind, Change::Remove(1)), [format!("total: one that the call removes, {name}")]);
            assert_eq!(named(kind, Change::Tick), [""; 0]);
        }
        let not_runnable = met(0, 4, &[(0, WAKE), (4, BLOCK), (10, BLOCK)]);
        assert!(!not_runnable.iter().any(|case| case.contains("that the call")), "{not_runnable:?}");
    }

    #[test]
    fn what_comes_back_at_once_is_known() {
        let [new, joined] = ["a new entry", "what joins an entry"];
        let at_once = |capacity, calls: &[(u64, Change)]| {
            let met = met(0, capacity, calls);
            [new, joined].map(|what| met.contains(&format!("total: {what} comes back at once")))
        };
        assert_eq!(at_once(10, &[(0, WAKE), (10, Change::Tick)]), [true, false]);
        assert_eq!(at_once(10, &[(0, WAKE), (4, Change::Tick), (10, Change::Tick)]), [false, true]);
        assert_eq!(at_once(9, &[(0, WAKE), (9, Change::Tick), (10, Change::Tick)]), [false, false]);
        assert_eq!(at_once(9, &[(0, WAKE), (1, BLOCK), (9, WAKE), (10, Change::Tick)]), [false, false]);
    }

    #[test]
    fn a_total_of_nothing_is_told_apart() {
        let none = |calls: &[(u64, Change)]| {
            let met = met(0, 4, calls);
            met.into_iter()
                .filter_map(|case| case.strip_prefix("total 0: ").map(str::to_string))
                .collect::<Vec<_>>()
        };
        let used = [(0, WAKE), (4, BLOCK)];
        let behind = |more: &[(u64, Change)]| none(&[&used[..], more].concat());
        assert_eq!(behind(&[(9, Change::Tick)]), ["time passes and nothing is due"]);
        assert_eq!(behind(&[(10, Change::Tick)]), [""; 0]);
        assert_eq!(behind(&[(10, Change::Tick), (10, Change::Tick)]), ["at the moment of one that is not"]);
        assert_eq!(behind(&[(10, Change::Tick), (11, Change::Tick)]), ["behind one that is not"]);
    }
}
