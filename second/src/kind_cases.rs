//! Which cases of request 1 a call meets: what its boundaries find, and where the timer comes
//! from. Told from the card before and after it, as `card_cases` does.

use crate::reached::Reached;
use crate::turns::{Call, Change, Core, Description, Vcpu};
use std::collections::BTreeSet;

/// A call that passes so many boundaries of one VCPU has leapt over nearly all of time.
const VERY_MANY: u64 = 900_000_000_000;

/// The kinds that have boundaries, by their byte.
const REFILLED: [&str; 2] = ["deferrable", "polling"];

fn name(kind: u8) -> &'static str {
    REFILLED[usize::from(kind) - 1]
}

/// The name of a case is put together only where it is met: most calls meet few.
fn add_if(to: &mut Reached, kind: &str, met: bool, case: &str) {
    if met {
        to.add(format!("{kind}: {case}"));
    }
}

/// One VCPU with boundaries, as it stood before the call.
struct Stood {
    vcpu: Vcpu,
    /// Behind the charge.
    usable: u64,
    passed: u64,
    how: &'static str,
    /// The timer was its boundary, looked at because it is more urgent than the one that runs.
    awaited: bool,
}

#[derive(Default)]
pub struct Before {
    stood: Vec<Stood>,
}

/// Those that lost the core to a more urgent one with ticks left, and have not run since.
#[derive(Default)]
pub struct Notes {
    preempted: BTreeSet<u32>,
}

/// Those that the call names or passes a boundary of: the others meet no case.
pub fn before(core: &Core, call: &Call, named: Option<u32>, notes: &Notes) -> Before {
    let now = call.time.max(core.last);
    let refilled = core.vcpus.values().filter(|vcpu| vcpu.description.kind > 0);
    let stands = |vcpu: &Vcpu| {
        let passed = vcpu.boundaries_passed(core.last, now);
        let met = passed > 0 || named == Some(vcpu.description.identifier);
        met.then(|| stood(core, now, notes, vcpu, passed))
    };
    Before { stood: refilled.filter_map(stands).collect() }
}

fn stood(core: &Core, now: u64, notes: &Notes, vcpu: &Vcpu, passed: u64) -> Stood {
    let (last, identifier) = (core.last, vcpu.description.identifier);
    let runs = core.running == Some(identifier);
    let held = if runs { now - last } else { 0 };
    let usable = vcpu.usable(last);
    let how = match vcpu.runnable() {
        false => "while blocked",
        true if runs => "while it runs",
        true if usable == 0 => "while it waits without ticks",
        true if notes.preempted.contains(&identifier) => "while preempted",
        true => "while less urgent",
    };
    let in_time = core.timer.is_none_or(|timer| now <= timer);
    // A more urgent one that is runnable has no ticks: it would run.
    let waits = vcpu.runnable() && core.chosen().is_some_and(|chosen| vcpu.more_urgent_than(chosen));
    Stood {
        vcpu: vcpu.clone(),
        // A call that is too late is refused, and nobody is charged.
        usable: if in_time { usable - held } else { usable },
        passed,
        how,
        awaited: waits && core.timer == Some(now) && vcpu.next_boundary(last) == core.timer,
    }
}

/// What an accepted call met.
pub fn note(
    before: &Before,
    call: &Call,
    core: &Core,
    held: Option<u32>,
    notes: &mut Notes,
    to: &mut Reached,
) {
    for stood in &before.stood {
        let kind = name(stood.vcpu.description.kind);
        if stood.passed > 0 {
            note_boundary(stood, kind, call, core, to);
        }
        note_own_change(stood, kind, call, core, to);
    }
    if let Change::Admit(description) = call.change {
        note_admit(&description, to);
    }
    note_timer(core, to);
    note_preempted(core, held, notes);
}

fn note_boundary(stood: &Stood, kind: &str, call: &Call, core: &Core, to: &mut Reached) {
    let Description { identifier, period, capacity, .. } = stood.vcpu.description;
    to.add(format!("{kind}: a boundary {}", stood.how));
    add_if(to, kind, stood.passed > 1, "several boundaries passed by one call");
    add_if(to, kind, stood.passed > VERY_MANY, "very many boundaries passed by one call");
    let left = match stood.usable {
        0 => "no ticks",
        usable if usable == u64::from(capacity) => "all ticks",
        _ => "some ticks",
    };
    to.add(format!("{kind}: a boundary with {left} left"));
    let on = core.running == Some(identifier) && stood.how == "while it runs";
    add_if(to, kind, on && capacity == period, "C is T and it runs on over a boundary");
    let here = stood.vcpu.next_boundary(call.time - 1) == Some(call.time);
    let word = match call.change {
        Change::Wake(other) if other == identifier && !stood.vcpu.runnable() => "its wake",
        Change::Block(other) if other == identifier && stood.vcpu.runnable() => "its block",
        Change::Remove(other) if other == identifier => "its removal",
        Change::Admit(_) => "an admission",
        _ => return,
    };
    if here {
        to.add(format!("{kind}: a boundary and {word} at one moment"));
    }
}

/// What the call does to the VCPU that it names, and to its ticks.
fn note_own_change(stood: &Stood, kind: &str, call: &Call, core: &Core, to: &mut Reached) {
    let Description { identifier, capacity, .. } = stood.vcpu.description;
    let after = core.vcpus.get(&identifier).map(|vcpu| vcpu.usable(core.last));
    let some = |usable: u64| usable > 0 && usable < u64::from(capacity);
    match call.change {
        Change::Block(other) if other == identifier && stood.vcpu.runnable() => {
            let left = stood.usable > 0 && stood.passed == 0;
            add_if(to, kind, left, "blocked with ticks left");
            to.add_if(
                stood.awaited && after == Some(0),
                "polling: the timer is a more urgent one's boundary that brings nothing",
            );
        }
        Change::Wake(other) if other == identifier && !stood.vcpu.runnable() => {
            to.add_if(after.is_some_and(some), "deferrable: woken with some ticks left");
            add_if(to, kind, after == Some(0), "woken without ticks");
        }
        Change::Remove(other) if other == identifier => {
            add_if(to, kind, stood.awaited, "more urgent and removed at the timer, which is its boundary");
        }
        _ => (),
    }
}

fn note_admit(description: &Description, to: &mut Reached) {
    let Description { period, capacity, kind, .. } = *description;
    if kind == 0 {
        return;
    }
    let kind = name(kind);
    to.add(format!("{kind}: admitted"));
    add_if(to, kind, capacity == period && period > 1, "capacity is the period");
    add_if(to, kind, period == 1, "period 1");
}

fn note_timer(core: &Core, to: &mut Reached) {
    let Some(timer) = core.timer else { return };
    let Some(chosen) = core.chosen() else {
        let own = |vcpu: &&Vcpu| vcpu.runnable() && vcpu.next_boundary(core.last) == Some(timer);
        for vcpu in core.vcpus.values().filter(own) {
            to.add(format!("{}: a timer in idle from its boundary", name(vcpu.description.kind)));
        }
        return;
    };
    let used_up = core.last + chosen.usable(core.last);
    let awaited = core.awaited();
    if chosen.next_boundary(core.last) == Some(timer) {
        let kind = name(chosen.description.kind);
        let alone = timer < used_up && awaited.is_none_or(|moment| timer < moment);
        add_if(to, kind, alone, "a timer from the running one's own boundary");
        add_if(to, kind, timer == used_up, "used up at its own boundary");
    }
    let more_urgent = |vcpu: &&Vcpu| vcpu.runnable() && vcpu.more_urgent_than(chosen);
    for vcpu in core.vcpus.values().filter(more_urgent) {
        if timer < used_up && vcpu.next_boundary(core.last) == Some(timer) {
            to.add(format!("{}: a timer from a more urgent one's boundary", name(vcpu.description.kind)));
        }
    }
}

fn note_preempted(core: &Core, held: Option<u32>, notes: &mut Notes) {
    let waits = |identifier: &u32| {
        let able = |vcpu: &Vcpu| vcpu.runnable() && core.running != Some(*identifier);
        core.vcpus.get(identifier).is_some_and(able)
    };
    let has_ticks =
        |identifier: &u32| core.vcpus.get(identifier).is_some_and(|vcpu| vcpu.usable(core.last) > 0);
    notes.preempted.extend(held.filter(has_ticks));
    notes.preempted.retain(waits);
}

/// The cases that a comparison must meet.
pub fn asked() -> Vec<String> {
    let mut all: Vec<String> = Vec::new();
    for kind in REFILLED {
        all.extend(BOTH.map(|case| format!("{kind}: {case}")));
    }
    all.extend(ONE.map(str::to_string));
    all
}

/// Of each kind that has boundaries.
const BOTH: [&str; 23] = [
    "admitted",
    "capacity is the period",
    "period 1",
    "a boundary while it runs",
    "a boundary while preempted",
    "a boundary while less urgent",
    "a boundary while it waits without ticks",
    "a boundary while blocked",
    "a boundary with no ticks left",
    "a boundary with some ticks left",
    "several boundaries passed by one call",
    "very many boundaries passed by one call",
    "a boundary and its wake at one moment",
    "a boundary and its block at one moment",
    "a boundary and its removal at one moment",
    "a boundary and an admission at one moment",
    "C is T and it runs on over a boundary",
    "blocked with ticks left",
    "more urgent and removed at the timer, which is its boundary",
    "a timer in idle from its boundary",
    "a timer from the running one's own boundary",
    "used up at its own boundary",
    "a timer from a more urgent one's boundary",
];

const ONE: [&str; 5] = [
    "deferrable: a boundary with all ticks left",
    "deferrable: woken with some ticks left",
    "deferrable: woken without ticks",
    "polling: woken without ticks",
    "polling: the timer is a more urgent one's boundary that brings nothing",
];
