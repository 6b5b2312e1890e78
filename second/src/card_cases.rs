//! Which cases a call meets, told from the card before and after it.

use crate::endings;
use crate::kind_cases;
use crate::offsets;
use crate::reached::Reached;
use crate::refusal::Refusal;
use crate::return_cases;
use crate::row_cases;
use crate::stay_cases;
use crate::total_cases;
use crate::turns::{Call, Change, Charged, Core, Description, Reply, Vcpu};
use crate::turns::{LARGEST_IDENTIFIER, LARGEST_PERIOD, LARGEST_TIME, MOST_PENDING, MOST_VCPUS};
use std::collections::BTreeSet;

/// What is remembered from call to call.
#[derive(Default)]
pub struct Notes {
    /// The identifier that the last accepted call removed.
    pub removed: Option<u32>,
    at_one_moment: u32,
    folded: BTreeSet<u32>,
    kinds: kind_cases::Notes,
    returns: return_cases::Notes,
    pub stays: stay_cases::Notes,
    totals: total_cases::Notes,
}

/// What a case needs to know of the card before the call.
pub struct Before {
    last: u64,
    timer: Option<u64>,
    running: Option<Vcpu>,
    count: usize,
    rows: Vec<u32>,
    was_runnable: bool,
    returns: return_cases::Before,
    kinds: kind_cases::Before,
    stays: stay_cases::Before,
}

fn identifier(change: &Change) -> Option<u32> {
    match change {
        Change::Admit(description) => Some(description.identifier),
        Change::Wake(identifier) | Change::Block(identifier) | Change::Remove(identifier) => {
            Some(*identifier)
        }
        Change::Tick => None,
    }
}

pub fn word(change: &Change) -> &'static str {
    match change {
        Change::Admit(_) => "admit",
        Change::Wake(_) => "wake",
        Change::Block(_) => "block",
        Change::Remove(_) => "remove",
        Change::Tick => "tick",
    }
}

pub fn before(core: &Core, call: &Call, notes: &Notes) -> Before {
    let named = identifier(&call.change);
    let vcpu = named.and_then(|identifier| core.vcpus.get(&identifier));
    Before {
        last: core.last,
        timer: core.timer,
        running: core.chosen().map(|vcpu| vcpu.without_history(core.last)),
        count: core.vcpus.len(),
        rows: row_cases::rows(core, call),
        was_runnable: vcpu.is_some_and(|vcpu| vcpu.runnable()),
        returns: return_cases::before(core, call),
        kinds: kind_cases::before(core, call, named, &notes.kinds),
        stays: stay_cases::before(core, call, named),
    }
}

pub fn note(
    before: &Before,
    call: &Call,
    answer: &Result<Reply, Refusal>,
    core: &Core,
    notes: &mut Notes,
    reached: &mut Reached,
) {
    match answer {
        Err(refusal) => {
            note_refusal(before, call, refusal, core, reached);
            let word = word(&call.change);
            stay_cases::note_refusal(&before.stays, call, word, refusal, &mut notes.stays, reached);
        }
        Ok(reply) => {
            reached.add(format!("{} ok", word(&call.change)));
            note_time(before, call, reached);
            note_moment(before, call, notes, reached);
            note_charge(before, call, core, notes, reached);
            note_change(before, call, core, reached);
            note_choice(before, core, reached);
            note_timer(reply, core, reached);
            let held = before.running.as_ref().map(|vcpu| vcpu.description.identifier);
            kind_cases::note(&before.kinds, call, core, held, &mut notes.kinds, reached);
            return_cases::note(&before.returns, call, core, &mut notes.returns, reached);
            total_cases::note(before.last, held, call, word(&call.change), core, &mut notes.totals, reached);
            let folded = identifier(&call.change).is_some_and(|named| notes.folded.contains(&named));
            stay_cases::note(&before.stays, call, core, held, folded, &mut notes.stays, reached);
            notes.folded.retain(|identifier| core.vcpus.contains_key(identifier));
        }
    }
}

fn note_refusal(before: &Before, call: &Call, refusal: &Refusal, core: &Core, reached: &mut Reached) {
    let number = refusal.number;
    reached.add(format!("{} no {number}", word(&call.change)));
    reached.add_refusal(number);
    row_cases::note(&before.rows, call, number, reached);
    reached.add_if(number == 1 && call.time == LARGEST_TIME + 1, "1 by one tick");
    reached.add_if(number == 3 && refusal.detail + 1 == call.time, "3 by one tick");
    if let (7, Some(identifier)) = (number, identifier(&call.change)) {
        reached.add_if(has_same_low_bits(core, identifier), "7 though the low 16 bits are on the card");
    }
}

fn has_same_low_bits(core: &Core, identifier: u32) -> bool {
    core.vcpus.keys().any(|&other| other != identifier && other & 0xffff == identifier & 0xffff)
}

fn note_time(before: &Before, call: &Call, reached: &mut Reached) {
    let gap = before.running.is_none() && call.time > before.last;
    reached.add_if(gap && before.timer.is_some(), "idle with a timer");
    reached.add_if(gap && before.timer.is_none(), "idle without a timer");
    reached.add_if(before.timer == Some(call.time), "a call at the timer");
    reached.add_if(before.timer == Some(call.time + 1), "a call just before the timer");
    reached.add_if(call.time == LARGEST_TIME, "the largest time");
}

fn note_moment(before: &Before, call: &Call, notes: &mut Notes, reached: &mut Reached) {
    let same = call.time == before.last;
    notes.at_one_moment = if same { notes.at_one_moment + 1 } else { 0 };
    reached.add_if(notes.at_one_moment >= 1, "two calls at one moment");
    reached.add_if(notes.at_one_moment >= 4, "five calls at one moment");
    if let (true, Some(removed), Change::Admit(description)) = (same, notes.removed, call.change) {
        reached.add("removal and admission at one moment");
        reached.add_if(removed == description.identifier, "the same identifier again at one moment");
        reached
            .add_if(before.count == MOST_VCPUS - 1, "removal from a full card and admission at one moment");
    }
    notes.removed = match call.change {
        Change::Remove(identifier) => Some(identifier),
        _ => None,
    };
}

fn note_charge(before: &Before, call: &Call, core: &Core, notes: &mut Notes, reached: &mut Reached) {
    let case = match core.charged {
        Charged::Nobody => "nobody charged",
        Charged::Nothing => "nothing charged",
        Charged::Entry => "a new entry",
        Charged::Join => "a join",
        Charged::Fold => "a fold",
        Charged::Taken => "ticks taken where there is no queue",
    };
    reached.add(case);
    let Some(held) = &before.running else { return };
    let Description { identifier, period, capacity, .. } = held.description;
    let entry = core.charged == Charged::Entry;
    let whole = capacity == period;
    reached.add_if(entry && whole && held.use_ended() == Some(before.last), "a slice cut where C is T");
    reached.add_if(entry && call.time - before.last == u64::from(period), "a whole period in one charge");
    reached
        .add_if(call.change == Change::Remove(identifier) && call.time > before.last, "removed while it ran");
    let folded = notes.folded.contains(&identifier);
    reached.add_if(folded && core.charged == Charged::Join, "a join behind a fold");
    reached.add_if(folded && core.charged == Charged::Fold, "a fold behind a fold");
    match core.charged {
        Charged::Fold => drop(notes.folded.insert(identifier)),
        Charged::Entry => drop(notes.folded.remove(&identifier)),
        _ => (),
    }
}

fn note_change(before: &Before, call: &Call, core: &Core, reached: &mut Reached) {
    match call.change {
        Change::Wake(_) => reached.add_if(before.was_runnable, "a wake of a runnable one"),
        Change::Block(_) => reached.add_if(!before.was_runnable, "a block of one not runnable"),
        Change::Admit(description) => {
            reached.add_if(core.vcpus.len() == MOST_VCPUS, "the card becomes full");
            note_description(&description, core, reached);
            row_cases::note_terms(&description, 0, reached);
        }
        _ => (),
    }
}

fn note_description(description: &Description, core: &Core, reached: &mut Reached) {
    let Description { identifier, period, capacity, priority, .. } = *description;
    reached.add_if(has_same_low_bits(core, identifier), "identifiers equal in their low 16 bits");
    reached.add_if(identifier == 0, "identifier 0");
    reached.add_if(identifier == LARGEST_IDENTIFIER, "identifier 16777215");
    reached.add_if(period == 1, "period 1");
    reached.add_if(period == LARGEST_PERIOD, "period 1000000");
    reached.add_if(capacity == period, "capacity is the period");
    reached.add_if(capacity == 1 && period > 1, "capacity 1");
    reached.add_if(priority == 0, "priority 0");
    reached.add_if(priority == 255, "priority 255");
}

fn note_choice(before: &Before, core: &Core, reached: &mut Reached) {
    let able = |vcpu: &&Vcpu| vcpu.runnable() && vcpu.usable(core.last) > 0;
    if let Some(held) = &before.running {
        let now = core.vcpus.get(&held.description.identifier);
        let still = now.filter(able).is_some();
        let chosen = core.chosen();
        let preempted = still && chosen.is_some_and(|vcpu| vcpu.more_urgent_than(held));
        reached.add_if(preempted, "preemption");
        let used_up = now.is_some_and(|vcpu| vcpu.runnable() && vcpu.usable(core.last) == 0);
        reached.add_if(used_up, "the running one is used up");
    }
    let Some(chosen) = core.chosen() else { return };
    let same = |vcpu: &Vcpu| vcpu.description.priority == chosen.description.priority;
    let ties = core.vcpus.values().filter(able).filter(|vcpu| same(vcpu)).count() > 1;
    reached.add_if(ties, "equal priority");
    let passed = core.vcpus.values().any(|vcpu| vcpu.runnable() && vcpu.more_urgent_than(chosen));
    reached.add_if(passed, "a more urgent one without ticks");
}

fn note_timer(reply: &Reply, core: &Core, reached: &mut Reached) {
    let full = core.vcpus.values().any(|vcpu| vcpu.pending_count(core.last) == MOST_PENDING);
    reached.add_if(full, "eight pending");
    let Some(timer) = reply.timer else {
        let case = if core.vcpus.is_empty() {
            "no timer on an empty card"
        } else {
            "no timer with VCPUs on the card"
        };
        reached.add(case);
        return;
    };
    reached.add_if(timer > LARGEST_TIME, "a timer above the largest time");
    let Some(chosen) = core.chosen() else {
        reached.add("a timer in idle");
        return;
    };
    let used_up = reply.time + reply.usable;
    reached.add_if(timer == used_up, "a timer from the usable ticks");
    let returns = |vcpu: &Vcpu| {
        vcpu.runnable() && vcpu.more_urgent_than(chosen) && vcpu.earliest_return(core.last) == Some(timer)
    };
    let from_return = timer < used_up && core.vcpus.values().any(returns);
    reached.add_if(from_return, "a timer from a more urgent return");
    reached.add_if(core.awaited() == Some(used_up), "both timers equal");
}

/// All the cases that a comparison must meet.
pub fn asked() -> Vec<String> {
    let mut all: Vec<String> = PLAIN.iter().map(|case| case.to_string()).collect();
    all.extend(endings::all_cases());
    all.extend(kind_cases::asked());
    all.extend(return_cases::asked());
    all.extend(row_cases::asked());
    all.extend(stay_cases::asked());
    all.extend(total_cases::asked());
    all.extend(offsets::asked());
    for word in ["admit", "wake", "block", "remove", "tick"] {
        all.push(format!("{word} ok"));
        all.extend([1, 2, 3].map(|row| format!("{word} no {row}")));
    }
    all.extend(row_cases::OF_ADMIT.map(|row| format!("admit no {row}")));
    all.extend(["wake", "block", "remove"].map(|word| format!("{word} no 7")));
    for tag in 1..=5 {
        all.push(format!("time of tag {tag} damaged"));
    }
    for tag in 1..=4 {
        all.push(format!("identifier of tag {tag} damaged"));
    }
    all.extend(["period", "capacity", "priority", "kind"].map(|field| format!("{field} of tag 1 damaged")));
    all
}

const PLAIN: [&str; 49] = [
    "1 by one tick",
    "3 by one tick",
    "7 though the low 16 bits are on the card",
    "idle with a timer",
    "idle without a timer",
    "a call at the timer",
    "a call just before the timer",
    "the largest time",
    "two calls at one moment",
    "five calls at one moment",
    "removal and admission at one moment",
    "the same identifier again at one moment",
    "removal from a full card and admission at one moment",
    "nobody charged",
    "nothing charged",
    "a new entry",
    "a join",
    "a fold",
    "ticks taken where there is no queue",
    "a slice cut where C is T",
    "a whole period in one charge",
    "removed while it ran",
    "a join behind a fold",
    "a fold behind a fold",
    "a wake of a runnable one",
    "a block of one not runnable",
    "the card becomes full",
    "identifiers equal in their low 16 bits",
    "identifier 0",
    "identifier 16777215",
    "period 1",
    "period 1000000",
    "capacity is the period",
    "capacity 1",
    "priority 0",
    "priority 255",
    "preemption",
    "the running one is used up",
    "equal priority",
    "a more urgent one without ticks",
    "eight pending",
    "no timer on an empty card",
    "no timer with VCPUs on the card",
    "a timer above the largest time",
    "a timer in idle",
    "a timer from the usable ticks",
    "a timer from a more urgent return",
    "both timers equal",
    "bytes behind a stop",
];
