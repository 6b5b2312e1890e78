//! Which cases of request 3 a call meets: who is remembered and with what, who comes back, and
//! whose stays share a window. Told from the card before and after it, as `card_cases` does.

use crate::reached::Reached;
use crate::refusal::Refusal;
use crate::turns::{Call, Change, Core, Description};
use crate::turns::{LARGEST_IDENTIFIER, LARGEST_PERIOD, LARGEST_TIME, MOST_VCPUS};
use std::cmp::Ordering;
use std::collections::BTreeMap;

/// What an ended stay is remembered with, by its kind.
const BOUNDARIES: [&str; 2] = ["a deferrable one's boundary", "a polling one's boundary"];
const RETURN: &str = "a return";
const FOLDED: &str = "a folded return";

/// What a sporadic stay that is forgotten at once had before its removal.
const NOTHING: &str = "nothing pending";
const RETURNED: &str = "a last return, which came just then";

/// Of one that is admitted at the largest time with the largest period.
const GREATEST: u64 = LARGEST_TIME + LARGEST_PERIOD as u64;

pub const KINDS: [&str; 3] = ["sporadic", "deferrable", "polling"];

pub fn kind_of(description: &Description) -> &'static str {
    KINDS[usize::from(description.kind)]
}

fn same_terms(one: &Description, other: &Description) -> bool {
    let terms = |of: &Description| (of.period, of.capacity, of.kind);
    terms(one) == terms(other)
}

/// A stay that lasts, or one that has ended.
struct Stay {
    description: Description,
    admitted: u64,
    /// Where its latest use ended.
    held_to: Option<u64>,
    removed: u64,
    /// What it is remembered with, and up to when.
    sort: &'static str,
    until: Option<u64>,
    at_boundary: bool,
}

#[derive(Default)]
pub struct Notes {
    on_card: BTreeMap<u32, Stay>,
    ended: BTreeMap<u32, Vec<Stay>>,
    /// The latest time of the calls refused since the last accepted one.
    refused_at: u64,
    /// How many have left and were remembered since the last accepted tick.
    left: usize,
}

impl Notes {
    fn last_stay(&self, identifier: u32) -> Option<&Stay> {
        self.ended.get(&identifier)?.last()
    }

    /// The terms of its latest stay that has ended.
    pub fn last_terms(&self, identifier: u32) -> Option<Description> {
        self.last_stay(identifier).map(|stay| stay.description)
    }
}

pub struct Before {
    last: u64,
    on_card: usize,
    /// How many were remembered at the last accepted call, and how many are at this one.
    uncleared: usize,
    remembered: usize,
    /// Those of them whose time can come.
    in_reach: usize,
    until: Option<u64>,
    /// How one that is remembered and equal in the low 16 bits compares.
    low_bits: Option<Ordering>,
    /// The one bit in which one that is remembered differs.
    one_bit: Option<u32>,
    at_boundary: bool,
    was_pending: bool,
}

pub fn before(core: &Core, call: &Call, named: Option<u32>) -> Before {
    let now = call.time.clamp(core.last, LARGEST_TIME);
    let vcpu = named.and_then(|identifier| core.vcpus.get(&identifier));
    let others = core.remembered.iter().filter(|(_, &until)| now < until).map(|(&other, _)| other);
    let in_reach = core.remembered.values().filter(|&&until| now < until && until <= LARGEST_TIME);
    let low_bits = |identifier: u32| {
        let same = |other: &u32| *other != identifier && other & 0xffff == identifier & 0xffff;
        others.clone().find(same).map(|other| other.cmp(&identifier))
    };
    let one_bit = |identifier: u32| {
        let differ = others.clone().map(|other| other ^ identifier);
        differ.filter(|bits| bits.is_power_of_two()).map(u32::trailing_zeros).next()
    };
    let passes = vcpu.filter(|vcpu| vcpu.boundaries_passed(core.last, now) > 0);
    Before {
        last: core.last,
        on_card: core.vcpus.len(),
        uncleared: core.remembered_count(core.last),
        remembered: core.remembered_count(call.time),
        in_reach: in_reach.count(),
        until: named.and_then(|identifier| core.remembered_until(identifier, call.time)),
        low_bits: named.and_then(low_bits),
        one_bit: named.and_then(one_bit),
        at_boundary: passes.is_some_and(|vcpu| vcpu.next_boundary(now - 1) == Some(now)),
        was_pending: vcpu.is_some_and(|vcpu| vcpu.pending_count(core.last) > 0),
    }
}

pub fn note_refusal(
    before: &Before,
    call: &Call,
    word: &str,
    refusal: &Refusal,
    notes: &mut Notes,
    to: &mut Reached,
) {
    match (refusal.number, call.change) {
        (9, Change::Admit(description)) => {
            note_9(notes, description.identifier, call.time, refusal.detail, to);
        }
        (8, _) if before.on_card + before.in_reach < MOST_VCPUS => to.add("8: by times above the largest"),
        (8, _) if before.on_card == 0 => to.add("8: remembered ones alone"),
        (8, _) if before.remembered > 0 => to.add("8: some on the card and some remembered"),
        (8, _) => to.add("8: all on the card"),
        (7, _) if before.until.is_some() => to.add(format!("7: {word} of a remembered one")),
        _ => (),
    }
    notes.refused_at = notes.refused_at.max(call.time);
}

fn note_9(notes: &Notes, identifier: u32, now: u64, until: u64, to: &mut Reached) {
    let Some(stay) = notes.last_stay(identifier) else { return };
    let kind = kind_of(&stay.description);
    to.add(format!("9: {}", stay.sort));
    if now + 1 == until {
        to.add(format!("9: one tick before its time, {}", stay.sort));
    }
    to.add_if(until == LARGEST_TIME, "9: the time is the largest");
    to.add_if(until == GREATEST, "9: the greatest time that there is");
    to.add_if(notes.left > MOST_VCPUS, "9: more have left without a tick than there are places");
    to.add_if(now == stay.removed, "9: at the moment of its removal");
    to.add_if(notes.refused_at >= until, "9: behind a refused call at or after its time");
    if until > LARGEST_TIME {
        to.add(format!("9: a time above the largest, {kind}"));
    }
    if stay.at_boundary {
        to.add(format!("9: removed at its boundary, {kind}"));
    }
    if stay.admitted == stay.removed {
        to.add(format!("9: admitted and removed at one moment, {kind}"));
    }
}

/// What an accepted call met. `held` is who held the core before it, `folded` whether the one
/// that it names has a folded entry last.
pub fn note(
    before: &Before,
    call: &Call,
    core: &Core,
    held: Option<u32>,
    folded: bool,
    notes: &mut Notes,
    to: &mut Reached,
) {
    if let Some(identifier) = held.filter(|_| before.last < call.time) {
        note_held(notes, identifier, before.last, to);
        notes.on_card.entry(identifier).and_modify(|stay| stay.held_to = Some(call.time));
    }
    match call.change {
        Change::Admit(description) => {
            note_admit(before, &description, call.time, notes, to);
            notes.on_card.insert(description.identifier, admitted(description, call.time));
        }
        Change::Remove(identifier) => note_removal(before, identifier, core, folded, notes, to),
        Change::Tick => notes.left = 0,
        _ => (),
    }
    notes.refused_at = 0;
}

fn admitted(description: Description, now: u64) -> Stay {
    let (removed, sort, until) = (now, "", None);
    Stay { description, admitted: now, held_to: None, removed, sort, until, at_boundary: false }
}

/// The stay holds the core from `from` on: which earlier ones with its terms have ticks in one
/// window with that, and what stood between.
fn note_held(notes: &Notes, identifier: u32, from: u64, to: &mut Reached) {
    let (Some(stay), Some(ended)) = (notes.on_card.get(&identifier), notes.ended.get(&identifier)) else {
        return;
    };
    let own = &stay.description;
    let shares = |other: &Stay| other.held_to.is_some_and(|end| from + 2 <= end + u64::from(own.period));
    let Some(place) = ended.iter().rposition(|other| same_terms(&other.description, own) && shares(other))
    else {
        return;
    };
    let kind = kind_of(own);
    let between = ended[place + 1..].iter().map(|other| other.description);
    to.add(format!("{kind}: two stays in one window"));
    for other in between {
        to.add(format!("{kind}: three stays in one window"));
        let what = match (other.kind == own.kind, same_terms(&other, own)) {
            (_, true) => "the same terms",
            (true, _) => "other terms",
            _ => "another kind",
        };
        to.add(format!("{kind}: a stay of {what} between two in one window"));
    }
}

fn note_admit(before: &Before, description: &Description, now: u64, notes: &Notes, to: &mut Reached) {
    let came = before.on_card + before.uncleared >= MOST_VCPUS;
    to.add_if(came, "admitted where times have come that no call has cleared");
    match before.low_bits {
        Some(Ordering::Less) => to.add("admitted while a smaller one with its low 16 bits is remembered"),
        Some(_) => to.add("admitted while a larger one with its low 16 bits is remembered"),
        None => (),
    }
    if let Some(bit) = before.one_bit {
        to.add(one_bit_case(bit));
    }
    let Some(stay) = notes.last_stay(description.identifier) else { return };
    if stay.until.is_none() && stay.removed == now {
        to.add(format!("back at the moment of its removal: {}", stay.sort));
    }
    if stay.until != Some(now) {
        return;
    }
    to.add(format!("back at its time: {}", stay.sort));
    let what = match (description.kind == stay.description.kind, same_terms(description, &stay.description)) {
        (_, true) => "the same terms",
        (true, _) => "other terms",
        _ => "another kind",
    };
    to.add(format!("back at its time with {what}"));
}

fn note_removal(
    before: &Before,
    identifier: u32,
    core: &Core,
    folded: bool,
    notes: &mut Notes,
    to: &mut Reached,
) {
    let Some(stay) = notes.on_card.remove(&identifier) else { return };
    let until = core.remembered.get(&identifier).copied();
    let sort = match (stay.description.kind, until) {
        (0, None) if before.was_pending => RETURNED,
        (0, None) => NOTHING,
        (0, _) if folded => FOLDED,
        (0, _) => RETURN,
        (kind, _) => BOUNDARIES[usize::from(kind) - 1],
    };
    to.add(format!("removed: {sort}"));
    notes.left += usize::from(until.is_some());
    let ended = Stay { removed: core.last, sort, until, at_boundary: before.at_boundary, ..stay };
    notes.ended.entry(identifier).or_default().push(ended);
}

/// Each case of each, which stands for `{}`.
pub fn of_each(whose: &[&str], cases: &[&str]) -> Vec<String> {
    let of = |who: &str| cases.iter().map(|case| case.replace("{}", who)).collect::<Vec<_>>();
    whose.iter().flat_map(|who| of(who)).collect()
}

/// The cases that a comparison must meet.
pub fn asked() -> Vec<String> {
    let remembered = [RETURN, FOLDED, BOUNDARIES[0], BOUNDARIES[1]];
    let mut all: Vec<String> = PLAIN.map(str::to_string).to_vec();
    all.extend(of_each(&remembered, &["9: {}", "9: one tick before its time, {}", "back at its time: {}"]));
    all.extend(of_each(&[NOTHING, RETURNED], &["removed: {}", "back at the moment of its removal: {}"]));
    all.extend(of_each(&KINDS, &["9: a time above the largest, {}"]));
    let refilled = ["9: removed at its boundary, {}", "9: admitted and removed at one moment, {}"];
    all.extend(of_each(&KINDS[1..], &refilled));
    // A polling one that is back has no ticks before its next boundary: see `outside`.
    all.extend(of_each(&KINDS[..2], &WINDOWS));
    all.push("sporadic: a stay of the same terms between two in one window".to_string());
    all.extend(of_each(&["wake", "block", "remove"], &["7: {} of a remembered one"]));
    all.extend(of_each(&["the same terms", "other terms", "another kind"], &["back at its time with {}"]));
    all.extend((0..LARGEST_IDENTIFIER.count_ones()).map(one_bit_case));
    all
}

const WINDOWS: [&str; 4] = [
    "{}: two stays in one window",
    "{}: three stays in one window",
    "{}: a stay of other terms between two in one window",
    "{}: a stay of another kind between two in one window",
];

fn one_bit_case(bit: u32) -> String {
    format!("admitted while one that differs in bit {bit} alone is remembered")
}

const PLAIN: [&str; 12] = [
    "9: the time is the largest",
    "9: the greatest time that there is",
    "8: by times above the largest",
    "9: more have left without a tick than there are places",
    "9: at the moment of its removal",
    "9: behind a refused call at or after its time",
    "8: remembered ones alone",
    "8: some on the card and some remembered",
    "8: all on the card",
    "admitted where times have come that no call has cleared",
    "admitted while a smaller one with its low 16 bits is remembered",
    "admitted while a larger one with its low 16 bits is remembered",
];
