//! Which rows of the table refuse a call, and which stand beside each other. Told from the
//! card before the call: the paper's order once more, apart from `turns`.

use crate::reached::Reached;
use crate::turns::{Call, Change, Core, Description};
use crate::turns::{LARGEST_PERIOD, LARGEST_TIME, MOST_VCPUS};

/// The rows of admit in their order; row 4 is out of a record's reach.
pub const OF_ADMIT: [u32; 7] = [5, 11, 12, 10, 6, 9, 8];
/// All rows that a record can meet.
pub const IN_ORDER: [u32; 11] = [1, 2, 3, 5, 11, 12, 10, 6, 9, 7, 8];

const MOST: u32 = u32::MAX;

/// Periods and capacities at the ends of their ranges, and the row that they meet; 0 for none.
pub const TERMS: [(u32, u32, u32); 22] = [
    (0, 0, 5),
    (0, 1, 5),
    (0, MOST, 5),
    (1, 0, 11),
    (1, 1, 0),
    (1, 2, 12),
    (1, MOST, 12),
    (65_536, 0, 11),
    (65_536, 65_537, 12),
    (1_000_000, 0, 11),
    (1_000_000, 1, 0),
    (1_000_000, 1_000_000, 0),
    (1_000_000, 1_000_001, 12),
    (1_000_000, MOST, 12),
    (1_000_001, 0, 5),
    (1_000_001, 1, 5),
    (1_000_001, 1_000_001, 5),
    (1_000_001, 1_000_002, 5),
    (1_000_001, MOST, 5),
    (MOST, 0, 5),
    (MOST, 1, 5),
    (MOST, MOST, 5),
];

/// Terms in range whose low 16 bits are 0: an identifier on the card is refused by 6, and by no
/// row of theirs.
pub const LOW_BITS: [(u32, u32); 2] = [(65_536, 1), (65_536, 65_536)];

fn terms_case(period: u32, capacity: u32, row: u32) -> String {
    match row {
        0 => format!("ok: T {period} C {capacity}"),
        _ => format!("no {row}: T {period} C {capacity}"),
    }
}

/// Every row that applies to the call, in the order of the table with 11, 12 and 10 behind 5 and 9
/// behind 6.
pub fn rows(core: &Core, call: &Call) -> Vec<u32> {
    let late = core.timer.is_some_and(|timer| call.time > timer);
    let times = [(1, call.time > LARGEST_TIME), (2, call.time < core.last), (3, late)];
    let mut all = times.to_vec();
    match call.change {
        Change::Tick => (),
        Change::Admit(description) => all.extend(of_admit(core, &description, call.time)),
        Change::Wake(identifier) | Change::Block(identifier) | Change::Remove(identifier) => {
            all.push((7, !core.vcpus.contains_key(&identifier)));
        }
    }
    all.into_iter().filter(|&(_, applies)| applies).map(|(row, _)| row).collect()
}

/// Those whose time has come are not among the remembered.
fn of_admit(core: &Core, description: &Description, now: u64) -> [(u32, bool); 7] {
    let [period, none, above, kind] = of_terms(description);
    let waiting: Vec<&u32> =
        core.remembered.iter().filter(|(_, &until)| until > now).map(|(id, _)| id).collect();
    let on_card = core.vcpus.contains_key(&description.identifier);
    let remembered = waiting.contains(&&description.identifier);
    let full = core.vcpus.len() + waiting.len() >= MOST_VCPUS;
    [period, none, above, kind, (6, on_card), (9, remembered), (8, full)]
}

/// The rows that an admit's record meets by itself, and whether it does.
pub fn of_terms(description: &Description) -> [(u32, bool); 4] {
    let Description { period, capacity, kind, .. } = *description;
    [
        (5, period == 0 || period > LARGEST_PERIOD),
        (11, capacity == 0),
        (12, capacity > period),
        (10, kind > 2),
    ]
}

/// A refusal: the row given, and all the others that apply.
pub fn note(rows: &[u32], call: &Call, number: u32, reached: &mut Reached) {
    for other in rows.iter().filter(|&&row| row != number) {
        reached.add(format!("{number} before {other}"));
    }
    if rows == [number] {
        reached.add(format!("{number} alone"));
    }
    if let Change::Admit(description) = call.change {
        note_terms(&description, number, reached);
        reached.add_if(number == 10 && description.kind == 3, "10: kind 3");
        reached.add_if(number == 10 && description.kind == 255, "10: kind 255");
    }
}

/// Terms at the ends of their ranges, where the row given is theirs; 0 for an accepted admit.
pub fn note_terms(description: &Description, number: u32, reached: &mut Reached) {
    let Description { period, capacity, .. } = *description;
    let is_6 = number == 6 && LOW_BITS.contains(&(period, capacity));
    if is_6 || TERMS.contains(&(period, capacity, number)) {
        reached.add(terms_case(period, capacity, number));
    }
}

/// No time is above the largest and below the last, or below the last and above the timer; a
/// capacity of 0 is above no period; none is on the card and remembered; and 7 is for other calls
/// than admit.
const APART: [(u32, u32); 11] =
    [(1, 2), (2, 3), (11, 12), (6, 9), (5, 7), (11, 7), (12, 7), (10, 7), (6, 7), (9, 7), (7, 8)];

/// Two rows that one call can meet, the first of them given: the rows of the time before all
/// others, and those of admit in their order.
pub fn pairs() -> Vec<(u32, u32)> {
    let behind = |place: usize| IN_ORDER[place + 1..].iter().map(move |&other| (IN_ORDER[place], other));
    (0..IN_ORDER.len()).flat_map(behind).filter(|pair| !APART.contains(pair)).collect()
}

/// The cases that a comparison must meet.
pub fn asked() -> Vec<String> {
    let mut all: Vec<String> = ["10: kind 3", "10: kind 255"].map(str::to_string).to_vec();
    all.extend(pairs().into_iter().map(|(row, other)| format!("{row} before {other}")));
    all.extend(IN_ORDER.map(|row| format!("{row} alone")));
    all.extend(TERMS.map(|(period, capacity, row)| terms_case(period, capacity, row)));
    all.extend(LOW_BITS.map(|(period, capacity)| terms_case(period, capacity, 6)));
    all
}
