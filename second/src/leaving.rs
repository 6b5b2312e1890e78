//! Tenants who leave and come back: short scripts for the front of a run, on a card where nobody
//! is runnable.

use crate::script::Script;
use crate::turns::{Change, Description};
use crate::turns::{LARGEST_IDENTIFIER, LARGEST_PERIOD, LARGEST_TIME, MOST_PENDING, MOST_VCPUS};

pub const SCRIPTS: [fn(&mut Script); 19] = [
    |script| script.comes_back(0),
    |script| script.comes_back(1),
    |script| script.comes_back(2),
    Script::comes_back_folded,
    |script| (0..3).for_each(|kind| script.insists(kind)),
    Script::two_slices,
    Script::full_card,
    Script::full_of_the_remembered,
    Script::nothing_pending,
    Script::sporadic_stays_in_one_window,
    Script::deferrable_stays_in_one_window,
    Script::equal_low_bits,
    Script::one_bit_other,
    Script::no_tick_between,
    |script| (0..3).for_each(|kind| script.refused_in_between(kind)),
    Script::at_boundaries,
    Script::above_the_largest_time,
    Script::at_the_largest_time,
    Script::rows_before_9,
];

/// Period and capacity of one that is forgotten a tick later.
const UNIT: (u32, u32) = (1, 1);

impl Script {
    /// Terms that have room for all that a script holds.
    fn terms(&mut self, identifier: u32, kind: u8) -> Description {
        let period = self.random.between(16, 60) as u32;
        let capacity = self.random.between(8, u64::from(period)) as u32;
        Description { identifier, period, capacity, priority: self.random.below(4) as u8, kind }
    }

    /// A stay from `time` on that holds so many ticks as soon as it can.
    fn stay(&mut self, time: u64, description: Description, held: u64) {
        let identifier = description.identifier;
        self.put(time, Change::Admit(description));
        if held > 0 {
            self.put(time, Change::Wake(identifier));
        }
        let polls = description.kind == 2 && held > 0;
        let start = if polls { time + u64::from(description.period) } else { time };
        if polls {
            self.put(start, Change::Tick);
        }
        self.put(start + held, Change::Remove(identifier));
    }

    /// Stays that hold nothing and end where they begin.
    fn leave_at_once(&mut self, tenants: &[Description]) {
        let now = self.core.last;
        for tenant in tenants {
            self.stay(now, *tenant, 0);
        }
    }

    /// Asks for it at once, one tick too early, and for all that a remembered one is not.
    fn ask_early(&mut self, description: Description) {
        let identifier = description.identifier;
        let until = self.until(identifier);
        self.put_now(Change::Admit(description));
        for change in [Change::Wake(identifier), Change::Block(identifier), Change::Remove(identifier)] {
            self.put_now(change);
        }
        self.put(until - 1, Change::Admit(description));
    }

    /// With the same terms, with others, and as another kind.
    fn comes_back(&mut self, kind: u8) {
        let identifier = self.any();
        let first = self.terms(identifier, kind);
        let other = Description { period: first.period + 1, ..first };
        let other_kind = Description { kind: (kind + 1) % 3, ..first };
        for description in [first, first, other, other_kind] {
            let held = self.random.between(1, 5);
            self.stay(self.until(identifier), description, held);
            self.ask_early(description);
        }
    }

    /// It asks for its whole capacity before its time: where it got that, no bound would hold.
    fn insist(&mut self, time: u64, own: Description) {
        self.put(time, Change::Admit(own));
        self.put(time, Change::Wake(own.identifier));
        self.put(time + u64::from(own.capacity), Change::Tick);
        self.put_now(Change::Remove(own.identifier));
    }

    fn insists(&mut self, kind: u8) {
        let identifier = self.any();
        let own = Description { period: 60, capacity: 10, ..self.terms(identifier, kind) };
        self.stay(self.core.last, own, 10);
        for _ in 0..3 {
            self.insist(self.core.last, own);
        }
    }

    /// Its time is the second one's return, and not the first one's.
    fn two_slices(&mut self) {
        let identifier = self.any();
        let own = Description { period: 60, capacity: 10, ..self.terms(identifier, 0) };
        let start = self.core.last;
        self.put(start, Change::Admit(own));
        self.put(start, Change::Wake(identifier));
        self.put(start + 1, Change::Block(identifier));
        self.put(start + 30, Change::Wake(identifier));
        self.put(start + 39, Change::Remove(identifier));
        self.insist(start + 60, own);
        self.stay(self.until(identifier), own, 10);
    }

    /// More slices than there are places in a queue.
    fn comes_back_folded(&mut self) {
        let identifier = self.any();
        let description = Description { period: 900, capacity: 300, ..self.terms(identifier, 0) };
        let start = self.core.last;
        self.put(start, Change::Admit(description));
        let slices = MOST_PENDING as u64 + self.random.between(1, 3);
        for slice in 0..slices {
            self.put(start + 3 * slice, Change::Wake(identifier));
            self.put(start + 3 * slice + 2, Change::Block(identifier));
        }
        self.put_now(Change::Remove(identifier));
        self.ask_early(description);
        self.stay(self.until(identifier), description, 2);
    }

    /// One more than the card has room for.
    fn tenants(&mut self, kind: u8, terms: (u32, u32)) -> Vec<Description> {
        let first = self.random.below(1 << 23) as u32;
        let (period, capacity) = terms;
        let tenant = |place| Description { identifier: first + place, period, capacity, priority: 1, kind };
        (0..=MOST_VCPUS as u32).map(tenant).collect()
    }

    /// Two leave it: they are refused before a new one is, and a new one is not as soon as the
    /// first one's time has come.
    fn full_card(&mut self) {
        let tenants = self.tenants(0, (40, 5));
        let (new, on_card) = tenants.split_last().expect("some");
        self.admit_now(on_card);
        self.put_now(Change::Admit(*new));
        self.put(LARGEST_TIME + 1, Change::Admit(*new));
        // It has used nothing: its place is free at once.
        self.put_now(Change::Remove(tenants[3].identifier));
        self.put_now(Change::Admit(tenants[3]));
        for tenant in &tenants[..2] {
            self.put_now(Change::Wake(tenant.identifier));
            self.put(self.core.last + 3, Change::Remove(tenant.identifier));
        }
        self.admit_now(&[tenants[0], tenants[2], *new]);
        let until = self.until(tenants[0].identifier);
        self.put(until - 1, Change::Admit(*new));
        self.put(until, Change::Admit(*new));
        self.admit_now(&[tenants[1], tenants[0]]);
    }

    /// Nobody is on the card, and yet it is full.
    fn full_of_the_remembered(&mut self) {
        let kind = self.random.between(1, 2) as u8;
        let tenants = self.tenants(kind, (30, 5));
        let (new, gone) = tenants.split_last().expect("some");
        let start = self.core.last;
        self.leave_at_once(gone);
        for tenant in [*new, tenants[0]] {
            self.put_now(Change::Admit(tenant));
            self.put(start + 29, Change::Admit(tenant));
        }
        self.put(start + 30, Change::Admit(*new));
        self.put_now(Change::Admit(tenants[0]));
    }

    /// Without any use, and where the removal itself brings the last return.
    fn nothing_pending(&mut self) {
        let identifier = self.any();
        let description = self.terms(identifier, 0);
        let start = self.core.last;
        self.stay(start, description, 0);
        self.put_now(Change::Admit(description));
        self.put_now(Change::Wake(identifier));
        self.put(start + 3, Change::Block(identifier));
        self.put(start + u64::from(description.period), Change::Remove(identifier));
        self.put_now(Change::Admit(description));
    }

    /// The stays of one identifier, each at the first moment that it can have.
    fn one_after_the_other(&mut self, stays: [(Description, u64); 3]) {
        for (description, held) in stays {
            self.stay(self.until(description.identifier), description, held);
        }
    }

    fn sporadic_stays_in_one_window(&mut self) {
        let (period, capacity) = UNIT;
        for between in 0..3 {
            let identifier = self.any();
            let own = self.terms(identifier, 0);
            let middle = match between {
                0 => (own, 0),
                1 => (Description { period, capacity, ..own }, 1),
                _ => (Description { period, capacity, kind: 1, ..own }, 0),
            };
            self.one_after_the_other([(own, 6), middle, (own, 4)]);
        }
    }

    /// The first one holds its ticks just before its boundary.
    fn deferrable_stays_in_one_window(&mut self) {
        let (period, capacity) = UNIT;
        let identifier = self.any();
        let own = self.terms(identifier, 1);
        let boundary = self.core.last + u64::from(own.period);
        self.put_now(Change::Admit(own));
        self.put(boundary - 6, Change::Wake(identifier));
        self.put(boundary - 1, Change::Remove(identifier));
        let other = Description { period, capacity, ..own };
        let other_kind = Description { kind: 0, ..own };
        self.one_after_the_other([(other, 0), (other_kind, 0), (own, 4)]);
    }

    fn equal_low_bits(&mut self) {
        let low = *self.random.pick(&[257, 0, 0xffff]);
        let bits = *self.random.pick(&[1, 1, 255]);
        let high = low + (bits << 16);
        for (left, new) in [(high, low), (low, high)] {
            let (left, new) = (self.terms(left, 0), self.terms(new, 0));
            self.stay(self.core.last, left, 3);
            self.stay(self.core.last, new, 3);
            self.admit_now(&[left, new]);
            let both = self.until(left.identifier).max(self.until(new.identifier));
            self.put(both, Change::Tick);
        }
    }

    /// One is remembered while each that differs from it in one bit comes and goes.
    fn one_bit_other(&mut self) {
        let other = self.any();
        let identifier = *self.random.pick(&[65793, 257, other]);
        let own = Description { period: 900, capacity: 300, ..self.terms(identifier, 0) };
        self.stay(self.core.last, own, 3);
        for bit in 0..LARGEST_IDENTIFIER.count_ones() {
            let other = Description { identifier: identifier ^ (1 << bit), ..own };
            self.stay(self.core.last, other, 0);
        }
        self.put_now(Change::Admit(own));
    }

    /// While one is remembered more leave, one by one, than there are places: those whose time has
    /// come make room, though no tick comes.
    fn no_tick_between(&mut self) {
        let own = Description { period: 900, capacity: 300, ..self.terms(65793, 0) };
        self.stay(self.core.last, own, 3);
        for tenant in self.tenants(1, UNIT) {
            self.stay(self.core.last + 1, tenant, 0);
            self.put_now(Change::Admit(tenant));
        }
        self.put_now(Change::Admit(own));
    }

    /// What is refused at or after the time clears nothing.
    fn refused_in_between(&mut self, kind: u8) {
        let identifier = self.any();
        let own = self.terms(identifier, kind);
        self.stay(self.core.last, own, 4);
        let until = self.until(identifier);
        let bad = Description { capacity: 0, ..own };
        let refused = [
            (until, Change::Wake(identifier)),
            (until + 3, Change::Admit(bad)),
            (LARGEST_TIME + 1, Change::Tick),
        ];
        for (time, change) in refused {
            self.put(time, change);
            self.put(until - 1, Change::Admit(own));
        }
        self.put(until, Change::Tick);
    }

    /// Removed at a boundary, and at the moment of its admission.
    fn at_boundaries(&mut self) {
        for kind in [1, 2] {
            let identifier = self.any();
            let own = self.terms(identifier, kind);
            self.put_now(Change::Admit(own));
            self.put(self.core.last + u64::from(own.period), Change::Remove(identifier));
            self.ask_early(own);
            self.stay(self.until(identifier), own, 0);
            self.ask_early(own);
        }
    }

    fn above_the_largest_time(&mut self) {
        self.put(LARGEST_TIME - 12, Change::Tick);
        for (kind, held) in [(0, 4), (1, 4), (2, 0)] {
            let identifier = self.any();
            let own = self.terms(identifier, kind);
            self.stay(self.core.last, own, held);
            self.put_now(Change::Admit(own));
            self.put(LARGEST_TIME, Change::Admit(own));
            self.put(LARGEST_TIME + 1, Change::Admit(own));
        }
    }

    /// Remembered until the largest time, one tick above it, and the greatest time that there is;
    /// then as many as there is room for.
    fn at_the_largest_time(&mut self) {
        let kind = self.random.between(1, 2) as u8;
        for (time, period) in [(LARGEST_TIME - 9, 9), (LARGEST_TIME, 1), (LARGEST_TIME, LARGEST_PERIOD)] {
            let identifier = self.any();
            let own = Description { period, capacity: 1, ..self.terms(identifier, kind) };
            self.stay(time, own, 0);
            self.ask_early(own);
            self.put(LARGEST_TIME, Change::Admit(own));
        }
        let tenants = self.tenants(kind, UNIT);
        self.leave_at_once(&tenants);
    }

    /// Each row that stands before 9, with it.
    fn rows_before_9(&mut self) {
        let (identifier, other) = (self.any(), self.any());
        let own = self.terms(identifier, 0);
        self.stay(self.core.last, own, 2);
        let faults = [
            Description { period: 0, ..own },
            Description { capacity: 0, ..own },
            Description { capacity: own.period + 1, ..own },
            Description { kind: 3, ..own },
            own,
        ];
        for fault in faults {
            self.put_now(Change::Admit(fault));
        }
        self.put(self.core.last - 1, Change::Admit(own));
        self.put_now(Change::Admit(Description { identifier: other, capacity: 1, ..own }));
        self.put_now(Change::Wake(other));
        self.put(self.core.last + 2, Change::Admit(own));
    }
}
