//! Tenants of whose pending entries several return at one call: short scripts for the front of a
//! run, on a card where nobody is runnable.

use crate::script::Script;
use crate::turns::{Change, Description, MOST_PENDING};

pub const SCRIPTS: [fn(&mut Script); 10] = [
    |script| (1..=4).for_each(|pending| script.each_count_of(pending)),
    |script| script.each_count_of(5),
    |script| script.each_count_of(6),
    |script| script.each_count_of(7),
    |script| script.each_count_of(8),
    Script::several_to_two,
    Script::several_with_a_fold,
    Script::several_to_one_that_leaves,
    Script::several_to_one_that_waits,
    Script::several_to_the_running_one,
];

/// The most ticks from one use to the next.
const GAP: u64 = 9;

impl Script {
    /// Terms with room for so many uses in one period; eight or more have together more ticks than
    /// 16 bits hold. Now and then the uses take all its ticks.
    fn user(&mut self, uses: usize) -> Description {
        self.unit = if uses < MOST_PENDING { 1 } else { 300 };
        let held = self.unit * ((1 << uses) - 1);
        let capacity = held + self.random.below(4);
        let period = capacity + GAP * uses as u64 + self.random.between(1, 40);
        let (period, capacity) = (period as u32, capacity as u32);
        Description {
            identifier: self.any(),
            period,
            capacity,
            priority: self.random.below(4) as u8,
            kind: 0,
        }
    }

    /// How long each use is. No two of their sums are equal: the usable ticks tell which of them
    /// have come back.
    fn amounts(&mut self, uses: usize) -> Vec<u64> {
        let mut amounts: Vec<u64> = (0..uses).map(|place| self.unit << place).collect();
        for place in 1..uses {
            amounts.swap(place, self.random.index(place + 1));
        }
        amounts
    }

    /// One use for each that is named, none of which joins another.
    pub fn uses(&mut self, whose: &[u32]) {
        let amounts = self.amounts(whose.len());
        for (&identifier, amount) in whose.iter().zip(amounts) {
            let start = self.core.last + self.random.between(1, GAP);
            self.put(start, Change::Wake(identifier));
            self.put(start + amount, Change::Block(identifier));
        }
    }

    /// When so many of its entries are due.
    fn due(&self, identifier: u32, count: usize) -> u64 {
        self.core.vcpus[&identifier].return_of(count, self.core.last)
    }

    /// When so many of its entries are due and no more: as soon as that, a tick before the next
    /// one is, or between.
    fn moment_of(&mut self, identifier: u32, count: usize) -> u64 {
        let first = self.due(identifier, count);
        let next = self.core.vcpus[&identifier].earliest_return(first);
        let last = next.map_or(first + GAP, |next| next - 1);
        let between = self.random.between(first, last);
        *self.random.pick(&[first, last, between])
    }

    /// Their usable ticks are told, or when the next ones come.
    fn look(&mut self, time: u64, whose: &[u32]) {
        for &identifier in whose {
            self.put(time, Change::Wake(identifier));
            self.put(time, Change::Block(identifier));
        }
    }

    /// Each entry that is pending still, a tick before its time and at it, and once more, when
    /// nothing may come a second time.
    fn watch(&mut self, whose: &[u32]) {
        let earliest = |script: &Script| {
            let due = |identifier| script.core.vcpus[identifier].earliest_return(script.core.last);
            whose.iter().filter_map(due).min()
        };
        while let Some(due) = earliest(self) {
            self.look(due - 1, whose);
            self.look(due, whose);
        }
        self.look(self.core.last + 1, whose);
    }

    /// So many uses: of their entries so many return at one call, and the others each at its time.
    fn sweep(&mut self, identifier: u32, uses: usize, count: usize) {
        self.uses(&[identifier].repeat(uses));
        let moment = self.moment_of(identifier, count);
        self.look(moment, &[identifier]);
        self.watch(&[identifier]);
    }

    fn each_count_of(&mut self, pending: usize) {
        let own = self.user(pending);
        self.admit_now(&[own]);
        for count in 1..=pending {
            self.sweep(own.identifier, pending, count);
        }
        self.put_now(Change::Remove(own.identifier));
    }

    /// Not as many to each, and two of each are left.
    fn several_to_two(&mut self) {
        let (one, other) = *self.random.pick(&[(2, 3), (3, 2), (2, 4), (4, 2), (3, 4), (4, 3)]);
        let own = self.user(one + other + 4);
        let whose = [own.identifier, self.any()];
        self.admit_now(&[own, Description { identifier: whose[1], ..own }]);
        let order = [[whose[0]].repeat(one), [whose[1]].repeat(other), whose.repeat(2)];
        self.uses(&order.concat());
        let moment = self.due(whose[1], other);
        self.look(moment, &whose);
        self.watch(&whose);
    }

    /// Up to the folded entry, and not so far.
    fn several_with_a_fold(&mut self) {
        let uses = MOST_PENDING + self.random.between(1, 3) as usize;
        let own = self.user(uses);
        self.admit_now(&[own]);
        for count in [MOST_PENDING, self.random.between(2, 7) as usize] {
            self.sweep(own.identifier, uses, count);
        }
    }

    /// It comes back as soon as nothing is left that it is remembered with.
    fn several_to_one_that_leaves(&mut self) {
        let some = self.random.between(2, 6) as usize;
        for (pending, count) in [(some, some), (some + 1, some), (8, some), (8, 8)] {
            let own = self.user(pending);
            let identifier = own.identifier;
            self.admit_now(&[own]);
            self.uses(&[identifier].repeat(pending));
            let moment = self.moment_of(identifier, count);
            self.put(moment, Change::Remove(identifier));
            self.come_back(own);
        }
    }

    /// At once, a tick before its time and at it.
    fn come_back(&mut self, own: Description) {
        let (now, until) = (self.core.last, self.until(own.identifier));
        for time in [now, now.max(until - 1), until] {
            self.put(time, Change::Admit(own));
        }
        self.look(until, &[own.identifier]);
    }

    /// A more urgent one holds the core meanwhile.
    fn several_to_one_that_waits(&mut self) {
        for pending in [4, 8] {
            let own = Description { priority: 2, ..self.user(pending) };
            let (identifier, other) = (own.identifier, self.any());
            let urgent = Description { identifier: other, capacity: own.period, priority: 1, ..own };
            self.admit_now(&[own, urgent]);
            self.uses(&[identifier].repeat(pending));
            let count = self.random.between(2, pending as u64) as usize;
            let moment = self.moment_of(identifier, count);
            self.put(self.due(identifier, 1) - 1, Change::Wake(other));
            self.put_now(Change::Wake(identifier));
            self.put(moment, Change::Block(other));
            self.put_now(Change::Block(identifier));
            self.watch(&[identifier]);
        }
    }

    /// What it has just used makes a new entry, joins one or folds.
    fn several_to_the_running_one(&mut self) {
        for (pending, joins) in [(7, false), (7, true), (8, false)] {
            let own = self.user(pending);
            let own = Description { period: 3 * own.period, capacity: 2 * own.period, ..own };
            let identifier = own.identifier;
            self.admit_now(&[own]);
            self.uses(&[identifier].repeat(pending));
            let start = self.due(identifier, 1) - 3;
            let count = self.random.between(2, 7) as usize;
            let moment = self.moment_of(identifier, count);
            self.put(start, Change::Wake(identifier));
            if joins {
                self.put(start + 1, Change::Tick);
            }
            self.put(moment, Change::Tick);
            // It goes on, so this joins what it has just used.
            self.put(moment + 1, Change::Block(identifier));
            self.watch(&[identifier]);
        }
    }
}
