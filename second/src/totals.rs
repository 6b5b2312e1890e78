//! Tenants to whom ticks come back at one call: short scripts for the front of a run, on a card
//! where nobody is runnable.

use crate::script::Script;
use crate::turns::{Change, Description, LARGEST_PERIOD, MOST_PENDING, MOST_VCPUS};

pub const SCRIPTS: [fn(&mut Script); 12] = [
    Script::largest_total,
    Script::each_its_own_bit,
    |script| (2..=6).for_each(|count| script.so_many_at_once(count)),
    |script| script.of_three_kinds(&CHANGES[..4]),
    |script| script.of_three_kinds(&CHANGES[4..8]),
    |script| script.of_three_kinds(&CHANGES[8..]),
    |script| script.parts_of(1),
    |script| script.parts_of(2),
    |script| (0..3).for_each(|kind| script.held_up_to_now(kind)),
    Script::folded_and_another,
    Script::two_of_a_kind_blocked,
    Script::left_by_one_of_three,
];

const POLLING: u8 = 2;

/// What a call does that brings ticks, from those to whom it brings them.
type Changing = fn(&mut Script, &[u32; 3]) -> Change;

const CHANGES: [Changing; 11] = [
    |_, _| Change::Tick,
    |_, whose| Change::Wake(whose[0]),
    |_, whose| Change::Wake(whose[1]),
    |_, whose| Change::Wake(whose[2]),
    |_, whose| Change::Block(whose[0]),
    |_, whose| Change::Block(whose[1]),
    |_, whose| Change::Block(whose[2]),
    |_, whose| Change::Remove(whose[0]),
    |_, whose| Change::Remove(whose[1]),
    |_, whose| Change::Remove(whose[2]),
    |script, _| {
        let (period, identifier) = (script.random.between(1, 60) as u32, script.any());
        Change::Admit(Description { identifier, period, capacity: period, priority: 1, kind: 0 })
    },
];

impl Script {
    /// All leave, and nobody is remembered any more.
    fn all_leave(&mut self, whose: &[u32]) {
        for &identifier in whose {
            self.put_now(Change::Remove(identifier));
        }
        let until = whose.iter().map(|&identifier| self.until(identifier)).max();
        self.put(until.unwrap_or(self.core.last), Change::Tick);
    }

    /// So many polling ones that wait without ticks for the boundary that they share.
    fn all_wait(&mut self, count: usize, period: u32, capacity: impl Fn(usize) -> u32) -> Vec<u32> {
        let first = self.random.below(1 << 23) as u32;
        let whose: Vec<u32> = (first..).take(count).collect();
        for (place, &identifier) in whose.iter().enumerate() {
            let priority = self.random.below(4) as u8;
            let capacity = capacity(place);
            self.admit_now(&[Description { identifier, period, capacity, priority, kind: POLLING }]);
        }
        whose.iter().for_each(|&identifier| self.put_now(Change::Wake(identifier)));
        whose
    }

    /// Each gets all that a VCPU can have. At the next boundary those get it again that have lost
    /// or used it meanwhile.
    fn largest_total(&mut self) {
        let whose = self.all_wait(MOST_VCPUS, LARGEST_PERIOD, |_| LARGEST_PERIOD);
        let boundary = self.core.last + u64::from(LARGEST_PERIOD);
        self.put(boundary, Change::Tick);
        let lose = self.random.between(1, 31) as usize;
        for &identifier in &whose[..lose] {
            self.put_now(Change::Block(identifier));
            self.put_now(Change::Wake(identifier));
        }
        self.put(boundary + u64::from(LARGEST_PERIOD), Change::Tick);
        self.all_leave(&whose);
    }

    /// No two sums of what they get are equal: the total tells whose ticks are in it.
    fn each_its_own_bit(&mut self) {
        let whose = self.all_wait(20, LARGEST_PERIOD, |place| 1 << place);
        let own = *self.random.pick(&whose);
        let change = *self.random.pick(&[Change::Tick, Change::Block(own), Change::Remove(own)]);
        self.put(self.core.last + u64::from(LARGEST_PERIOD), change);
        self.put_now(Change::Tick);
        self.all_leave(&whose);
    }

    fn so_many_at_once(&mut self, count: usize) {
        let whose = self.all_wait(count, 90, |place| 1 << place);
        let boundary = self.core.last + 90;
        self.put(boundary - 1, Change::Tick);
        self.put(boundary, Change::Tick);
        self.put(boundary, Change::Block(whose[0]));
        self.all_leave(&whose);
    }

    /// One of each kind: two have held all their ticks and the third has none, and all of them wait
    /// for the same moment, at which a call comes with the change.
    fn of_three_kinds(&mut self, changes: &[Changing]) {
        for change in changes {
            let whose = [self.any(), self.any(), self.any()];
            let start = self.core.last;
            let held = [self.random.between(1, 9), self.random.between(1, 9)];
            let capacities = [held[0], held[1], self.random.between(1, 40)];
            for (kind, identifier) in (0..).zip(whose) {
                let (capacity, priority) = (capacities[usize::from(kind)] as u32, self.random.below(4) as u8);
                self.admit_now(&[Description { identifier, period: 40, capacity, priority, kind }]);
            }
            self.put_now(Change::Wake(whose[2]));
            // The first one's slice begins with its stay, as the others' rounds do.
            self.put(start, Change::Wake(whose[0]));
            self.put(start + held[0], Change::Wake(whose[1]));
            self.put(start + held[0] + held[1], Change::Tick);
            let change = change(self, &whose);
            self.put(start + 40, change);
            self.put_now(Change::Tick);
            self.all_leave(&whose);
        }
    }

    /// A refill of a part, of nothing and of all; a more urgent one has the core meanwhile.
    fn parts_of(&mut self, kind: u8) {
        let [own, other] = [self.any(), self.any()];
        let capacity = self.random.between(3, 9) as u32;
        let terms = Description { identifier: own, period: 10, capacity, priority: 2, kind };
        let urgent = Description { identifier: other, period: 900, capacity: 800, priority: 1, ..terms };
        let start = self.core.last;
        self.admit_now(&[terms, Description { kind: 0, ..urgent }]);
        self.put_now(Change::Wake(own));
        self.put_in_time(start + 10, Change::Tick);
        self.part(other, start + 12, start + 20);
        // Nothing was used since.
        self.put_in_time(start + 30, Change::Tick);
        self.part(other, start + 31, start + 73);
        self.put_in_time(start + 74, Change::Block(own));
        self.put_in_time(start + 80, Change::Tick);
        self.put_in_time(start + 83, Change::Wake(own));
        self.put_in_time(start + 90, Change::Tick);
        self.all_leave(&[own, other]);
    }

    /// Who waits holds the core up to `from`, and has its refill up to `to`.
    fn part(&mut self, other: u32, from: u64, to: u64) {
        self.put_now(Change::Block(other));
        self.put_in_time(from, Change::Wake(other));
        self.put_in_time(to, Change::Tick);
    }

    /// One that has its whole period holds the core as its ticks come back, at one call or two; at
    /// the second boundary ticks come to another one, too.
    fn held_up_to_now(&mut self, kind: u8) {
        let [own, other] = [self.any(), self.any()];
        let terms = Description { identifier: own, period: 20, capacity: 20, priority: 1, kind };
        let waits = Description { identifier: other, capacity: 7, priority: 2, kind: POLLING, ..terms };
        let start = self.core.last;
        self.admit_now(&[terms, waits]);
        self.put_now(Change::Wake(own));
        for rounds in 1..=3 {
            self.put(start + 20 * rounds, Change::Tick);
        }
        self.put_now(Change::Wake(other));
        self.put(start + 71, Change::Tick);
        self.put(start + 80, Change::Tick);
        self.all_leave(&[own, other]);
    }

    /// What has folded comes back beside another's ticks.
    fn folded_and_another(&mut self) {
        let [own, other] = [self.any(), self.any()];
        let terms = Description { identifier: own, period: 4000, capacity: 3000, priority: 1, kind: 0 };
        self.admit_now(&[terms, Description { identifier: other, kind: 1, ..terms }]);
        self.uses(&[&[other], &[own].repeat(MOST_PENDING + 2)[..]].concat());
        let latest = self.core.vcpus[&own].latest_return(self.core.last);
        let latest = latest.unwrap_or(self.core.last);
        self.put(latest - 1, Change::Tick);
        self.put(latest, Change::Tick);
        self.uses(&[&[other], &[own].repeat(MOST_PENDING + 1)[..]].concat());
        self.put(self.core.last + 9000, Change::Tick);
        self.all_leave(&[own, other]);
    }

    /// Ticks come back to both, and the call blocks the one that holds the core.
    fn two_of_a_kind_blocked(&mut self) {
        for kind in [1, POLLING] {
            let [own, other] = [self.any(), self.any()];
            let terms = Description { identifier: own, period: 20, capacity: 20, priority: 1, kind };
            let waits = Description { identifier: other, capacity: 7, priority: 2, ..terms };
            let start = self.core.last;
            self.admit_now(&[terms, waits]);
            self.put_now(Change::Wake(other));
            self.put_in_time(start + 20, Change::Tick);
            self.put_in_time(start + 22, Change::Wake(own));
            for rounds in 2..=4 {
                self.put_in_time(start + 20 * rounds, Change::Tick);
            }
            self.put_in_time(start + 100, Change::Block(own));
            self.put_in_time(start + 120, Change::Remove(other));
            self.all_leave(&[own]);
        }
    }

    /// Each has one use, all come back at one call, and that removes one of them.
    fn left_by_one_of_three(&mut self) {
        for place in 0..3 {
            let whose = [self.any(), self.any(), self.any()];
            let terms = whose.map(|identifier| {
                let priority = self.random.below(4) as u8;
                Description { identifier, period: 90, capacity: 30, priority, kind: 0 }
            });
            self.admit_now(&terms);
            self.uses(&whose);
            self.put(self.core.last + 90, Change::Remove(whose[place]));
            self.all_leave(&whose);
        }
    }
}
