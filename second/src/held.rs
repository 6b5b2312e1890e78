//! Totals at the end of an input: scripts for all of one, from an empty card.

use crate::script::Script;
use crate::turns::{Change, Description};
use crate::turns::{LARGEST_PERIOD, LARGEST_TIME, MOST_PENDING, MOST_VCPUS};

/// A script, and how many of its ends are tried: behind its last call, the one before, and so on.
pub type Ends = (fn(&mut Script), usize);

const EACH: usize = usize::MAX;

pub const SCRIPTS: [Ends; 17] = [
    (Script::idle_alone, EACH),
    (Script::idle_with_tenants, EACH),
    (|script| script.more_than_32_bits(0), 10),
    (|script| script.more_than_32_bits(1), 10),
    (|script| script.more_than_32_bits(2), 10),
    (Script::three_in_turn, EACH),
    (Script::entries, EACH),
    (|script| script.leaves(0), EACH),
    (|script| script.leaves(1), EACH),
    (|script| script.leaves(2), EACH),
    (Script::full, 2 * MOST_VCPUS + 6),
    (Script::refused_in_idle, EACH),
    (Script::refused_while_one_holds, EACH),
    (Script::at_one_moment, EACH),
    (Script::low_bits_of_one_that_left, EACH),
    (Script::largest_amounts, EACH),
    (Script::blinks, EACH),
];

const ABOVE_32_BITS: u64 = (1 << 32) + 1_000_000;

/// Equal in their low 16 bits.
const THREE: [u32; 3] = [257, 65793, 131_329];

fn whole(identifier: u32, period: u32, kind: u8) -> Description {
    Description { identifier, period, capacity: period, priority: 1, kind }
}

impl Script {
    fn idle_alone(&mut self) {
        for time in [0, 5, 5, ABOVE_32_BITS, LARGEST_TIME, LARGEST_TIME, LARGEST_TIME + 1] {
            self.put(time, Change::Tick);
        }
    }

    /// All wait to be woken while nearly all of time goes by.
    fn idle_with_tenants(&mut self) {
        self.put(70_000, Change::Tick);
        for (kind, identifier) in (0..).zip(THREE) {
            self.admit_now(&[Description { capacity: 4, ..whole(identifier, 10, kind) }]);
        }
        self.put(ABOVE_32_BITS, Change::Tick);
        self.put(LARGEST_TIME - 30, Change::Wake(THREE[0]));
        self.put_in_time(LARGEST_TIME, Change::Remove(THREE[0]));
        self.put_now(Change::Remove(THREE[1]));
    }

    /// One that has its whole period holds the core for thousands of them; then it leaves, and comes
    /// back.
    fn more_than_32_bits(&mut self, kind: u8) {
        let own = whole(THREE[1], LARGEST_PERIOD, kind);
        self.admit_now(&[own]);
        self.put_now(Change::Wake(own.identifier));
        self.put_in_time(ABOVE_32_BITS + 3_000_000, Change::Tick);
        self.put_now(Change::Tick);
        self.put(self.core.last + 7, Change::Block(own.identifier));
        self.put(self.core.last + 7, Change::Wake(own.identifier));
        self.put(self.core.last + 7, Change::Remove(own.identifier));
        self.put(self.until(own.identifier), Change::Admit(own));
        self.put_now(Change::Wake(own.identifier));
        self.put_in_time(self.core.last + u64::from(LARGEST_PERIOD) + 7, Change::Block(own.identifier));
    }

    /// One of each kind, a refused call between; and the idle ticks come before, between and behind.
    fn three_in_turn(&mut self) {
        self.put(6, Change::Tick);
        for (kind, identifier) in (0..).zip(THREE) {
            self.admit_now(&[Description { capacity: 9, ..whole(identifier, 20, kind) }]);
        }
        for (place, identifier) in (1..).zip(THREE) {
            self.put_in_time(self.core.last + 2, Change::Wake(identifier));
            self.admit_now(&[whole(identifier, 20, 0), whole(1, 0, 0)]);
            self.put_in_time(26 + 5 * place, Change::Tick);
            self.put_now(Change::Remove(1));
            self.put_in_time(self.core.last + 1, Change::Block(identifier));
        }
        for identifier in THREE.into_iter().rev() {
            self.put_in_time(self.core.last + 30, Change::Wake(identifier));
            self.put_in_time(self.core.last + 25, Change::Wake(identifier));
            self.put_in_time(self.core.last + 3, Change::Block(identifier));
            self.put_now(Change::Block(identifier));
        }
        self.put(self.core.last + 9, Change::Remove(THREE[1]));
    }

    /// Entries one by one up to more than a queue has places, joined by others' calls, and back
    /// again in parts.
    fn entries(&mut self) {
        let own = Description { capacity: 300, ..whole(65793, 900, 0) };
        self.admit_now(&[own, Description { priority: 2, ..whole(257, 900, 0) }]);
        for slice in 0..MOST_PENDING as u64 + 3 {
            self.put(self.core.last + 3, Change::Wake(own.identifier));
            self.put(self.core.last + 2 + slice, Change::Tick);
            self.put(self.core.last + 1, Change::Block(own.identifier));
        }
        while self.core.vcpus[&own.identifier].pending_count(self.core.last) > 2 {
            let next = self.core.vcpus[&own.identifier].return_of(2, self.core.last);
            self.put(next, Change::Tick);
        }
        self.put(self.core.last + 900, Change::Tick);
        self.put(self.core.last + 10, Change::Wake(own.identifier));
        self.put(self.core.last + 300, Change::Tick);
    }

    /// While it holds the core, with ticks to charge and without; later; and with nothing held. It
    /// comes back as soon as it can.
    fn leaves(&mut self, kind: u8) {
        let own = Description { capacity: 8, ..whole(65793, 10, kind) };
        let identifier = own.identifier;
        for end in 0..5 {
            self.put(self.until(identifier), Change::Admit(own));
            if end < 4 {
                self.put_now(Change::Wake(identifier));
            }
            self.put_in_time(self.core.last + 10, Change::Tick);
            let held_to = self.core.last + 3;
            match end {
                0 | 3 => self.put_in_time(held_to, Change::Remove(identifier)),
                1 => {
                    self.put_in_time(held_to, Change::Tick);
                    self.put_now(Change::Remove(identifier));
                }
                2 => {
                    self.put_in_time(held_to, Change::Block(identifier));
                    self.put(held_to + 1, Change::Remove(identifier));
                }
                _ => self.put_now(Change::Remove(identifier)),
            }
        }
        self.put(self.until(identifier), Change::Admit(own));
        self.put_now(Change::Wake(identifier));
        self.put_in_time(self.core.last + 12, Change::Tick);
    }

    /// Each holds as many ticks as no other, and then all leave.
    fn full(&mut self) {
        let first = self.random.below(1 << 23) as u32;
        let tenant = |place| Description { capacity: 90, ..whole(first + place, 4000, place as u8 % 2) };
        let tenants: Vec<Description> = (0..MOST_VCPUS as u32).map(tenant).collect();
        self.admit_now(&tenants);
        for (place, tenant) in (1..).zip(&tenants) {
            self.put(self.core.last + 1, Change::Wake(tenant.identifier));
            self.put(self.core.last + place, Change::Block(tenant.identifier));
        }
        let new = whole(first.wrapping_sub(1) & 0xff_ffff, 10, 0);
        self.put(self.core.last + 4, Change::Admit(new));
        self.put_now(Change::Tick);
        for tenant in &tenants {
            self.put(self.core.last + 2, Change::Remove(tenant.identifier));
        }
        self.put(self.core.last + 4, Change::Admit(new));
        self.put(self.core.last + 4000, Change::Tick);
    }

    /// Every row that a call can meet whose time is right, and some that it meets by its time.
    fn put_refused(&mut self, time: u64, own: Description) {
        let terms = [(0, 0), (10, 0), (10, 11)];
        for (period, capacity) in terms {
            self.put(time, Change::Admit(Description { identifier: 7, period, capacity, ..own }));
        }
        self.put(time, Change::Admit(whole(7, 10, 3)));
        self.put(time, Change::Admit(own));
        self.put(time, Change::Admit(whole(8, 90, 1)));
        for change in [Change::Wake(7), Change::Block(7), Change::Remove(7)] {
            self.put(time, change);
        }
        self.put(self.core.timer.unwrap_or(LARGEST_TIME) + 1, Change::Tick);
        self.put(self.core.last - 1, Change::Tick);
    }

    /// One on the card with held ticks, and one that is remembered.
    fn before_refusals(&mut self) -> Description {
        let own = Description { capacity: 40, ..whole(65793, 90, 0) };
        self.admit_now(&[own, whole(8, 90, 1)]);
        self.put_now(Change::Wake(8));
        self.put(self.core.last + 3, Change::Remove(8));
        self.put_now(Change::Wake(own.identifier));
        self.put(self.core.last + 5, Change::Tick);
        own
    }

    fn refused_in_idle(&mut self) {
        let own = self.before_refusals();
        self.put(self.core.last + 1, Change::Block(own.identifier));
        self.put_refused(self.core.last + 6, own);
        self.put(self.core.last + 8, Change::Tick);
        self.put(LARGEST_TIME + 1, Change::Tick);
    }

    fn refused_while_one_holds(&mut self) {
        let own = self.before_refusals();
        self.put_refused(self.core.last + 6, own);
        self.put(self.core.last + 8, Change::Tick);
    }

    /// Every call at the moment of one that charged ticks.
    fn at_one_moment(&mut self) {
        let own = Description { capacity: 40, ..whole(65793, 90, 0) };
        let other = Description { identifier: 257, priority: 2, ..own };
        self.admit_now(&[own, other]);
        self.put_now(Change::Wake(own.identifier));
        let new = whole(5, 90, 2);
        let changes = [
            Change::Tick,
            Change::Wake(own.identifier),
            Change::Wake(other.identifier),
            Change::Admit(new),
            Change::Remove(new.identifier),
            Change::Block(own.identifier),
            Change::Remove(own.identifier),
        ];
        for change in changes {
            self.put(self.core.last + 3, Change::Tick);
            self.put_now(change);
            self.put_now(Change::Tick);
        }
    }

    fn low_bits_of_one_that_left(&mut self) {
        for kind in 0..2 {
            let [low, high, _] =
                THREE.map(|identifier| Description { capacity: 9, ..whole(identifier, 20, kind) });
            for (left, stays) in [(high, low), (low, high)] {
                self.put(self.until(left.identifier), Change::Admit(left));
                self.put_now(Change::Wake(left.identifier));
                self.put(self.core.last + 4, Change::Remove(left.identifier));
                self.put(self.until(stays.identifier), Change::Admit(stays));
                self.put_now(Change::Wake(stays.identifier));
                self.put_in_time(self.core.last + 3, Change::Tick);
                self.put(self.core.last + 1, Change::Remove(stays.identifier));
            }
        }
    }

    /// All that a VCPU can have: usable, pending and usable again.
    fn largest_amounts(&mut self) {
        let own = whole(0xff_ffff, LARGEST_PERIOD, 0);
        self.admit_now(&[own]);
        self.put_now(Change::Wake(own.identifier));
        self.put(70_000, Change::Tick);
        self.put(u64::from(LARGEST_PERIOD) - 1, Change::Block(own.identifier));
        self.put(u64::from(LARGEST_PERIOD), Change::Tick);
    }

    /// Short uses of one of each kind; a boundary goes by with ticks held and left.
    fn blinks(&mut self) {
        for (kind, identifier) in (0..).zip(THREE) {
            let own = Description { capacity: 9, ..whole(identifier, 20, kind) };
            self.put(self.core.last + 5, Change::Admit(own));
            self.put_now(Change::Wake(identifier));
            self.put_in_time(self.core.last + 20, Change::Tick);
            for _ in 0..3 {
                self.put_in_time(self.core.last + 1, Change::Tick);
                self.put_in_time(self.core.last + 2, Change::Block(identifier));
                self.put_in_time(self.core.last + 1, Change::Wake(identifier));
            }
            self.put_in_time(self.core.last + 20, Change::Tick);
            self.put_in_time(self.core.last + 20, Change::Block(identifier));
        }
    }
}
