//! The rules in place, as they are read: a table in no order, each VCPU with a queue of its own. The
//! queue of a deferrable or polling one is a single entry that stays: its next boundary and its
//! capacity. So the last entry of a queue has the time that a removed one is remembered with. The
//! totals are kept and not shown; that single entry is not pending.

use crate::call::{refuse, Change, Description, Refusal, Reply, Report, Scheduler};
use crate::call::{LARGEST_IDENTIFIER, LARGEST_PERIOD, LARGEST_TIME, MOST_PENDING, MOST_VCPUS};
use crate::call::{POLLING, SPORADIC};
#[cfg(test)]
use crate::usage::{Row, Usage};

#[derive(Clone, Copy)]
struct Vcpu {
    id: u32,
    period: u32,
    usable: u32,
    priority: u8,
    kind: u8,
    runnable: bool,
    count: u8,
    ended: u64,
    due: [u64; MOST_PENDING],
    amount: [u32; MOST_PENDING],
    pending: u32,
    held: u64,
}

#[cfg(test)]
pub const RECORD: usize = std::mem::size_of::<Vcpu>();

const FREE: Vcpu = Vcpu {
    id: 0,
    period: 0,
    usable: 0,
    priority: 0,
    kind: SPORADIC,
    runnable: false,
    count: 0,
    ended: 0,
    due: [0; MOST_PENDING],
    amount: [0; MOST_PENDING],
    pending: 0,
    held: 0,
};

impl Vcpu {
    fn urgency(&self) -> u32 {
        u32::from(self.priority) << 24 | self.id
    }

    fn charge(&mut self, last: u64, now: u64) {
        let used = (now - last) as u32;
        if used == 0 {
            return;
        }
        self.usable -= used;
        self.held += u64::from(used);
        if self.kind != SPORADIC {
            return;
        }
        self.pending += used;
        let count = usize::from(self.count);
        let again = last + u64::from(self.period);
        if count > 0 && self.ended == last {
            self.amount[count - 1] += used;
        } else if count == MOST_PENDING {
            self.amount[count - 1] += used;
            self.due[count - 1] = again;
        } else {
            self.due[count] = again;
            self.amount[count] = used;
            self.count += 1;
        }
        self.ended = now;
    }

    /// The ticks that it brought.
    fn give_back(&mut self, now: u64) -> u32 {
        let mut brought = 0;
        while self.count > 0 && self.due[0] <= now {
            if self.kind != SPORADIC {
                return self.refill(now);
            }
            brought += self.amount[0];
            self.usable += self.amount[0];
            self.pending -= self.amount[0];
            self.due.copy_within(1.., 0);
            self.amount.copy_within(1.., 0);
            self.count -= 1;
        }
        brought
    }

    /// The ticks that it added.
    fn refill(&mut self, now: u64) -> u32 {
        let period = u64::from(self.period);
        let left = self.usable;
        self.due[0] += ((now - self.due[0]) / period + 1) * period;
        self.usable = self.amount[0];
        self.set_runnable(self.runnable);
        self.usable - left
    }

    /// A polling one that is not runnable keeps no ticks.
    fn set_runnable(&mut self, runnable: bool) {
        self.runnable = runnable;
        if self.kind == POLLING && !runnable {
            self.usable = 0;
        }
    }

    /// The time to remember it with, if there is one.
    fn last_due(&self) -> Option<u64> {
        let last = usize::from(self.count).checked_sub(1)?;
        Some(self.due[last])
    }

    /// Up to where it may run.
    fn until(&self, now: u64) -> u64 {
        let used_up = now + u64::from(self.usable);
        if self.kind == SPORADIC {
            used_up
        } else {
            used_up.min(self.due[0])
        }
    }

    #[cfg(test)]
    fn row(&self) -> Row {
        let queue = if self.kind == SPORADIC { self.count } else { 0 };
        Row {
            id: self.id,
            usable: self.usable,
            queued: self.amount[..queue.into()].iter().sum(),
            pending: self.pending,
            held: self.held,
        }
    }
}

fn admitted(new: Description, now: u64) -> Vcpu {
    let mut vcpu = Vcpu {
        id: new.id,
        period: new.period,
        usable: new.capacity,
        priority: new.priority,
        kind: new.kind,
        ..FREE
    };
    vcpu.set_runnable(false);
    if new.kind != SPORADIC {
        vcpu.due[0] = now + u64::from(new.period);
        vcpu.amount[0] = new.capacity;
        vcpu.count = 1;
    }
    vcpu
}

/// One that was removed, until its time comes.
#[derive(Clone, Copy)]
struct Gone {
    id: u32,
    until: u64,
}

#[derive(Clone)]
pub struct Core {
    last: u64,
    timer: Option<u64>,
    running: Option<usize>,
    count: usize,
    table: [Vcpu; MOST_VCPUS],
    remembered: usize,
    gone: [Gone; MOST_VCPUS],
    /// Ticks that tenants held who were removed since.
    removed: u64,
    idle: u64,
}

impl Core {
    pub fn empty() -> Core {
        Core {
            last: 0,
            timer: None,
            running: None,
            count: 0,
            table: [FREE; MOST_VCPUS],
            remembered: 0,
            gone: [Gone { id: 0, until: 0 }; MOST_VCPUS],
            removed: 0,
            idle: 0,
        }
    }

    fn vcpus(&self) -> &[Vcpu] {
        &self.table[..self.count]
    }

    /// How many entries each has.
    #[cfg(test)]
    pub fn pending(&self) -> Vec<usize> {
        let counts = self.vcpus().iter().map(|vcpu| vcpu.count.into());
        counts.collect()
    }

    fn find(&self, id: u32) -> Option<usize> {
        self.vcpus().iter().position(|vcpu| vcpu.id == id)
    }

    /// Those whose time has not come at `now`.
    fn remembered(&self, now: u64) -> impl Iterator<Item = &Gone> {
        let gone = &self.gone[..self.remembered];
        gone.iter().filter(move |gone| gone.until > now)
    }

    fn forget(&mut self, now: u64) {
        let mut place = 0;
        while place < self.remembered {
            if self.gone[place].until > now {
                place += 1;
            } else {
                self.remembered -= 1;
                self.gone[place] = self.gone[self.remembered];
            }
        }
    }

    fn remember(&mut self, id: u32, until: u64) {
        self.gone[self.remembered] = Gone { id, until };
        self.remembered += 1;
    }

    /// Rows 1 to 8 of the reply numbers, with 11, 12 and 10 behind 5 and 9 behind 6; the place in the table that the call speaks of.
    fn judge(&self, now: u64, change: &Change) -> Result<usize, Refusal> {
        if now > LARGEST_TIME {
            return refuse(1);
        }
        if now < self.last {
            return refuse(2);
        }
        match self.timer {
            Some(detail) if now > detail => return Err(Refusal { number: 3, detail }),
            _ => (),
        }
        match *change {
            Change::Tick => Ok(0),
            Change::Admit(new) => self.free_place(new, now),
            Change::Wake(id) | Change::Block(id) | Change::Remove(id) => {
                if id > LARGEST_IDENTIFIER {
                    return refuse(4);
                }
                self.find(id).map_or(refuse(7), Ok)
            }
        }
    }

    fn free_place(&self, new: Description, now: u64) -> Result<usize, Refusal> {
        if new.id > LARGEST_IDENTIFIER {
            return refuse(4);
        }
        if !(1..=LARGEST_PERIOD).contains(&new.period) {
            return refuse(5);
        }
        if new.capacity == 0 {
            return refuse(11);
        }
        if new.capacity > new.period {
            return refuse(12);
        }
        if new.kind > POLLING {
            return refuse(10);
        }
        if self.find(new.id).is_some() {
            return refuse(6);
        }
        if let Some(gone) = self.remembered(now).find(|gone| gone.id == new.id) {
            return Err(Refusal {
                number: 9,
                detail: gone.until,
            });
        }
        if self.count + self.remembered(now).count() >= MOST_VCPUS {
            return refuse(8);
        }
        Ok(self.count)
    }

    /// In idle nobody is charged, and the idle ticks are counted themselves.
    fn charge(&mut self, now: u64) {
        match self.running {
            Some(running) => self.table[running].charge(self.last, now),
            None => self.idle += now - self.last,
        }
    }

    fn change(&mut self, change: Change, place: usize, now: u64) {
        match change {
            Change::Tick => (),
            Change::Wake(_) => self.table[place].set_runnable(true),
            Change::Block(_) => self.table[place].set_runnable(false),
            Change::Remove(id) => {
                if let Some(until) = self.table[place].last_due() {
                    self.remember(id, until);
                }
                self.removed += self.table[place].held;
                self.count -= 1;
                self.table[place] = self.table[self.count];
            }
            Change::Admit(new) => {
                self.table[place] = admitted(new, now);
                self.count += 1;
            }
        }
    }

    /// The most urgent one that can run.
    fn choose(&self) -> Option<usize> {
        let mut best: Option<usize> = None;
        let mut urgency = u32::MAX;
        for (place, vcpu) in self.vcpus().iter().enumerate() {
            let first = best.is_none() || vcpu.urgency() < urgency;
            if vcpu.runnable && vcpu.usable > 0 && first {
                best = Some(place);
                urgency = vcpu.urgency();
            }
        }
        best
    }

    /// The timer where `chosen` runs, or nobody.
    fn timer(&self, now: u64, chosen: Option<&Vcpu>) -> Option<u64> {
        let mut timer = chosen.map(|vcpu| vcpu.until(now));
        for vcpu in self.vcpus() {
            if vcpu.runnable
                && vcpu.count > 0
                && chosen.is_none_or(|best| vcpu.urgency() < best.urgency())
                && timer.is_none_or(|at| vcpu.due[0] < at)
            {
                timer = Some(vcpu.due[0]);
            }
        }
        timer
    }
}

impl Scheduler for Core {
    fn turn(&mut self, now: u64, change: Change) -> Reply {
        let place = self.judge(now, &change)?;
        self.charge(now);
        let mut brought = 0;
        for vcpu in &mut self.table[..self.count] {
            brought += vcpu.give_back(now);
        }
        self.forget(now);
        self.change(change, place, now);
        self.running = self.choose();
        let chosen = self.running.map(|place| &self.table[place]);
        let timer = self.timer(now, chosen);
        let (run, usable) = (
            chosen.map(|vcpu| vcpu.id),
            chosen.map_or(0, |vcpu| vcpu.usable),
        );
        self.last = now;
        self.timer = timer;
        Ok(Report {
            time: now,
            run,
            usable,
            timer,
            brought,
        })
    }

    fn totals(&self) -> (u64, u64) {
        let pending = self.vcpus().iter().map(|vcpu| u64::from(vcpu.pending));
        let held = self.vcpus().iter().map(|vcpu| vcpu.held);
        (pending.sum(), held.sum::<u64>() + self.removed + self.idle)
    }

    #[cfg(test)]
    fn usage(&self) -> Usage {
        let rows = self.vcpus().iter().map(Vcpu::row).collect();
        Usage::new(rows, self.removed, self.idle)
    }
}
