//! The algorithm of the crate `turns`, in place: a table sorted by urgency, identifiers beside it,
//! a time above all for none. The next boundary of one that has no queue stands at its front.
//! Remembered identifiers and their times have arrays of their own, and so have, within a call, the
//! times that the return step reports. The totals are kept and not shown.

use crate::call::{refuse, Change, Description, Refusal, Reply, Report, Scheduler};
use crate::call::{LARGEST_IDENTIFIER, LARGEST_PERIOD, LARGEST_TIME, MOST_PENDING, MOST_VCPUS};
use crate::call::{POLLING, SPORADIC};
#[cfg(test)]
use crate::usage::{Row, Usage};

const NEVER: u64 = u64::MAX;
const NOBODY: u32 = u32::MAX;

/// The time reported of each, by its place.
type Times = [u64; MOST_VCPUS];

#[derive(Clone, Copy)]
struct Vcpu {
    due: [u64; MOST_PENDING],
    ended: u64,
    amount: [u32; MOST_PENDING],
    period: u32,
    capacity: u32,
    usable: u32,
    pending: u32,
    held: u64,
    priority: u8,
    runnable: bool,
    count: u8,
    kind: u8,
}

#[cfg(test)]
pub const RECORD: usize = std::mem::size_of::<Vcpu>();

const VACANT: Vcpu = Vcpu {
    due: [NEVER; MOST_PENDING],
    ended: 0,
    amount: [0; MOST_PENDING],
    period: 0,
    capacity: 0,
    usable: 0,
    pending: 0,
    held: 0,
    priority: 0,
    runnable: false,
    count: 0,
    kind: SPORADIC,
};

impl Vcpu {
    fn charge(&mut self, last: u64, now: u64) {
        let used = (now - last) as u32;
        let c = usize::from(self.count);
        self.usable -= used;
        self.held += u64::from(used);
        if self.kind != SPORADIC {
            return;
        }
        self.pending += used;
        if c > 0 && self.ended == last {
            self.amount[c - 1] += used;
        } else if c == MOST_PENDING {
            self.amount[c - 1] += used;
            self.due[c - 1] = last + u64::from(self.period);
        } else {
            self.due[c] = last + u64::from(self.period);
            self.amount[c] = used;
            self.count += 1;
        }
        self.ended = now;
    }

    /// The ticks that came.
    fn give_back(&mut self, now: u64) -> u32 {
        let was = self.usable;
        self.come(now);
        self.usable - was
    }

    fn come(&mut self, now: u64) {
        if self.kind != SPORADIC {
            return self.refill(now);
        }
        let returned = self.due.iter().take_while(|due| **due <= now).count();
        let ticks = self.amount[..returned].iter().sum::<u32>();
        self.usable += ticks;
        self.pending -= ticks;
        self.due.copy_within(returned.., 0);
        self.due[MOST_PENDING - returned..].fill(NEVER);
        self.amount.copy_within(returned.., 0);
        self.amount[MOST_PENDING - returned..].fill(0);
        self.count -= returned as u8;
    }

    fn refill(&mut self, now: u64) {
        let period = u64::from(self.period);
        self.due[0] = now + (period - (now - self.due[0]) % period);
        self.usable = self.left(self.runnable, self.capacity);
    }

    /// What is left of its ticks: a polling one that is not runnable has none.
    fn left(&self, runnable: bool, ticks: u32) -> u32 {
        if self.kind == POLLING && !runnable {
            0
        } else {
            ticks
        }
    }

    fn set_runnable(&mut self, runnable: bool) {
        self.usable = self.left(runnable, self.usable);
        self.runnable = runnable;
    }

    /// What it is remembered with: the last of its queue, or its boundary, or a time above all.
    fn latest(&self) -> u64 {
        self.due[usize::from(self.count).max(1) - 1]
    }

    /// Its own next boundary, of the time reported; the one that runs is not asked for its returns.
    fn own(&self, reported: u64) -> u64 {
        if self.kind == SPORADIC {
            NEVER
        } else {
            reported
        }
    }

    #[cfg(test)]
    fn row(&self, id: u32) -> Row {
        Row {
            id,
            usable: self.usable,
            queued: self.amount[..self.count.into()].iter().sum(),
            pending: self.pending,
            held: self.held,
        }
    }
}

fn admitted(new: Description, now: u64) -> Vcpu {
    let mut v = Vcpu {
        period: new.period,
        capacity: new.capacity,
        usable: new.capacity,
        priority: new.priority,
        kind: new.kind,
        ..VACANT
    };
    v.set_runnable(false);
    if new.kind != SPORADIC {
        v.due[0] = now + u64::from(new.period);
    }
    v
}

#[derive(Clone)]
pub struct Core {
    places: [Vcpu; MOST_VCPUS],
    last: u64,
    ids: [u32; MOST_VCPUS],
    timer: u64,
    running: usize,
    n: usize,
    gone: [u32; MOST_VCPUS],
    until: [u64; MOST_VCPUS],
    g: usize,
    /// Ticks that tenants held who were removed since.
    removed: u64,
    idle: u64,
}

impl Core {
    pub fn empty() -> Core {
        Core {
            places: [VACANT; MOST_VCPUS],
            last: 0,
            ids: [NOBODY; MOST_VCPUS],
            timer: NEVER,
            running: MOST_VCPUS,
            n: 0,
            gone: [NOBODY; MOST_VCPUS],
            until: [NEVER; MOST_VCPUS],
            g: 0,
            removed: 0,
            idle: 0,
        }
    }

    fn find(&self, id: u32) -> usize {
        self.ids.iter().position(|x| *x == id).unwrap_or(MOST_VCPUS)
    }

    fn judge(&self, now: u64, change: &Change) -> Result<usize, Refusal> {
        if now > LARGEST_TIME {
            return refuse(1);
        }
        if now < self.last {
            return refuse(2);
        }
        if now > self.timer {
            return Err(Refusal {
                number: 3,
                detail: self.timer,
            });
        }
        match *change {
            Change::Tick => Ok(0),
            Change::Admit(new) => self.judge_admit(new, now),
            Change::Wake(id) | Change::Block(id) | Change::Remove(id) => self.judge_named(id),
        }
    }

    fn judge_named(&self, id: u32) -> Result<usize, Refusal> {
        if id > LARGEST_IDENTIFIER {
            return refuse(4);
        }
        let at = self.find(id);
        if at == MOST_VCPUS {
            return refuse(7);
        }
        Ok(at)
    }

    fn judge_admit(&self, new: Description, now: u64) -> Result<usize, Refusal> {
        if new.id > LARGEST_IDENTIFIER {
            return refuse(4);
        }
        if new.period < 1 || new.period > LARGEST_PERIOD {
            return refuse(5);
        }
        if new.capacity < 1 {
            return refuse(11);
        }
        if new.capacity > new.period {
            return refuse(12);
        }
        if new.kind > POLLING {
            return refuse(10);
        }
        if self.find(new.id) < MOST_VCPUS {
            return refuse(6);
        }
        self.judge_gone(new.id, now)
    }

    /// Row 9, and row 8 with those whose time has not come.
    fn judge_gone(&self, id: u32, now: u64) -> Result<usize, Refusal> {
        let mut taken = self.n;
        for k in 0..self.g {
            if now < self.until[k] {
                if self.gone[k] == id {
                    return Err(Refusal {
                        number: 9,
                        detail: self.until[k],
                    });
                }
                taken += 1;
            }
        }
        if taken >= MOST_VCPUS {
            return refuse(8);
        }
        Ok(0)
    }

    /// The others keep their order.
    fn forget(&mut self, now: u64) {
        let mut kept = 0;
        for k in 0..self.g {
            if now < self.until[k] {
                self.gone[kept] = self.gone[k];
                self.until[kept] = self.until[k];
                kept += 1;
            }
        }
        self.g = kept;
    }

    fn admit(&mut self, new: Description, now: u64, next: &mut Times) {
        let mine = (new.priority, new.id);
        let k = (0..self.n)
            .position(|k| mine < (self.places[k].priority, self.ids[k]))
            .unwrap_or(self.n);
        self.places.copy_within(k..MOST_VCPUS - 1, k + 1);
        self.ids.copy_within(k..MOST_VCPUS - 1, k + 1);
        next.copy_within(k..MOST_VCPUS - 1, k + 1);
        self.places[k] = admitted(new, now);
        self.ids[k] = new.id;
        next[k] = NEVER;
        self.n += 1;
    }

    fn remove(&mut self, at: usize, next: &mut Times) {
        let until = self.places[at].latest();
        if until != NEVER {
            self.gone[self.g] = self.ids[at];
            self.until[self.g] = until;
            self.g += 1;
        }
        self.removed += self.places[at].held;
        self.places.copy_within(at + 1.., at);
        self.ids.copy_within(at + 1.., at);
        next.copy_within(at + 1.., at);
        self.places[MOST_VCPUS - 1] = VACANT;
        self.ids[MOST_VCPUS - 1] = NOBODY;
        next[MOST_VCPUS - 1] = NEVER;
        self.n -= 1;
    }

    /// Where nobody held the core, its ticks are idle ones.
    fn charge(&mut self, now: u64) {
        if self.running >= self.n {
            self.idle += now - self.last;
        } else if now != self.last {
            self.places[self.running].charge(self.last, now);
        }
    }

    /// Who is due gets what is; the times reported, and the ticks brought.
    fn bring(&mut self, now: u64) -> (Times, u32) {
        let mut next = [NEVER; MOST_VCPUS];
        let mut brought = 0;
        for (j, v) in self.places[..self.n].iter_mut().enumerate() {
            if v.due[0] <= now {
                brought += v.give_back(now);
            }
            next[j] = v.due[0];
        }
        (next, brought)
    }

    /// The first in the table that can run, and the earliest reported of those before it or its own
    /// boundary.
    fn choose(&self, next: &Times) -> (usize, u64) {
        let mut soon = NEVER;
        for (j, v) in self.places[..self.n].iter().enumerate() {
            if v.runnable {
                if v.usable > 0 {
                    return (j, soon.min(v.own(next[j])));
                }
                soon = soon.min(next[j]);
            }
        }
        (MOST_VCPUS, soon)
    }

    fn report(&mut self, now: u64, next: &Times, brought: u32) -> Report {
        let (chosen, soon) = self.choose(next);
        let runs = chosen < MOST_VCPUS;
        let usable = if runs { self.places[chosen].usable } else { 0 };
        self.last = now;
        self.running = chosen;
        self.timer = if runs {
            soon.min(now + u64::from(usable))
        } else {
            soon
        };
        Report {
            time: now,
            run: runs.then(|| self.ids[chosen]),
            usable,
            timer: (self.timer != NEVER).then_some(self.timer),
            brought,
        }
    }
}

impl Scheduler for Core {
    fn turn(&mut self, now: u64, change: Change) -> Reply {
        let at = self.judge(now, &change)?;
        self.charge(now);
        let (mut next, brought) = self.bring(now);
        self.forget(now);
        match change {
            Change::Tick => (),
            Change::Admit(new) => self.admit(new, now, &mut next),
            Change::Wake(_) => self.places[at].set_runnable(true),
            Change::Block(_) => self.places[at].set_runnable(false),
            Change::Remove(_) => self.remove(at, &mut next),
        }
        Ok(self.report(now, &next, brought))
    }

    fn totals(&self) -> (u64, u64) {
        let used = &self.places[..self.n];
        let pending = used.iter().map(|v| u64::from(v.pending));
        let held = used.iter().map(|v| v.held);
        (pending.sum(), held.sum::<u64>() + self.removed + self.idle)
    }

    #[cfg(test)]
    fn usage(&self) -> Usage {
        let used = self.places[..self.n].iter().zip(self.ids);
        let rows = used.map(|(v, id)| v.row(id)).collect();
        Usage::new(rows, self.removed, self.idle)
    }
}
