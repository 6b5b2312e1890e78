//! The calls of the program `pace` (crates/pace/src/main.rt), and its sums over the replies.

use crate::call::{Change, Description, Reply};
use std::fmt::{self, Display, Formatter};

/// What is asked: how many VCPUs; mixed (0), busy (1), mixed with a third of the VCPUs of each kind
/// (2), leaving and coming back, of all kinds too (3), short uses and a gap in turn, so that 2, 4 or 8
/// fall due at once (4 to 6), or the call behind the first such gap, again and again on the same card
/// (7 to 9); how many calls.
#[derive(Clone, Copy)]
pub struct Plan {
    pub vcpus: u64,
    pub mix: u64,
    pub calls: u64,
}

impl Plan {
    /// How many calls are made, each on the card that the one before left; the others are made on the
    /// card as it stands then.
    pub fn in_turn(&self) -> u64 {
        if self.mix < 7 {
            return self.calls;
        }
        self.calls.min(self.vcpus + cycle(self.mix, self.vcpus))
    }
}

/// Stands for no timer; no timer is so late.
const NEVER: u64 = u64::MAX;

/// Stands for idle; no identifier is so large.
const NOBODY: u64 = 16777216;

/// The period in the runs with gaps, and the gap.
const GAP: u64 = 1000;

/// What the generator remembers: the time of the last accepted call and the timer; the sums, of
/// times and timers, of the identifiers that ran, of amounts, usable and brought, of refusals'
/// numbers, of their details; and how many calls were refused.
#[derive(Default)]
pub struct Seen {
    last: u64,
    timer: u64,
    times: u64,
    tunnels: u64,
    amounts: u64,
    numbers: u64,
    details: u64,
    refused: u64,
}

impl Display for Seen {
    fn fmt(&self, to: &mut Formatter) -> fmt::Result {
        write!(to, "{} {} {} ", self.times, self.tunnels, self.amounts)?;
        write!(to, "{} {} {}", self.numbers, self.details, self.refused)
    }
}

/// A sum with one more number of its kind.
fn join(sum: &mut u64, number: u64) {
    *sum = (*sum * 31 + number % 1099511627776) % 1000000007;
}

fn id_of(k: u64) -> u32 {
    ((k + 1) * 791900 % 16777216) as u32
}

/// All are sporadic, but for the mixes of the three kinds.
fn kind_in(mix: u64, d: u64) -> u8 {
    if mix == 2 || mix == 3 {
        (d / 7 % 3) as u8
    } else {
        0
    }
}

fn terms(k: u64, d: u64, kind: u8) -> Description {
    Description {
        id: id_of(k),
        period: (50 + d % 1000) as u32,
        capacity: (1 + d % 20) as u32,
        priority: (d % 7) as u8,
        kind,
    }
}

fn bad_terms(k: u64, d: u64, kind: u8) -> Description {
    Description {
        capacity: 0,
        ..terms(k, d, kind)
    }
}

fn busy(n: u64, d: u64, last: u64, timer: u64) -> (u64, Change) {
    let now = (last + d / 32 % 16).min(timer);
    let who = id_of(d / 512 % n);
    let change = match d % 32 {
        0..=19 => Change::Tick,
        20..=25 => Change::Wake(who),
        26..=30 => Change::Block(who),
        _ => Change::Wake(id_of(n + n)),
    };
    (now, change)
}

/// A call that some row refuses; the late one is accepted where the timer is later still.
fn wrong(sel: u64, n: u64, d: u64, kind: u8, last: u64, now: u64) -> (u64, Change) {
    let who = d / 512 % n;
    match sel {
        28 => (last + 21, Change::Wake(id_of(who))),
        29 => (last.saturating_sub(1), Change::Tick),
        30 => (1000000000001, Change::Tick),
        31 => (now, Change::Wake(16777216)),
        32 => (now, Change::Admit(bad_terms(who, d, kind))),
        33 => (now, Change::Wake(id_of(n))),
        34 if n >= 32 => (now, Change::Admit(terms(n, d, kind))),
        _ => (now, Change::Admit(terms(who, d, kind))),
    }
}

/// Nobody leaves: what is comparable with the calls of before request 3.
fn mixed(n: u64, d: u64, kind: u8, last: u64, timer: u64) -> (u64, Change) {
    let now = (last + d / 32 % 16).min(timer);
    let who = id_of(d / 512 % n);
    match d % 36 {
        0..=9 => (now, Change::Tick),
        10..=19 => (now, Change::Wake(who)),
        20..=27 => (now, Change::Block(who)),
        sel => wrong(sel, n, d, kind, last, now),
    }
}

/// A quarter more tenants than VCPUs were asked for, in a round: once in 8 calls one leaves, and the
/// next call admits the one that left longest ago. The others are of those that are on the card where
/// all of that was accepted. The steps are longer than in the other runs, so that times come.
fn leaving(k: u64, n: u64, d: u64, kind: u8, last: u64, timer: u64) -> (u64, Change) {
    let now = (last + d / 32 % 16 * 8).min(timer);
    let (tenants, turn) = (n + n / 4 + 1, k / 8);
    let who = id_of((turn + 1 + d / 512 % n) % tenants);
    let change = match (k % 8, d % 32) {
        (0, _) => Change::Remove(id_of(turn % tenants)),
        (1, _) => Change::Admit(terms((turn + n) % tenants, d, kind)),
        (_, 0..=11) => Change::Tick,
        (_, 12..=23) => Change::Wake(who),
        _ => Change::Block(who),
    };
    (now, change)
}

/// The later its admission, the more urgent; 8 uses of a tick each leave it some.
fn patient(k: u64) -> Description {
    Description {
        id: id_of(k),
        period: GAP as u32,
        capacity: 20,
        priority: (255 - k % 256) as u8,
        kind: 0,
    }
}

/// How many calls there are from one gap to the next. In so many each VCPU is used twice, as it wakes
/// and as the more urgent one blocks; one that is alone has to wake twice for that.
fn cycle(mix: u64, n: u64) -> u64 {
    let used_twice = if n == 1 { 4 } else { 2 * n };
    match mix {
        4 | 7 => used_twice,
        5 | 8 => 2 * used_twice,
        _ => 4 * used_twice,
    }
}

/// Many short uses, then a gap of a period with nobody runnable, so that all that is pending falls due
/// at one call. All block, the most urgent first, and wake, the least urgent first, a tick after each
/// other. The most urgent one is used half as often as the others.
fn gaps(k: u64, n: u64, mix: u64, last: u64) -> (u64, Change) {
    let at = k % (2 * n);
    if k < n {
        (last, Change::Admit(patient(k)))
    } else if at < n {
        (last + 1, Change::Block(id_of(n - 1 - at)))
    } else if (k - n) % cycle(mix, n) == 0 {
        (last + GAP, Change::Wake(id_of(0)))
    } else {
        (last + 1, Change::Wake(id_of(at - n)))
    }
}

fn call(k: u64, plan: Plan, s: u64, seen: &Seen) -> (u64, Change) {
    let (n, d) = (plan.vcpus, s / 64);
    let kind = kind_in(plan.mix, d);
    if k >= plan.in_turn() {
        // By then all that was used is due. It wakes one, so that the reply tells what came back.
        (3 * GAP + k % 16, Change::Wake(id_of(0)))
    } else if plan.mix >= 4 {
        gaps(k, n, plan.mix, seen.last)
    } else if k < n {
        (seen.last, Change::Admit(terms(k, d, kind)))
    } else if k < n + n {
        (seen.last, Change::Wake(id_of(k - n)))
    } else if plan.mix == 0 || plan.mix == 2 {
        mixed(n, d, kind, seen.last, seen.timer)
    } else if plan.mix == 3 {
        leaving(k, n, d, kind, seen.last, seen.timer)
    } else {
        busy(n, d, seen.last, seen.timer)
    }
}

impl Seen {
    fn note(&mut self, reply: Reply) {
        match reply {
            Ok(report) => {
                self.last = report.time;
                self.timer = report.timer.unwrap_or(NEVER);
                join(&mut self.times, self.last);
                join(&mut self.times, self.timer);
                join(&mut self.tunnels, report.run.map_or(NOBODY, u64::from));
                let amounts = u64::from(report.usable) * 31 + u64::from(report.brought);
                join(&mut self.amounts, amounts);
            }
            Err(refusal) => {
                self.refused += 1;
                join(&mut self.numbers, u64::from(refusal.number));
                join(&mut self.details, refusal.detail);
            }
        }
    }
}

/// Makes the calls, each from what the earlier ones were answered.
pub fn run(plan: Plan, mut turn: impl FnMut(u64, Change) -> Reply) -> Seen {
    let mut seen = Seen {
        timer: NEVER,
        ..Seen::default()
    };
    let mut s = 12345u64;
    for k in 0..plan.calls {
        s = (s * 1103515245 + 12345) % 2147483648;
        let (now, change) = call(k, plan, s, &seen);
        seen.note(turn(now, change));
    }
    seen
}

#[cfg(test)]
mod tests {
    use super::*;
    use crate::call::Scheduler;
    use crate::{plain, twin};

    fn said(plan: Plan, mut core: impl Scheduler) -> String {
        run(plan, |now, change| core.turn(now, change)).to_string()
    }

    #[test]
    fn plain_and_twin_reply_alike() {
        for mix in 0..=6 {
            for vcpus in [1, 8, 32] {
                let calls = 30_000;
                let plan = Plan { vcpus, mix, calls };
                let twin = said(plan, twin::Core::empty());
                assert_eq!(
                    said(plan, plain::Core::empty()),
                    twin,
                    "{mix}, {vcpus} VCPUs"
                );
            }
        }
    }

    /// How many entries are pending with each VCPU at a call behind a gap, the last admitted last.
    fn pending_at_gaps(plan: Plan) -> Vec<Vec<usize>> {
        let mut core = plain::Core::empty();
        let (mut last, mut found) = (0, Vec::new());
        run(plan, |now, change| {
            let before = core.pending();
            let reply = core.turn(now, change);
            assert!(reply.is_ok(), "at {now}");
            if now >= last + GAP && before.iter().any(|&count| count > 0) {
                assert!(core.pending().iter().all(|&count| count == 0), "at {now}");
                found.push(before);
            }
            last = now;
            reply
        });
        found
    }

    /// And so in the first call that is made again and again.
    #[test]
    fn so_many_uses_fall_due_at_once() {
        for (mix, uses) in [(4, 2), (5, 4), (6, 8), (7, 2), (8, 4), (9, 8)] {
            for vcpus in [1, 8, 32] {
                let mut plan = Plan {
                    vcpus,
                    mix,
                    calls: 3000,
                };
                if mix >= 7 {
                    plan.calls = plan.in_turn() + 1;
                }
                let mut all = vec![uses; vcpus as usize];
                if vcpus > 1 {
                    *all.last_mut().unwrap() = uses / 2;
                }
                let found = pending_at_gaps(plan);
                let gaps = if mix >= 7 {
                    1
                } else {
                    (3000 - vcpus) / cycle(mix, vcpus)
                };
                assert!(
                    found.len() as u64 >= gaps.saturating_sub(1).max(1),
                    "{mix}, {vcpus}: {found:?}"
                );
                assert!(
                    found.iter().all(|some| *some == all),
                    "{mix}, {vcpus}: {found:?}"
                );
            }
        }
    }

    #[test]
    fn a_third_of_the_admits_is_of_each_kind() {
        for mix in [2, 3] {
            let mut core = plain::Core::empty();
            let mut admits = [0; 3];
            run(plan(mix), |now, change| {
                if let Change::Admit(new) = change {
                    admits[usize::from(new.kind)] += 1;
                }
                core.turn(now, change)
            });
            let all: u64 = admits.iter().sum();
            assert!(
                admits
                    .iter()
                    .all(|&count| (all / 4..all / 2).contains(&count)),
                "{admits:?}"
            );
        }
    }

    fn plan(mix: u64) -> Plan {
        Plan {
            vcpus: 32,
            mix,
            calls: 30_000,
        }
    }

    /// Accepted removals, and how often each number is given.
    fn met(mix: u64) -> (u64, [u64; 13]) {
        let mut core = plain::Core::empty();
        let (mut removals, mut numbers) = (0, [0; 13]);
        run(plan(mix), |now, change| {
            let reply = core.turn(now, change);
            match (&reply, change) {
                (Ok(_), Change::Remove(_)) => removals += 1,
                (Err(refusal), _) => numbers[usize::from(refusal.number)] += 1,
                _ => (),
            }
            reply
        });
        (removals, numbers)
    }

    #[test]
    fn many_leave_and_come_back_in_one_run_and_nobody_in_the_others() {
        let (removals, numbers) = met(3);
        assert!(removals > 2_000, "{removals}");
        assert!([7, 8, 9].iter().all(|&k| numbers[k] > 100), "{numbers:?}");
        for mix in 0..=2 {
            let (removals, numbers) = met(mix);
            assert_eq!((removals, numbers[9]), (0, 0));
        }
    }
}
