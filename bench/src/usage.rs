//! The totals that `plain` and `twin` keep (document 02, No. 6), against the history that a host can
//! tell from the calls and their replies.

use crate::call::{Change, Description, Reply, Report, Scheduler, SPORADIC};
use crate::generator::{self, Plan};
use crate::{plain, twin};
use std::collections::BTreeMap;

/// A VCPU's totals, and what they have to agree with; `queued` is its queue added up.
#[derive(Clone, Debug, PartialEq)]
pub struct Row {
    pub id: u32,
    pub usable: u32,
    pub queued: u32,
    pub pending: u32,
    pub held: u64,
}

/// The rows of those on the card, by identifier, and the totals beside them.
#[derive(Clone, Debug, PartialEq)]
pub struct Usage {
    rows: Vec<Row>,
    removed: u64,
    idle: u64,
}

impl Usage {
    pub fn new(mut rows: Vec<Row>, removed: u64, idle: u64) -> Usage {
        rows.sort_by_key(|row| row.id);
        Usage {
            rows,
            removed,
            idle,
        }
    }

    /// The two sums of `Scheduler::totals`.
    fn sums(&self) -> (u64, u64) {
        let pending = self.rows.iter().map(|row| u64::from(row.pending));
        let held = self.rows.iter().map(|row| row.held);
        (pending.sum(), held.sum::<u64>() + self.removed + self.idle)
    }
}

/// One tenant on the card, from its admission on.
#[derive(Clone, Copy)]
struct Stay {
    terms: Description,
    from: u64,
}

/// Who had the core from one accepted call to the next (nobody: idle), and the stays, those that
/// ended with their end. Only written down as it comes; what it adds up to is counted from all of it.
#[derive(Clone, Default)]
struct History {
    last: u64,
    runs: Option<u32>,
    spans: BTreeMap<Option<u32>, Vec<(u64, u64)>>,
    here: BTreeMap<u32, Stay>,
    ended: Vec<(Stay, u64)>,
}

impl History {
    fn note(&mut self, change: Change, report: &Report) {
        let span = (self.last, report.time);
        self.spans.entry(self.runs).or_default().push(span);
        (self.last, self.runs) = (report.time, report.run);
        match change {
            Change::Admit(terms) => {
                let from = report.time;
                self.here.insert(terms.id, Stay { terms, from });
            }
            Change::Remove(id) => {
                let stay = self.here.remove(&id).unwrap();
                self.ended.push((stay, report.time));
            }
            _ => (),
        }
    }

    /// The ticks that `who` had from one moment to another.
    fn ticks(&self, who: Option<u32>, from: u64, to: u64) -> u64 {
        let spans = self.spans.get(&who).into_iter().flatten();
        spans
            .map(|span| span.1.min(to).saturating_sub(span.0.max(from)))
            .sum()
    }

    fn held(&self) -> Vec<(u32, u64)> {
        let held = |stay: &Stay| self.ticks(Some(stay.terms.id), stay.from, self.last);
        let stays = self.here.iter();
        stays.map(|(id, stay)| (*id, held(stay))).collect()
    }

    fn removed(&self) -> u64 {
        let stays = self.ended.iter();
        stays
            .map(|(stay, to)| self.ticks(Some(stay.terms.id), stay.from, *to))
            .sum()
    }

    /// How many had the core, for some ticks, up to the very call that removed them.
    fn removed_from_the_core(&self) -> usize {
        let ran_up_to = |id: u32, to: u64| {
            let mut spans = self.spans.get(&Some(id)).into_iter().flatten();
            spans.any(|span| span.0 < span.1 && span.1 == to)
        };
        let stays = self.ended.iter();
        stays
            .filter(|(stay, to)| ran_up_to(stay.terms.id, *to))
            .count()
    }
}

/// Both schedulers on the same calls, with the history and the totals after the last call.
#[derive(Clone)]
struct Both {
    plain: plain::Core,
    twin: twin::Core,
    history: History,
    usage: Usage,
}

impl Both {
    fn empty() -> Both {
        Both {
            plain: plain::Core::empty(),
            twin: twin::Core::empty(),
            history: History::default(),
            usage: Usage::new(Vec::new(), 0, 0),
        }
    }

    fn turn(&mut self, now: u64, change: Change) -> Reply {
        let reply = self.plain.turn(now, change);
        assert_eq!(self.twin.turn(now, change).is_ok(), reply.is_ok());
        let usage = self.plain.usage();
        assert_eq!(usage, self.twin.usage(), "at {now}");
        match &reply {
            Ok(report) => self.history.note(change, report),
            Err(_) => assert_eq!(usage, self.usage, "refused at {now}"),
        }
        self.usage = usage;
        self.agrees();
        reply
    }

    /// What can be seen of one card: the sums, the queues and the capacities.
    fn agrees(&self) {
        let sums = self.usage.sums();
        assert_eq!(sums.1, self.history.last);
        assert_eq!([self.plain.totals(), self.twin.totals()], [sums; 2]);
        for row in &self.usage.rows {
            assert_eq!(row.pending, row.queued, "{row:?}");
            let terms = self.history.here[&row.id].terms;
            if terms.kind == SPORADIC {
                assert_eq!(row.usable + row.pending, terms.capacity, "{row:?}");
            } else {
                assert_eq!(row.pending, 0, "{row:?}");
            }
        }
    }

    /// What the whole history counts.
    fn is_the_history(&self) {
        let rows = self.usage.rows.iter();
        let held: Vec<(u32, u64)> = rows.map(|row| (row.id, row.held)).collect();
        assert_eq!(held, self.history.held());
        assert_eq!(self.usage.removed, self.history.removed());
        let idle = self.history.ticks(None, 0, self.history.last);
        assert_eq!(self.usage.idle, idle);
    }
}

/// The calls of `bench calls`, those on copies too. The history is counted now and then, and at the
/// end: from the beginning each time, which is too much for every call.
fn followed(plan: Plan) -> Both {
    let mut both = Both::empty();
    let mut k = 0;
    generator::run(plan, |now, change| {
        k += 1;
        if k > plan.in_turn() {
            let mut copy = both.clone();
            let reply = copy.turn(now, change);
            copy.is_the_history();
            return reply;
        }
        let reply = both.turn(now, change);
        if k % 3001 == 0 {
            both.is_the_history();
        }
        reply
    });
    both.is_the_history();
    both
}

#[test]
fn the_totals_of_all_runs_are_those_of_the_history() {
    for mix in 0..=9 {
        for vcpus in [1, 8, 32] {
            let calls = 30_000;
            let both = followed(Plan { vcpus, mix, calls });
            let Usage { removed, idle, .. } = both.usage;
            assert_eq!(removed > 0, mix == 3, "{mix}, {vcpus} VCPUs");
            assert!(idle > 0 || mix >= 7, "{mix}, {vcpus} VCPUs");
            let from_the_core = both.history.removed_from_the_core();
            assert!(from_the_core > 50 || mix != 3, "{from_the_core}");
        }
    }
}

fn admit(id: u32, kind: u8) -> Change {
    Change::Admit(Description {
        id,
        period: 10,
        capacity: 3,
        priority: 1,
        kind,
    })
}

/// The calls, in order; those that are refused too.
fn by_hand(calls: &[(u64, Change)]) -> Both {
    let mut both = Both::empty();
    for (now, change) in calls {
        let _ = both.turn(*now, *change);
        both.is_the_history();
    }
    both
}

/// Of each row the pending ticks and those held; then those of removed tenants, and the idle ones.
fn counted(both: &Both) -> (Vec<(u32, u64)>, u64, u64) {
    let rows = both.usage.rows.iter();
    let rows = rows.map(|row| (row.pending, row.held)).collect();
    (rows, both.usage.removed, both.usage.idle)
}

/// It holds 1 and 2 ticks, all return at 14, and it is removed having held 2 more; then the same again.
/// The wake of 8 is refused.
#[test]
fn a_tenant_that_leaves_and_comes_back() {
    let steps = [
        (4, admit(7, 0), (vec![(0, 0)], 0, 4)),
        (4, Change::Wake(7), (vec![(0, 0)], 0, 4)),
        (5, Change::Tick, (vec![(1, 1)], 0, 4)),
        (6, Change::Wake(8), (vec![(1, 1)], 0, 4)),
        (7, Change::Tick, (vec![(3, 3)], 0, 4)),
        (14, Change::Tick, (vec![(0, 3)], 0, 11)),
        (16, Change::Remove(7), (vec![], 5, 11)),
        (24, Change::Tick, (vec![], 5, 19)),
        (24, admit(7, 0), (vec![(0, 0)], 5, 19)),
        (24, Change::Wake(7), (vec![(0, 0)], 5, 19)),
        (26, Change::Remove(7), (vec![], 7, 19)),
    ];
    let calls = steps.clone().map(|(now, change, _)| (now, change));
    for (k, (now, _, meant)) in steps.into_iter().enumerate() {
        assert_eq!(counted(&by_hand(&calls[..=k])), meant, "at {now}");
    }
}

/// The boundary at 10 brings ticks that were not pending; before it the polling one has none.
#[test]
fn nothing_is_pending_with_the_other_kinds() {
    for (kind, held, idle) in [(1, 5, 7), (2, 2, 10)] {
        let mut calls = vec![(0, admit(7, kind)), (0, Change::Wake(7))];
        calls.extend([3, 10, 12].map(|now| (now, Change::Tick)));
        let both = by_hand(&calls);
        assert_eq!(counted(&both), (vec![(0, held)], 0, idle), "{kind}");
    }
}

/// What bench/README.md says of both.
#[test]
fn a_record_has_136_bytes() {
    assert_eq!([plain::RECORD, twin::RECORD], [136; 2]);
}
