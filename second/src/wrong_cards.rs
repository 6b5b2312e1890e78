//! Cards with one fault each, to see that `outside` finds it. A card here has deferrable and
//! polling tenants alone.

use crate::brought;
use crate::generate::Run;
use crate::outside::{self, check_run};
use crate::plain_card::{self, Kept, Tenant};
use crate::stays::Counts;
use crate::turns::Description;

#[derive(Clone, Copy, PartialEq, Debug)]
enum Fault {
    None,
    RefillAdds,
    RefillsTheBlocked,
    KeepsWhenBlocked,
    CountsFromTheWake,
    ForgetsTheBoundary,
    NeverRefills,
    TimerStandsStill,
}

const FAULTS: [Fault; 7] = [
    Fault::RefillAdds,
    Fault::RefillsTheBlocked,
    Fault::KeepsWhenBlocked,
    Fault::CountsFromTheWake,
    Fault::ForgetsTheBoundary,
    Fault::NeverRefills,
    Fault::TimerStandsStill,
];

struct Rounds {
    fault: Fault,
    admitted: u64,
    boundary: u64,
}

impl Kept for Rounds {
    fn charge(_: &mut Tenant<Rounds>, _: u64, _: u64) {}

    fn bring_in(tenant: &mut Tenant<Rounds>, now: u64) -> u64 {
        let (period, capacity) = (u64::from(tenant.terms.period), u64::from(tenant.terms.capacity));
        let Rounds { fault, boundary, .. } = tenant.kept;
        if now < boundary {
            return 0;
        }
        let left = tenant.usable;
        let served = !polls(tenant) || tenant.runnable || fault == Fault::RefillsTheBlocked;
        tenant.usable = match fault {
            Fault::NeverRefills => tenant.usable,
            _ if !served => 0,
            Fault::RefillAdds => tenant.usable + capacity,
            _ => capacity,
        };
        if fault != Fault::ForgetsTheBoundary {
            tenant.kept.boundary += ((now - boundary) / period + 1) * period;
        }
        tenant.usable.saturating_sub(left)
    }

    fn leave(tenant: &mut Tenant<Rounds>, runnable: bool, now: u64) {
        let fault = tenant.kept.fault;
        if fault == Fault::CountsFromTheWake && runnable && !tenant.runnable {
            tenant.kept.boundary = now + u64::from(tenant.terms.period);
        }
        if polls(tenant) && !runnable && fault != Fault::KeepsWhenBlocked {
            tenant.usable = 0;
        }
    }

    /// Right whatever the refills do: counted from the admission.
    fn comes_next(tenant: &Tenant<Rounds>, now: u64, _: bool) -> Option<u64> {
        let Rounds { fault, admitted, .. } = tenant.kept;
        let (period, passed) = (u64::from(tenant.terms.period), now - admitted);
        let rounds = match fault {
            Fault::TimerStandsStill => passed.div_ceil(period),
            _ => passed / period + 1,
        };
        Some(admitted + rounds * period)
    }
}

fn polls(tenant: &Tenant<Rounds>) -> bool {
    tenant.terms.kind == 2
}

/// What the card with the fault writes.
fn output(run: &Run, fault: Fault) -> String {
    let keep =
        |terms: &Description, now| Rounds { fault, admitted: now, boundary: now + u64::from(terms.period) };
    plain_card::output(run, keep)
}

/// What `outside` finds in each run of these kinds alone.
fn findings(fault: Fault) -> Vec<Result<(), String>> {
    let check = |run: &Run| check_run(run, &output(run, fault), &mut Counts::default());
    runs().iter().map(check).collect()
}

fn runs() -> Vec<Run> {
    let of_these_kinds = (0..800).filter(|place| place / 10 % 4 == 3);
    of_these_kinds.map(|place| outside::run_at(1, place)).collect()
}

#[test]
fn a_right_card_passes() {
    assert!(findings(Fault::None).iter().all(Result::is_ok));
    for run in runs() {
        assert_eq!(output(&run, Fault::None), run.output());
    }
}

/// A timer that stands still is seen by its own sentence alone, the other faults by others. What is
/// told of the ticks that come back is not looked at.
#[test]
fn every_fault_is_seen() {
    for fault in FAULTS {
        let findings = findings(fault);
        let all = findings.iter().filter_map(|finding| finding.clone().err());
        let found: Vec<String> = all.filter(|finding| !brought::is_of_a_total(finding)).collect();
        assert!(3 * found.len() > findings.len(), "{fault:?}: {} of {}", found.len(), findings.len());
        let still = |finding: &String| finding.contains("is not later than its line");
        assert!(
            found.iter().all(|finding| still(finding) == (fault == Fault::TimerStandsStill)),
            "{fault:?}"
        );
    }
}
