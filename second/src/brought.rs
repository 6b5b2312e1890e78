//! What the total of a line must be, seen from outside: the ticks that come back to each stay, as
//! the ticks held say it. Those of a stay that has folded may come back later than that, and not
//! earlier; when the period of its latest slice is over, all of them have.

use crate::outside::Told;
use crate::stays::{Counts, Stay};
use std::collections::BTreeMap;

/// The ticks of all stays that have folded which are late.
#[derive(Clone, Default)]
pub struct Late {
    ticks: u64,
    /// One of several such stays has ended, and its own part of them is not known.
    unsure: bool,
}

impl Late {
    /// The line of a call, the one before it being at `since`. The ticks up to the call are held,
    /// and what it changes is not yet seen.
    pub fn check(
        &mut self,
        stays: &BTreeMap<u32, Stay>,
        since: u64,
        told: &Told,
        counts: &mut Counts,
    ) -> Result<(), String> {
        let Told { time: now, total, .. } = *told;
        // The least that can have come back, the most, and whether nothing is late behind it.
        let (mut least, mut most, mut all) = (0, self.ticks, true);
        for stay in stays.values() {
            let brought = stay.brought(since, now);
            most += brought;
            least += if stay.folded { 0 } else { brought };
            all &= !stay.may_be_late(now);
            stay.of_kind(counts).brought += u64::from(brought > 0);
        }
        least = if all && !self.unsure { most } else { least };
        if total < least || total > most {
            return Err(format!("{total} ticks are told to come back at {now}, meant are {least} to {most}"));
        }
        counts.totals += u64::from(least == most && total > 0);
        counts.late += u64::from(least == most && self.ticks > 0);
        *self = if all { Late::default() } else { Late { ticks: most - total, ..*self } };
        Ok(())
    }

    pub fn has_ticks(&self) -> bool {
        self.ticks > 0
    }

    /// How many of one stay's ticks are late, at the least and at the most: of several such stays
    /// the lines do not say whose they are.
    pub fn of(&self, stay: &Stay, stays: &BTreeMap<u32, Stay>, now: u64) -> (u64, u64) {
        let several = stays.values().filter(|stay| stay.may_be_late(now)).count() > 1;
        match stay.may_be_late(now) {
            true if several || self.unsure => (0, self.ticks),
            true => (self.ticks, self.ticks),
            false => (0, 0),
        }
    }

    /// A stay ends, and with it what of its ticks is late. The others are on the card still.
    pub fn end(&mut self, stay: &Stay, others: &BTreeMap<u32, Stay>, now: u64) {
        if !others.values().any(|stay| stay.may_be_late(now)) {
            *self = Late::default();
        } else if stay.may_be_late(now) {
            self.unsure = true;
        }
    }
}

/// Whether what `outside` says is about a total.
#[cfg(test)]
pub fn is_of_a_total(fault: &str) -> bool {
    fault.contains("ticks are told to come back")
}

#[cfg(test)]
mod tests {
    use super::*;
    use crate::turns::Description;

    /// Sporadic, admitted at 0, with T 100 and C 60, and that many uses of two ticks, every fifth
    /// tick from `start` on.
    fn stay(identifier: u32, start: u64, uses: u64) -> Stay {
        let terms = Description { identifier, period: 100, capacity: 60, priority: 0, kind: 0 };
        let mut stay = Stay::new(&terms, 0).unwrap();
        for slice in 0..uses {
            let from = start + 5 * slice;
            stay.hold(from, from + 2, &mut Counts::default());
        }
        stay
    }

    fn check(late: &mut Late, stays: &BTreeMap<u32, Stay>, times: (u64, u64), total: u64) -> bool {
        let (since, time) = times;
        let told = Told { time, run: None, usable: 0, timer: None, total };
        late.check(stays, since, &told, &mut Counts::default()).is_ok()
    }

    /// Which totals pass at a moment, behind those that were told before.
    fn passing(stays: &BTreeMap<u32, Stay>, told: &[(u64, u64)], now: u64) -> Vec<u64> {
        let passes = |total: &u64| {
            let (mut late, mut since) = (Late::default(), 60);
            for &(time, total) in told.iter().chain([&(now, *total)]) {
                if !check(&mut late, stays, (since, time), total) {
                    return false;
                }
                since = time;
            }
            true
        };
        (0..60).filter(passes).collect()
    }

    /// Slices from 0 to 2, from 5 to 7 and so on.
    #[test]
    fn without_a_fold_the_total_is_sure() {
        let stays = BTreeMap::from([(1, stay(1, 0, 8))]);
        assert_eq!(passing(&stays, &[], 99), [0]);
        assert_eq!(passing(&stays, &[], 100), [2]);
        assert_eq!(passing(&stays, &[(100, 2)], 104), [0]);
        assert_eq!(passing(&stays, &[(100, 2)], 140), [14]);
        assert_eq!(passing(&stays, &[(100, 0)], 140), []);
    }

    /// The tenth slice begins at 45: the last entry has the ticks of three and comes back at 145.
    #[test]
    fn ticks_of_a_fold_come_back_late_and_then_all_of_them() {
        let stays = BTreeMap::from([(1, stay(1, 0, 10))]);
        assert_eq!(passing(&stays, &[], 130), (0..=14).collect::<Vec<_>>());
        assert_eq!(passing(&stays, &[(130, 14)], 144), [0, 1, 2, 3, 4]);
        assert_eq!(passing(&stays, &[(130, 14), (144, 0)], 145), [6]);
        assert_eq!(passing(&stays, &[(130, 14), (144, 0), (145, 4)], 146), []);
        assert_eq!(passing(&stays, &[(145, 20)], 146), [0]);
    }

    /// With the one that leaves its late ticks go; how many those are is not seen.
    #[test]
    fn what_is_late_goes_with_its_stay() {
        let both = |other: u64| BTreeMap::from([(1, stay(1, 0, 10)), (2, stay(2, 2, other))]);
        for (other, meant) in [(1, vec![0]), (10, (0..=2).collect())] {
            let (mut late, mut stays) = (Late::default(), both(other));
            let sure = if other == 1 { 2 } else { 14 };
            assert!(check(&mut late, &stays, (60, 144), 14 + sure));
            let of = |late: &Late, place| late.of(&stays[&place], &stays, 144);
            assert_eq!(
                [1, 2].map(|place| of(&late, place)),
                if other == 1 { [(4, 4), (0, 0)] } else { [(0, 8); 2] }
            );
            let gone = stays.remove(&1).unwrap();
            late.end(&gone, &stays, 144);
            let passes = |total| check(&mut late.clone(), &stays, (144, 144), total);
            let passing: Vec<u64> = (0..3).filter(|&total| passes(total)).collect();
            assert_eq!(passing, meant);
        }
    }
}
