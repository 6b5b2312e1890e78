//! One stay as it is seen from outside: the ticks it held, what it may hold by its kind, alone
//! and together with other stays of its identifier, how long it is remembered, and the usable
//! ticks and those that come back, which follow from the ticks held.

use crate::stay_cases::KINDS;
use crate::turns::{Description, MOST_PENDING};

/// An unbroken run of ticks; a sporadic one's is cut one period behind its start.
#[derive(Clone, Copy, PartialEq, Eq, Debug)]
struct Slice {
    start: u64,
    end: u64,
}

impl Slice {
    fn within(&self, from: u64, to: u64) -> u64 {
        self.end.min(to).saturating_sub(self.start.max(from))
    }
}

/// What was looked at.
#[derive(Default)]
pub struct Counts {
    /// At the kind's byte.
    pub kinds: [OfKind; 3],
    /// Lines at which no more urgent one could have run.
    pub choices: u64,
    pub timers: u64,
    /// Totals that are not 0 and follow from the ticks held, and those of them with ticks that a
    /// fold had made late.
    pub totals: u64,
    pub late: u64,
    /// Bad records, and admits whose terms are refused.
    pub stops: u64,
    pub terms: u64,
    /// Admits of a remembered identifier, admits of one that was on the card before, and those
    /// of them at its very time; admits where too many are on the card or remembered.
    pub remembered: u64,
    pub back: u64,
    pub in_time: u64,
    pub full: u64,
    pub ticks: u64,
    pub folds: u64,
    pub cuts: u64,
}

/// What was looked at of one kind.
#[derive(Default)]
pub struct OfKind {
    pub stays: u64,
    pub windows: u64,
    /// Windows with more than C, without which the bound of 2C would say nothing.
    pub above: u64,
    /// Windows with ticks of two stays, and those over a stay of other terms between them.
    pub across: u64,
    pub over: u64,
    /// From an admission or a boundary to the next boundary.
    pub rounds: u64,
    /// Lines that told usable ticks.
    pub usable: u64,
    /// Lines at which ticks came back to it.
    pub brought: u64,
}

#[derive(Clone, Copy, PartialEq)]
enum Kind {
    Sporadic,
    Deferrable,
    /// Whether the latest boundary found it runnable and no call since has left it otherwise.
    Polling {
        served: bool,
    },
}

impl Kind {
    fn byte(&self) -> usize {
        match self {
            Kind::Sporadic => 0,
            Kind::Deferrable => 1,
            Kind::Polling { .. } => 2,
        }
    }
}

pub struct Stay {
    pub identifier: u32,
    pub period: u64,
    pub capacity: u64,
    priority: u8,
    admitted: u64,
    runnable: bool,
    kind: Kind,
    slices: Vec<Slice>,
    /// From its first fold on the usable ticks do not follow from the ticks held alone.
    pub folded: bool,
}

impl Stay {
    pub fn new(description: &Description, admitted: u64) -> Result<Stay, String> {
        let kind = match description.kind {
            0 => Kind::Sporadic,
            1 => Kind::Deferrable,
            2 => Kind::Polling { served: false },
            other => return Err(format!("{} is admitted with the kind {other}", description.identifier)),
        };
        Ok(Stay {
            identifier: description.identifier,
            period: u64::from(description.period),
            capacity: u64::from(description.capacity),
            priority: description.priority,
            admitted,
            runnable: false,
            kind,
            slices: Vec::new(),
            folded: false,
        })
    }

    pub fn is_sporadic(&self) -> bool {
        self.kind == Kind::Sporadic
    }

    pub fn kind(&self) -> &'static str {
        KINDS[self.kind.byte()]
    }

    /// What is counted of its kind.
    pub fn of_kind<'a>(&self, counts: &'a mut Counts) -> &'a mut OfKind {
        &mut counts.kinds[self.kind.byte()]
    }

    /// Stays of one identifier with the same terms are bound together.
    fn has_terms_of(&self, other: &Stay) -> bool {
        let terms = |stay: &Stay| (stay.period, stay.capacity, stay.kind.byte());
        terms(self) == terms(other)
    }

    /// Up to when it is remembered, removed at a moment: its next boundary, or where the period
    /// of its latest slice ends, folded or not, if that is still to come.
    pub fn remembered_until(&self, removed: u64) -> Option<u64> {
        if !self.is_sporadic() {
            return Some(self.start_of(self.round(removed) + 1));
        }
        let latest = self.slices.last()?.start + self.period;
        (latest > removed).then_some(latest)
    }

    fn round(&self, moment: u64) -> u64 {
        (moment - self.admitted) / self.period
    }

    fn start_of(&self, round: u64) -> u64 {
        self.admitted + round * self.period
    }

    /// A call at `now`, the one before it at `since`: it may pass boundaries.
    pub fn pass(&mut self, since: u64, now: u64) {
        let passes = self.round(since) < self.round(now);
        if let Kind::Polling { served } = &mut self.kind {
            *served = if passes { self.runnable } else { *served };
        }
    }

    /// What the call leaves it.
    pub fn leave(&mut self, runnable: bool) {
        self.runnable = runnable;
        if let Kind::Polling { served } = &mut self.kind {
            *served &= runnable;
        }
    }

    /// Smaller is more urgent.
    pub fn urgency(&self) -> (u8, u32) {
        (self.priority, self.identifier)
    }

    /// Whether it could run, as far as the ticks held say so.
    pub fn is_able(&self, moment: u64) -> bool {
        self.runnable && !self.folded && self.usable(moment) > 0
    }

    /// The stay holds the core from `start` to `end`.
    pub fn hold(&mut self, start: u64, end: u64, counts: &mut Counts) {
        counts.ticks += end - start;
        let mut from = start;
        while from < end {
            let to = self.room_of_last(from).min(end);
            if to > from {
                self.slices.last_mut().expect("it has room").end = to;
                from = to;
                continue;
            }
            from = self.begin(from, end, counts);
        }
    }

    /// A new slice from `from`, up to `end` or to where it is cut.
    fn begin(&mut self, from: u64, end: u64, counts: &mut Counts) -> u64 {
        let mut to = end;
        if self.is_sporadic() {
            counts.cuts += u64::from(self.slices.last().is_some_and(|slice| slice.end == from));
            let folds = self.pending(from).count() >= MOST_PENDING;
            counts.folds += u64::from(folds && !self.folded);
            self.folded |= folds;
            to = end.min(from + self.period);
        }
        self.slices.push(Slice { start: from, end: to });
        to
    }

    /// Up to where the last slice may grow, if its use goes on at `from`.
    fn room_of_last(&self, from: u64) -> u64 {
        match self.slices.last() {
            Some(slice) if slice.end != from => from,
            Some(slice) if self.is_sporadic() => slice.start + self.period,
            Some(_) => u64::MAX,
            None => from,
        }
    }

    fn pending(&self, moment: u64) -> impl Iterator<Item = &Slice> {
        self.slices.iter().filter(move |slice| slice.start + self.period > moment)
    }

    /// What a call at `now` brings it, the one before it at `since`: the ticks of the slices
    /// whose period ends meanwhile, or all that is spent if a boundary is passed. It holds its
    /// ticks up to `now` already, and what the call leaves it is not yet seen.
    pub fn brought(&self, since: u64, now: u64) -> u64 {
        let passes = self.round(since) < self.round(now);
        match self.kind {
            Kind::Sporadic => {
                let due = self.pending(since).filter(|slice| slice.start + self.period <= now);
                due.map(|slice| slice.end - slice.start).sum()
            }
            Kind::Polling { .. } if !self.runnable => 0,
            _ if passes => self.spent(self.round(since)).min(self.capacity),
            _ => 0,
        }
    }

    /// Of a round's ticks, where there are rounds.
    fn spent(&self, round: u64) -> u64 {
        match self.kind {
            Kind::Polling { served: false } => self.capacity,
            _ => self.held(self.start_of(round), self.start_of(round + 1)),
        }
    }

    /// The ticks of the slices whose period is not over.
    pub fn pending_ticks(&self, moment: u64) -> u64 {
        self.pending(moment).map(|slice| slice.end - slice.start).sum()
    }

    /// Ticks of a fold come back later than their slices say, but with the latest slice all are back.
    pub fn may_be_late(&self, moment: u64) -> bool {
        self.folded && self.pending(moment).next().is_some()
    }

    pub fn usable(&self, moment: u64) -> u64 {
        let spent = match self.kind {
            Kind::Sporadic => self.pending_ticks(moment),
            _ => self.spent(self.round(moment)),
        };
        self.capacity.saturating_sub(spent)
    }

    /// From its admission on.
    pub fn ticks(&self) -> u64 {
        self.held(self.admitted, u64::MAX)
    }

    fn held(&self, from: u64, to: u64) -> u64 {
        self.slices.iter().map(|slice| slice.within(from, to)).sum()
    }

    fn most(&self) -> u64 {
        match self.kind {
            Kind::Sporadic => self.capacity,
            _ => 2 * self.capacity,
        }
    }

    fn too_many(&self, held: u64, from: u64, to: u64, most: u64) -> Result<(), String> {
        if held > most {
            let who = self.identifier;
            return Err(format!("{who} holds {held} ticks from {from} to {to}, it may hold {most}"));
        }
        Ok(())
    }

    /// The windows that start with a slice of this stay or end with one, over all stays of its
    /// identifier: the fullest window of all is such a one.
    fn check_windows(&self, all: &[Stay], counts: &mut Counts) -> Result<(), String> {
        let starts = self.slices.iter().map(|slice| slice.start);
        let ends = self.slices.iter().map(|slice| slice.end.saturating_sub(self.period));
        for from in starts.chain(ends) {
            self.check_window(all, from, self.of_kind(counts))?;
        }
        Ok(())
    }

    fn check_window(&self, all: &[Stay], from: u64, counts: &mut OfKind) -> Result<(), String> {
        let to = from + self.period;
        let holds = |stay: &Stay| if self.has_terms_of(stay) { stay.held(from, to) } else { 0 };
        let held: Vec<u64> = all.iter().map(holds).collect();
        let (first, last) =
            (held.iter().position(|&ticks| ticks > 0), held.iter().rposition(|&ticks| ticks > 0));
        let (Some(first), Some(last)) = (first, last) else { return Ok(()) };
        let ticks = held.iter().sum();
        counts.windows += 1;
        counts.above += u64::from(ticks > self.capacity);
        counts.across += u64::from(first < last);
        counts.over += u64::from(all[first..last].iter().any(|stay| !self.has_terms_of(stay)));
        self.too_many(ticks, from, to, self.most())
    }

    /// Every round with a tick held in it. The ones within a slice are alike: one is enough.
    fn check_rounds(&self, counts: &mut OfKind) -> Result<(), String> {
        for slice in &self.slices {
            let (first, last) = (self.round(slice.start), self.round(slice.end - 1));
            let mut rounds = vec![first, last.min(first + 1), last];
            rounds.dedup();
            for round in rounds {
                counts.rounds += 1;
                let (from, to) = (self.start_of(round), self.start_of(round + 1));
                self.too_many(self.held(from, to), from, to, self.capacity)?;
            }
        }
        Ok(())
    }
}

/// All stays of one identifier, in their order.
pub fn check_all(stays: &[Stay], counts: &mut Counts) -> Result<(), String> {
    for stay in stays {
        stay.of_kind(counts).stays += 1;
        stay.check_windows(stays, counts)?;
        if !stay.is_sporadic() {
            stay.check_rounds(stay.of_kind(counts))?;
        }
    }
    Ok(())
}

#[cfg(test)]
mod tests {
    use super::*;

    fn stay(period: u32, capacity: u32, kind: u8) -> Stay {
        Stay::new(&Description { identifier: 1, period, capacity, priority: 0, kind }, 3).unwrap()
    }

    fn check(stay: &Stay, counts: &mut Counts) -> Result<(), String> {
        check_all(std::slice::from_ref(stay), counts)
    }

    #[test]
    fn slices_are_unbroken_and_cut() {
        let mut counts = Counts::default();
        let mut stay = stay(5, 5, 0);
        stay.hold(10, 12, &mut counts);
        stay.hold(12, 17, &mut counts);
        stay.hold(18, 19, &mut counts);
        let slices = [(10, 15), (15, 17), (18, 19)].map(|(start, end)| Slice { start, end });
        assert_eq!(stay.slices, slices);
        assert_eq!((counts.cuts, counts.ticks), (1, 8));
        assert_eq!(stay.usable(19), 2);
        assert_eq!(stay.usable(20), 4);
    }

    #[test]
    fn a_full_window_is_seen() {
        let mut stay = stay(10, 4, 0);
        let mut counts = Counts::default();
        stay.hold(3, 5, &mut counts);
        stay.hold(10, 12, &mut counts);
        assert!(check(&stay, &mut counts).is_ok());
        stay.hold(13, 15, &mut counts);
        assert!(check(&stay, &mut counts).is_ok());
        stay.hold(19, 20, &mut counts);
        assert!(check(&stay, &mut counts).is_err());
    }

    /// Boundaries at 13 and 23.
    #[test]
    fn a_full_round_is_seen_and_two_in_a_window_are_not_too_many() {
        for kind in [1, 2] {
            let mut counts = Counts::default();
            let mut within = stay(10, 4, kind);
            within.hold(9, 17, &mut counts);
            assert!(check(&within, &mut counts).is_ok());
            let OfKind { above, rounds, .. } = *within.of_kind(&mut counts);
            assert!(above > 0 && rounds > 0);
            within.hold(22, 23, &mut counts);
            let fault = check(&within, &mut counts).unwrap_err();
            assert!(fault.contains("5 ticks from 13 to 23"), "{fault}");
            let mut wholly = stay(10, 9, kind);
            wholly.hold(5, 40, &mut counts);
            assert!(check(&wholly, &mut counts).is_err());
        }
    }

    /// Four ticks from 4 on and four from 13 on: 13 to 17 is in one window with 7 and 8.
    #[test]
    fn stays_with_the_same_terms_are_bound_together() {
        let mut counts = Counts::default();
        let held = |period, capacity, kind, from| {
            let mut stay = stay(period, capacity, kind);
            stay.hold(from, from + 4, &mut Counts::default());
            stay
        };
        let between = || stay(1, 1, 0);
        let mut fault = |stays: [Stay; 3]| check_all(&stays, &mut counts).err();
        let told = fault([held(10, 4, 0, 4), between(), held(10, 4, 0, 13)]).unwrap();
        assert!(told.contains("5 ticks from 4 to 14, it may hold 4"), "{told}");
        assert_eq!(fault([held(10, 4, 0, 4), between(), held(10, 4, 0, 14)]), None);
        assert_eq!(fault([held(10, 4, 0, 4), between(), held(10, 5, 0, 13)]), None);
        assert_eq!(fault([held(10, 4, 0, 4), between(), held(9, 4, 0, 13)]), None);
        assert_eq!(fault([held(10, 4, 0, 4), between(), held(10, 4, 1, 13)]), None);
        assert_eq!(fault([held(10, 4, 1, 9), between(), held(10, 4, 1, 13)]), None);
        assert!(fault([held(10, 4, 1, 4), held(10, 4, 1, 13), held(10, 4, 1, 8)]).is_some());
        assert!(counts.kinds[0].across > 0 && counts.kinds[0].over > 0 && counts.kinds[1].across > 0);
    }

    /// Admitted at 3.
    #[test]
    fn a_stay_is_remembered_by_its_latest_slice_or_its_next_boundary() {
        let mut sporadic = stay(10, 4, 0);
        assert_eq!(sporadic.remembered_until(5), None);
        sporadic.hold(5, 6, &mut Counts::default());
        sporadic.hold(8, 10, &mut Counts::default());
        assert_eq!([10, 17, 18].map(|moment| sporadic.remembered_until(moment)), [Some(18), Some(18), None]);
        for kind in [1, 2] {
            let until = |moment| stay(10, 4, kind).remembered_until(moment);
            assert_eq!([3, 12, 13, 14].map(until), [Some(13), Some(13), Some(23), Some(23)]);
        }
    }

    #[test]
    fn usable_ticks_are_counted_from_the_latest_boundary() {
        let mut counts = Counts::default();
        let mut deferrable = stay(10, 4, 1);
        assert_eq!(deferrable.usable(3), 4);
        deferrable.hold(5, 7, &mut counts);
        assert_eq!([7, 12, 13, 40].map(|moment| deferrable.usable(moment)), [2, 2, 4, 4]);
    }

    #[test]
    fn a_polling_one_has_ticks_only_where_its_boundary_found_it_runnable() {
        let mut counts = Counts::default();
        let mut polling = stay(10, 4, 2);
        polling.leave(true);
        polling.pass(3, 12);
        assert_eq!(polling.usable(12), 0);
        polling.pass(12, 13);
        assert_eq!(polling.usable(13), 4);
        polling.hold(13, 14, &mut counts);
        assert_eq!(polling.usable(14), 3);
        polling.leave(false);
        polling.leave(true);
        assert_eq!(polling.usable(14), 0);
        polling.leave(false);
        polling.pass(14, 23);
        polling.leave(true);
        assert_eq!(polling.usable(23), 0);
    }
}
