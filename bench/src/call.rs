//! What a scheduler is asked and what it answers: shared by both, by the generator and by the front.

#[derive(Clone, Copy)]
pub struct Description {
    pub id: u32,
    pub period: u32,
    pub capacity: u32,
    pub priority: u8,
    /// The byte that was asked for.
    pub kind: u8,
}

#[derive(Clone, Copy)]
pub enum Change {
    Admit(Description),
    Wake(u32),
    Block(u32),
    Remove(u32),
    Tick,
}

#[derive(Clone, Copy)]
pub struct Refusal {
    pub number: u8,
    pub detail: u64,
}

#[derive(Clone, Copy)]
pub struct Report {
    pub time: u64,
    pub run: Option<u32>,
    pub usable: u32,
    pub timer: Option<u64>,
    /// The ticks that came back to all together.
    pub brought: u32,
}

pub type Reply = Result<Report, Refusal>;

pub fn refuse<T>(number: u8) -> Result<T, Refusal> {
    Err(Refusal { number, detail: 0 })
}

pub trait Scheduler {
    fn turn(&mut self, now: u64, change: Change) -> Reply;

    /// The pending ticks of all; the ticks that all held, removed ones too, and the idle ones.
    fn totals(&self) -> (u64, u64);

    #[cfg(test)]
    fn usage(&self) -> crate::usage::Usage;
}

pub const LARGEST_TIME: u64 = 1_000_000_000_000;
pub const LARGEST_IDENTIFIER: u32 = 0xff_ffff;
pub const LARGEST_PERIOD: u32 = 1_000_000;
pub const SPORADIC: u8 = 0;
pub const POLLING: u8 = 2;
pub const MOST_VCPUS: usize = 32;
pub const MOST_PENDING: usize = 8;

#[cfg(test)]
mod tests {
    use super::*;
    use crate::{plain, twin};

    const MOST: u32 = u32::MAX;

    /// Terms, and the row that they meet by themselves.
    const TERMS: [(u32, u32, u8); 12] = [
        (0, 0, 5),
        (0, 1, 5),
        (LARGEST_PERIOD + 1, 0, 5),
        (LARGEST_PERIOD + 1, LARGEST_PERIOD + 2, 5),
        (MOST, MOST, 5),
        (1, 0, 11),
        (LARGEST_PERIOD, 0, 11),
        (1, 2, 12),
        (LARGEST_PERIOD, LARGEST_PERIOD + 1, 12),
        (LARGEST_PERIOD, MOST, 12),
        (1, 1, 0),
        (LARGEST_PERIOD, LARGEST_PERIOD, 0),
    ];

    fn admit(core: &mut impl Scheduler, id: u32, terms: (u32, u32), kind: u8) -> (u8, u64) {
        let (period, capacity) = terms;
        let new = Description {
            id,
            period,
            capacity,
            priority: 1,
            kind,
        };
        number(core.turn(0, Change::Admit(new)))
    }

    fn number(reply: Reply) -> (u8, u64) {
        reply.map_or_else(|refusal| (refusal.number, refusal.detail), |_| (0, 0))
    }

    /// On a card with 31 VCPUs and then on a full one. `open` is the row where no other applies.
    fn try_terms(core: &mut impl Scheduler, new: u32, open: u8) {
        for (period, capacity, row) in TERMS {
            let terms = (period, capacity);
            let or = |other: u8| (if row == 0 { other } else { row }, 0);
            assert_eq!(admit(core, 1 << 24, terms, 3), (4, 0));
            assert_eq!(admit(core, 0, terms, 3), or(10));
            assert_eq!(admit(core, 0, terms, 0), or(6));
            assert_eq!(admit(core, new, terms, 255), or(10));
            if open > 0 || row > 0 {
                assert_eq!(admit(core, new, terms, 0), or(open));
            }
        }
    }

    fn try_admits(mut core: impl Scheduler) {
        for id in 0..31 {
            assert_eq!(admit(&mut core, id, (10, 3), 0), (0, 0));
        }
        try_terms(&mut core, 31, 0);
        assert_eq!(admit(&mut core, 31, (1, 1), 2), (0, 0));
        try_terms(&mut core, 32, 8);
    }

    /// The order 4, 5, 11, 12, 10, 6, 8.
    #[test]
    fn an_admit_is_refused_by_the_first_row_that_applies() {
        try_admits(plain::Core::empty());
        try_admits(twin::Core::empty());
    }

    /// One that held two ticks leaves a full card: 9 stands behind 6 and before 8, which counts it.
    fn try_leaving(mut core: impl Scheduler) {
        for id in 0..32 {
            assert_eq!(admit(&mut core, id, (10, 3), 0), (0, 0));
        }
        let new = |id| {
            Change::Admit(Description {
                id,
                period: 10,
                capacity: 3,
                priority: 1,
                kind: 0,
            })
        };
        let calls = [
            (0, Change::Wake(5), (0, 0)),
            (2, Change::Remove(5), (0, 0)),
            (2, new(5), (9, 10)),
            (2, new(6), (6, 0)),
            (2, Change::Remove(5), (7, 0)),
            (9, new(5 | 1 << 16), (8, 0)),
            (12, Change::Block(5), (7, 0)),
            (9, new(5), (9, 10)),
            (10, new(5 | 1 << 16), (0, 0)),
            (10, new(5), (8, 0)),
            (10, Change::Remove(7), (0, 0)),
            (10, new(5), (0, 0)),
        ];
        for (now, change, meant) in calls {
            assert_eq!(number(core.turn(now, change)), meant, "at {now}");
        }
    }

    #[test]
    fn one_that_left_is_remembered_until_its_time() {
        try_leaving(plain::Core::empty());
        try_leaving(twin::Core::empty());
    }
}
