//! Who held the core, stretch by stretch from one accepted call to the next, and the ticks that
//! request 6 asks for, counted from that: nothing is added up before it is asked for.

#[derive(Clone, Copy, Debug)]
struct Stretch {
    /// Nobody in idle.
    holder: Option<u32>,
    from: u64,
    to: u64,
}

#[derive(Clone, Debug, Default)]
pub struct History {
    stretches: Vec<Stretch>,
}

impl History {
    /// Between two calls at one moment there is nothing.
    pub fn add(&mut self, holder: Option<u32>, from: u64, to: u64) {
        if from < to {
            self.stretches.push(Stretch { holder, from, to });
        }
    }

    fn ticks(&self, counts: impl Fn(&Stretch) -> bool) -> u64 {
        self.stretches.iter().filter(|stretch| counts(stretch)).map(|stretch| stretch.to - stretch.from).sum()
    }

    pub fn idle(&self) -> u64 {
        self.ticks(|stretch| stretch.holder.is_none())
    }

    /// Of a stay that lasts and began at `since`: an earlier stay of the identifier ended at or
    /// before that.
    pub fn held(&self, identifier: u32, since: u64) -> u64 {
        self.ticks(|stretch| stretch.holder == Some(identifier) && stretch.from >= since)
    }

    /// Of all stays that have ended. `since` says when the stay of an identifier began that lasts.
    pub fn removed(&self, since: impl Fn(u32) -> Option<u64>) -> u64 {
        let has_ended = |stretch: &Stretch, holder| since(holder).is_none_or(|began| stretch.from < began);
        self.ticks(|stretch| stretch.holder.is_some_and(|holder| has_ended(stretch, holder)))
    }
}

#[cfg(test)]
mod tests {
    use super::*;

    /// Idle to 5, then 1 to 8, 2 to 9, idle to 20, 1 again to 24, which came back at 10.
    #[test]
    fn every_stretch_belongs_to_one_count() {
        let mut history = History::default();
        let stretches = [(None, 0, 5), (Some(1), 5, 8), (Some(1), 8, 8), (Some(2), 8, 9), (None, 9, 20)];
        for (holder, from, to) in stretches.into_iter().chain([(Some(1), 20, 24)]) {
            history.add(holder, from, to);
        }
        assert_eq!(
            (history.idle(), history.held(1, 0), history.held(1, 10), history.held(2, 0)),
            (16, 7, 4, 1)
        );
        assert_eq!(history.removed(|_| None), 8);
        assert_eq!(history.removed(|identifier| (identifier == 1).then_some(10)), 4);
        assert_eq!(history.removed(|_| Some(0)), 0);
    }
}
