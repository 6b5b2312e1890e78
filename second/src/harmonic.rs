//! Random lists for the aligned form: periods that divide each other, and nearly so, and what
//! is asked of them.

use crate::aligned_facts::exact_least;
use crate::random::Random;
use crate::shares::{List, LARGEST_PERIOD, MOST_TASKS};

pub struct Lists<'a> {
    pub random: &'a mut Random,
}

type TaskList = Vec<(u64, u64)>;

impl Lists<'_> {
    /// Each period is the one before or several times that, as long as it is no longer than this.
    fn periods(&mut self, first: u64, n: u64, longest: u64) -> Vec<u64> {
        let mut periods = vec![first];
        while (periods.len() as u64) < n {
            let last = periods[periods.len() - 1];
            let factor = *self.random.pick(&[1, 2, 2, 3, 5]);
            periods.push(if last * factor <= longest { last * factor } else { last });
        }
        periods
    }

    /// Costs of about one share each, from next to nothing to too much.
    fn with_costs(&mut self, periods: Vec<u64>) -> TaskList {
        let share = self.random.between(1, 2 * periods.len() as u64);
        let cost = |period: u64| (period, self.random.between(1, (period / share).max(1)));
        periods.into_iter().map(cost).collect()
    }

    /// Sixteen once in six: long periods then, so that a budget may be left for them.
    pub fn small(&mut self) -> TaskList {
        let (first, n, longest) = match self.random.below(6) {
            0 => (self.random.between(10, 24), MOST_TASKS as u64, 60),
            1 => (self.random.between(2, 12), 2, 40),
            2 => (self.random.between(1, 40), 1, 40),
            _ => (self.random.between(1, 10), self.random.between(2, 6), 60),
        };
        let longest = if self.random.once_in(8) { first } else { longest };
        let periods = self.periods(first, n, longest);
        self.with_costs(periods)
    }

    pub fn at_limits(&mut self) -> TaskList {
        let first = *self.random.pick(&[1, 2, 3, 500, 1000, 2000]);
        let n = *self.random.pick(&[1, 1, 2, 16]);
        let periods = self.periods(first, n, LARGEST_PERIOD);
        let mut cost = |p: u64| *self.random.pick(&[1, p, (p / 2).max(1), (p / 40).max(1)]);
        periods.into_iter().map(|p| (p, cost(p))).collect()
    }

    /// Periods of which exactly one does not divide the next: that one is half as long again.
    pub fn apart(&mut self) -> TaskList {
        let n = *self.random.pick(&[2, 3, 3, 4, 5, 6, 16]);
        let place = match self.random.below(3) {
            0 => 1,
            1 => n - 1,
            _ => self.random.between(1, n - 1),
        };
        let first = 2 * self.random.between(1, 8);
        let mut periods = self.periods(first, place, 40);
        let half = periods[periods.len() - 1] / 2;
        periods.extend(self.periods(3 * half, n - place, 120));
        self.with_costs(periods)
    }

    /// One that divides the first period: often 1, or that period itself.
    pub fn divisor(&mut self, tasks: &[(u64, u64)]) -> u64 {
        let first = tasks[0].0;
        let all: Vec<u64> = (1..=first).filter(|&p| first.is_multiple_of(p)).collect();
        match self.random.below(3) {
            0 => first,
            _ => *self.random.pick(&all),
        }
    }

    /// One that mostly does not: another period, several first ones, or any.
    pub fn other(&mut self, tasks: &[(u64, u64)]) -> u64 {
        let first = tasks[0].0;
        let behind = self.random.pick(tasks).0;
        let any = self.random.between(1, 20);
        *self.random.pick(&[behind, first * 2, first + 1, any]).min(&LARGEST_PERIOD)
    }

    /// The least one, one beside it, or any.
    pub fn budget(&mut self, tasks: &[(u64, u64)], p: u64) -> u64 {
        let numbers: Vec<u64> = tasks.iter().flat_map(|&(period, cost)| [period, cost]).collect();
        let least = exact_least(List::of(&numbers).lend(), p).unwrap_or(p);
        let any = self.random.between(1, p);
        (*self.random.pick(&[least, least + 1, least - 1, any])).clamp(1, p)
    }

    /// Around the starts and the gaps' ends.
    pub fn length(&mut self, p: u64, b: u64) -> u64 {
        let gap = p - b;
        let start = p * *self.random.pick(&[0, 0, 1, 2, 3, 7]);
        let behind = *self.random.pick(&[0, 1, p - 1, gap, gap + 1, gap.saturating_sub(1), p / 2]);
        start + behind
    }
}
