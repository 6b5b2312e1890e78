//! How many steps the plain reading of the best interface takes, counted without
//! taking them: one for each length tried and one for each term of a demand. A resource
//! period that the form does not take has none.

use super::bad_lists::List;
use super::twin::{demand_table, gaps_of, is_taken, waited, WIDTH};

/// What the steps of a list are counted from.
struct Counted<'a> {
    gaps: u32,
    periods: &'a [u32],
    demands: Vec<u16>,
}

impl Counted<'_> {
    /// The first t from `from` to the period of task i with supply at least demand.
    fn first_length(&self, i: usize, p: u32, b: u32, from: u32) -> Option<u32> {
        let mut t = from;
        while t <= self.periods[i] {
            let d = u32::from(self.demands[t as usize * WIDTH + i]);
            let u = d + waited(self.gaps, p, b, d);
            if u <= t {
                return Some(t);
            }
            t = u;
        }
        None
    }

    /// The steps of one check, and whether the tasks pass.
    fn check_work(&self, p: u32, b: u32) -> (u64, bool) {
        let mut work = 0;
        let mut t = 1;
        for (i, &period) in self.periods.iter().enumerate() {
            let each = i as u64 + 2;
            let Some(met) = self.first_length(i, p, b, t) else {
                return (work + u64::from(period) * each, false);
            };
            work += u64::from(met) * each;
            t = met;
        }
        (work, true)
    }

    /// The steps of the least budget for p.
    fn least_work(&self, p: u32) -> u64 {
        let mut work = 0;
        for b in 1..=p {
            let (steps, pass) = self.check_work(p, b);
            work += steps;
            if pass {
                break;
            }
        }
        work
    }
}

pub fn plain_work(list: &List, p_max: u32) -> u64 {
    let counted = Counted {
        gaps: gaps_of(list.form),
        periods: &list.periods,
        demands: demand_table(&list.periods, &list.costs),
    };
    let taken = |&p: &u32| is_taken(counted.gaps, p, counted.periods);
    (1..=p_max)
        .filter(taken)
        .map(|p| counted.least_work(p))
        .sum()
}

#[cfg(test)]
mod tests {
    use super::*;
    use crate::sizing::bad_lists;
    use second::random::Random;
    use second::shares::{self, Form};

    /// The paper's loops with a counter in them.
    fn counted(list: &List, p: u32, b: u32, work: &mut u64) -> bool {
        let supply = |t: u32| shares::supply(list.form, p.into(), b.into(), t.into()).unwrap();
        for i in 0..list.periods.len() {
            let mut met = false;
            for t in 1..=list.periods[i] {
                *work += 1;
                let mut demand = 0;
                for k in 0..=i {
                    *work += 1;
                    demand += t.div_ceil(list.periods[k]) * list.costs[k];
                }
                if supply(t) >= u64::from(demand) {
                    met = true;
                    break;
                }
            }
            if !met {
                return false;
            }
        }
        true
    }

    fn the_count_is_that_of_the_loops(form: Form) {
        let mut random = Random::new(3);
        for round in 0..40 {
            let list = bad_lists::from_family(&mut random, form);
            let wide = list.wide();
            let p_max = if round % 10 == 0 { 30 } else { 9 };
            let mut work = 0;
            let multiples = |p: u32| wide.lend().are_multiples_of(p.into());
            let taken = |&p: &u32| form == Form::Ordinary || multiples(p);
            for p in (1..=p_max).filter(taken) {
                let _ = (1..=p).find(|&b| counted(&list, p, b, &mut work));
            }
            assert_eq!(plain_work(&list, p_max), work, "{list:?}");
        }
    }

    #[test]
    fn the_ordinary_count_is_that_of_the_loops() {
        the_count_is_that_of_the_loops(Form::Ordinary);
    }

    #[test]
    fn the_aligned_count_is_that_of_the_loops() {
        the_count_is_that_of_the_loops(Form::Aligned);
    }
}
