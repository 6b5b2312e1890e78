//! What is true of the aligned form without any search, and of both forms together.

use crate::compare_sizing::Asked;
use crate::query_cases::{bare, take_apart};
use crate::shares::{self, Form, Tasks};
use crate::sizing::Answer;

/// Tasks whose periods divide each other, and P them all: P times the sum of cost by period,
/// rounded up. All the periods divide the last one, so the sum is counted in its parts.
pub fn exact_least(tasks: Tasks, p: u64) -> Option<u64> {
    let last = *tasks.periods.last()?;
    let work: u64 = tasks.periods.iter().zip(tasks.costs).map(|(period, cost)| last / period * cost).sum();
    let budget = (p * work).div_ceil(last);
    (budget <= p).then_some(budget)
}

/// No more than this many steps of the plain reading for what is asked beside a query.
const MOST_STEPS: u64 = 60_000;

/// Whether a search over so many budgets is worth its time.
pub fn is_quick(tasks: Tasks, budgets: u64) -> bool {
    let longest = tasks.periods.last().copied().unwrap_or(0);
    longest * budgets * tasks.periods.len() as u64 <= MOST_STEPS
}

/// The aligned least budget is the exact one, it is not above the ordinary one, and there is
/// none in both forms or in neither.
pub fn check(tasks: Tasks, p: u64) -> Result<(), String> {
    let [ordinary, aligned] = [Form::Ordinary, Form::Aligned].map(|form| shares::least(form, tasks, p));
    let told = || format!("{tasks:?}, P {p}: ordinary {ordinary:?}, aligned {aligned:?}");
    match (&ordinary, &aligned) {
        (Ok(ordinary), Ok(aligned)) if aligned > ordinary => return Err(told()),
        (Ok(_), Ok(_)) => (),
        (Err(ordinary), Err(aligned)) if ordinary.number == 34 && aligned.number == 34 => (),
        _ => return Err(told()),
    }
    if aligned.ok() != exact_least(tasks, p) {
        return Err(format!("{}, exact {:?}", told(), exact_least(tasks, p)));
    }
    Ok(())
}

/// The facts on the lists of all queries for an aligned least budget: how many these are.
pub fn check_all(asked: &[Asked]) -> Result<u64, String> {
    let mut count = 0;
    for Asked { line, answer } in asked {
        let searched = match answer {
            Some(Answer::Numbers(_)) => true,
            Some(Answer::No(refusal)) => refusal.number == 34,
            _ => false,
        };
        let parts = take_apart(bare(line));
        if !searched || parts.form != Form::Aligned || parts.word != "least" {
            continue;
        }
        let (lead, list) = parts.lead_and_list();
        if is_quick(list.lend(), lead[0]) {
            check(list.lend(), lead[0])?;
            count += 1;
        }
    }
    Ok(count)
}

#[cfg(test)]
mod tests {
    use super::*;
    use crate::random::Random;

    /// Every list whose periods divide each other and are no longer than this.
    fn lists(longest: u64, most: usize) -> Vec<Vec<(u64, u64)>> {
        let mut all: Vec<Vec<(u64, u64)>> = vec![Vec::new()];
        let mut from = 0;
        for _ in 0..most {
            let to = all.len();
            let longer: Vec<_> = all[from..to].iter().flat_map(|list| with_one_more(list, longest)).collect();
            all.extend(longer);
            from = to;
        }
        all.split_off(1)
    }

    fn with_one_more(list: &[(u64, u64)], longest: u64) -> Vec<Vec<(u64, u64)>> {
        let last = list.last().map_or(1, |task| task.0);
        let periods = (last..=longest).filter(|period| period % last == 0);
        let tasks = periods.flat_map(|period| (1..=period).map(move |cost| (period, cost)));
        tasks.map(|task| [list, &[task]].concat()).collect()
    }

    /// The lists with every P that divides them: how many of both forms were looked at.
    fn check_list(list: &[(u64, u64)]) -> u64 {
        let (periods, costs): (Vec<u64>, Vec<u64>) = list.iter().copied().unzip();
        let tasks = Tasks { periods: &periods, costs: &costs };
        let all = (1..=periods[0]).filter(|p| periods[0].is_multiple_of(*p));
        all.map(|p| check(tasks, p).unwrap()).count() as u64
    }

    #[test]
    fn hold_on_all_short_lists() {
        let all = [lists(24, 2), lists(12, 3), lists(6, 4)].concat();
        let looked: u64 = all.iter().map(|list| check_list(list)).sum();
        println!("the facts of the aligned form hold on {} lists, {looked} with P", all.len());
        assert!(all.len() > 10_000 && looked > all.len() as u64);
    }

    /// As long as a list can be, with periods up to 240.
    #[test]
    fn hold_on_random_lists() {
        let mut random = Random::new(13);
        let mut looked = 0;
        for _ in 0..2000 {
            let mut period = random.between(1, 30);
            let share = random.between(1, 20);
            let task = |_| {
                period *= *random.pick(if period > 80 { &[1][..] } else { &[1, 1, 2, 3] });
                (period, random.between(1, (period / share).max(1)))
            };
            let list: Vec<(u64, u64)> = (0..16).map(task).collect();
            looked += check_list(&list[..1 + looked as usize % 16]);
        }
        println!("the facts of the aligned form hold on 2000 random lists, {looked} with P");
    }

    /// One that is not aligned shows that the facts can fail.
    #[test]
    fn do_not_hold_of_lists_that_are_not_aligned() {
        assert!(check(Tasks { periods: &[2, 3], costs: &[1, 1] }, 1).is_err());
        assert!(check(Tasks { periods: &[4, 8], costs: &[1, 1] }, 3).is_err());
    }
}
