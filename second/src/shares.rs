//! Shares: the section "Supply, demand, least share" and rows 30 to 36 with requests 2 and 13, read
//! plainly. The loops are the paper's own; nothing here is made fast.

use crate::refusal::{refuse, refuse_with, Refusal};

pub const MOST_TASKS: usize = 16;
pub const LARGEST_PERIOD: u64 = 2000;
pub const LONGEST: u64 = 2000;

#[derive(Clone, Copy, PartialEq, Eq, Debug)]
pub struct Interface {
    pub period: u64,
    pub budget: u64,
}

/// How a task's release lies to the resource's periods: anyhow, or always at the start of one.
#[derive(Clone, Copy, PartialEq, Eq, Debug)]
pub enum Form {
    Ordinary,
    Aligned,
}

/// The tasks, lent as two lists: periods and costs.
#[derive(Clone, Copy, Debug)]
pub struct Tasks<'a> {
    pub periods: &'a [u64],
    pub costs: &'a [u64],
}

/// Tasks that lie nowhere else.
pub struct List {
    periods: Vec<u64>,
    costs: Vec<u64>,
}

impl List {
    /// Of period, cost, period, cost and so on. The last period may have no cost.
    pub fn of(numbers: &[u64]) -> List {
        let every_other = |from: usize| numbers.iter().skip(from).step_by(2).copied().collect();
        List { periods: every_other(0), costs: every_other(1) }
    }

    pub fn lend(&self) -> Tasks<'_> {
        Tasks { periods: &self.periods, costs: &self.costs }
    }
}

impl Tasks<'_> {
    /// Rows 30, 31 and 32; 31 on all tasks before 32 on any. The detail of 31 and 32 is the
    /// first such task's place, counted from 1.
    fn validate(&self) -> Result<(), Refusal> {
        let n = self.periods.len();
        if n == 0 || n > MOST_TASKS || n != self.costs.len() {
            return refuse(30);
        }
        if let Some(place) = (1..=n).find(|&place| self.is_out_of_range(place)) {
            return refuse_with(31, place as u64);
        }
        match (2..=n).find(|&place| self.periods[place - 1] < self.periods[place - 2]) {
            Some(place) => refuse_with(32, place as u64),
            None => Ok(()),
        }
    }

    fn is_out_of_range(&self, place: usize) -> bool {
        let (period, cost) = (self.periods[place - 1], self.costs[place - 1]);
        period < 1 || period > LARGEST_PERIOD || cost < 1 || cost > period
    }

    /// Of any two periods one divides the other.
    pub fn divide_each_other(&self) -> bool {
        let all = self.periods;
        let divides_or_is_divided = |a: u64, b: u64| a.is_multiple_of(b) || b.is_multiple_of(a);
        all.iter().all(|&a| all.iter().all(|&b| divides_or_is_divided(a, b)))
    }

    pub fn are_multiples_of(&self, p: u64) -> bool {
        self.periods.iter().all(|period| period.is_multiple_of(p))
    }
}

impl Form {
    /// Row 36 for the tasks alone.
    fn validate_tasks(self, tasks: Tasks) -> Result<(), Refusal> {
        if self == Form::Aligned && !tasks.divide_each_other() {
            return refuse(36);
        }
        Ok(())
    }

    /// Row 36 for the tasks and a resource period.
    fn validate(self, tasks: Tasks, p: u64) -> Result<(), Refusal> {
        self.validate_tasks(tasks)?;
        if !self.takes(tasks, p) {
            return refuse(36);
        }
        Ok(())
    }

    /// The aligned form takes a resource period only where all tasks begin with one.
    fn takes(self, tasks: Tasks, p: u64) -> bool {
        self == Form::Ordinary || tasks.are_multiples_of(p)
    }
}

/// Row 33 for a resource period or P_max.
fn validate_period(period: u64) -> Result<(), Refusal> {
    if period < 1 || period > LARGEST_PERIOD {
        return refuse(33);
    }
    Ok(())
}

/// Row 33 for a resource period and its budget.
fn validate_interface(period: u64, budget: u64) -> Result<(), Refusal> {
    validate_period(period)?;
    if budget < 1 || budget > period {
        return refuse(33);
    }
    Ok(())
}

fn supply_at(form: Form, p: u64, b: u64, t: u64) -> u64 {
    let g = p - b;
    if t < g {
        return 0;
    }
    let (y, gaps) = match form {
        Form::Ordinary => ((t - g) / p, 2 * g),
        Form::Aligned => (t / p, g),
    };
    let taken = gaps + y * p;
    let rest = if t > taken { t - taken } else { 0 };
    y * b + rest
}

fn ceiling(t: u64, p: u64) -> u64 {
    let whole = t / p;
    if whole * p == t {
        whole
    } else {
        whole + 1
    }
}

/// Demand of the first i tasks at t, the sum over k from 1 to i.
fn demand_at(tasks: Tasks, i: usize, t: u64) -> u64 {
    let mut sum = 0;
    for k in 1..=i {
        sum += ceiling(t, tasks.periods[k - 1]) * tasks.costs[k - 1];
    }
    sum
}

/// For every i there is a whole t from 1 to p_i with supply at least demand.
fn pass(form: Form, tasks: Tasks, p: u64, b: u64) -> bool {
    for i in 1..=tasks.periods.len() {
        let mut met = false;
        for t in 1..=tasks.periods[i - 1] {
            if supply_at(form, p, b, t) >= demand_at(tasks, i, t) {
                met = true;
                break;
            }
        }
        if !met {
            return false;
        }
    }
    true
}

/// The smallest B from 1 to P that passes. No row is looked at.
pub fn least_at(form: Form, tasks: Tasks, p: u64) -> Option<u64> {
    for b in 1..=p {
        if pass(form, tasks, p, b) {
            return Some(b);
        }
    }
    None
}

/// Is a/b below c/d, or equal to it?
fn at_most(a: u64, b: u64, c: u64, d: u64) -> bool {
    a * d <= c * b
}

pub fn supply(form: Form, p: u64, b: u64, t: u64) -> Result<u64, Refusal> {
    validate_interface(p, b)?;
    if t > LONGEST {
        return refuse(35);
    }
    Ok(supply_at(form, p, b, t))
}

/// The task place i counts from 1.
pub fn demand(tasks: Tasks, i: u64, t: u64) -> Result<u64, Refusal> {
    tasks.validate()?;
    if t > LONGEST || i < 1 || i > tasks.periods.len() as u64 {
        return refuse(35);
    }
    Ok(demand_at(tasks, i as usize, t))
}

pub fn check(form: Form, tasks: Tasks, p: u64, b: u64) -> Result<bool, Refusal> {
    tasks.validate()?;
    validate_interface(p, b)?;
    form.validate(tasks, p)?;
    Ok(pass(form, tasks, p, b))
}

pub fn least(form: Form, tasks: Tasks, p: u64) -> Result<u64, Refusal> {
    tasks.validate()?;
    validate_period(p)?;
    form.validate(tasks, p)?;
    match least_at(form, tasks, p) {
        Some(b) => Ok(b),
        None => refuse(34),
    }
}

/// The smallest B/P with B least for P, of all P that the form takes; at a tie the larger P.
pub fn best(form: Form, tasks: Tasks, p_max: u64) -> Result<Interface, Refusal> {
    tasks.validate()?;
    validate_period(p_max)?;
    form.validate_tasks(tasks)?;
    let mut best: Option<Interface> = None;
    for period in (1..=p_max).filter(|&period| form.takes(tasks, period)) {
        let Some(budget) = least_at(form, tasks, period) else { continue };
        let better = match best {
            None => true,
            Some(old) => at_most(budget, period, old.budget, old.period),
        };
        if better {
            best = Some(Interface { period, budget });
        }
    }
    match best {
        Some(interface) => Ok(interface),
        None => refuse(34),
    }
}

#[cfg(test)]
mod tests {
    use super::Form::{Aligned, Ordinary};
    use super::*;

    const W: Tasks = Tasks { periods: &[5, 10], costs: &[1, 3] };
    const FULL: Tasks = Tasks { periods: &[2, 4], costs: &[2, 1] };
    const FORMS: [Form; 2] = [Ordinary, Aligned];

    fn number<T>(answer: Result<T, Refusal>) -> u32 {
        match answer {
            Ok(_) => 0,
            Err(refusal) => {
                assert_eq!(refusal.detail, 0);
                refusal.number
            }
        }
    }

    #[test]
    fn p1_to_p6_supply_and_demand() {
        assert_eq!(supply(Ordinary, 4, 3, 2), Ok(0));
        assert_eq!(supply(Ordinary, 4, 3, 5), Ok(3));
        assert_eq!(supply(Ordinary, 4, 3, 7), Ok(4));
        assert_eq!(supply(Ordinary, 5, 5, 9), Ok(9));
        assert_eq!(demand(W, 2, 5), Ok(4));
        assert_eq!(demand(W, 2, 6), Ok(5));
    }

    #[test]
    fn p7_to_p10_the_tasks_w() {
        assert_eq!(least(Ordinary, W, 5), Ok(4));
        assert_eq!(check(Ordinary, W, 3, 2), Ok(true));
        assert_eq!(check(Ordinary, W, 4, 2), Ok(false));
        assert_eq!(best(Ordinary, W, 5), Ok(Interface { period: 3, budget: 2 }));
    }

    #[test]
    fn p11_no_budget_passes() {
        for p in (1..=60).chain([500, 2000]) {
            assert_eq!(number(least(Ordinary, FULL, p)), 34);
        }
        assert_eq!(number(best(Ordinary, FULL, 60)), 34);
    }

    #[test]
    fn p12_a_tie_goes_to_the_larger_period() {
        let one = Tasks { periods: &[1], costs: &[1] };
        assert_eq!(best(Ordinary, one, 3), Ok(Interface { period: 3, budget: 3 }));
    }

    #[test]
    fn lengths_and_places_at_their_ends() {
        assert_eq!(supply(Ordinary, 4, 3, 0), Ok(0));
        assert_eq!(supply(Ordinary, 1, 1, 2000), Ok(2000));
        assert_eq!(number(supply(Ordinary, 1, 1, 2001)), 35);
        assert_eq!(demand(W, 1, 0), Ok(0));
        assert_eq!(demand(W, 2, 2000), Ok(1000));
        assert_eq!(number(demand(W, 2, 2001)), 35);
        assert_eq!(number(demand(W, 0, 5)), 35);
        assert_eq!(number(demand(W, 3, 5)), 35);
    }

    #[test]
    fn row_30_goes_before_31() {
        let none = Tasks { periods: &[], costs: &[] };
        let uneven = Tasks { periods: &[0, 5], costs: &[1] };
        let many = Tasks { periods: &[0; 17], costs: &[1; 17] };
        for (tasks, form) in
            [none, uneven, many].into_iter().flat_map(|tasks| FORMS.map(|form| (tasks, form)))
        {
            assert_eq!(number(demand(tasks, 0, 9999)), 30);
            assert_eq!(number(check(form, tasks, 0, 0)), 30);
            assert_eq!(number(least(form, tasks, 0)), 30);
            assert_eq!(number(best(form, tasks, 0)), 30);
        }
    }

    /// What all four say to a list in both forms, whatever row 33, 35 or 36 would say.
    fn refused(list: &[(u64, u64)]) -> (u32, u64) {
        let (periods, costs): (Vec<u64>, Vec<u64>) = list.iter().copied().unzip();
        let tasks = Tasks { periods: &periods, costs: &costs };
        let refusal = demand(tasks, 0, 9999).unwrap_err();
        for form in FORMS {
            assert_eq!(check(form, tasks, 0, 0), Err(refusal));
            assert_eq!(least(form, tasks, 0), Err(refusal));
            assert_eq!(best(form, tasks, 0), Err(refusal));
        }
        (refusal.number, refusal.detail)
    }

    #[test]
    fn row_31_on_all_tasks_before_32_on_any() {
        assert_eq!(refused(&[(5, 1), (4, 1), (6, 7)]), (31, 3));
        assert_eq!(refused(&[(5, 1), (0, 1), (6, 1), (4, 1)]), (31, 2));
        assert_eq!(refused(&[(5, 1), (4, 1), (6, 6)]), (32, 2));
    }

    /// Out of range: the period on both sides, a cost of 0, a cost above the period.
    const WRONG: [(u64, u64); 7] =
        [(0, 0), (0, 1), (2001, 1), (9, 0), (9, 10), (2000, 2001), (u64::MAX, u64::MAX)];

    #[test]
    fn row_31_gives_the_first_such_place_counted_from_1() {
        for (wrong, place) in WRONG.iter().flat_map(|wrong| (1..=MOST_TASKS).map(move |place| (wrong, place)))
        {
            let mut list = [(9, 1); MOST_TASKS];
            list[place - 1] = *wrong;
            assert_eq!(refused(&list), (31, place as u64));
            assert_eq!(refused(&list[..place]), (31, place as u64));
            let with_later = |later| {
                list[place..].fill(later);
                refused(&list)
            };
            assert_eq!(WRONG.map(with_later), [(31, place as u64); WRONG.len()]);
        }
    }

    /// The task whose period is below the one before, not the one before.
    #[test]
    fn row_32_gives_the_first_such_place_counted_from_1() {
        for place in 2..=MOST_TASKS {
            let mut list = [(9, 1); MOST_TASKS];
            list[place - 1..].fill((8, 1));
            assert_eq!(refused(&list), (32, place as u64));
            assert_eq!(refused(&list[..place]), (32, place as u64));
            list[MOST_TASKS - 1] = (7, 1);
            assert_eq!(refused(&list), (32, place as u64));
        }
    }

    /// What a form says to tasks beside every P or B that is out of range.
    fn is_row_33(form: Form, tasks: Tasks) {
        for (p, b) in [(0, 0), (0, 1), (5, 0), (5, 6), (2001, 1), (u64::MAX, u64::MAX)] {
            assert_eq!(number(supply(form, p, b, 2001)), 33);
            assert_eq!(number(check(form, tasks, p, b)), 33);
        }
        for p in [0, 2001, u64::MAX] {
            assert_eq!(number(least(form, tasks, p)), 33);
            assert_eq!(number(best(form, tasks, p)), 33);
        }
    }

    #[test]
    fn row_33_goes_before_36_35_and_34() {
        is_row_33(Ordinary, FULL);
        is_row_33(Aligned, FULL);
        is_row_33(Aligned, Tasks { periods: &[2, 3], costs: &[2, 1] });
    }

    #[test]
    fn reading_p_i_for_p_k_would_give_another_p7() {
        let slip = |t: u64| ceiling(t, 10) * (1 + 3);
        let met = |b: u64| (1..=10).any(|t| supply_at(Ordinary, 5, b, t) >= slip(t));
        assert!(met(3));
        assert!(!pass(Ordinary, W, 5, 3));
    }

    #[test]
    fn aligned_supply_by_hand() {
        let at = |t| supply(Aligned, 4, 3, t).unwrap();
        assert_eq!([0, 1, 2, 3, 4, 5, 6, 7, 8, 9, 10].map(at), [0, 0, 1, 2, 3, 3, 4, 5, 6, 6, 7]);
        let at = |t| supply(Aligned, 5, 2, t).unwrap();
        assert_eq!([0, 1, 2, 3, 4, 5, 6, 7, 8, 9, 10].map(at), [0, 0, 0, 0, 1, 2, 2, 2, 2, 3, 4]);
        assert_eq!(supply(Aligned, 1, 1, 2000), Ok(2000));
        assert_eq!(number(supply(Aligned, 1, 1, 2001)), 35);
    }

    /// The ordinary form has one gap more in front, and is the same behind it.
    #[test]
    fn aligned_supply_is_the_ordinary_one_a_gap_later() {
        for (p, b) in (1..=25).flat_map(|p| (1..=p).map(move |b| (p, b))) {
            let same = |t| supply_at(Aligned, p, b, t) == supply_at(Ordinary, p, b, t + p - b);
            assert!((0..=120).all(same), "{p} {b}");
        }
    }

    #[test]
    fn aligned_least_check_and_best_of_w() {
        assert_eq!([1, 5].map(|p| least(Aligned, W, p)), [Ok(1), Ok(3)]);
        assert_eq!([2, 3].map(|b| check(Aligned, W, 5, b)), [Ok(false), Ok(true)]);
        assert_eq!(best(Aligned, W, 4), Ok(Interface { period: 1, budget: 1 }));
        assert_eq!(best(Aligned, W, 5), Ok(Interface { period: 5, budget: 3 }));
        assert_eq!(best(Aligned, W, 2000), Ok(Interface { period: 5, budget: 3 }));
        assert_eq!(number(best(Aligned, FULL, 60)), 34);
        assert_eq!([1, 2].map(|p| number(least(Aligned, FULL, p))), [34, 34]);
    }

    /// Check and least are refused for the periods or for P, and best for the periods alone.
    #[test]
    fn row_36_says_that_something_is_not_aligned() {
        let said = |periods: &[u64], p| {
            let tasks = Tasks { periods, costs: &[1; MOST_TASKS][..periods.len()] };
            assert_eq!(number(check(Aligned, tasks, p, 1)), number(least(Aligned, tasks, p)));
            (number(least(Aligned, tasks, p)), number(best(Aligned, tasks, p)))
        };
        assert_eq!(said(&[6, 12], 3), (0, 0));
        assert_eq!(said(&[6, 12], 4), (36, 0));
        assert_eq!(said(&[6, 12], 12), (36, 0));
        assert_eq!(said(&[6, 6, 15], 3), (36, 36));
        assert_eq!(said(&[6, 9, 18], 5), (36, 36));
        assert_eq!(said(&[2, 4, 8, 12], 1), (36, 36));
        assert_eq!(said(&[2, 3], 1), (36, 36));
    }
}
