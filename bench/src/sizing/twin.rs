//! The algorithm of the crate `shares` for the best interface of either form, in place, in u32.
//! The tests hold it against the plain reading.

use second::shares::Form;
use std::io::{self, BufRead, Write};

pub const WIDTH: usize = 16;

/// Counts the lengths looked at. The empty tuple counts nothing and costs nothing.
pub trait Count {
    fn length(&mut self);
}

impl Count for () {
    #[inline(always)]
    fn length(&mut self) {}
}

impl Count for u64 {
    #[inline(always)]
    fn length(&mut self) {
        *self += 1;
    }
}

/// Lengths and ticks to spare go from 0 to 2000.
const ROW: usize = 2001;

/// Demand of the first i + 1 tasks at t, in cell t * 16 + i.
pub fn demand_table(periods: &[u32], costs: &[u32]) -> Vec<u16> {
    let last = periods[periods.len() - 1] as usize;
    let mut table = vec![0; ROW * WIDTH];
    for t in 0..=last {
        let mut sum = 0;
        for i in 0..periods.len() {
            sum += (t as u32 + periods[i] - 1) / periods[i] * costs[i];
            table[t * WIDTH + i] = sum as u16;
        }
    }
    table
}

/// The shortest length of task i that has s ticks more than it demands, in cell i * 2001 + s; 2001 for none.
pub fn leap_table(periods: &[u32], demands: &[u16]) -> Vec<u16> {
    let mut leaps = vec![0; ROW * WIDTH];
    for (i, &period) in periods.iter().enumerate() {
        let mut spare = 0;
        for t in 1..=period {
            let d = u32::from(demands[t as usize * WIDTH + i]);
            while d + spare <= t {
                leaps[i * ROW + spare as usize] = t as u16;
                spare += 1;
            }
        }
        leaps[i * ROW + spare as usize..(i + 1) * ROW].fill(ROW as u16);
    }
    leaps
}

/// The form as a number: how many gaps the first tick waits for.
pub fn gaps_of(form: Form) -> u32 {
    match form {
        Form::Ordinary => 2,
        Form::Aligned => 1,
    }
}

/// How much longer than d the least t with supply at least d is, for d from 1.
#[inline(always)]
pub fn waited(gaps: u32, p: u32, b: u32, d: u32) -> u32 {
    (p - b) * (gaps + (d - 1) / b)
}

/// The aligned form takes a p that divides all periods. Its periods are multiples of the first.
#[inline(always)]
pub fn is_taken(gaps: u32, p: u32, periods: &[u32]) -> bool {
    gaps == 2 || periods[0] % p == 0
}

/// Looks for interfaces of valid tasks.
pub struct Search<'a, C: Count> {
    gaps: u32,
    periods: &'a [u32],
    demands: &'a [u16],
    leaps: &'a [u16],
    pub count: C,
}

impl<'a, C: Count> Search<'a, C> {
    pub fn new(
        form: Form,
        periods: &'a [u32],
        demands: &'a [u16],
        leaps: &'a [u16],
        count: C,
    ) -> Search<'a, C> {
        Search {
            gaps: gaps_of(form),
            periods,
            demands,
            leaps,
            count,
        }
    }

    #[inline(always)]
    fn leap(&self, i: usize, d: u32, spare: u32) -> u32 {
        if spare > 2000 {
            return 2001;
        }
        u32::from(self.leaps[i * ROW + spare as usize]).max(d + spare)
    }

    /// The first budget from `from` to `to` that passes, or 0. A task goes on where
    /// the budget below left it, since supply grows with the budget; the next task
    /// starts at the same length, since demand grows with the task.
    fn first_budget(&mut self, p: u32, from: u32, to: u32) -> u32 {
        let mut b = from;
        let mut i = 0;
        let mut t = 1;
        'budgets: loop {
            if to < b {
                break 0;
            }
            'tasks: while i < self.periods.len() {
                loop {
                    self.count.length();
                    let d = u32::from(self.demands[t as usize * WIDTH + i]);
                    let spare = waited(self.gaps, p, b, d);
                    if d + spare <= t {
                        i += 1;
                        continue 'tasks;
                    }
                    let u = self.leap(i, d, spare);
                    if self.periods[i] < u {
                        b += 1;
                        t = 1;
                        continue 'budgets;
                    }
                    t = u;
                }
            }
            break b;
        }
    }

    /// The least budget up to `cap`, or 0: steps that double find one that fails.
    fn least_under(&mut self, p: u32, cap: u32) -> u32 {
        if self.first_budget(p, cap, cap) == 0 {
            return 0;
        }
        let mut from = 1;
        let mut x = cap;
        let mut step = 1;
        while x > step {
            x -= step;
            if self.first_budget(p, x, x) == 0 {
                from = x + 1;
                break;
            }
            step *= 2;
        }
        if from == cap {
            return cap;
        }
        self.first_budget(p, from, cap)
    }

    fn takes(&self, p: u32) -> bool {
        is_taken(self.gaps, p, self.periods)
    }

    /// The least budget for p, or 0.
    #[cfg(test)]
    pub fn least(&mut self, p: u32) -> u32 {
        if self.takes(p) {
            self.least_under(p, p)
        } else {
            0
        }
    }

    /// The best (period, budget) up to p_max, or (0, 0).
    pub fn best(&mut self, p_max: u32) -> (u32, u32) {
        let mut best = (0, 0);
        for p in 1..=p_max {
            let cap = if best.0 == 0 { p } else { best.1 * p / best.0 };
            if cap >= 1 && self.takes(p) {
                let b = self.least_under(p, cap);
                if b != 0 {
                    best = (p, b);
                }
            }
        }
        best
    }
}

/// The best interface of valid tasks, or (0, 0); aligned ones have periods that divide each other.
pub fn best(form: Form, periods: &[u32], costs: &[u32], p_max: u32) -> (u32, u32) {
    let demands = demand_table(periods, costs);
    let leaps = leap_table(periods, &demands);
    Search::new(form, periods, &demands, &leaps, ()).best(p_max)
}

/// The lengths that the search for the best interface looks at.
pub fn lengths(form: Form, periods: &[u32], costs: &[u32], p_max: u32) -> u64 {
    let demands = demand_table(periods, costs);
    let leaps = leap_table(periods, &demands);
    let mut search = Search::new(form, periods, &demands, &leaps, 0);
    search.best(p_max);
    search.count
}

/// The answer to a line `best PMAX p e p e ..` of valid numbers, with `aligned` before it for that form;
/// nothing is checked.
fn answer(line: &str) -> Option<String> {
    let (form, asked) = match line.strip_prefix("aligned ") {
        Some(asked) => (Form::Aligned, asked),
        None => (Form::Ordinary, line),
    };
    let numbers = asked
        .strip_prefix("best ")?
        .split(' ')
        .map(|field| field.parse().ok());
    let numbers: Vec<u32> = numbers.collect::<Option<_>>()?;
    let periods: Vec<u32> = numbers.iter().skip(1).step_by(2).copied().collect();
    let costs: Vec<u32> = numbers.iter().skip(2).step_by(2).copied().collect();
    Some(match best(form, &periods, &costs, *numbers.first()?) {
        (0, _) => "no 34 0".to_string(),
        (p, b) => format!("ok {p} {b}"),
    })
}

/// The twin as a program, to try the benchmark on.
pub fn run(input: impl BufRead, mut output: impl Write) -> io::Result<()> {
    for line in input.lines() {
        let answer = answer(&line?).unwrap_or_default();
        writeln!(output, "{answer}")?;
    }
    output.flush()
}

#[cfg(test)]
mod tests {
    use super::*;
    use crate::sizing::bad_lists::{known, List};
    use second::random::Random;
    use second::shares;

    fn random_list(random: &mut Random, form: Form, longest: u64) -> List {
        let n = random.between(1, 6);
        let share = random.between(1, n + 2);
        let task = |_| {
            let period = random.between(1, longest);
            let cost = random.between(1, (period / share).max(1));
            (period as u32, cost as u32)
        };
        List::new((0..n).map(task).collect()).in_form(form)
    }

    /// Best and least are those of the plain reading; says whether the best leaves something of the core.
    fn compare(list: &List, p_max: u32) -> bool {
        let (form, periods, costs) = (list.form, &list.periods, &list.costs);
        let wide = list.wide();
        let plain = shares::best(form, wide.lend(), u64::from(p_max));
        let of_plain = plain.map_or((0, 0), |share| (share.period as u32, share.budget as u32));
        assert_eq!(
            best(form, periods, costs, p_max),
            of_plain,
            "{list:?} {p_max}"
        );
        let demands = demand_table(periods, costs);
        let leaps = leap_table(periods, &demands);
        let least = Search::new(form, periods, &demands, &leaps, ()).least(p_max);
        let of_plain = shares::least(form, wide.lend(), u64::from(p_max)).unwrap_or(0);
        assert_eq!(u64::from(least), of_plain, "{list:?} {p_max}");
        plain.is_ok_and(|share| share.budget < share.period)
    }

    fn agrees_with_the_plain_reading(form: Form) {
        let mut random = Random::new(7);
        let mut passed = 0;
        for round in 0..3000 {
            let longest = if round % 10 == 0 { 60 } else { 15 };
            let list = random_list(&mut random, form, longest);
            passed += u32::from(compare(&list, random.between(1, 25) as u32));
        }
        assert!(passed > 500, "{passed}");
    }

    #[test]
    fn the_ordinary_form_agrees_with_the_plain_reading() {
        agrees_with_the_plain_reading(Form::Ordinary);
    }

    #[test]
    fn the_aligned_form_agrees_with_the_plain_reading() {
        agrees_with_the_plain_reading(Form::Aligned);
    }

    #[test]
    fn long_aligned_lists_agree_with_the_plain_reading() {
        for list in known(Form::Aligned) {
            compare(&list, 24);
        }
    }

    #[test]
    fn a_line_says_which_form() {
        let said = |line: &str| answer(line).unwrap_or_default();
        assert_eq!(said("best 5 5 1 10 3"), "ok 3 2");
        assert_eq!(said("aligned best 5 5 1 10 3"), "ok 5 3");
        assert_eq!(said("aligned best 60 2 2 4 1"), "no 34 0");
        assert_eq!(said("aligned least 5 5 1 10 3"), "");
    }
}
