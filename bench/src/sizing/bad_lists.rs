//! A search for task lists that cost the best interface the most work: families of
//! lists first, then small changes to the worst ones for as long as they get worse.

use super::twin;
use second::random::Random;
use second::shares::{self, Form};

pub const P_MAX: u32 = 2000;
const N: usize = 16;

#[derive(Clone, Debug, PartialEq)]
pub struct List {
    pub form: Form,
    pub periods: Vec<u32>,
    pub costs: Vec<u32>,
}

impl List {
    /// Periods put in order, costs put in range.
    pub fn new(mut tasks: Vec<(u32, u32)>) -> List {
        for (period, cost) in &mut tasks {
            *period = (*period).clamp(1, P_MAX);
            *cost = (*cost).clamp(1, *period);
        }
        tasks.sort_by_key(|task| task.0);
        let (periods, costs) = tasks.into_iter().unzip();
        List {
            form: Form::Ordinary,
            periods,
            costs,
        }
    }

    /// In the aligned form each period is cut to a multiple of the one before.
    pub fn in_form(mut self, form: Form) -> List {
        self.form = form;
        if form == Form::Ordinary {
            return self;
        }
        for k in 1..self.periods.len() {
            self.periods[k] -= self.periods[k] % self.periods[k - 1];
            self.costs[k] = self.costs[k].min(self.periods[k]);
        }
        self
    }

    fn tasks(&self) -> Vec<(u32, u32)> {
        self.periods
            .iter()
            .copied()
            .zip(self.costs.iter().copied())
            .collect()
    }

    pub fn query(&self, p_max: u32) -> String {
        let tasks = self.tasks();
        let fields: Vec<String> = tasks.iter().map(|(p, e)| format!(" {p} {e}")).collect();
        let form = match self.form {
            Form::Ordinary => "",
            Form::Aligned => "aligned ",
        };
        format!("{form}best {p_max}{}", fields.concat())
    }

    /// The same tasks for the plain reading.
    pub fn wide(&self) -> shares::List {
        let tasks = self.periods.iter().zip(&self.costs);
        let numbers = tasks.flat_map(|(&p, &e)| [u64::from(p), u64::from(e)]);
        shares::List::of(&numbers.collect::<Vec<_>>())
    }

    /// The lengths that the fast search looks at.
    pub fn lengths(&self) -> u64 {
        twin::lengths(self.form, &self.periods, &self.costs, P_MAX)
    }
}

/// The worst lists of earlier, longer searches: periods and costs in turn.
const KNOWN: [&str; 6] = [
    "3 1 5 1 5 2 59 1 114 2 389 3 428 1 479 1 658 3 811 1 937 2 1069 3 1676 3 1717 1 1814 1 1938 3",
    "2 1 5 2 48 1 52 1 56 2 664 2 689 1 829 1 854 1 929 2 1439 1 1503 8 1525 2 1567 3 1985 2 2000 1",
    "6 1 10 1 22 1 27 1 34 1 37 2 46 3 64 1 89 4 97 7 99 6 152 5 1704 36 1862 15 1864 15 2000 400",
    "174 7 347 37 347 43 459 23 533 48 611 4 795 45 840 6 942 16 1223 126 1223 64 1239 25 1621 91 2000 191 2000 35 2000 74",
    "40 2 43 1 84 8 84 6 169 1 169 17 205 5 250 24 294 35 477 48 512 28 576 5 672 56 1361 38 2000 140 2000 56",
    "67 6 68 2 125 13 264 3 264 3 264 14 273 9 486 1 541 78 679 52 893 105 1266 5 2000 297 2000 26 2000 156 2000 42",
];

/// The worst harmonic lists in the aligned form: of all of them, and of those with a shorter first period.
const KNOWN_ALIGNED: [&str; 5] = [
    "1680 21 1680 79 1680 148 1680 16 1680 13 1680 13 1680 27 1680 155 1680 31 1680 83 1680 151 1680 14 1680 193 1680 166 1680 210 1680 359",
    "1440 88 1440 86 1440 81 1440 93 1440 67 1440 115 1440 90 1440 92 1440 82 1440 85 1440 81 1440 81 1440 99 1440 96 1440 79 1440 118",
    "840 47 840 47 840 39 840 50 840 46 840 39 840 19 840 39 840 17 840 36 1680 44 1680 211 1680 90 1680 184 1680 180 1680 208",
    "720 32 720 6 720 15 720 52 720 47 720 22 720 28 720 38 1440 78 1440 107 1440 95 1440 79 1440 94 1440 125 1440 186 1440 181",
    "360 6 360 14 360 18 360 18 360 17 360 21 360 17 1800 90 1800 103 1800 88 1800 82 1800 112 1800 97 1800 63 1800 92 1800 480",
];

pub fn known(form: Form) -> Vec<List> {
    let rows = match form {
        Form::Ordinary => &KNOWN[..],
        Form::Aligned => &KNOWN_ALIGNED[..],
    };
    let list = |row: &&str| {
        let numbers: Vec<u32> = row.split(' ').filter_map(|x| x.parse().ok()).collect();
        let tasks = numbers.chunks(2).map(|task| (task[0], task[1]));
        List::new(tasks.collect()).in_form(form)
    };
    rows.iter().map(list).collect()
}

fn near(random: &mut Random, centre: u32, spread: u64) -> u32 {
    (centre + random.below(spread + 1) as u32).saturating_sub(random.below(spread + 1) as u32)
}

/// Costs that share a whole use of `percent` hundredths among the tasks.
fn with_use(random: &mut Random, periods: Vec<u32>, percent: u64) -> List {
    let parts: Vec<u64> = periods.iter().map(|_| random.between(1, 100)).collect();
    let whole: u64 = parts.iter().sum();
    let cost =
        |(&p, &part): (&u32, &u64)| (p, (u64::from(p) * part * percent / whole / 100) as u32);
    List::new(periods.iter().zip(&parts).map(cost).collect())
}

fn random_list(random: &mut Random) -> List {
    let longest = *random.pick(&[20, 200, 2000]);
    let periods = (0..N).map(|_| random.between(2, longest) as u32).collect();
    let percent = random.between(5, 105);
    with_use(random, periods, percent)
}

/// One short task that asks for almost all, long ones behind it.
fn short_first(random: &mut Random) -> List {
    let first = *random.pick(&[(2, 1), (3, 1), (3, 2), (10, 9), (100, 99), (50, 25)]);
    let long = random.between(500, 2000) as u32;
    let cost = random.between(1, 130) as u32;
    let mut tasks = vec![first];
    for _ in 1..N {
        tasks.push((near(random, long, 300), near(random, cost, 20)));
    }
    List::new(tasks)
}

/// Periods that are nearly multiples of each other.
fn near_harmonic(random: &mut Random) -> List {
    let base = random.between(2, 130) as u32;
    let factor = |random: &mut Random, i: u32| {
        if random.once_in(2) {
            i + 1
        } else {
            1 << (i % 8)
        }
    };
    let mut periods = Vec::new();
    for i in 0..N as u32 {
        let factor = factor(random, i);
        periods.push(near(random, base * factor, 2).clamp(1, P_MAX));
    }
    let percent = random.between(30, 105);
    with_use(random, periods, percent)
}

fn all_long(random: &mut Random) -> List {
    let spread = *random.pick(&[0, 10, 100, 1000]);
    let periods = (0..N)
        .map(|_| (P_MAX - random.below(spread + 1) as u32).max(1))
        .collect();
    let percent = random.between(1, 105);
    with_use(random, periods, percent)
}

fn all_one(random: &mut Random) -> List {
    let longest = random.between(2, 2000);
    List::new(
        (0..N)
            .map(|_| (random.between(1, longest) as u32, 1))
            .collect(),
    )
}

/// Only the whole core passes, or nothing does, and it shows at the last task.
fn last_decides(random: &mut Random) -> List {
    let mut list = if random.once_in(2) {
        near_harmonic(random)
    } else {
        random_list(random)
    };
    let last = N - 1;
    let asked: u32 = (0..last)
        .map(|k| P_MAX.div_ceil(list.periods[k]) * list.costs[k])
        .sum();
    list.periods[last] = P_MAX;
    list.costs[last] = P_MAX.saturating_sub(asked).clamp(1, P_MAX) + random.below(2) as u32;
    List::new(list.tasks())
}

/// Small costs and a use near one: the lengths grow by small steps.
fn small_steps(random: &mut Random) -> List {
    let mut tasks = Vec::new();
    let mut used = 0.0;
    while tasks.len() < N {
        let scale = 1 << random.between(2, 11);
        let (period, cost) = (random.between(2, scale) as u32, random.between(1, 3) as u32);
        let more = f64::from(cost) / f64::from(period);
        if used + more < 1.0 || random.once_in(200) {
            tasks.push((period, cost));
            used += more;
        }
    }
    List::new(tasks)
}

/// First periods with many divisors: the aligned form takes that many resource periods.
const DIVISIBLE: [u32; 16] = [
    12, 24, 36, 48, 60, 72, 96, 120, 180, 240, 360, 480, 720, 840, 1260, 1680,
];

/// Each period is the one before or a multiple of it.
fn harmonic(random: &mut Random) -> List {
    let mut period = *random.pick(&DIVISIBLE);
    let once_in = random.between(1, 6);
    let mut periods = Vec::new();
    for _ in 0..N {
        periods.push(period);
        let next = period * *random.pick(&[2, 2, 3, 4, 5, 7]);
        if next <= P_MAX && random.once_in(once_in) {
            period = next;
        }
    }
    let percent = random.between(30, 105);
    with_use(random, periods, percent)
}

/// Harmonic ones for the aligned form, now and then one of the others cut to multiples.
pub fn from_family(random: &mut Random, form: Form) -> List {
    if form == Form::Ordinary || random.once_in(4) {
        ordinary_family(random).in_form(form)
    } else {
        harmonic(random).in_form(form)
    }
}

fn ordinary_family(random: &mut Random) -> List {
    match random.below(7) {
        0 => random_list(random),
        1 => short_first(random),
        2 => near_harmonic(random),
        3 => all_long(random),
        4 => all_one(random),
        5 => small_steps(random),
        _ => last_decides(random),
    }
}

/// A small change of one to three tasks, in the list's form.
fn changed(random: &mut Random, list: &List) -> List {
    let mut tasks = list.tasks();
    for _ in 0..random.between(1, 3) {
        let place = random.index(N);
        let (period, cost) = tasks[place];
        let reach = *random.pick(&[1, 3, 20, 200]);
        tasks[place] = match random.below(5) {
            0 => (near(random, period, reach), cost),
            1 => (period, near(random, cost, reach)),
            2 => (near(random, period, reach), near(random, cost, reach)),
            3 => *random.pick(&list.tasks()),
            _ => (random.between(1, 2000) as u32, random.between(1, 60) as u32),
        };
    }
    List::new(tasks).in_form(list.form)
}

/// The worst lists found, worst first, with the lengths looked at.
pub fn search(form: Form, seed: u64, families: u64, changes: u64) -> Vec<(u64, List)> {
    let mut random = Random::new(seed);
    let more = (0..families).map(|_| from_family(&mut random, form));
    let lists: Vec<List> = known(form).into_iter().chain(more).collect();
    let mut worst: Vec<(u64, List)> = lists
        .into_iter()
        .map(|list| (list.lengths(), list))
        .collect();
    worst.sort_by(|a, b| b.0.cmp(&a.0));
    worst.truncate(4);
    for (count, list) in &mut worst {
        for _ in 0..changes {
            let next = changed(&mut random, list);
            let lengths = next.lengths();
            if lengths >= *count {
                (*count, *list) = (lengths, next);
            }
        }
    }
    worst.sort_by(|a, b| b.0.cmp(&a.0));
    worst
}

#[cfg(test)]
mod tests {
    use super::*;

    fn is_aligned(list: &List) -> bool {
        let in_range =
            |&(period, cost): &(u32, u32)| 1 <= cost && cost <= period && period <= P_MAX;
        let all_in_range = list.tasks().iter().all(in_range);
        list.periods.is_sorted() && all_in_range && list.wide().lend().divide_each_other()
    }

    #[test]
    fn lists_of_the_aligned_form_divide_each_other() {
        let mut random = Random::new(5);
        for _ in 0..300 {
            let list = from_family(&mut random, Form::Aligned);
            let next = changed(&mut random, &list);
            assert!(is_aligned(&list) && is_aligned(&next), "{list:?} {next:?}");
        }
    }

    /// The search starts with them: none is cut, and the first is the worst.
    #[test]
    fn the_known_aligned_lists_are_as_they_are_written() {
        let known = known(Form::Aligned);
        let query = |list: &List| list.query(P_MAX);
        let written = KNOWN_ALIGNED.map(|row| format!("aligned best 2000 {row}"));
        assert_eq!(known.iter().map(query).collect::<Vec<_>>(), written);
        let lengths: Vec<u64> = known.iter().map(List::lengths).collect();
        assert_eq!(lengths, [2544, 2261, 2060, 1936, 1618]);
    }
}
