//! Which cases of the aligned form a query meets.

use crate::aligned_facts::is_quick;
use crate::query_cases::Parts;
use crate::reached::Reached;
use crate::shares::{self, Form, Tasks};
use crate::sizing::Answer;
use std::cmp::Ordering;

/// The line is aligned. Lines with a bad word or field are counted as ordinary ones are.
pub fn note(parts: &Parts, answer: &Answer, reached: &mut Reached) {
    match answer {
        Answer::BadWord => {
            let known = WRONG_WORDS.iter().find(|&&word| word == parts.word);
            known.into_iter().for_each(|word| reached.add(format!("bad word: {word}")));
        }
        Answer::Numbers(numbers) => note_ok(parts, numbers, reached),
        Answer::No(refusal) => note_row(parts, refusal.number, reached),
        _ => (),
    }
}

/// Words that stand only alone, and `aligned` once more.
const WRONG_WORDS: [&str; 3] = ["demand", "help", "aligned"];

fn note_ok(parts: &Parts, answer: &[u64], reached: &mut Reached) {
    let (lead, list) = parts.lead_and_list();
    let tasks = list.lend();
    match parts.word {
        "supply" => note_supply(&lead, answer[0], reached),
        "check" => note_check(tasks, &lead, answer[0], reached),
        "least" => note_least(tasks, lead[0], answer[0], reached),
        _ => note_best(tasks, lead[0], answer, reached),
    }
    if parts.word != "supply" {
        note_list(parts.word, tasks, lead[0], reached);
    }
}

/// Where t lies in its resource period.
fn note_supply(lead: &[u64], answer: u64, reached: &mut Reached) {
    let (p, b, t) = (lead[0], lead[1], lead[2]);
    let (gap, place, first) = (p - b, t % p, t < p);
    if gap >= 3 && b >= 3 {
        reached.add_if(first && place < gap, "supply: before the gap's end");
        reached.add_if(first && place == gap, "supply: at the gap's end");
        reached.add_if(first && place == gap + 1, "supply: one behind the gap");
        reached.add_if(!first && place == 0, "supply: at a start");
        reached.add_if(!first && place == 1, "supply: one behind a start");
        reached.add_if(place == p - 1, "supply: one before a start");
        reached.add_if(!first && place == gap, "supply: at a later gap's end");
        reached.add_if(!first && place == gap + 1, "supply: one behind a later gap");
    }
    let ordinary = shares::supply(Form::Ordinary, p, b, t).unwrap_or(0);
    reached.add_if(ordinary < answer, "supply: more than the ordinary one");
    reached.add_if(ordinary == answer && t > gap && gap > 0, "supply: the ordinary one");
}

fn note_check(tasks: Tasks, lead: &[u64], answer: u64, reached: &mut Reached) {
    let ordinary = shares::check(Form::Ordinary, tasks, lead[0], lead[1]) == Ok(true);
    let one_less = shares::check(Form::Aligned, tasks, lead[0], lead[1] - 1) == Ok(false);
    reached.add_if(answer == 1 && !ordinary, "check: 1 where the ordinary one is 0");
    reached.add_if(answer == 1 && ordinary, "check: 1 in both forms");
    reached.add_if(answer == 0, "check: 0 in both forms");
    reached.add_if(answer == 1 && one_less, "check: 1 with the least budget");
}

fn note_least(tasks: Tasks, p: u64, answer: u64, reached: &mut Reached) {
    if !is_quick(tasks, p) {
        return;
    }
    let Ok(ordinary) = shares::least(Form::Ordinary, tasks, p) else { return };
    reached.add_if(answer < ordinary && ordinary < p, "least: less than the ordinary one");
    reached.add_if(answer < ordinary && ordinary == p, "least: less than the ordinary one, which is P");
    reached.add_if(answer == ordinary && answer < p, "least: the ordinary one");
    reached.add_if(answer == ordinary && answer == p, "least: P in both forms");
    reached.add_if(ordinary - answer.min(ordinary) > 1, "least: less by more than one");
}

fn note_best(tasks: Tasks, p_max: u64, answer: &[u64], reached: &mut Reached) {
    let first = tasks.periods[0];
    reached.add_if(answer[0] == first && first > 1, "best: the first period");
    reached.add_if(answer[0] > 1 && answer[0] < first, "best: a smaller divisor");
    reached.add_if(p_max > first, "best: P_max above the first period");
    reached.add_if(p_max <= first && !tasks.are_multiples_of(p_max), "best: P_max is skipped");
    if p_max > 40 || !is_quick(tasks, p_max * p_max) {
        return;
    }
    let mut skipped = (1..=p_max).filter(|&p| !tasks.are_multiples_of(p)).peekable();
    reached.add_if(skipped.peek().is_some(), "best: a P is skipped");
    let better = |p| {
        let budget = shares::least_at(Form::Aligned, tasks, p);
        budget.is_some_and(|budget| budget * answer[0] < answer[1] * p)
    };
    reached.add_if(skipped.any(better), "best: a P is skipped that would be better");
    let Ok(ordinary) = shares::best(Form::Ordinary, tasks, p_max) else { return };
    match (answer[1] * ordinary.period).cmp(&(ordinary.budget * answer[0])) {
        Ordering::Greater => reached.add("best: dearer than the ordinary one"),
        Ordering::Equal => reached.add("best: as dear as the ordinary one"),
        Ordering::Less => reached.add("best: cheaper than the ordinary one"),
    }
}

fn note_list(word: &str, tasks: Tasks, p: u64, reached: &mut Reached) {
    let periods = tasks.periods;
    let (n, first) = (periods.len(), periods[0]);
    let count = match n {
        1 => "one task",
        2 => "two tasks",
        16 => "sixteen aligned tasks",
        _ => "several tasks",
    };
    reached.add(format!("{word}: {count}"));
    reached.add_if(n > 1 && periods[n - 1] == first, &format!("{word}: equal periods"));
    reached
        .add_if(n > 2 && periods.windows(2).all(|two| two[0] < two[1]), &format!("{word}: rising periods"));
    reached.add_if(p == 1 && first > 1, &format!("{word}: P is 1"));
    reached.add_if(p == first && p > 1, &format!("{word}: P is the first period"));
}

fn note_row(parts: &Parts, number: u32, reached: &mut Reached) {
    let (lead, list) = parts.lead_and_list();
    let (word, tasks) = (parts.word, list.lend());
    let is_list = word != "supply" && number > 30 && tasks.periods.iter().all(|&period| period > 0);
    if !is_list {
        return;
    }
    match number {
        36 => note_36(word, tasks, lead[0], reached),
        33 => note_33(word, tasks, &lead, reached),
        34 => note_list(&format!("{word} no 34"), tasks, lead[0], reached),
        _ => reached.add_if(!tasks.divide_each_other(), &format!("{number} before 36")),
    }
}

/// Row 36 would have one of its two reasons, or both.
fn note_33(word: &str, tasks: Tasks, lead: &[u64], reached: &mut Reached) {
    reached.add_if(!tasks.divide_each_other(), &format!("{word} 33 before 36: the periods"));
    if word == "check" && (1..=2000).contains(&lead[0]) {
        let by_p = tasks.divide_each_other() && !tasks.are_multiples_of(lead[0]);
        reached.add_if(by_p, "check 33 before 36: P");
    }
}

fn note_36(word: &str, tasks: Tasks, p: u64, reached: &mut Reached) {
    let by_periods = !tasks.divide_each_other();
    let by_p = !tasks.are_multiples_of(p);
    reached.add_if(by_periods && !by_p, &format!("{word} 36: the periods"));
    reached.add_if(!by_periods && by_p, &format!("{word} 36: P"));
    reached.add_if(by_periods && by_p, &format!("{word} 36: the periods and P"));
    if by_periods {
        note_neighbours(word, tasks.periods, reached);
    } else {
        note_p(word, tasks.periods, p, reached);
    }
    if is_quick(tasks, p) {
        // In both forms all budgets fail where P itself does.
        let none = shares::least_at(Form::Ordinary, tasks, p).is_none();
        reached.add_if(none, &format!("{word} 36 before 34"));
    }
}

/// Exactly one period does not divide the next.
fn note_neighbours(word: &str, periods: &[u64], reached: &mut Reached) {
    let n = periods.len();
    let apart: Vec<usize> = (2..=n).filter(|&k| !periods[k - 1].is_multiple_of(periods[k - 2])).collect();
    if n < 3 || apart.len() != 1 {
        return;
    }
    let which = match apart[0] {
        2 => "the first two",
        place if place == n => "the last two",
        _ => "two in the middle",
    };
    reached.add(format!("{word} 36: {which} alone"));
    reached.add_if(n == 16, &format!("{word} 36: two of sixteen alone"));
}

/// P does not divide periods that divide each other.
fn note_p(word: &str, periods: &[u64], p: u64, reached: &mut Reached) {
    let divided = periods.iter().filter(|period| period.is_multiple_of(p)).count();
    reached.add_if(divided == 0, &format!("{word} 36: P divides none"));
    reached.add_if(
        divided == periods.len() - 1 && divided > 0,
        &format!("{word} 36: P divides all but the first"),
    );
    let several = p > periods[0] && p.is_multiple_of(periods[0]);
    reached.add_if(several, &format!("{word} 36: P is several first periods"));
}

/// What each of check, least and best has to meet.
const OF_LISTS: [&str; 15] = [
    " no 36",
    " 36: the periods",
    " 36: the periods and P",
    " 36: the first two alone",
    " 36: two in the middle alone",
    " 36: the last two alone",
    " 36: two of sixteen alone",
    " 36 before 34",
    " 33 before 36: the periods",
    ": one task",
    ": two tasks",
    ": several tasks",
    ": sixteen aligned tasks",
    ": equal periods",
    ": rising periods",
];

/// What check and least have to meet: they are refused for P too.
const OF_P: [&str; 6] = [
    " 36: P",
    " 36: P divides none",
    " 36: P divides all but the first",
    " 36: P is several first periods",
    ": P is 1",
    ": P is the first period",
];

/// The cases that a comparison must meet.
pub fn asked() -> Vec<String> {
    let of_lists = ["check", "least", "best"].map(|word| OF_LISTS.map(|case| format!("{word}{case}")));
    let of_p = ["check", "least"].map(|word| OF_P.map(|case| format!("{word}{case}")));
    let no_budget = ["least", "best"].map(|word| NO_BUDGET.map(|case| format!("{word} no 34{case}")));
    let wrong_words = WRONG_WORDS.map(|word| format!("bad word: {word}"));
    let plain = PLAIN.map(str::to_string);
    [of_lists.concat(), of_p.concat(), no_budget.concat(), wrong_words.into(), plain.into()].concat()
}

const NO_BUDGET: [&str; 4] = [": two tasks", ": several tasks", ": sixteen aligned tasks", ": equal periods"];

const PLAIN: [&str; 31] = [
    "31 before 36",
    "32 before 36",
    "check 33 before 36: P",
    "supply: before the gap's end",
    "supply: at the gap's end",
    "supply: one behind the gap",
    "supply: at a start",
    "supply: one behind a start",
    "supply: one before a start",
    "supply: at a later gap's end",
    "supply: one behind a later gap",
    "supply: more than the ordinary one",
    "supply: the ordinary one",
    "check: 1 where the ordinary one is 0",
    "check: 1 in both forms",
    "check: 0 in both forms",
    "check: 1 with the least budget",
    "least: less than the ordinary one",
    "least: less than the ordinary one, which is P",
    "least: less by more than one",
    "least: the ordinary one",
    "least: P in both forms",
    "best: the first period",
    "best: a smaller divisor",
    "best: P_max above the first period",
    "best: P_max is skipped",
    "best: a P is skipped",
    "best: a P is skipped that would be better",
    "best: dearer than the ordinary one",
    "best: as dear as the ordinary one",
    "best: cheaper than the ordinary one",
];
