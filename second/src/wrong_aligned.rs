//! Sizings with one wrong reading of the aligned form each, to see that the comparison finds it.

use crate::aligned_facts::is_quick;
use crate::compare_sizing::{answer_alone, ask_all, first_difference, Asked};
use crate::query_cases::{bare, take_apart};
use crate::reached::Reached;
use crate::refusal::Refusal;
use crate::shares::{self, Form, Tasks};
use crate::sizing::Answer;

/// An aligned query that is answered by numbers or a row, and that answer.
struct Query<'a> {
    word: &'a str,
    lead: &'a [u64],
    tasks: Tasks<'a>,
    right: &'a Answer,
}

/// Another answer, if the query is of those that the fault concerns.
type Wrong = fn(&Query) -> Option<Answer>;

fn row(number: u32) -> Option<Answer> {
    Some(Answer::No(Refusal { number, detail: 0 }))
}

/// An answer where the right one is a row. What it is does not matter here.
fn no_row() -> Option<Answer> {
    Some(Answer::Numbers(vec![0]))
}

impl Query<'_> {
    fn is_row(&self, number: u32) -> bool {
        Some(self.right) == row(number).as_ref()
    }

    fn is_ok(&self, word: &str) -> bool {
        self.word == word && matches!(self.right, Answer::Numbers(_))
    }

    fn supply(&self, supply: fn(u64, u64, u64) -> u64) -> Option<Answer> {
        let lead = self.lead;
        self.is_ok("supply").then(|| Answer::Numbers(vec![supply(lead[0], lead[1], lead[2])]))
    }

    fn first(&self) -> u64 {
        self.tasks.periods[0]
    }

    fn last(&self) -> u64 {
        self.tasks.periods[self.tasks.periods.len() - 1]
    }

    fn divides(&self, place: usize) -> bool {
        self.tasks.periods[place].is_multiple_of(self.tasks.periods[place - 1])
    }

    /// Row 36 for the periods alone, as check, least and best give it.
    fn is_36_for_periods(&self) -> bool {
        let p_is_no_reason = self.word == "best" || self.tasks.are_multiples_of(self.lead[0]);
        self.is_row(36) && p_is_no_reason && self.tasks.periods.len() > 1
    }

    fn is_36_for_p(&self) -> bool {
        self.is_row(36) && self.tasks.divide_each_other()
    }

    /// The best of other resource periods, the first of them at a tie.
    fn best_of(&self, takes: impl Fn(u64) -> bool, larger_first: bool) -> Option<Answer> {
        let (p_max, tasks) = (self.lead[0], self.tasks);
        if !self.is_ok("best") || p_max > 40 || !is_quick(tasks, p_max * p_max) {
            return None;
        }
        let mut periods: Vec<u64> = (1..=p_max).filter(|&p| takes(p)).collect();
        if larger_first {
            periods.reverse();
        }
        let least = |p: u64| Some((p, shares::least_at(Form::Aligned, tasks, p)?));
        let all = periods.into_iter().filter_map(least);
        let (p, b) = all.min_by(|(p, b), (q, c)| (b * q).cmp(&(c * p)))?;
        Some(Answer::Numbers(vec![p, b]))
    }
}

const WRONG: [(&str, Wrong); 27] = [
    ("supply has the ordinary y", |query| {
        query.supply(|p, b, t| {
            let (gap, y) = (p - b, t.saturating_sub(p - b) / p);
            y * b + t.saturating_sub(gap + y * p)
        })
    }),
    ("supply has both gaps", |query| {
        query.supply(|p, b, t| t / p * b + t.saturating_sub(2 * (p - b) + t / p * p))
    }),
    ("supply has no gap", |query| query.supply(|p, b, t| t / p * b + (t % p).min(b))),
    ("supply counts whole periods alone", |query| query.supply(|p, b, t| t / p * b)),
    ("supply is the ordinary one", |query| {
        query.supply(|p, b, t| shares::supply(Form::Ordinary, p, b, t).unwrap())
    }),
    ("check is the ordinary one", |query| {
        let met = shares::check(Form::Ordinary, query.tasks, query.lead[0], *query.lead.get(1)?).ok()?;
        query.is_ok("check").then(|| Answer::Numbers(vec![u64::from(met)]))
    }),
    ("least is the ordinary one", |query| {
        let quick = query.is_ok("least") && is_quick(query.tasks, query.lead[0]);
        let least = || shares::least(Form::Ordinary, query.tasks, query.lead[0]).ok();
        quick.then(least)?.map(|budget| Answer::Numbers(vec![budget]))
    }),
    ("36 for the periods goes before 33", |query| {
        (query.is_row(33) && query.word != "supply" && !query.tasks.divide_each_other()).then(|| row(36))?
    }),
    ("36 for P goes before 33 for B", |query| {
        let in_range = query.word == "check" && (1..=2000).contains(&query.lead[0]);
        (query.is_row(33) && in_range && !query.tasks.are_multiples_of(query.lead[0])).then(|| row(36))?
    }),
    ("36 goes before 31 and 32", |query| {
        let refused = matches!(query.right, Answer::No(refusal) if [31, 32].contains(&refusal.number));
        let periods = query.tasks.periods.iter().all(|&period| period > 0);
        (refused && periods && !query.tasks.divide_each_other()).then(|| row(36))?
    }),
    ("36 goes behind 34", |query| {
        let p = query.lead[0];
        let least = query.is_row(36) && query.word == "least" && is_quick(query.tasks, p);
        (least && shares::least_at(Form::Ordinary, query.tasks, p).is_none()).then(|| row(34))?
    }),
    ("36 has a detail", |query| query.is_row(36).then(|| Answer::No(Refusal { number: 36, detail: 2 }))),
    ("36 is told as 33", |query| query.is_row(36).then(|| row(33))?),
    ("36 looks at the first two alone", |query| {
        (query.is_36_for_periods() && query.divides(1)).then(no_row)?
    }),
    ("36 looks at the last two alone", |query| {
        let n = query.tasks.periods.len();
        (query.is_36_for_periods() && query.divides(n - 1)).then(no_row)?
    }),
    ("36 does not look at the last task", |query| {
        let n = query.tasks.periods.len();
        (query.is_36_for_periods() && (1..n - 1).all(|place| query.divides(place))).then(no_row)?
    }),
    ("36 looks at the first and the last alone", |query| {
        (query.is_36_for_periods() && query.last().is_multiple_of(query.first())).then(no_row)?
    }),
    ("36 holds all to the first", |query| {
        (query.is_36_for_periods() && query.tasks.are_multiples_of(query.first())).then(no_row)?
    }),
    ("36 looks only at P", |query| query.is_36_for_periods().then(no_row)?),
    ("36 does not look at P", |query| query.is_36_for_p().then(no_row)?),
    ("36 holds P to the last period alone", |query| {
        (query.is_36_for_p() && query.last().is_multiple_of(query.lead[0])).then(no_row)?
    }),
    ("36 takes a P that the first period divides", |query| {
        (query.is_36_for_p() && query.lead[0].is_multiple_of(query.first())).then(no_row)?
    }),
    ("best refuses where P_max does not divide", |query| {
        (query.is_ok("best") && !query.tasks.are_multiples_of(query.lead[0])).then(|| row(36))?
    }),
    ("best refuses where a P does not divide", |query| {
        let all = || (1..=query.lead[0]).all(|p| query.tasks.are_multiples_of(p));
        (query.is_ok("best") && !all()).then(|| row(36))?
    }),
    ("best does not skip", |query| query.best_of(|_| true, true)),
    ("best skips what does not divide the last period", |query| {
        query.best_of(|p| query.last().is_multiple_of(p), true)
    }),
    ("best gives a tie to the smaller P", |query| query.best_of(|p| query.tasks.are_multiples_of(p), false)),
];

/// The answer with the fault, to a query that is aligned and understood.
fn answered(asked: &Asked, wrong: Wrong) -> Option<Answer> {
    let right = asked.answer.as_ref()?;
    let parts = take_apart(bare(&asked.line));
    let understood = matches!(right, Answer::Numbers(_) | Answer::No(_));
    if parts.form == Form::Ordinary || !understood {
        return Some(right.clone());
    }
    let (lead, list) = parts.lead_and_list();
    let query = Query { word: parts.word, lead: &lead, tasks: list.lend(), right };
    wrong(&query).or(Some(right.clone()))
}

fn is_seen(asked: &[Asked], answers: impl Fn(&Asked) -> Option<Answer>) -> bool {
    let output: String = asked.iter().filter_map(answers).map(|answer| answer.line() + "\n").collect();
    first_difference(asked, output.as_bytes()).is_some()
}

#[test]
fn every_wrong_reading_of_the_aligned_form_is_seen() {
    let asked = ask_all(1, 20_000, &mut Reached::default());
    assert!(!is_seen(&asked, |asked| answered(asked, |_| None)));
    // What is searched for here once more is what the right one gives.
    let right = |query: &Query| query.best_of(|p| query.tasks.are_multiples_of(p), true);
    assert!(!is_seen(&asked, |asked| answered(asked, right)));
    for (what, wrong) in WRONG {
        assert!(is_seen(&asked, |asked| answered(asked, wrong)), "{what}");
    }
}

/// Another answer to a line without its newline, if it is of those that the fault concerns.
type WrongLine = fn(&[u8], &Answer) -> Option<Answer>;

/// What is answered to the line with another front.
fn with_front(line: &[u8], front: &[u8], other: &[u8]) -> Option<Answer> {
    let rest = line.strip_prefix(front)?;
    answer_alone(&[other, rest].concat())
}

const WRONG_LINES: [(&str, WrongLine); 10] = [
    ("aligned is no word", |line, _| line.starts_with(b"aligned ").then_some(Answer::BadWord)),
    ("aligned demand is answered", |line, _| with_front(line, b"aligned demand ", b"demand ")),
    ("aligned help is answered", |line, _| (line == b"aligned help").then_some(Answer::Help)),
    ("aligned may stand twice", |line, _| with_front(line, b"aligned aligned ", b"aligned ")),
    ("aligned may stand before any word", |line, _| with_front(line, b"aligned aligned ", b"")),
    ("aligned alone has no field", |line, _| (line == b"aligned").then_some(Answer::BadField(1))),
    ("aligned and nothing has no field", |line, _| (line == b"aligned ").then_some(Answer::BadField(1))),
    ("what begins with aligned is it", |line, _| with_front(line, b"alignedd ", b"aligned ")),
    ("capitals are aligned too", |line, _| with_front(line, b"Aligned ", b"aligned ")),
    ("the word counts as a field", |line, right| match right {
        Answer::BadField(place) if line.starts_with(b"aligned ") => Some(Answer::BadField(place + 1)),
        _ => None,
    }),
];

#[test]
fn every_wrong_reading_of_the_word_is_seen() {
    let asked = ask_all(1, 20_000, &mut Reached::default());
    for (what, wrong) in WRONG_LINES {
        let answered = |asked: &Asked| {
            let right = asked.answer.as_ref()?;
            wrong(bare(&asked.line), right).or(Some(right.clone()))
        };
        assert!(is_seen(&asked, answered), "{what}");
    }
}

/// One that takes the form of a line for the next one too.
#[test]
fn a_form_that_stays_is_seen() {
    let asked = ask_all(1, 5_000, &mut Reached::default());
    let seen = asked.windows(2).any(|two| {
        let aligned = |asked: &Asked| asked.line.starts_with(b"aligned ");
        let again = [b"aligned ", &two[1].line[..]].concat();
        aligned(&two[0]) && !aligned(&two[1]) && answer_alone(&again) != two[1].answer
    });
    assert!(seen);
}
