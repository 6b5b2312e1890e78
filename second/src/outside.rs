//! `outside`: what all stays of an identifier may hold, that none waits with ticks, that no timer
//! stands still and how many ticks come back, checked from the lines that the given program wrote
//! and the records it was given, and from nothing else. Who runs from one time to the next stands
//! in the lines; periods, capacities and kinds stand in the admits, and who is runnable follows
//! from the wakes and blocks that were accepted. A refusal is checked as far as the records and the
//! stays say what it is: where a bad record begins, what is wrong with an admit's terms, who is on
//! the card, and who is remembered and up to when. The rows of the time are not looked into.

use crate::brought::Late;
use crate::generate::{self, Run};
use crate::lines;
use crate::pipe;
use crate::reached::Reached;
use crate::records;
use crate::refusal::Refusal;
use crate::row_cases;
use crate::stay_cases::KINDS;
use crate::stays::{self, Counts, OfKind, Stay};
use crate::turns::{Change, Description, MOST_VCPUS};
use crate::words;
use std::collections::BTreeMap;

pub struct Plan {
    pub program: String,
    pub seed: u64,
    pub runs: u64,
}

/// An `ok` line.
#[derive(Clone, Default)]
pub struct Told {
    pub time: u64,
    pub run: Option<u32>,
    pub usable: u64,
    pub timer: Option<u64>,
    pub total: u64,
}

pub fn read_line(line: &str) -> Result<Result<Told, Refusal>, String> {
    let words: Vec<&str> = line.split(' ').collect();
    let wrong = || format!("no line of the card: {line}");
    match words[..] {
        ["no", number, detail] => Ok(Err(Refusal {
            number: number.parse().map_err(|_| wrong())?,
            detail: detail.parse().map_err(|_| wrong())?,
        })),
        ["ok", time, run, usable, timer, total] => Ok(Ok(Told {
            time: time.parse().map_err(|_| wrong())?,
            run: if run == "-" { None } else { Some(run.parse().map_err(|_| wrong())?) },
            usable: usable.parse().map_err(|_| wrong())?,
            timer: if timer == "-" { None } else { Some(timer.parse().map_err(|_| wrong())?) },
            total: total.parse().map_err(|_| wrong())?,
        })),
        _ => Err(wrong()),
    }
}

/// The rows of the time, which go before those of a call.
pub const OF_TIME: [u32; 3] = [1, 2, 3];

/// The card seen from outside.
pub struct View<'a> {
    pub stays: BTreeMap<u32, Stay>,
    /// The stays that have ended, in their order, and up to when the identifier is remembered.
    pub ended: BTreeMap<u32, Vec<Stay>>,
    until: BTreeMap<u32, u64>,
    /// The line of the last accepted call.
    pub last: Told,
    /// The ticks that nobody held.
    pub idle: u64,
    pub late: Late,
    /// The first total that is not what the ticks held say.
    pub wrong_total: Option<String>,
    counts: &'a mut Counts,
}

impl View<'_> {
    /// The record that begins at `offset`, and its line.
    fn take(&mut self, record: &[u8], offset: u64, line: &str) -> Result<(), String> {
        let told = read_line(line)?;
        let meant = self.decided(record, offset);
        if !self.bears_out(meant, told.as_ref().err().copied()) {
            let (words, _) = words::front_in_words(record);
            let meant = meant.map_or("another\n".to_string(), |meant| lines::line(&Err(meant)));
            let meant = meant.trim_end();
            return Err(format!("{words}, which begins at {offset}, gives {line}: meant is {meant}"));
        }
        self.follow(record, told)
    }

    /// What was accepted, rightly or not.
    pub fn follow(&mut self, record: &[u8], told: Result<Told, Refusal>) -> Result<(), String> {
        match (records::read(record), told) {
            (Ok((call, _)), Ok(told)) => self.accept(&call.change, &told),
            _ => Ok(()),
        }
    }

    /// The refusal that the record has, but for a row of the time.
    fn decided(&self, record: &[u8], offset: u64) -> Option<Refusal> {
        let call = match records::read(record) {
            Err(number) => return Some(Refusal { number, detail: offset }),
            Ok((call, _)) => call,
        };
        match call.change {
            Change::Tick => None,
            Change::Admit(description) => self.decided_admit(&description, call.time),
            Change::Wake(identifier) | Change::Block(identifier) | Change::Remove(identifier) => {
                let on_card = self.stays.contains_key(&identifier);
                (!on_card).then_some(Refusal { number: 7, detail: 0 })
            }
        }
    }

    /// By its terms, by who is on the card and by who is remembered at its time.
    fn decided_admit(&self, description: &Description, now: u64) -> Option<Refusal> {
        let identifier = description.identifier;
        let mut rows = row_cases::of_terms(description).to_vec();
        rows.push((6, self.stays.contains_key(&identifier)));
        let until = self.remembered(now).find(|&(other, _)| other == identifier).map(|(_, until)| until);
        rows.push((9, until.is_some()));
        rows.push((8, self.stays.len() + self.remembered(now).count() >= MOST_VCPUS));
        let number = rows.into_iter().find(|&(_, applies)| applies).map(|(row, _)| row)?;
        let detail = if number == 9 { until? } else { 0 };
        Some(Refusal { number, detail })
    }

    fn remembered(&self, now: u64) -> impl Iterator<Item = (u32, u64)> + '_ {
        self.until
            .iter()
            .map(|(&identifier, &until)| (identifier, until))
            .filter(move |&(_, until)| now < until)
    }

    /// Whether a refusal, or none, is what is decided.
    fn bears_out(&mut self, meant: Option<Refusal>, refusal: Option<Refusal>) -> bool {
        let by_time = refusal.is_some_and(|refusal| OF_TIME.contains(&refusal.number));
        let bad = meant.is_some_and(|meant| (20..=22).contains(&meant.number));
        if !bad && by_time {
            return true;
        }
        let Counts { stops, terms, remembered, full, .. } = self.counts;
        match meant.map(|meant| meant.number) {
            Some(20..=22) => *stops += 1,
            Some(5 | 10..=12) => *terms += 1,
            Some(9) => *remembered += 1,
            Some(8) => *full += 1,
            _ => (),
        }
        refusal == meant
    }

    fn accept(&mut self, change: &Change, told: &Told) -> Result<(), String> {
        let since = self.last.time;
        if told.time < since {
            return Err(format!("the time falls to {}", told.time));
        }
        match self.last.run.and_then(|identifier| self.stays.get_mut(&identifier)) {
            Some(stay) => stay.hold(since, told.time, self.counts),
            None => self.idle += told.time - since,
        }
        self.check_total(told);
        self.stays.values_mut().for_each(|stay| stay.pass(since, told.time));
        self.change(change, told.time)?;
        self.last = told.clone();
        self.compare_usable(told)?;
        self.check_choice(told)?;
        self.check_timer(told)
    }

    /// Behind a wrong total the next ones are not looked at, but all else is: it has sentences of
    /// its own.
    fn check_total(&mut self, told: &Told) {
        if self.wrong_total.is_none() {
            let checked = self.late.check(&self.stays, self.last.time, told, self.counts);
            self.wrong_total = checked.err();
        }
    }

    fn change(&mut self, change: &Change, now: u64) -> Result<(), String> {
        match change {
            Change::Admit(description) => {
                let identifier = description.identifier;
                self.counts.back += u64::from(self.ended.contains_key(&identifier));
                self.counts.in_time += u64::from(self.until.get(&identifier) == Some(&now));
                self.stays.insert(identifier, Stay::new(description, now)?);
            }
            Change::Remove(identifier) => self.end(*identifier, now),
            Change::Wake(identifier) => self.leave(identifier, true),
            Change::Block(identifier) => self.leave(identifier, false),
            Change::Tick => (),
        }
        Ok(())
    }

    /// No earlier stay can ask for more time: the identifier came back when that was over.
    fn end(&mut self, identifier: u32, now: u64) {
        let Some(stay) = self.stays.remove(&identifier) else { return };
        self.late.end(&stay, &self.stays, now);
        match stay.remembered_until(now) {
            Some(until) => self.until.insert(identifier, until),
            None => self.until.remove(&identifier),
        };
        self.ended.entry(identifier).or_default().push(stay);
    }

    fn leave(&mut self, identifier: &u32, runnable: bool) {
        if let Some(stay) = self.stays.get_mut(identifier) {
            stay.leave(runnable);
        }
    }

    /// A budget that is not told shows in this: with ticks it would run.
    fn check_choice(&mut self, told: &Told) -> Result<(), String> {
        let chosen = told.run.and_then(|identifier| self.stays.get(&identifier)).map(Stay::urgency);
        let before = |stay: &&Stay| chosen.is_none_or(|urgency| stay.urgency() < urgency);
        self.counts.choices += 1;
        match self.stays.values().filter(before).find(|stay| stay.is_able(told.time)) {
            Some(stay) => Err(format!("{} waits with usable ticks at {}", stay.identifier, told.time)),
            None => Ok(()),
        }
    }

    /// No call may be later than the timer, so one that is not ahead would let no time pass.
    fn check_timer(&mut self, told: &Told) -> Result<(), String> {
        let Some(timer) = told.timer else { return Ok(()) };
        self.counts.timers += 1;
        match timer > told.time {
            true => Ok(()),
            false => Err(format!("the timer {timer} is not later than its line at {}", told.time)),
        }
    }

    /// Of all stays, those that last too.
    fn check_held(self) -> Result<(), String> {
        let View { stays, mut ended, counts, .. } = self;
        for (identifier, stay) in stays {
            ended.entry(identifier).or_default().push(stay);
        }
        ended.values().try_for_each(|stays| stays::check_all(stays, counts))
    }

    fn compare_usable(&mut self, told: &Told) -> Result<(), String> {
        let Some(identifier) = told.run else { return Ok(()) };
        let Some(stay) = self.stays.get(&identifier) else {
            return Err(format!("{identifier} runs and is not on the card"));
        };
        if stay.folded {
            return Ok(());
        }
        stay.of_kind(self.counts).usable += 1;
        let usable = stay.usable(told.time);
        if usable != told.usable {
            return Err(format!(
                "{identifier} has {usable} usable ticks at {}, told are {}",
                told.time, told.usable
            ));
        }
        Ok(())
    }
}

pub fn view(counts: &mut Counts) -> View<'_> {
    let (stays, ended, until, last, late) = Default::default();
    View { stays, ended, until, last, idle: 0, late, wrong_total: None, counts }
}

pub fn check_run(run: &Run, output: &str, counts: &mut Counts) -> Result<(), String> {
    let lines: Vec<&str> = output.lines().collect();
    if lines.len() != run.records.len() {
        return Err(format!("{} lines for {} records", lines.len(), run.records.len()));
    }
    let mut view = view(counts);
    let (mut offset, mut wrong_total) = (0, Ok(()));
    for (place, (record, line)) in run.records.iter().zip(lines).enumerate() {
        let told = |error: &String| format!("record {}: {error}", place + 1);
        view.take(record, offset, line).map_err(|error| told(&error))?;
        offset += record.len() as u64;
        wrong_total = wrong_total.and(view.wrong_total.as_ref().map_or(Ok(()), |error| Err(told(error))));
    }
    view.check_held().and(wrong_total)
}

/// What was held alone, whatever was refused.
#[cfg(test)]
pub fn check_held(run: &Run, output: &str) -> Result<(), String> {
    let mut counts = Counts::default();
    let mut view = view(&mut counts);
    for (record, line) in run.records.iter().zip(output.lines()) {
        view.follow(record, read_line(line)?)?;
    }
    view.check_held()
}

/// Short runs: 40 to 120 calls, and what stands between them and before.
pub fn run_at(seed: u64, place: u64) -> Run {
    generate::run(seed ^ 0x5eed, place, 40 + place % 81, &mut Reached::default())
}

pub fn run(plan: &Plan) -> Result<String, String> {
    let mut counts = Counts::default();
    for place in 0..plan.runs {
        let run = run_at(plan.seed, place);
        let output = pipe::feed(&plan.program, &run.input())?;
        let output = String::from_utf8_lossy(&output);
        check_run(&run, &output, &mut counts)
            .map_err(|error| format!("seed {}, run {place}: {error}", plan.seed))?;
    }
    tell(&counts, plan.runs)
}

fn tell(counts: &Counts, runs: u64) -> Result<String, String> {
    for (name, kind) in KINDS.iter().zip(&counts.kinds) {
        let OfKind { stays, windows, above, across, over, rounds, usable, brought } = kind;
        println!(
            "{name}: {stays} stays, {windows} windows, {above} with more than C, {across} with ticks of two \
             stays, {over} over a stay of other terms, {rounds} rounds, {usable} usable ticks, {brought} times \
             ticks come back"
        );
    }
    let Counts { choices, timers, stops, terms, ticks, folds, cuts, totals, late, .. } = counts;
    let Counts { remembered, back, in_time, full, .. } = counts;
    println!("{ticks} ticks held, {folds} stays with a fold, {cuts} cut slices");
    println!("{back} came back, {in_time} of them at their very time, {remembered} too early, {full} to a full card");
    println!("{choices} lines at which nobody waits with ticks, {timers} timers later than their line");
    println!("{totals} totals of ticks that come back, {late} with ticks that a fold had made late");
    println!("{stops} bad records told by their offset, {terms} admits refused by their terms");
    let missing = missing(counts);
    if !missing.is_empty() {
        return Err(format!("not met: {}", missing.join(", ")));
    }
    let all = |count: fn(&OfKind) -> u64| -> u64 { counts.kinds.iter().map(count).sum() };
    let (windows, rounds) = (all(|kind| kind.windows), all(|kind| kind.rounds));
    let usable = all(|kind| kind.usable);
    Ok(format!(
        "outside: {runs} runs, {windows} windows and {rounds} rounds hold, {usable} usable ticks and {totals} \
         totals agree"
    ))
}

/// A count of nothing is a case not met. A sporadic one has no rounds and holds no more than
/// C in a window; a polling one that runs late in a round may hold C again in the next, but one
/// that comes back at its boundary has no ticks before the next one: no window has both stays.
fn missing(counts: &Counts) -> Vec<String> {
    let Counts { choices, timers, stops, terms, ticks, folds, cuts, totals, late, .. } = *counts;
    let lines = [(choices, "choices"), (timers, "timers"), (stops, "bad records"), (terms, "bad terms")];
    let plain = [(ticks, "ticks"), (folds, "folds"), (cuts, "cuts")];
    let plain = plain.into_iter().chain([(totals, "totals"), (late, "totals with late ticks")]);
    let Counts { remembered, back, in_time, full, .. } = *counts;
    let returns =
        [(back, "returns"), (in_time, "returns in time"), (remembered, "remembered"), (full, "full")];
    let all = lines.into_iter().chain(plain).chain(returns);
    let mut asked: Vec<(u64, String)> = all.map(|(count, what)| (count, what.to_string())).collect();
    for (name, kind) in KINDS.iter().zip(&counts.kinds) {
        let OfKind { stays, windows, above, across, over, rounds, usable, brought } = *kind;
        let mut of_kind = vec![(stays, "stays"), (windows, "windows"), (usable, "usable ticks")];
        of_kind.push((brought, "ticks that come back"));
        if *name != "sporadic" {
            of_kind.extend([(above, "windows with more than C"), (rounds, "rounds")]);
        }
        if *name != "polling" {
            of_kind.extend([(across, "windows of two stays"), (over, "windows over other terms")]);
        }
        asked.extend(of_kind.into_iter().map(|(count, what)| (count, format!("{name} {what}"))));
    }
    asked.into_iter().filter(|(count, _)| *count == 0).map(|(_, what)| what).collect()
}

#[cfg(test)]
mod tests {
    use super::*;

    #[test]
    fn the_own_lines_pass_and_spoilt_ones_do_not() {
        let mut counts = Counts::default();
        let (mut more, mut runs) = (0, 0);
        for place in 0..200 {
            let run = run_at(1, place);
            assert_eq!(check_run(&run, &run.output(), &mut counts), Ok(()));
            let spoilt: Vec<String> = run.lines.iter().map(|line| more_usable(line)).collect();
            more += usize::from(check_run(&run, &spoilt.concat(), &mut counts).is_err());
            runs += usize::from(spoilt != run.lines);
        }
        assert!(runs > 100 && more == runs, "{more} of {runs}");
        assert_eq!(missing(&counts), [""; 0]);
    }

    #[test]
    fn a_line_has_its_numbers_and_no_more() {
        let right = "ok 35 - 0 - 0";
        assert!(read_line(right).is_ok_and(|line| line.is_ok_and(|told| told.total == 0)));
        for wrong in ["ok 35 - 0 -", "ok 35 - 0 - -", "ok 35 - 0 - 0 0", "ok 35 - 0 - ", "no 7 0 0", "no 7"] {
            assert!(read_line(wrong).is_err(), "{wrong}");
        }
    }

    /// A total of one tick more, or of one less, is found out where it stands.
    #[test]
    fn another_total_is_seen_where_it_stands() {
        let (mut seen, mut changed) = (0, 0);
        for run in (0..200).map(|place| run_at(1, place)) {
            for more in [1, -1] {
                let told = |line: &String| read_line(line.trim_end()).is_ok_and(|told| told.is_ok());
                let Some(place) = (run.lines.len() / 2..run.lines.len()).find(|&at| told(&run.lines[at]))
                else {
                    continue;
                };
                let (front, total) = run.lines[place].trim_end().rsplit_once(' ').unwrap();
                let total = total.parse::<u64>().unwrap().checked_add_signed(more);
                let Some(total) = total else { continue };
                let mut lines = run.lines.clone();
                lines[place] = format!("{front} {total}\n");
                let fault = check_run(&run, &lines.concat(), &mut Counts::default()).err();
                let here = format!("record {}: {total} ticks are told to come back", place + 1);
                seen += usize::from(fault.is_some_and(|fault| fault.starts_with(&here)));
                changed += 1;
            }
        }
        assert!(changed > 200 && seen == changed, "{seen} of {changed}");
    }

    fn all_met() -> Counts {
        let (stays, windows, above, across, over) = (1, 1, 1, 1, 1);
        let (rounds, usable, brought) = (1, 1, 1);
        let kinds = KINDS.map(|_| OfKind { stays, windows, above, across, over, rounds, usable, brought });
        let (choices, timers, totals, late) = (1, 1, 1, 1);
        let (stops, terms, remembered, back, in_time, full) = (1, 1, 1, 1, 1, 1);
        let lines = Counts { choices, timers, totals, late, stops, terms, ..Counts::default() };
        Counts { kinds, remembered, back, in_time, full, ticks: 1, folds: 1, cuts: 1, ..lines }
    }

    #[test]
    fn a_run_that_reaches_less_fails() {
        assert!(tell(&all_met(), 1).is_ok());
        for (place, name) in KINDS.iter().enumerate() {
            let mut counts = all_met();
            counts.kinds[place] = OfKind::default();
            let lost = missing(&counts);
            assert!(lost.iter().all(|what| what.starts_with(name)), "{lost:?}");
            assert_eq!(lost.len(), if *name == "deferrable" { 8 } else { 6 });
            assert!(tell(&counts, 1).is_err());
        }
        for less in [Counts { totals: 0, ..all_met() }, Counts { late: 0, ..all_met() }] {
            assert!(tell(&less, 1).is_err_and(|missing| missing.contains("totals")));
        }
    }

    /// Another refusal, from the right one's detail.
    type Other = fn(u64) -> (u32, u64);

    /// For those with a number.
    const OTHERWISE: [(u32, Other); 13] = [
        (20, |_| (20, 0)),
        (20, |at| (20, at + 1)),
        (20, |at| (22, at)),
        (21, |_| (21, 0)),
        (21, |at| (22, at)),
        (22, |at| (22, at + 3)),
        (22, |at| (21, at)),
        (5, |_| (11, 0)),
        (11, |_| (5, 0)),
        (11, |_| (12, 0)),
        (12, |_| (12, 1)),
        (10, |_| (6, 0)),
        (6, |_| (5, 0)),
    ];

    /// The first line that is changed is where a run is found out.
    #[test]
    fn a_refusal_that_the_records_do_not_bear_out_is_seen() {
        for (number, other) in OTHERWISE {
            let otherwise = |line: &String| match read_line(line.trim_end()) {
                Ok(Err(refusal)) if refusal.number == number => {
                    let (number, detail) = other(refusal.detail);
                    format!("no {number} {detail}\n")
                }
                _ => line.clone(),
            };
            let mut seen = 0;
            for run in (0..200).map(|place| run_at(1, place)) {
                let lines: Vec<String> = run.lines.iter().map(otherwise).collect();
                let Some(place) = (0..lines.len()).find(|&at| lines[at] != run.lines[at]) else { continue };
                let fault = check_run(&run, &lines.concat(), &mut Counts::default()).unwrap_err();
                assert!(fault.starts_with(&format!("record {}: ", place + 1)), "{number}: {fault}");
                seen += 1;
            }
            assert!(seen > 5, "{number}: {seen}");
        }
    }

    /// One usable tick more than there is.
    fn more_usable(line: &str) -> String {
        let mut words: Vec<String> = line.split(' ').map(str::to_string).collect();
        if words[0] == "ok" && words[2] != "-" {
            words[3] = (words[3].parse::<u64>().unwrap() + 1).to_string();
        }
        words.join(" ")
    }
}
