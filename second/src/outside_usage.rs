//! `outside-usage`: the totals that a usage program tells, beside those that a card's lines say for
//! the same records: no other card is asked. From one accepted line to the next the one that the
//! first names holds the core; who is on the card follows from the admits and removals accepted.

use crate::compare_usage::{first_difference, Again, Difference};
use crate::outside::{self, read_line, View};
use crate::pipe;
use crate::reached::Reached;
use crate::refusal::Refusal;
use crate::seen_cases::{self, Watch};
use crate::seen_totals;
use crate::stays::Counts;
use crate::usage_lines::{Told, Totals};
use crate::usage_runs::{self, Sent};

pub struct Plan {
    pub card: String,
    pub usage: String,
    pub seed: u64,
    pub runs: u64,
    pub list: bool,
}

/// What the card has answered so far.
struct Seen<'a> {
    view: View<'a>,
    watch: Watch,
    /// What ended the reading.
    stopped: Option<Refusal>,
}

impl Seen<'_> {
    fn take(&mut self, record: &[u8], line: &str) -> Result<(), String> {
        let told = read_line(line)?;
        self.watch.take(&self.view, record, &told);
        self.stopped = told.as_ref().err().copied().filter(|refusal| (20..=22).contains(&refusal.number));
        self.view.follow(record, told)?;
        self.view.wrong_total.clone().map_or(Ok(()), Err)
    }

    /// What is told here, if it is what the lines say.
    fn judge(&self, output: &[u8]) -> Result<Totals, String> {
        let told = Told::read(&String::from_utf8_lossy(output))?.totals;
        let meant = seen_totals::meant(&self.view, self.stopped, &told);
        first_difference(&meant, output).map_or(Ok(told), Err)
    }

    fn note(&self, told: &Totals, to: &mut Reached) {
        self.watch.note(&self.view, told, self.stopped, to);
    }
}

/// All ends of an input, and each with late ticks, which few have, each for a fresh start of the
/// program: how many they are, or the first one at which it is wrong. The card's lines for a front
/// of the input are the first of its lines.
pub fn compare(
    sent: &Sent,
    lines: &str,
    program: impl Fn(&[u8]) -> Result<Vec<u8>, String>,
    reached: &mut Reached,
) -> Result<u64, Difference> {
    let (records, lines) = (sent.records(usize::MAX), lines.lines().collect::<Vec<_>>());
    if lines.len() != records.len() {
        let what = format!("the card has {} lines for {} records", lines.len(), records.len());
        return Err(Difference { end: records.len(), what });
    }
    let mut counts = Counts::default();
    let (view, watch) = (outside::view(&mut counts), Watch::default());
    let (mut seen, mut count) = (Seen { view, watch, stopped: None }, 0);
    for end in 0..=records.len() {
        let wrong = |what| Difference { end, what };
        if let Some(place) = end.checked_sub(1) {
            let taken = seen.take(&records[place], lines[place]);
            taken.map_err(|error| wrong(format!("the card's line: {error}")))?;
        }
        if sent.ends.contains(&end) || seen.view.late.has_ticks() {
            let judged = program(&sent.input(end)).and_then(|output| seen.judge(&output));
            seen.note(&judged.map_err(wrong)?, reached);
            reached.add(if end == records.len() { "sent: whole" } else { "sent: cut short" });
            count += 1;
        }
    }
    Ok(count)
}

pub fn run(plan: &Plan) -> Result<String, String> {
    let Plan { card, usage, seed, runs, list } = plan;
    let (mut reached, mut ends) = (Reached::default(), 0);
    for place in 0..*runs {
        let sent = usage_runs::of_outside(*seed, place);
        let lines = pipe::feed(card, &sent.input(usize::MAX))?;
        let lines = String::from_utf8_lossy(&lines);
        let compared = compare(&sent, &lines, |input| pipe::feed(usage, input), &mut reached);
        let again = Again { command: "outside-run", seed: *seed, place, program: usage };
        ends += compared.map_err(|difference| again.told(&sent, &difference))?;
    }
    let cases = seen_cases::asked();
    reached.demand(&cases, *seed, *list)?;
    Ok(format!(
        "outside-usage: {runs} runs, {ends} outputs are what the card's lines say, {} cases reached",
        cases.len()
    ))
}

#[cfg(test)]
mod tests {
    use super::*;
    use crate::lines;
    use crate::wrong_usages::{self, Fault};

    /// The inputs of the first runs, and a right card's lines for each.
    fn inputs(seed: u64, runs: u64) -> Vec<(Sent, String)> {
        let answered = |sent: Sent| {
            let mut output = Vec::new();
            lines::run(&sent.input(usize::MAX)[..], &mut output).unwrap();
            (sent, String::from_utf8(output).unwrap())
        };
        (0..runs).map(|place| answered(usage_runs::of_outside(seed, place))).collect()
    }

    fn first_seen(inputs: &[(Sent, String)], fault: Fault, reached: &mut Reached) -> Option<usize> {
        let program = |input: &[u8]| Ok(wrong_usages::told(input, fault).lines().into_bytes());
        inputs.iter().position(|(sent, lines)| compare(sent, lines, program, reached).is_err())
    }

    #[test]
    fn right_sums_pass_and_meet_every_case() {
        for seed in 1..=3 {
            let mut reached = Reached::default();
            assert_eq!(first_seen(&inputs(seed, 400), Fault::None, &mut reached), None, "seed {seed}");
            assert_eq!(reached.missing(&seen_cases::asked()), Vec::<String>::new(), "seed {seed}");
        }
    }

    /// But for what takes thousands of calls or all the places at once.
    #[test]
    fn faults_are_seen_from_outside() {
        let inputs = inputs(1, 400);
        for fault in wrong_usages::faults().into_iter().filter(|fault| !fault.takes_a_script()) {
            assert!(first_seen(&inputs, fault, &mut Reached::default()).is_some(), "{fault:?}");
        }
    }

    #[test]
    fn a_card_without_a_line_or_with_a_wrong_one_is_no_measure() {
        let (sent, lines) = inputs(1, 1).remove(0);
        let program = |input: &[u8]| Ok(wrong_usages::told(input, Fault::None).lines().into_bytes());
        let fault = |lines: &str| compare(&sent, lines, program, &mut Reached::default()).unwrap_err().what;
        let (front, _) = lines.trim_end().rsplit_once('\n').unwrap();
        assert!(fault(front).contains(" lines for "));
        assert!(fault(&lines.replacen("ok", "OK", 1)).contains("no line of the card"));
    }
}
