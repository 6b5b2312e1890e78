//! `compare-sales`: the given program and this one on the same questions and sheets, one start of
//! the program for each.

use crate::compare_sizing::{agree, shown, Plan};
use crate::pipe::{self, Part};
use crate::reached::Reached;
use crate::sales;
use crate::sales_cases;
use crate::sales_inputs::{self, Inputs, Sent};

/// How an input is sent.
#[derive(Clone, Copy, PartialEq, Debug)]
pub enum Way {
    Whole,
    /// In parts of so many bytes over a pipe, which closes behind the last.
    Parts(usize),
    /// Each part is what one read gives, and behind the end the input stays open.
    Reads(usize),
}

/// In parts of other lengths one time in four, by turns. What one read gives must not be more than
/// a program has room for, so that longer inputs go over a pipe.
fn way(place: usize, input: &[u8]) -> Way {
    let length = [1, 2, 7, 40][place / 8 % 4];
    match place % 8 {
        3 if input.len() < 1000 => Way::Parts(length),
        3 => Way::Parts(4093),
        5 if input.len() < 1000 => Way::Reads(length),
        _ => Way::Whole,
    }
}

fn send(plan: &Plan, way: Way, input: &[u8]) -> Result<Vec<u8>, String> {
    let command = [&plan.program[..]];
    let parts = |length| input.chunks(length).map(|part| (part.to_vec(), 0)).collect::<Vec<Part>>();
    match way {
        Way::Whole => pipe::feed(&plan.program, input),
        Way::Parts(length) => pipe::talk(&command, &parts(length)),
        Way::Reads(length) => {
            let end = (Vec::new(), 0);
            pipe::talk_in_reads(&command, &[parts(length), vec![end]].concat(), plan.wait)
        }
    }
}

/// All the inputs of a seed.
pub fn inputs(seed: u64, count: u64) -> Vec<Sent> {
    let (mut all, mut random) = (sales_inputs::fixed(), Inputs::new(seed));
    let more = count.saturating_sub(all.len() as u64);
    all.extend((0..more).map(|_| random.next()));
    all
}

/// Each input is sent in its way. The first on which the program differs is told.
pub fn compare(
    all: &[Sent],
    program: impl Fn(Way, &[u8]) -> Result<Vec<u8>, String>,
    reached: &mut Reached,
) -> Result<(), String> {
    for (place, sent) in all.iter().enumerate() {
        let way = way(place, &sent.input);
        let what = format!("input {place} \"{}\", {way:?}", shown(&sent.input));
        let mine = sales::answer(&sent.input);
        let theirs = program(way, &sent.input).map_err(|error| format!("{what}: {error}"))?;
        agree(&what, &theirs, &mine)?;
        sales_cases::note(sent, &mine, reached);
        reached.add(match way {
            Way::Whole => "sent whole",
            Way::Parts(_) => "sent in parts",
            Way::Reads(_) => "sent in reads",
        });
    }
    Ok(())
}

fn asked() -> Vec<String> {
    let ways = ["sent whole", "sent in parts", "sent in reads"];
    [sales_cases::asked(), ways.map(str::to_string).into()].concat()
}

pub fn run(plan: &Plan) -> Result<String, String> {
    let (all, mut reached) = (inputs(plan.seed, plan.count), Reached::default());
    let compared = compare(&all, |way, input| send(plan, way, input), &mut reached);
    compared.map_err(|difference| format!("seed {}: {difference}", plan.seed))?;
    let cases = asked();
    reached.demand(&cases, plan.seed, plan.list)?;
    println!("{}", reached.refusals());
    Ok(format!("compare-sales: {} outputs agree, {} cases reached", all.len(), cases.len()))
}

#[cfg(test)]
mod tests {
    use super::*;

    fn own(_: Way, input: &[u8]) -> Result<Vec<u8>, String> {
        let mut output = Vec::new();
        sales::run(input, &mut output).map_err(|error| error.to_string())?;
        Ok(output)
    }

    #[test]
    fn the_usual_comparison_meets_every_case() {
        for seed in 1..=5 {
            let mut reached = Reached::default();
            compare(&inputs(seed, 3000), own, &mut reached).unwrap();
            assert_eq!(reached.missing(&asked()), Vec::<String>::new(), "seed {seed}");
        }
    }

    #[test]
    fn a_difference_shows_the_input() {
        let wrong = |_: Way, input: &[u8]| Ok([&sales::answer(input)[..], b"\n"].concat());
        let told = compare(&inputs(1, 0), wrong, &mut Reached::default()).unwrap_err();
        assert!(
            told.contains("input 0 \"least 20\\n20  1\\n\", Whole") && told.contains("no 37 1"),
            "{told}"
        );
    }
}
