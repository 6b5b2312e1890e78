//! The in-place schedulers that the proved programs are timed against.

mod call;
mod front;
mod generator;
mod lines;
mod plain;
mod records;
mod sizing;
mod twin;
#[cfg(test)]
mod usage;

use call::{Change, Reply, Scheduler};
use generator::Plan;
use std::fs::File;
use std::hint::black_box;
use std::io::{self, Write};
use std::os::fd::AsFd;

const USAGE: &str = "usage: bench COMMAND
  calls plain|twin      the program `pace` in place: its fifteen digits from standard input
  card plain|twin       the program `card` in place: event records to lines
  records N MIX CALLS   the calls of `calls` as event records (MIX: 0 mixed, 1 busy, 2 thirds,
                        3 leaving, 4 to 6 with gaps, so that 2, 4 or 8 fall due at once)
  sizing twin           the program `sizing` in place: best and aligned best queries alone
  time-sizing PROGRAM [--seed S] [--families N] [--changes N] [--rounds N] [--plain S] [--full 1]";

/// The fifteen digits: four for the VCPUs, one for the mix, ten for the calls.
fn asked() -> Option<Plan> {
    let text = io::read_to_string(io::stdin()).ok()?;
    let number = |from: usize, to: usize| text.get(from..to)?.parse().ok();
    Some(Plan {
        vcpus: number(0, 4)?,
        mix: number(4, 5)?,
        calls: number(5, 15)?,
    })
}

/// No reply shows the totals. They are read here, once, so that keeping them is not left out.
fn read_totals(core: &impl Scheduler) {
    black_box(core.totals());
}

/// A call on a copy. Reading its totals would cost more than keeping them: it is only looked at.
fn aside(core: &(impl Scheduler + Clone), now: u64, change: Change) -> Reply {
    let mut copy = core.clone();
    let reply = copy.turn(now, change);
    black_box(&copy);
    reply
}

fn calls(mut core: impl Scheduler + Clone) -> io::Result<()> {
    let plan = asked().ok_or(io::Error::other("fifteen digits are wanted"))?;
    let mut left = plan.in_turn();
    let seen = generator::run(plan, |now, change| {
        if left == 0 {
            return aside(&core, now, change);
        }
        left -= 1;
        core.turn(now, change)
    });
    read_totals(&core);
    println!("{seen}");
    Ok(())
}

/// Standard input and output without a buffer of the library's own.
fn card(mut core: impl Scheduler) -> io::Result<()> {
    let from = File::from(io::stdin().as_fd().try_clone_to_owned()?);
    let to = File::from(io::stdout().as_fd().try_clone_to_owned()?);
    front::run(&mut core, from, to)?;
    read_totals(&core);
    Ok(())
}

fn records(words: &[&str]) -> io::Result<()> {
    let numbers: Vec<u64> = words.iter().filter_map(|word| word.parse().ok()).collect();
    let &[vcpus, mix @ 0..=6, calls] = &numbers[..] else {
        return Err(io::Error::other(USAGE));
    };
    let mut core = plain::Core::empty();
    let mut bytes = Vec::new();
    generator::run(Plan { vcpus, mix, calls }, |now, change| {
        records::write(now, change, &mut bytes);
        core.turn(now, change)
    });
    io::stdout().write_all(&bytes)
}

fn run(words: &[&str]) -> io::Result<()> {
    match words {
        ["calls", "plain"] => calls(plain::Core::empty()),
        ["calls", "twin"] => calls(twin::Core::empty()),
        ["card", "plain"] => card(plain::Core::empty()),
        ["card", "twin"] => card(twin::Core::empty()),
        ["records", numbers @ ..] => records(numbers),
        ["sizing", "twin"] => sizing::answer(),
        ["time-sizing", options @ ..] => sizing::time(options, USAGE),
        _ => Err(io::Error::other(USAGE)),
    }
}

fn main() {
    let words: Vec<String> = std::env::args().skip(1).collect();
    let words: Vec<&str> = words.iter().map(String::as_str).collect();
    if let Err(error) = run(&words) {
        eprintln!("{error}");
        std::process::exit(1);
    }
}
