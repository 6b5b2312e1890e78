//! The second program: an independent reading of the scope paper, and what compares
//! the proved programs with it.

mod aligned_cases;
mod aligned_facts;
mod brought;
mod card_cases;
mod compare_card;
mod compare_sales;
mod compare_sizing;
mod compare_usage;
mod endings;
mod ends;
mod generate;
mod harmonic;
mod held;
mod history;
mod kind_cases;
mod leaving;
mod lines;
mod long_lines;
mod offsets;
mod outside;
mod outside_usage;
mod picture;
#[cfg(test)]
mod plain_card;
mod queries;
mod query_cases;
mod reached;
mod records;
mod return_cases;
mod returns;
mod row_cases;
mod sales;
mod sales_cases;
mod sales_inputs;
mod script;
mod seen_cases;
mod seen_totals;
mod sheets;
mod sizing;
mod stay_cases;
mod stays;
mod total_cases;
mod totals;
mod turns;
mod usage_cases;
mod usage_facts;
mod usage_lines;
mod usage_runs;
mod usage_table;
mod ways;
mod words;
#[cfg(test)]
mod wrong_aligned;
#[cfg(test)]
mod wrong_cards;
#[cfg(test)]
mod wrong_memories;
#[cfg(test)]
mod wrong_replies;
#[cfg(test)]
mod wrong_returns;
#[cfg(test)]
mod wrong_sales;
#[cfg(test)]
mod wrong_sizings;
#[cfg(test)]
mod wrong_totals;
#[cfg(test)]
mod wrong_usages;

use options::Options;
use second::{options, pipe, random, refusal, shares};
use std::io::{self, IsTerminal, Read, Write};
use std::time::Duration;

const USAGE: &str = "usage: second COMMAND
from standard input to standard output:
  sizing      queries to answers, by the plain reading
  sales       a question and a sheet of the old tool to the answers in both forms
  card        event records to lines
  usage-lines event records to the totals at their end
  words       records in words to bytes, each line as it comes; # begins a comment; a bad
              line ends it with status 1, but at a terminal it is told and the next is read
  unwords     bytes to records in words
with the program to try:
  compare-sizing PROGRAM [--seed S] [--count N] [--list 1] [--wait S]
  compare-sales PROGRAM [--seed S] [--count N] [--list 1] [--wait S]
  compare-card PROGRAM [--seed S] [--records N] [--list 1] [--wait S]
  compare-usage PROGRAM [--seed S] [--runs N] [--list 1] [--wait S]
  ends-sizing PROGRAM [--wait S]
  ends-sales PROGRAM [--wait S]
  ends-card PROGRAM [--wait S]
  ends-usage PROGRAM [--wait S]
  outside PROGRAM [--seed S] [--runs N]
with the two programs to try together:
  outside-usage CARD-PROGRAM USAGE-PROGRAM [--seed S] [--runs N] [--list 1]
a picture of records in words, from standard input to standard output:
  picture PROGRAM
a table of who held the core, from records of standard input to standard output:
  usage PROGRAM
one run of a comparison, as records:
  run [--seed S] [--records N] [--run K] [--prefix N]
  outside-run [--seed S] [--run K] [--prefix N]
  usage-run [--seed S] [--run K] [--prefix N]";

fn main() {
    let words: Vec<String> = std::env::args().skip(1).collect();
    let command = words.first().map_or("", String::as_str);
    let behind = words.get(1..).unwrap_or(&[]);
    let named = |line: &&str| line.split_whitespace().next() == Some(command);
    let usage = USAGE.lines().find(named).unwrap_or("");
    if let Err(error) = Options::read(behind, usage).and_then(|options| run(command, &options)) {
        // `eprintln!` would panic where nobody takes it.
        writeln!(io::stderr(), "{error}").ok();
        std::process::exit(1);
    }
}

fn run(command: &str, options: &Options) -> Result<(), String> {
    match command {
        "compare-sizing" | "compare-sales" | "compare-card" | "compare-usage" | "ends-sizing"
        | "ends-sales" | "ends-card" | "ends-usage" | "outside" => {
            println!("{}", try_program(command, options)?);
            Ok(())
        }
        "outside-usage" => {
            println!("{}", try_both(options)?);
            Ok(())
        }
        "picture" => write_picture(options),
        "usage" => write_usage(options),
        "run" | "outside-run" | "usage-run" => write_run(command, options),
        _ => match filter(command) {
            // Nobody reads on, and whoever did knows why.
            Err(error) if error.kind() == io::ErrorKind::BrokenPipe => std::process::exit(1),
            ended => ended.map_err(|error| error.to_string())?,
        },
    }
}

/// A command from standard input to standard output.
fn filter(command: &str) -> io::Result<Result<(), String>> {
    let (input, mut output) = (io::stdin().lock(), io::stdout().lock());
    match command {
        "sizing" => sizing::run(input, output)?,
        "sales" => sales::run(input, output)?,
        "card" => lines::run(input, output)?,
        "usage-lines" => usage_lines::run(input, output)?,
        "words" => return words::run(input, output, io::stderr(), io::stdin().is_terminal()),
        "unwords" => {
            let bytes = input.bytes().collect::<io::Result<Vec<u8>>>()?;
            output.write_all(words::from_records(&bytes).as_bytes())?;
        }
        _ => return Ok(Err(USAGE.to_string())),
    }
    Ok(Ok(()))
}

fn try_program(command: &str, options: &Options) -> Result<String, String> {
    let program = options.program()?;
    let seed = options.number("seed", 1);
    let list = options.number("list", 0) != 0;
    let wait = Duration::from_secs(options.number("wait", pipe::PATIENCE.as_secs()));
    match command {
        "compare-sizing" => {
            let count = options.number("count", 200_000);
            compare_sizing::run(&compare_sizing::Plan { program, seed, count, list, wait })
        }
        "compare-sales" => {
            let count = options.number("count", 3000);
            compare_sales::run(&compare_sizing::Plan { program, seed, count, list, wait })
        }
        "compare-card" => {
            let records = options.number("records", compare_card::RECORDS);
            compare_card::run(&compare_card::Plan { program, seed, records, list, wait })
        }
        "compare-usage" => {
            let runs = options.number("runs", 2000);
            compare_usage::run(&compare_usage::Plan { program, seed, runs, list, wait })
        }
        "ends-sizing" => ends::sizing(&program, wait),
        "ends-sales" => ends::sales(&program, wait),
        "ends-card" => ends::card(&program, wait),
        "ends-usage" => ends::usage(&program, wait),
        _ => {
            let runs = options.number("runs", 10_000);
            outside::run(&outside::Plan { program, seed, runs })
        }
    }
}

fn try_both(options: &Options) -> Result<String, String> {
    let [card, usage] = options.programs()?;
    let (seed, runs) = (options.number("seed", 1), options.number("runs", 2500));
    let list = options.number("list", 0) != 0;
    outside_usage::run(&outside_usage::Plan { card, usage, seed, runs, list })
}

fn write_picture(options: &Options) -> Result<(), String> {
    let text = io::read_to_string(io::stdin()).map_err(|error| error.to_string())?;
    write_out(&picture::run(&options.program()?, &text)?)
}

fn write_usage(options: &Options) -> Result<(), String> {
    let program = options.program()?;
    let mut records = Vec::new();
    io::stdin().read_to_end(&mut records).map_err(|error| error.to_string())?;
    write_out(&usage_table::run(&program, &records)?)
}

/// `print!` would panic where the output cannot be written.
fn write_out(text: &str) -> Result<(), String> {
    io::stdout().write_all(text.as_bytes()).map_err(|error| error.to_string())
}

fn write_run(command: &str, options: &Options) -> Result<(), String> {
    let (seed, place) = (options.number("seed", 1), options.number("run", 0));
    let prefix = options.number("prefix", u64::MAX) as usize;
    let input = match command {
        "run" => {
            let records = options.number("records", compare_card::RECORDS);
            usage_runs::of_card(seed, records, place).input(prefix)
        }
        "outside-run" => usage_runs::of_outside(seed, place).input(prefix),
        _ => usage_runs::at(seed, place).input(prefix),
    };
    io::stdout().write_all(&input).map_err(|error| error.to_string())
}
