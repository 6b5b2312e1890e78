//! Sizing: the best interface by the algorithm of `shares` in place and by the plain reading,
//! which is the second program's own.

mod bad_lists;
mod plain_work;
mod timing;
mod twin;

use second::options::Options;
use std::io;

/// `time-sizing` with the words behind it, of which the usage says what they may be.
pub fn time(words: &[&str], usage: &str) -> io::Result<()> {
    let words: Vec<String> = words.iter().map(|word| word.to_string()).collect();
    let timed = Options::read(&words, usage).and_then(|options| timing::run(&plan(&options)?));
    println!("{}", timed.map_err(io::Error::other)?);
    Ok(())
}

fn plan(options: &Options) -> Result<timing::Plan, String> {
    Ok(timing::Plan {
        program: options.program()?,
        seed: options.number("seed", 1),
        families: options.number("families", 500),
        changes: options.number("changes", 200),
        rounds: options.number("rounds", 15),
        plain: options.number("plain", 6),
        full: options.number("full", 0) != 0,
    })
}

/// `sizing twin`: best queries alone, of either form, to try the timing on.
pub fn answer() -> io::Result<()> {
    twin::run(io::stdin().lock(), io::stdout().lock())
}
