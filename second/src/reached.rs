//! Counts which cases a comparison has met.

use std::collections::{BTreeMap, HashMap};

#[derive(Default)]
pub struct Reached {
    counts: HashMap<String, u64>,
    refusals: BTreeMap<u32, u64>,
}

impl Reached {
    pub fn add(&mut self, case: impl AsRef<str>) {
        match self.counts.get_mut(case.as_ref()) {
            Some(count) => *count += 1,
            None => drop(self.counts.insert(case.as_ref().to_string(), 1)),
        }
    }

    pub fn add_if(&mut self, met: bool, case: &str) {
        if met {
            self.add(case);
        }
    }

    /// Counts all that another one has met, under other names.
    pub fn join(&mut self, prefix: &str, other: Reached) {
        for (case, count) in other.counts {
            *self.counts.entry(format!("{prefix}{case}")).or_default() += count;
        }
        for (number, count) in other.refusals {
            *self.refusals.entry(number).or_default() += count;
        }
    }

    /// Counts a refusal by its number.
    pub fn add_refusal(&mut self, number: u32) {
        *self.refusals.entry(number).or_default() += 1;
    }

    /// How often each number was given.
    pub fn refusals(&self) -> String {
        let told: Vec<String> =
            self.refusals.iter().map(|(number, count)| format!("{number}: {count}")).collect();
        format!("refusals by number: {}", told.join(", "))
    }

    pub fn count(&self, case: &str) -> u64 {
        self.counts.get(case).copied().unwrap_or(0)
    }

    /// Each case asked for and how often it was met.
    fn list(&self, asked: &[String]) {
        for case in asked {
            println!("{:>9} {case}", self.count(case));
        }
    }

    /// Fails where a case asked for was not met; they can be listed before that.
    pub fn demand(&self, asked: &[String], seed: u64, list: bool) -> Result<(), String> {
        if list {
            self.list(asked);
        }
        match &self.missing(asked)[..] {
            [] => Ok(()),
            missing => Err(format!("seed {seed}: cases not reached: {}", missing.join(", "))),
        }
    }

    /// The cases asked for that were not met.
    pub fn missing(&self, asked: &[String]) -> Vec<String> {
        asked.iter().filter(|case| self.count(case) == 0).cloned().collect()
    }
}
