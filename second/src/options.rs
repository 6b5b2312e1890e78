//! The words behind a command: programs and named numbers, as the command's usage has them.

pub struct Options {
    programs: Vec<String>,
    numbers: Vec<(String, u64)>,
}

impl Options {
    /// `usage` is the command's line, with PROGRAM, for each of them, and [--NAME N] for what it takes.
    pub fn read(words: &[String], usage: &str) -> Result<Options, String> {
        let mut options = Options { programs: Vec::new(), numbers: Vec::new() };
        let mut words = words.iter();
        while let Some(word) = words.next() {
            let Some(name) = word.strip_prefix("--") else {
                options.add_program(word, usage)?;
                continue;
            };
            if !usage.contains(&format!("[--{name} ")) {
                return Err(format!("--{name} is unknown here"));
            }
            let value = words.next().and_then(|value| value.parse().ok());
            options.numbers.push((name.to_string(), value.ok_or(format!("--{name} wants a number"))?));
        }
        Ok(options)
    }

    fn add_program(&mut self, word: &str, usage: &str) -> Result<(), String> {
        match usage.matches("PROGRAM").count() {
            0 => Err(format!("{word} is a word too many")),
            most if self.programs.len() == most => Err(format!("{word} is one program too many")),
            _ => {
                self.programs.push(word.to_string());
                Ok(())
            }
        }
    }

    pub fn program(&self) -> Result<String, String> {
        self.programs().map(|[program]| program)
    }

    /// As many as the command's usage has.
    pub fn programs<const COUNT: usize>(&self) -> Result<[String; COUNT], String> {
        let all = self.programs.clone().try_into();
        all.map_err(|_| "the program to try is missing".to_string())
    }

    pub fn number(&self, name: &str, usual: u64) -> u64 {
        let given = self.numbers.iter().rev().find(|(given, _)| given == name);
        given.map_or(usual, |&(_, value)| value)
    }
}

#[cfg(test)]
mod tests {
    use super::*;

    fn read(words: &str, usage: &str) -> Result<Options, String> {
        Options::read(&words.split_whitespace().map(str::to_string).collect::<Vec<_>>(), usage)
    }

    #[test]
    fn a_command_takes_what_its_usage_has() {
        let usage = "  outside PROGRAM [--seed S] [--runs N]";
        let options = read("card --seed 3", usage).unwrap();
        assert_eq!((options.program(), options.number("seed", 1)), (Ok("card".to_string()), 3));
        assert_eq!(options.number("runs", 10), 10);
        for words in ["--count 5", "--seed", "--seed x", "a b"] {
            assert!(read(words, usage).is_err(), "{words}");
        }
        assert!(read("a", "  run [--seed S]").is_err());
        let both = |words| read(words, "  outside-usage CARD-PROGRAM USAGE-PROGRAM [--seed S]");
        let given = both("a --seed 3 b").and_then(|options| options.programs());
        assert_eq!(given, Ok(["a", "b"].map(str::to_string)));
        assert!(both("a").unwrap().programs::<2>().is_err() && both("a b c").is_err());
    }
}
