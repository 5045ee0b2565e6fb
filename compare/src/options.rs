//! The words on a program's command line: options in any order, each by itself or with a value.

use std::process::exit;

/// The options that were given.
pub struct Options {
    program: &'static str,
    given: Vec<(String, String)>,
}

impl Options {
    /// Reads the options. Those of `flags` stand alone, those of `valued` have a value behind them. Any other word ends the program with status 2.
    pub fn read(program: &'static str, flags: &[&str], valued: &[&str]) -> Options {
        let mut options = Options { program, given: Vec::new() };
        let mut words = std::env::args().skip(1);
        while let Some(word) = words.next() {
            let value = match (flags.contains(&word.as_str()), valued.contains(&word.as_str())) {
                (true, _) => String::new(),
                (_, true) => words.next().unwrap_or_else(|| options.stop(&format!("{} needs a value", word))),
                _ => options.stop(&format!("unknown option or word {}; compare/run --help says what there is", word)),
            };
            options.given.push((word, value));
        }
        options
    }

    /// Returns the value of an option, if it was given.
    pub fn value(&self, name: &str) -> Option<&str> {
        self.given.iter().rev().find(|(given, _)| given == name).map(|(_, value)| value.as_str())
    }

    /// Returns the number that an option has as its value; otherwise the one that is named here.
    pub fn number(&self, name: &str, otherwise: u64) -> u64 {
        let value = self.value(name);
        value.map_or(otherwise, |value| value.parse().unwrap_or_else(|_| self.stop(&format!("{} needs a number, and not {}", name, value))))
    }

    /// Ends the program: it was called in a wrong way.
    pub fn stop(&self, why: &str) -> ! {
        eprintln!("{}: {}", self.program, why);
        exit(2)
    }
}
