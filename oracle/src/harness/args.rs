//! The words on a program's command line.

use std::fmt::Display;
use std::process::exit;

/// The words, read one after another.
#[derive(Debug)]
pub struct Args {
    words: std::iter::Skip<std::env::Args>,
    usage: &'static str,
}

impl Args {
    /// The words of this program, whose usage is `usage`.
    pub fn new(usage: &'static str) -> Self {
        Self {
            words: std::env::args().skip(1),
            usage,
        }
    }

    /// The next word. `--help` prints the usage and ends the program.
    pub fn next_word(&mut self) -> Option<String> {
        let word = self.words.next()?;
        if word == "--help" || word == "-h" {
            println!("{}", self.usage);
            exit(0);
        }
        Some(word)
    }

    /// The value after the option `name`.
    pub fn value(&mut self, name: &str) -> String {
        match self.next_word() {
            Some(word) => word,
            None => self.fail(format!("{name} needs a value")),
        }
    }

    /// The number after the option `name`.
    pub fn number(&mut self, name: &str) -> u64 {
        let word = self.value(name);
        match word.parse() {
            Ok(number) => number,
            Err(_) => self.fail(format!("{name} needs a number, not {word}")),
        }
    }

    /// Ends the program: bad usage.
    pub fn fail(&self, why: impl Display) -> ! {
        eprintln!("{why}\n\n{}", self.usage);
        exit(2);
    }
}
