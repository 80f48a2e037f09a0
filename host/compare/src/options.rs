//! The words that a program of this folder is called with, and its way out.

use std::process::ExitCode;
use std::slice::Iter;

/// What stands behind a word.
pub struct Behind<'a>(Iter<'a, String>);

impl<'a> Behind<'a> {
    /// The next word, or none.
    pub fn word(&mut self) -> Option<&'a str> {
        self.0.next().map(String::as_str)
    }

    /// The next word as a number; where there is none, it is said of `shown` that it wants one.
    pub fn number(&mut self, shown: &str) -> Result<u64, String> {
        number(self.word().ok_or(format!("{shown} wants a number"))?)
    }
}

/// A word as a number.
pub fn number(word: &str) -> Result<u64, String> {
    word.parse().map_err(|_| format!("`{word}` is no number"))
}

/// Gives each word to `take`, with what stands behind it; `take` says whether it knows the word.
pub fn read<'a>(
    words: &'a [String],
    help: &str,
    mut take: impl FnMut(&'a str, &mut Behind<'a>) -> Result<bool, String>,
) -> Result<(), String> {
    let mut behind = Behind(words.iter());
    while let Some(word) = behind.word() {
        if !take(word, &mut behind)? {
            return Err(format!("`{word}` is not known\n{help}"));
        }
    }
    Ok(())
}

/// What the programs that make runs of random steps are asked for: how many, from which seed, and
/// of how many code points the texts of the small cases are at most.
pub struct Runs {
    pub runs: u64,
    pub seed: u64,
    pub small: usize,
}

impl Runs {
    /// This, but for what the words say otherwise.
    pub fn read(mut self, words: &[String], help: &str) -> Result<Runs, String> {
        read(words, help, |word, behind| {
            match word {
                "--runs" => self.runs = behind.number(word)?,
                "--seed" => self.seed = behind.number(word)?,
                "--small" => self.small = behind.number(word)? as usize,
                _ => return Ok(false),
            }
            Ok(true)
        })?;
        Ok(self)
    }
}

/// What the programs that go through all inputs and random ones are asked for: how many random
/// ones, from which seed, and whether a part of all inputs will do.
pub struct Cases {
    pub cases: u64,
    pub seed: u64,
    pub short: bool,
}

impl Cases {
    /// This, but for what the words say otherwise.
    pub fn read(mut self, words: &[String], help: &str) -> Result<Cases, String> {
        read(words, help, |word, behind| {
            let shown = format!("`{word}`");
            match word {
                "--cases" => self.cases = behind.number(&shown)?,
                "--seed" => self.seed = behind.number(&shown)?,
                "--short" => self.short = true,
                _ => return Ok(false),
            }
            Ok(true)
        })?;
        Ok(self)
    }
}

/// Runs a program: with `--help` it says how it is called. Else it runs `done` on its words, and
/// ends with 0 where that answers true, with 1 where it answers false, and with 2 where it says why
/// it did not run.
pub fn program(name: &str, help: &str, done: impl FnOnce(&[String]) -> Result<bool, String>) -> ExitCode {
    let words: Vec<String> = std::env::args().skip(1).collect();
    if words.first().is_some_and(|word| word == "--help") {
        println!("{help}");
        return ExitCode::SUCCESS;
    }
    match done(&words) {
        Ok(true) => ExitCode::SUCCESS,
        Ok(false) => ExitCode::from(1),
        Err(why) => {
            eprintln!("{name}: {why}");
            ExitCode::from(2)
        }
    }
}
