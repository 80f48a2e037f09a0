//! The oracle at a prompt. `oracle help` says how.

use oracle::case::Case;
use oracle::generate::{self, Dice};
use std::io::{Read, Write};
use std::process::ExitCode;

const HELP: &str = "\
oracle case WORDS..            what the given Rust answers to one case, as oracle/src/case.rs writes it
oracle cases                   the same for each line of standard input
oracle random N SEED [CALL..]  N random cases of each call, with their answers
oracle replay [ROW]            the list that the program `replay` runs, or one of its rows in words
oracle rows N SEED             N random cases of each call as rows of numbers, and of those that `replay` leaves out
oracle session                 document 01's session, standard input to standard output";

fn answered(case: &Case) -> String {
    format!("{case} -> {}", case.answer())
}

fn run(words: &[String]) -> Result<(), String> {
    let mut out = std::io::stdout().lock();
    let mut print = |line: &str| writeln!(out, "{line}").map_err(|e| e.to_string());
    let number = |at: usize, what: &str| {
        let word = words.get(at).ok_or(format!("{what} is missing"))?;
        word.parse::<u64>().map_err(|_| format!("`{word}` is no number"))
    };
    let mut input = Vec::new();
    match words.first().map(String::as_str) {
        Some("case") => print(&answered(&words[1..].join(" ").parse()?)),
        Some("cases") => {
            std::io::stdin().read_to_end(&mut input).map_err(|e| e.to_string())?;
            let lines = String::from_utf8(input).map_err(|e| e.to_string())?;
            for (n, line) in lines.lines().enumerate() {
                print(&answered(&line.parse().map_err(|why| format!("line {}: {why}", n + 1))?))?;
            }
            Ok(())
        }
        Some("random") => {
            let (n, seed) = (number(1, "the number of cases")?, number(2, "the seed")?);
            for call in generate::calls(&words[3..])? {
                for index in 0..n {
                    print(&answered(&generate::random(call, &mut Dice::new(seed, index))))?;
                }
            }
            Ok(())
        }
        Some("rows") => {
            let (n, seed) = (number(1, "the number of cases")?, number(2, "the seed")?);
            let mut told = Ok(());
            oracle::random_rows::each(n as usize, seed, |row| {
                if told.is_ok() {
                    told = print(row);
                }
            });
            told
        }
        Some("replay") => {
            let list = oracle::replay::list();
            let Some(word) = words.get(1) else {
                return list.iter().try_for_each(|row| print(&row.numbers));
            };
            let at = word.parse::<usize>().ok().and_then(|n| n.checked_sub(1));
            let row = at.and_then(|at| list.get(at)).ok_or(format!("the list has no row `{word}`"))?;
            print(&row.words)
        }
        Some("session") => {
            std::io::stdin().read_to_end(&mut input).map_err(|e| e.to_string())?;
            std::io::stdout().write_all(&oracle::session::session(&input)).map_err(|e| e.to_string())
        }
        Some("help") => print(HELP),
        _ => Err(format!("usage:\n{HELP}")),
    }
}

fn main() -> ExitCode {
    let words: Vec<String> = std::env::args().skip(1).collect();
    match run(&words) {
        Ok(()) => ExitCode::SUCCESS,
        Err(why) => {
            eprintln!("oracle: {why}");
            ExitCode::from(2)
        }
    }
}
