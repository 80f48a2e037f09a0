//! The proved session against the one over the given Rust, input by input. `./compare --sessions --help` says how.

use compare::options;
use oracle::generate::Dice;
use oracle::session;
use std::process::ExitCode;
use tsivareza::Printer;

const HELP: &str = "\
./compare --sessions [--cases N] [--seed S] [--small MOST]
    N random inputs from the seed S (20000 from 1), and document 01's limits;
    --small MOST: also every input of up to MOST bytes over seven";

#[derive(Default)]
struct Count {
    room: Printer,
    cases: u64,
    differ: u64,
    bytes: u64,
    longest: usize,
}

/// Runs one input, and shows the first that differs.
fn run(input: &[u8], count: &mut Count) {
    let (expected, printed) = (session::session(input), count.room.session(input));
    count.cases += 1;
    count.bytes += expected.len() as u64;
    count.longest = count.longest.max(expected.len());
    if printed != expected {
        count.differ += 1;
        if count.differ == 1 {
            println!("input    {:?}", String::from_utf8_lossy(input));
            println!("the Rust {:?}", String::from_utf8_lossy(&expected));
            println!("the port {:?}", String::from_utf8_lossy(&printed));
        }
    }
}

fn asked(words: &[String]) -> Result<Count, String> {
    let (mut cases, mut seed, mut most) = (20_000, 1, None);
    options::read(words, HELP, |word, behind| {
        let shown = format!("`{word}`");
        match word {
            "--cases" => cases = behind.number(&shown)?,
            "--seed" => seed = behind.number(&shown)?,
            "--small" => most = Some(behind.number(&shown)? as usize),
            _ => return Ok(false),
        }
        Ok(true)
    })?;
    let mut count = Count::default();
    session::limits().iter().for_each(|input| run(input, &mut count));
    (0..cases).for_each(|index| run(&session::random(&mut Dice::new(seed, index)), &mut count));
    if let Some(most) = most {
        session::small(most, |input| run(input, &mut count));
    }
    Ok(count)
}

fn main() -> ExitCode {
    options::program("sessions", HELP, |words| {
        let Count { cases, differ, bytes, longest, .. } = asked(words)?;
        println!("session {cases} cases, {differ} differ; {bytes} bytes printed, at most {longest} by one");
        Ok(differ == 0)
    })
}
