//! The proved library against the given Rust, case by case. `./compare --help` says how.

use compare::{options, port};
use oracle::Outcome;
use oracle::case::{Call, Case};
use oracle::generate::{self, Dice};
use std::process::ExitCode;
use tsivareza::Room;

const HELP: &str = "\
./compare [--cases N] [--seed S] [--small MOST] [--scalars] [CALL..]
    N random cases of each call from the seed S (20000 from 1), and the limits of document 01;
    --small MOST: also every case of a call with a text or list of up to MOST code points over a
    small alphabet (its families end at 4 to 7); --scalars: also every code point;
    CALL..: these calls alone
./compare --case WORDS..
    one case, as a difference is shown";

#[derive(Default)]
struct Count {
    cases: u64,
    outside: u64,
    differ: u64,
}

/// Runs one case, and shows the first that differs.
fn run(case: &Case, room: &mut Room, count: &mut Count) {
    count.cases += 1;
    let expected = case.answer();
    let answer = port(case, Some(room));
    if expected == Outcome::Outside {
        count.outside += 1;
    } else if answer != expected {
        count.differ += 1;
        if count.differ == 1 {
            println!("differs: ./compare --case '{case}'\n  the given Rust: {expected}\n  the library:    {answer}");
        }
    }
}

struct Wanted {
    cases: u64,
    seed: u64,
    small: Option<usize>,
    scalars: bool,
    calls: Vec<&'static Call>,
}

fn wanted(words: &[String]) -> Result<Wanted, String> {
    let mut wanted = Wanted { cases: 20_000, seed: 1, small: None, scalars: false, calls: Vec::new() };
    let mut names = Vec::new();
    options::read(words, HELP, |word, behind| {
        match word {
            "--cases" => wanted.cases = behind.number(word)?,
            "--seed" => wanted.seed = behind.number(word)?,
            "--small" => wanted.small = Some(behind.number(word)? as usize),
            "--scalars" => wanted.scalars = true,
            _ if word.starts_with('-') => return Ok(false),
            _ => names.push(word.to_string()),
        }
        Ok(true)
    })?;
    wanted.calls = generate::calls(&names)?;
    Ok(wanted)
}

fn compare(wanted: &Wanted) -> bool {
    let mut room = Room::new(1_060_000);
    let (mut ran, mut differ) = (0, 0);
    for call in &wanted.calls {
        let mut count = Count::default();
        let mut visit = |case: &Case| run(case, &mut room, &mut count);
        for index in 0..wanted.cases {
            visit(&generate::random(call, &mut Dice::new(wanted.seed, index)));
        }
        generate::limits(call).iter().for_each(&mut visit);
        if let Some(most) = wanted.small {
            generate::small(call, most, &mut visit);
        }
        if wanted.scalars && call.takes == [oracle::case::Input::Character] {
            let mut case = Case::new(call);
            for x in 0..=0x11_0000 {
                case.character = x;
                visit(&case);
            }
        }
        let Count { cases, outside, differ: d } = count;
        let outside = if outside > 0 { format!(", {outside} outside") } else { String::new() };
        println!("{:32} {cases:>9} cases{outside}, {d} differ", call.name);
        (ran, differ) = (ran + cases, differ + d);
    }
    println!("{} calls, {ran} cases, {differ} differ", wanted.calls.len());
    differ == 0 && ran > 0
}

fn main() -> ExitCode {
    // A sum that wraps is an answer here, and no news.
    std::panic::set_hook(Box::new(|news| {
        if !news.to_string().contains("wrap.rs") {
            eprintln!("{news}");
        }
    }));
    options::program("compare", HELP, |words| match words.first().map(String::as_str) {
        Some("--case") => words[1..].join(" ").parse::<Case>().and_then(|case| {
            let answer = port(&case, Some(&mut Room::new(1_060_000)));
            let expected = case.answer();
            println!("the given Rust: {expected}\nthe library:    {answer}");
            Ok(expected == answer || expected == Outcome::Outside)
        }),
        _ => wanted(words).map(|wanted| compare(&wanted)),
    })
}
