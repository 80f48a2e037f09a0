//! Vim's own keyword lists against document 02's grammar, and against the stored answers of Vim. `./compare --vim --help` says how.

use compare::options;
use oracle::case::FILLER;
use oracle::generate::{self, Dice, texts};
use oracle::{points, vim};
use std::collections::{BTreeMap, BTreeSet};
use std::process::ExitCode;
use tsivareza::{Room, Vim, bytes, vim_list, vim_write};

const HELP: &str = "\
./compare --vim [--cases N] [--seed S] [--small MOST]
    every list of up to MOST code points (4) over two small alphabets, N random lists from the seed S
    (20000 from 1), the limits, and the stored answers of Vim: the count, 17's place, the characters
    held, and the list written into rooms exact, one short and one over and read again
./compare --vim --against FILE
    the answers of Vim in FILE, as tools/vim-lists writes it, alone";

/// The answers of Vim that are stored.
const STORED: &str = include_str!("../../../../oracle/data/vim-lists-9.0.1378.txt");

/// Of the characters above 255, letters and others.
const BEYOND: [u32; 8] = [0x100, 0x2C7, 0x300, 0x3B1, 0x2192, 0x3042, 0x1_D400, 0x10_FFFF];

type Answer = Result<u32, (u32, u32)>;

#[derive(Default)]
struct Count {
    lists: u64,
    taken: u64,
    calls: u64,
    differ: u64,
    /// Answers of Vim, those that differ by the reason in docs/DIFFERENCES.md.
    asked: u64,
    reasons: BTreeMap<&'static str, u64>,
}

fn shown(list: &[u32]) -> String {
    list.iter().map(|&x| char::from_u32(x).map_or(format!("<{x:x}>"), |c| c.escape_debug().to_string())).collect()
}

impl Count {
    fn told(&mut self, same: bool, what: impl FnOnce() -> String) {
        if !same {
            self.differ += 1;
            if self.differ <= 5 {
                println!("differs: {}", what());
            }
        }
    }

    /// A question on code points and on bytes.
    fn ask(&mut self, asked: Vim, list: &[u32], room: &mut Room) -> Answer {
        self.calls += 2;
        let on_points = vim_list(asked, list);
        let on_bytes = room.vim_list(asked, &bytes(list));
        self.told(on_points == on_bytes, || format!("`{}`: {on_points:?} and on bytes {on_bytes:?}", shown(list)));
        on_points
    }

    /// The list written into so many places, those past it watched.
    fn write(&mut self, list: &[u32], places: usize, room: &mut Room) -> Vec<u32> {
        self.calls += 2;
        let wanted = vim::vim_write(list, places);
        let mut left = wanted.clone().unwrap_or_default();
        left.resize(places, FILLER);
        let number = wanted.map(|written| written.len() as u32);
        let (mut once, mut again) = (vec![FILLER; places], vec![FILLER; places]);
        let on_points = vim_write(list, &mut once);
        let on_bytes = room.vim_write(&bytes(list), &mut again);
        let same = (on_points, &once) == (number, &left) && (on_bytes, &again) == (number, &left);
        self.told(same, || format!("`{}` written into {places}: {on_points:?} and {on_bytes:?}, and not {number:?}", shown(list)));
        once.truncate(on_points.unwrap_or(0) as usize);
        once
    }

    /// A list by all three calls; of an accepted one the characters of `tested`, and the list written and read again.
    fn list(&mut self, list: &[u32], tested: &[u32], room: &mut Room) {
        self.lists += 1;
        let wanted = vim::vim_parse(list);
        let count = self.ask(Vim::Count, list, room);
        self.told(count == wanted, || format!("`{}`: {count:?}, and not {wanted:?}", shown(list)));
        let by_surrogate = self.ask(Vim::Matches(0xD800), list, room);
        self.told(by_surrogate == Err((2, 0)), || format!("`{}`: U+D800 is {by_surrogate:?}", shown(list)));
        if wanted.is_err() {
            let by_letter = self.ask(Vim::Matches(0x61), list, room);
            self.told(by_letter == count, || format!("`{}`: `a` is {by_letter:?}, and not {count:?}", shown(list)));
            let _ = self.write(list, list.len(), room);
            return;
        }
        self.taken += 1;
        let held = |list: &[u32]| -> Vec<Answer> {
            tested.iter().map(|&x| vim_list(Vim::Matches(x), list)).collect()
        };
        let now = held(list);
        for (&x, &answer) in tested.iter().zip(&now) {
            self.calls += 1;
            let wanted = vim::vim_matches(list, x).map(u32::from);
            self.told(answer == wanted, || format!("`{}`: {x:x} is {answer:?}, and not {wanted:?}", shown(list)));
        }
        let written = self.write(list, list.len(), room);
        let size = written.len();
        let _ = self.write(list, size, room);
        let _ = self.write(list, size + 1, room);
        if size > 0 {
            let _ = self.write(list, size - 1, room);
        }
        let alike = size <= list.len() && vim_list(Vim::Count, &written) == count && held(&written) == now;
        self.told(alike, || format!("`{}` is written as `{}`, which is read otherwise", shown(list), shown(&written)));
    }

    /// What Vim answers, but for what docs/DIFFERENCES.md lists.
    fn against(&mut self, line: &str, room: &mut Room) -> Result<(), String> {
        let (list, said) = line.split_once(' ').ok_or(format!("`{line}` has no answer"))?;
        let list = ranges(list)?.into_iter().map(|(x, _)| x).collect::<Vec<_>>();
        self.asked += 1;
        let count = self.ask(Vim::Count, &list, room);
        let taken = said != "refused";
        if taken != count.is_ok() {
            match reason(&list, taken) {
                Some(why) => *self.reasons.entry(why).or_default() += 1,
                None => self.told(false, || format!("`{}`: {count:?}, and Vim says {said}", shown(&list))),
            }
            return Ok(());
        }
        if let Err((number, _)) = count {
            self.told(number == 17, || format!("`{}`: {count:?}", shown(&list)));
            return Ok(());
        }
        let by_vim: BTreeSet<u32> = ranges(said)?.into_iter().flat_map(|(low, high)| low..=high).collect();
        let other: BTreeSet<u32> = (1..=255).filter(|x| (vim_list(Vim::Matches(*x), &list) == Ok(1)) != by_vim.contains(x)).collect();
        self.calls += 255;
        let letters = list.contains(&0x40) || numbers(&list).contains(&64);
        let sixty_four = |x: &u32| *x == 64 || char::from_u32(*x).is_some_and(char::is_alphabetic);
        if other.is_empty() {
        } else if letters && other.iter().all(|x| matches!(x, 0xAA | 0xBA)) {
            *self.reasons.entry("U+00AA and U+00BA").or_default() += 1;
        } else if numbers(&list).contains(&64) && other.iter().all(sixty_four) {
            *self.reasons.entry("64 alone").or_default() += 1;
        } else {
            self.told(false, || format!("`{}`: Vim says otherwise of {other:x?}", shown(&list)));
        }
        Ok(())
    }
}

/// The numbers in a list: its runs of digits, cut at 2^40.
fn numbers(list: &[u32]) -> Vec<u64> {
    let digits = |x: &u32| (0x30..=0x39).contains(x);
    let runs = list.chunk_by(|a, b| digits(a) && digits(b)).filter(|run| digits(&run[0]));
    runs.map(|run| run.iter().fold(0, |value, x| (value * 10 + u64::from(x - 0x30)).min(1 << 40))).collect()
}

/// Why Vim takes a list that the grammar doesn't have (`taken`), or refuses one that it has.
fn reason(list: &[u32], taken: bool) -> Option<&'static str> {
    let spaced = list.windows(2).any(|two| two == [0x2C, 0x20]);
    match taken {
        false if numbers(list).contains(&0) => Some("number 0"),
        true if list.iter().any(|x| (0x80..=0xFF).contains(x)) => Some("a character above 127 itself"),
        true if numbers(list).iter().any(|&n| n > u32::MAX.into()) => Some("a number beyond 32 bits"),
        _ if spaced => Some("spaces behind a comma"),
        _ => None,
    }
}

/// Hexadecimal numbers with commas, `61-7a` for those from one to another; `-` is none.
fn ranges(words: &str) -> Result<Vec<(u32, u32)>, String> {
    let hex = |word: &str| u32::from_str_radix(word, 16).map_err(|_| format!("`{word}` is no hexadecimal number"));
    let each = words.split(',').filter(|_| words != "-");
    each.map(|word| word.split_once('-').map_or_else(|| Ok((hex(word)?, hex(word)?)), |(low, high)| Ok((hex(low)?, hex(high)?)))).collect()
}

fn answers(count: &mut Count, file: &str, room: &mut Room) -> Result<(), String> {
    let lines = file.lines().filter(|line| !line.starts_with('#'));
    lines.into_iter().try_for_each(|line| count.against(line, room))
}

fn asked(words: &[String]) -> Result<Count, String> {
    let (mut cases, mut seed, mut small, mut file) = (20_000, 1, 4, None);
    options::read(words, HELP, |word, behind| {
        let next = behind.word().ok_or(format!("`{word}` is not known, or wants a value\n{HELP}"))?;
        match word {
            "--cases" => cases = options::number(next)?,
            "--seed" => seed = options::number(next)?,
            "--small" => small = options::number(next)? as usize,
            "--against" => file = Some(std::fs::read_to_string(next).map_err(|why| format!("{next}: {why}"))?),
            _ => return Ok(false),
        }
        Ok(true)
    })?;
    let (mut count, mut room) = (Count::default(), Room::new(2_000));
    if let Some(file) = file {
        answers(&mut count, &file, &mut room)?;
        return Ok(count);
    }
    let few: Vec<u32> = points("\u{0}\u{2}\u{5},-^@09az~ \u{AA}\u{E9}\u{FF}\u{100}\u{3042}");
    let all: Vec<u32> = (0..256).chain(BEYOND).collect();
    for alphabet in ["^@-,z025 ", "^-,19a\u{7F}\u{80}\u{0}"] {
        texts(&points(alphabet), small).iter().for_each(|list| count.list(list, &few, &mut room));
    }
    let call = oracle::case::call("vim_write")?;
    for index in 0..cases {
        let list = generate::random(call, &mut Dice::new(seed, index)).list;
        count.list(&list, if index % 8 == 0 { &all } else { &few }, &mut room);
    }
    generate::limits(call).iter().for_each(|case| count.list(&case.list, &few, &mut room));
    answers(&mut count, STORED, &mut room)?;
    Ok(count)
}

fn main() -> ExitCode {
    options::program("vim", HELP, |words| {
        let Count { lists, taken, calls, differ, asked, reasons } = asked(words)?;
        for (why, times) in reasons {
            println!("as docs/DIFFERENCES.md has it, {why}: {times}");
        }
        println!("vim {lists} lists, {taken} taken, {asked} answers of Vim, {calls} calls, {differ} differ");
        Ok(differ == 0 && asked > 0)
    })
}
