//! `ask`: where a branch of a template ends, and where a motion lands, by the proved library.

mod json;
mod keys;
mod show;

use keys::Key;
use std::io::{IsTerminal, Read, Write};
use std::process::ExitCode;
use tsivareza::{Caret, Kind, Ranges, Refusal, Text};

const HELP: &str = include_str!("../help.txt");

/// What was typed.
struct Asked {
    file: String,
    /// Counted from 0.
    at: (u32, u32),
    kind: Option<Kind>,
    key: Option<Key>,
    json: bool,
    /// What rows and columns count from.
    first: u32,
}

/// Why there is no answer: a sentence, and the refusal's number where it is one.
struct No {
    says: String,
    number: Option<u32>,
}

impl From<String> for No {
    fn from(says: String) -> No {
        No { says, number: None }
    }
}

const KINDS: [(&str, Kind, [char; 2]); 4] = [
    ("round", Kind::Round, ['(', ')']),
    ("square", Kind::Square, ['[', ']']),
    ("curly", Kind::Curly, ['{', '}']),
    ("angle", Kind::Angle, ['<', '>']),
];

fn name(kind: Kind) -> &'static str {
    KINDS.iter().find(|known| known.1 == kind).map_or("", |known| known.0)
}

fn read(words: impl Iterator<Item = String>) -> Result<Asked, No> {
    let (mut plain, mut kind, mut key) = (Vec::new(), None, None);
    let (mut json, mut first) = (false, 0);
    let mut words = words.peekable();
    while let Some(word) = words.next() {
        match word.as_str() {
            "--json" => json = true,
            "--from-one" => first = 1,
            "--kind" => {
                let given = words.next().unwrap_or_default();
                let known = KINDS.iter().find(|known| known.0 == given);
                kind = Some(known.ok_or(format!("--kind wants round, square, curly or angle, not `{given}`"))?.1);
            }
            "--move" => {
                let given = words.next().unwrap_or_default();
                key = Some(Key::read(&given).ok_or(format!(
                    "--move wants a key, and if you like a space and a count of up to 9 digits, as 'w 3', not `{given}`; --help has the keys"
                ))?);
            }
            option if option.starts_with("--") => return Err(format!("{option} is not known; --help has the options").into()),
            _ => plain.push(word),
        }
    }
    let [file, at] = <[String; 2]>::try_from(plain).map_err(|_| "usage: ask FILE ROW:COL; --help has the options".to_string())?;
    if kind.is_some() && key.is_some() {
        return Err("--kind and --move are two questions: ask one".to_string().into());
    }
    let at = position(&at, first)?;
    Ok(Asked { file, at, kind, key, json, first })
}

fn position(typed: &str, first: u32) -> Result<(u32, u32), No> {
    let number = |digits: &str| {
        let all = !digits.is_empty() && digits.bytes().all(|b| b.is_ascii_digit());
        all.then(|| digits.parse::<u32>().ok()?.checked_sub(first)).flatten()
    };
    let read = typed.split_once(':').and_then(|(row, col)| Some((number(row)?, number(col)?)));
    let from = if first == 0 { "" } else { ", both from 1" };
    read.ok_or(format!("`{typed}` is no position: a row, a colon and a column are{from}, as 3:16").into())
}

fn text(file: &str) -> Result<Text, No> {
    let mut bytes = Vec::new();
    let done = if file == "-" {
        std::io::stdin().read_to_end(&mut bytes)
    } else {
        std::fs::File::open(file).and_then(|mut file| file.read_to_end(&mut bytes))
    };
    done.map_err(|error| format!("{file} can't be read: {error}"))?;
    Text::from_utf8(&bytes).map_err(|refusal| {
        let place = if refusal == Refusal::LineBreak { line_break(&bytes) } else { String::new() };
        No { says: format!("{file}: {refusal}{place}"), number: Some(refusal.number()) }
    })
}

/// Where the first line break stands that a text can't have, by rows that end with U+000A.
fn line_break(bytes: &[u8]) -> String {
    let text = String::from_utf8_lossy(bytes);
    let bad = |x: char| matches!(x, '\u{B}' | '\u{C}' | '\r' | '\u{85}' | '\u{2028}' | '\u{2029}');
    let at = text.split('\n').enumerate().find_map(|(row, line)| Some((row, line.chars().position(bad)?, line.chars().find(|&x| bad(x))?)));
    at.map_or(String::new(), |(row, col, x)| format!("; the first is U+{:04X} at row {row}, column {col}, counted from 0", u32::from(x)))
}

/// The sentence of a position that the text does not have, and of any other refusal.
fn refused(asked: &Asked, text: &Text, refusal: Refusal) -> No {
    let (row, _) = asked.at;
    let says = match (refusal, text.row(row)) {
        (Refusal::Caret, None) => {
            let (first, last) = (asked.first, text.rows() - 1 + asked.first);
            format!("{} has no row {}: its rows are {first} to {last}", asked.file, row + first)
        }
        (Refusal::Caret, Some(line)) => {
            let last = line.len() as u32 + asked.first;
            format!("row {} of {} has no column {}: its end is at column {last}", row + asked.first, asked.file, asked.at.1 + asked.first)
        }
        _ => format!("{}: {refusal}", asked.file),
    };
    No { says, number: Some(refusal.number()) }
}

/// The pair asked for: of the kind that was named, of the bracket's own, or the one that opens last.
fn pair(asked: &Asked, text: &Text) -> Result<Option<(Kind, Ranges)>, Refusal> {
    let (row, col) = asked.at;
    let here = text.row(row).and_then(|line| line.get(col as usize).copied()).and_then(char::from_u32);
    let own = KINDS.iter().find(|known| here.is_some_and(|x| known.2.contains(&x))).map(|known| known.1);
    let kinds = match asked.kind.or(own) {
        Some(kind) => vec![kind],
        None => vec![Kind::Round, Kind::Square, Kind::Curly],
    };
    let mut found: Option<(Kind, Ranges)> = None;
    for kind in kinds {
        if let Some(pair) = text.inner_pair(kind, row, col)?
            && found.is_none_or(|(_, last)| last.whole.start < pair.whole.start)
        {
            found = Some((kind, pair));
        }
    }
    Ok(found)
}

fn told((row, col): (u32, u32), first: u32) -> String {
    format!("{}:{}", u64::from(row) + u64::from(first), u64::from(col) + u64::from(first))
}

/// What is printed, and whether there was something to find.
fn answer(asked: &Asked) -> Result<(String, bool), No> {
    let text = text(&asked.file)?;
    let colour = !asked.json && std::io::stdout().is_terminal();
    let show = show::Show { text: &text, first: asked.first, colour };
    if let Some(key) = &asked.key {
        let caret = Caret::at(asked.at.0, asked.at.1);
        let to = key.go(&text, caret).map_err(|refusal| refused(asked, &text, refusal))?.position();
        let moved = to != asked.at;
        if asked.json {
            return Ok((json::moved(asked, key, to), moved));
        }
        let lands = if moved { "lands at" } else { "stays at" };
        return Ok((format!("{key} {lands} {}\n{}", told(to, asked.first), show.rows(to.0, to.0, &[to])), moved));
    }
    let found = pair(asked, &text).map_err(|refusal| refused(asked, &text, refusal))?;
    if asked.json {
        return Ok((json::pair(asked, &text, found), found.is_some()));
    }
    let Some((kind, ranges)) = found else {
        let kinds = asked.kind.map_or("round, square or curly", name);
        return Ok((format!("no {kinds} pair is around {}\n", told(asked.at, asked.first)), false));
    };
    let (open, close) = (ranges.whole.start, ranges.between.end);
    let says = format!("{}: opens at {}, ends at {}\n", name(kind), told(open, asked.first), told(close, asked.first));
    Ok((says + &show.rows(open.0, close.0, &[open, close]), true))
}

fn main() -> ExitCode {
    let words: Vec<String> = std::env::args_os().skip(1).map(|word| word.to_string_lossy().into_owned()).collect();
    let mut out = std::io::stdout().lock();
    if words.iter().any(|word| word == "--help") {
        return ExitCode::from(if out.write_all(HELP.as_bytes()).is_ok() { 0 } else { 2 });
    }
    let json = words.iter().any(|word| word == "--json");
    match read(words.into_iter()).and_then(|asked| answer(&asked)) {
        Ok((printed, found)) => match out.write_all(printed.as_bytes()).and_then(|()| out.flush()) {
            Ok(()) => ExitCode::from(if found { 0 } else { 1 }),
            Err(_) => ExitCode::from(2),
        },
        Err(no) => {
            if json {
                _ = out.write_all(json::no(&no).as_bytes());
            }
            eprintln!("ask: {}", no.says);
            ExitCode::from(2)
        }
    }
}
