//! The proved library and the given Rust on the same inputs, in one run. `./speed` builds it for this
//! machine's processor. Times are the best of several runs; read the ratios.
//!
//! A case goes to both as it stands in the oracle: code points, checked by document 01's rules, and
//! for the Rust made into its text. A case in a process of its own is given up after `PATIENCE`.

use compare::{port, port_rows};
use oracle::case::{Call, Case, Input};
use oracle::{Caret, Viewport, Wrap, calls, generate};
use std::hint::black_box;
use std::io::{BufRead, BufReader};
use std::process::{Command, Stdio};
use std::sync::mpsc;
use std::time::{Duration, Instant};

const PATIENCE: Duration = Duration::from_secs(20);
const SIZES: [(&str, usize); 3] =
    [("A bulletin, 2,000 code points", 2_000), ("A template, 100,000", 100_000), ("The largest text, 1,048,576", 1_048_576)];

/// The best time of a call, in nanoseconds: seven runs, or as many as a second allows.
fn best(mut call: impl FnMut()) -> f64 {
    let (begun, mut least) = (Instant::now(), f64::MAX);
    for _ in 0..7 {
        let start = Instant::now();
        call();
        least = least.min(start.elapsed().as_nanos() as f64);
        if begun.elapsed() > Duration::from_secs(1) {
            break;
        }
    }
    least
}

/// Half letters of ASCII, half accented ones, in words of five; rows of sixty unless it is one row.
fn prose(n: usize, one_row: bool) -> Vec<u32> {
    let at = |i: usize| match i {
        i if !one_row && i % 60 == 59 => 0x0A,
        i if i % 6 == 5 => 0x20,
        i if i % 12 < 6 => 0x61 + (i % 26) as u32,
        i => 0xE0 + (i % 20) as u32,
    };
    (0..n).map(at).collect()
}

/// The case of a call at a size: from the middle of a text between two brackets, or of a row.
fn case(call: &'static Call, n: usize, count: u32) -> Case {
    let mut case = Case::new(call);
    case.text = prose(n, false);
    (case.text[0], case.text[n - 1]) = (0x28, 0x29);
    case.line = prose(n, true);
    let middle = (n / 120) as u32;
    case.caret = if call.name.starts_with("match") { Caret::at(0, 0) } else { Caret::at(middle, 5) };
    (case.count, case.tabstop, case.character) = (count, 8, 0x7A);
    case.list = oracle::points("@,48-57,_,192-255");
    case.view = Viewport { top: middle, height: 40, width: 80, wrap: Wrap::Word };
    (case.start, case.end, case.column, case.room) = (0, n as u32, n as u32 - 1, n as u32 / 10);
    case.segments = (0..n as u32 / 80).flat_map(|i| [80 * i, 80 * i + 80]).collect();
    (case.forward, case.till) = (true, false);
    if call.takes.contains(&Input::Text) && call.takes.contains(&Input::Room) {
        case.room = n as u32 + 1;
    }
    case
}

/// A fact about one code point, by the library and by the Rust; the number of its refusal where it is no scalar value.
type Fact = fn(u32) -> u32;

fn flag(told: Result<bool, u32>) -> u32 {
    told.map_or_else(|number| number, u32::from)
}

fn rust(x: u32, fact: impl Fn(char) -> u32) -> u32 {
    char::from_u32(x).map_or(2, fact)
}

fn facts(name: &str) -> Option<(Fact, Fact)> {
    Some(match name {
        "is_scalar" => (|x| tsivareza::is_scalar(x).into(), |x| char::from_u32(x).is_some().into()),
        "is_letter" => (|x| flag(tsivareza::is_letter(x)), |x| rust(x, |c| c.is_alphabetic().into())),
        "is_white" => (|x| flag(tsivareza::is_white(x)), |x| rust(x, |c| c.is_whitespace().into())),
        "width" => (|x| tsivareza::width(x).unwrap_or(2), |x| rust(x, calls::width_of)),
        _ => return None,
    })
}

/// Such a call is too short to be timed alone: both go through the text, a call for each code point.
fn through(text: &[u32], fact: Fact) -> f64 {
    best(|| {
        for &x in text {
            black_box(black_box(fact)(x));
        }
    })
}

/// One case, in this process: the library's time, then the Rust's.
fn measure(name: &str, n: usize, count: u32) -> Result<(), String> {
    let case = case(oracle::case::call(name)?, n, count);
    if let Some(both) = facts(name) {
        println!("{}\n{}", through(&case.text, both.0), through(&case.text, both.1));
        return Ok(());
    }
    if port(&case, None) != case.answer() {
        return Err(format!("the answers differ on {name}"));
    }
    println!("{}", best(|| drop(black_box(port(black_box(&case), None)))));
    println!("{}", best(|| drop(black_box(black_box(&case).answer()))));
    Ok(())
}

/// The library's time of a case in a process of its own, without the Rust, which may not come back.
fn alone(name: &str, n: usize, count: u32) -> Result<(), String> {
    let case = case(oracle::case::call(name)?, n, count);
    println!("{}", best(|| drop(black_box(port(black_box(&case), None)))));
    Ok(())
}

/// The check of a text against reading it: the text is refused for its last code point, so that a call is the check alone.
fn check() {
    let mut text = prose(SIZES[2].1, false);
    text.extend([0x0B]);
    text.remove(0);
    let read = best(|| {
        black_box(black_box(&text).iter().fold(0, |sum: u32, x| sum.wrapping_add(*x)));
    });
    let check = |text: &[u32]| {
        best(|| {
            let _ = black_box(tsivareza::content_row_count(black_box(text)));
        })
    };
    let plain = check(&text);
    text[0] = 0x2030;
    let high = check(&text);
    println!("\n## The check of a text, 1,048,576 code points\n");
    println!("Adding them up takes {}, the check {}: {:.1} times that.", shown(read), shown(plain), plain / read);
    println!("With a code point from U+2028 on it takes {}: {:.1} times.", shown(high), high / read);
    let within = ["move_left", "move_line_end", "move_first_non_blank", "find_char_on_line"].map(|name| {
        let case = case(oracle::case::call(name).expect("a call"), SIZES[2].1, 1);
        best(|| drop(black_box(port(black_box(&case), None))))
    });
    let (least, most) = within.iter().fold((f64::MAX, 0.0_f64), |(a, b), &x| (a.min(x), b.max(x)));
    let ratios = (least / plain, most / plain);
    println!("A motion within a row in the middle takes {} to {}: {:.1} to {:.1} times the check.", shown(least), shown(most), ratios.0, ratios.1);
}

/// An edit as a host makes it on a `Vec`, with document 01's checks of text and position: `splice` in place of the library.
fn spliced(text: &mut Vec<u32>, (row, col): (usize, usize), taken: usize, points: &[u32]) -> Result<(), u32> {
    let broken = |x: &u32| matches!(x, 0x0B..=0x0D | 0x85 | 0x2028 | 0x2029);
    let wrong = |x: &u32| char::from_u32(*x).is_none();
    if text.len().max(points.len()) > 1_048_576 {
        return Err(1);
    }
    if text.iter().any(wrong) || points.iter().any(wrong) {
        return Err(2);
    }
    if text.iter().any(broken) || points.iter().any(broken) {
        return Err(3);
    }
    let start = match row {
        0 => 0,
        _ => 1 + text.iter().enumerate().filter(|(_, x)| **x == 0x0A).nth(row - 1).ok_or(11_u32)?.0,
    };
    if text[start..].iter().position(|x| *x == 0x0A).unwrap_or(text.len() - start) < col {
        return Err(11);
    }
    text.splice(start + col..start + col + taken, points.iter().copied());
    Ok(())
}

/// Ten code points put into the middle of a text and taken out again, by the library and by `splice` on a `Vec`.
fn edits() {
    println!("\n## Edits in the middle of a text\n\n| Code points | Edit | Library | `splice` | Ratio |\n|---|---|---|---|---|");
    let points = [0x61; 10];
    for (_, n) in SIZES.map(|(what, n)| (what, n - 10)) {
        let text = prose(n, false);
        let at = ((n / 120) as u32, 5);
        let room = vec![0; 10];
        let mut page = tsivareza::Page { text: [text.clone(), room].concat(), folds: vec![], caret: [0; 6], sizes: [n as u32, 0] };
        let mut vec = text;
        let place = (at.0 as usize, at.1 as usize);
        let least = |times: &[f64]| times.iter().copied().fold(f64::MAX, f64::min);
        let timed = |call: &mut dyn FnMut()| {
            let start = Instant::now();
            call();
            start.elapsed().as_nanos() as f64
        };
        let mut all: [Vec<f64>; 4] = Default::default();
        for _ in 0..15 {
            all[0].push(timed(&mut || black_box(page.insert(&points, at)).expect("an insert")));
            all[1].push(timed(&mut || black_box(spliced(&mut vec, place, 0, &points)).expect("an insert")));
            all[2].push(timed(&mut || black_box(page.delete(at, (at.0, at.1 + 10))).expect("a delete")));
            all[3].push(timed(&mut || black_box(spliced(&mut vec, place, 10, &[])).expect("a delete")));
        }
        for (what, ours, theirs) in [("insert", &all[0], &all[1]), ("delete", &all[2], &all[3])] {
            let (ours, theirs) = (least(ours), least(theirs));
            println!("| {n} | {what} of 10 | {} | {} | {:.2} |", shown(ours), shown(theirs), ours / theirs);
        }
    }
}

/// The same edits with a table of row starts and without, and filling that table, by the library.
fn row_table() {
    println!("\n## Edits that keep the row starts\n\n| Code points | Call | With the table | Without | Ratio |\n|---|---|---|---|---|");
    let points = [0x61, 0x0A, 0x61];
    for (_, n) in SIZES.map(|(what, n)| (what, n - 3)) {
        let text = prose(n, false);
        let at = ((n / 120) as u32, 5);
        let to = (at.0 + 1, 1);
        let mut page = tsivareza::Page { text: [&text[..], &[0; 3]].concat(), folds: vec![], caret: [0; 6], sizes: [n as u32, 0] };
        let mut table = vec![0; n + 1];
        let content = tsivareza::row_starts(&text, &mut table).expect("a fill");
        let mut host = tsivareza::TabledPage { page: page.clone(), table: table.clone(), content };
        let least = |times: &[f64]| times.iter().copied().fold(f64::MAX, f64::min);
        let timed = |call: &mut dyn FnMut()| {
            let start = Instant::now();
            call();
            start.elapsed().as_nanos() as f64
        };
        let mut all: [Vec<f64>; 5] = Default::default();
        for _ in 0..31 {
            all[0].push(timed(&mut || black_box(host.insert(&points, at)).expect("an insert")));
            all[1].push(timed(&mut || black_box(page.insert(&points, at)).expect("an insert")));
            all[2].push(timed(&mut || black_box(host.delete(at, to)).expect("a delete")));
            all[3].push(timed(&mut || black_box(page.delete(at, to)).expect("a delete")));
            all[4].push(timed(&mut || assert!(black_box(tsivareza::row_starts(&text, &mut table)).is_ok())));
        }
        for (what, with, without) in [("insert of 3", &all[0], &all[1]), ("delete of 3", &all[2], &all[3])] {
            let (with, without) = (least(with), least(without));
            println!("| {n} | {what} | {} | {} | {:.2} |", shown(with), shown(without), with / without);
        }
        println!("| {n} | fill | {} | | |", shown(least(&all[4])));
    }
}

/// Motions with the text's table of row starts beside the same without, from the text's last row, in turn.
fn second() -> Result<(), String> {
    println!("\n## Motions with a table of row starts, beside those without\n");
    println!("| Code points | Key | With the table | Without | Ratio |\n|---|---|---|---|---|");
    for (_, n) in SIZES {
        let text = prose(n, false);
        let mut table = vec![0; n + 1];
        let content = tsivareza::row_starts(&text, &mut table).map_err(|number| format!("a fill is refused with {number}"))?;
        let rows = tsivareza::Rows { starts: &table, content };
        for (key, name, count) in [
            ("gg", "move_top", 1),
            ("G", "move_bottom", 0),
            ("+", "move_first_non_blank_next_line", 1),
            ("-", "move_first_non_blank_prev_line", 1),
            ("H", "move_viewport_top", 0),
            ("L", "move_viewport_bottom", 0),
            ("j", "move_down", 1),
            ("k", "move_up", 1),
            ("w", "move_word_fwd", 1),
        ] {
            let last = content - 1;
            let mut case = Case { text: text.clone(), caret: Caret::at(last, 0), ..case(oracle::case::call(name)?, n, count) };
            case.view.top = last.saturating_sub(39);
            if port_rows(&case, rows, None) != Some(port(&case, None)) {
                return Err(format!("the answers differ on {name}"));
            }
            let (mut with, mut without) = (f64::MAX, f64::MAX);
            for _ in 0..5 {
                with = with.min(best(|| drop(black_box(port_rows(black_box(&case), rows, None)))));
                without = without.min(best(|| drop(black_box(port(black_box(&case), None)))));
            }
            println!("| {n} | `{key}` | {} | {} | {:.2} |", shown(with), shown(without), with / without);
        }
    }
    let mut text = prose(SIZES[2].1, false);
    let read = best(|| {
        black_box(black_box(&text).iter().fold(0, |sum: u32, x| sum.wrapping_add(*x)));
    });
    let (with, _) = top(&text)?;
    println!("\nAdding up the largest text's code points takes {}, `gg` with the table {}: {:.2} times that.", shown(read), shown(with), with / read);
    text.iter_mut().skip(500).step_by(1000).filter(|x| **x != 10).for_each(|x| *x = 0x2191);
    let (with, without) = top(&text)?;
    println!("With an arrow in every thousandth place `gg` takes {} with the table, {} without: {:.2}.", shown(with), shown(without), with / without);
    Ok(())
}

/// `gg` from the last row of a text, with its table and without, in turn.
fn top(text: &[u32]) -> Result<(f64, f64), String> {
    let mut table = vec![0; text.len() + 1];
    let content = tsivareza::row_starts(text, &mut table).map_err(|number| format!("a fill is refused with {number}"))?;
    let rows = tsivareza::Rows { starts: &table, content };
    let case = Case { text: text.to_vec(), caret: Caret::at(content - 1, 0), ..case(oracle::case::call("move_top")?, text.len(), 1) };
    if port_rows(&case, rows, None) != Some(port(&case, None)) {
        return Err("the answers differ on move_top".into());
    }
    let (mut with, mut without) = (f64::MAX, f64::MAX);
    for _ in 0..5 {
        with = with.min(best(|| drop(black_box(port_rows(black_box(&case), rows, None)))));
        without = without.min(best(|| drop(black_box(port(black_box(&case), None)))));
    }
    Ok((with, without))
}

/// What could grow faster than the text: one row of many segments, and many folds over many rows.
fn growth() -> Result<(), String> {
    let n = SIZES[2].1;
    let time = |case: &Case| shown(best(|| drop(black_box(port(black_box(case), None)))));
    let mut up = case(oracle::case::call("move_screen_up")?, n, u32::MAX);
    up.text = prose(n, true);
    (up.caret, up.view.width, up.view.wrap) = (Caret::at(0, n as u32 - 1), 1, Wrap::Char);
    let mut word = case(oracle::case::call("move_word_fwd")?, n, u32::MAX);
    word.caret = Caret::at(0, 0);
    let open = time(&word);
    let apart = (n / 60 / 256) as u32;
    word.folds = (0..256).flat_map(|i| [apart * i + 1, apart * i + 2, 1]).collect();
    println!("\n## Growth\n");
    println!("`gk` with the largest count from the end of one row of {n} code points at width 1: {}.", time(&up));
    println!("`w` with the largest count through {n} code points: {open}; with 256 closed folds: {}.", time(&word));
    Ok(())
}

/// `inner_pair` beside `matching_bracket_pos` at the same place, on a bracket: one pair around the text, and a nest of pairs.
fn pairs() -> Result<(), String> {
    let time = |name: &str, text: &[u32], at: Caret| -> Result<f64, String> {
        let case = Case { text: text.to_vec(), caret: at, ..Case::new(oracle::case::call(name)?) };
        Ok(best(|| drop(black_box(port(black_box(&case), None)))))
    };
    println!("\n## `inner_pair` and `matching_bracket_pos` at the same place\n");
    println!("| Text | Place | `inner_pair` | `matching_bracket_pos` | Ratio |\n|---|---|---|---|---|");
    for (_, n) in SIZES {
        let mut one = prose(n, false);
        (one[0], one[n - 1]) = (0x28, 0x29);
        let last = Caret::at((n / 60) as u32, (n % 60 - 1) as u32);
        let nest: Vec<u32> = (0..n).map(|i| 0x28 + u32::from(i >= n / 2)).collect();
        let rows: [(String, &[u32], &str, Caret); 4] = [
            (format!("a pair around {n} code points"), &one, "its open", Caret::at(0, 0)),
            (format!("a pair around {n} code points"), &one, "its close", last),
            (format!("a nest of {n}"), &nest, "the outermost open", Caret::at(0, 0)),
            (format!("a nest of {n}"), &nest, "the innermost close", Caret::at(0, (n / 2) as u32)),
        ];
        for (what, text, place, at) in rows {
            let (inner, partner) = (time("inner_pair", text, at)?, time("matching_bracket_pos", text, at)?);
            println!("| {what} | {place} | {} | {} | {:.2} |", shown(inner), shown(partner), inner / partner);
        }
    }
    Ok(())
}

/// What the search of the letters costs: a text of Cyrillic letters, for each of which their ranges are searched.
fn letters() -> Result<(), String> {
    let n = SIZES[1].1;
    println!("\n## Cyrillic letters, 100,000 code points\n\n| Call | Library | Given Rust | Ratio |\n|---|---|---|---|");
    let row = |what: &str, library: f64, rust: f64| {
        println!("| {what} | {} | {} | {:.2} |", shown(library), shown(rust), library / rust);
    };
    let text: Vec<u32> = prose(n, false).into_iter().map(|x| if x > 0x20 { 0x400 + x % 0x50 } else { x }).collect();
    let (library, rust) = facts("is_letter").expect("a fact");
    row("`is_letter`, each of them", through(&text, library), through(&text, rust));
    for name in ["move_word_fwd", "move_word_back", "move_word_end", "move_word_end_back"] {
        for (with, count) in [("count 1", 1), ("largest count", u32::MAX)] {
            let mut case = case(oracle::case::call(name)?, n, count);
            case.text = text.clone();
            if port(&case, None) != case.answer() {
                return Err(format!("the answers differ on {name}"));
            }
            let library = best(|| drop(black_box(port(black_box(&case), None))));
            row(&format!("`{name}`, {with}"), library, best(|| drop(black_box(black_box(&case).answer()))));
        }
    }
    Ok(())
}

/// The calls on widths on ASCII, under narrow and under wide.
fn widths() -> Result<(), String> {
    println!("\n## ASCII under narrow and under wide\n\n| Code points | Call | Narrow | Wide | Ratio |\n|---|---|---|---|---|");
    let ascii = |row: &[u32]| -> Vec<u32> { row.iter().map(|&x| if x < 0x80 { x } else { 0x61 + x % 26 }).collect() };
    for (_, n) in &SIZES[..2] {
        for name in generate::calls(&[])?.iter().filter_map(|call| oracle::wide::stem(call.name)) {
            let times = |name: &str| -> Result<f64, String> {
                let mut case = case(oracle::case::call(name)?, *n, 1);
                (case.text, case.line, case.room) = (ascii(&case.text), ascii(&case.line), *n as u32);
                Ok((0..5).map(|_| best(|| drop(black_box(port(black_box(&case), None))))).fold(f64::MAX, f64::min))
            };
            if name == "width" {
                let text = ascii(&prose(*n, false));
                let wide: Fact = |x| tsivareza::width_as(x, tsivareza::Ambiguous::Wide).unwrap_or(2);
                let (narrow, wide) = (through(&text, facts("width").expect("a fact").0), through(&text, wide));
                println!("| {n} | `width`, each of them | {} | {} | {:.2} |", shown(narrow), shown(wide), wide / narrow);
                continue;
            }
            let (narrow, wide) = (times(name)?, times(&format!("{name}_wide"))?);
            println!("| {n} | `{name}` | {} | {} | {:.2} |", shown(narrow), shown(wide), wide / narrow);
        }
    }
    Ok(())
}

/// The second engine of the word motions beside the first, without folds and with the most.
fn engines() -> Result<(), String> {
    println!("\n## The word motions by the classes, beside the first engine\n");
    println!("| Code points | Folds | Motion | First | By the classes | Ratio |\n|---|---|---|---|---|---|");
    for (_, n) in &SIZES[..2] {
        let apart = ((n / 60 / 256) as u32).max(1);
        let many: Vec<u32> = (0..256u32).filter(|i| apart * i + 2 < (n / 60) as u32).flat_map(|i| [apart * i + 1, apart * i + 2, 1]).collect();
        for (key, first, second) in [
            ("w", "move_word_fwd", "word_fwd_by_class"),
            ("b", "move_word_back", "word_back_by_class"),
            ("e", "move_word_end", "word_end_by_class"),
            ("ge", "move_word_end_back", "word_end_back_by_class"),
        ] {
            for (with, count, folds) in [("count 1", 1, &[][..]), ("largest count", u32::MAX, &[]), ("largest count", u32::MAX, &many)] {
                if key == "ge" && !folds.is_empty() {
                    continue;
                }
                let time = |name: &str| -> Result<f64, String> {
                    let case = Case { folds: folds.to_vec(), ..case(oracle::case::call(name)?, *n, count) };
                    Ok(best(|| drop(black_box(port(black_box(&case), None)))))
                };
                let (a, b) = (time(first)?, time(second)?);
                println!("| {n} | {} | `{key}`, {with} | {} | {} | {:.1} |", folds.len() / 3, shown(a), shown(b), b / a);
            }
        }
    }
    Ok(())
}

/// What a process of this program prints, or nothing where it takes too long.
fn ask(words: &[&str]) -> Option<Vec<f64>> {
    let this = std::env::current_exe().expect("this program");
    let mut child = Command::new(this).args(words).stdout(Stdio::piped()).spawn().expect("a process");
    let out = BufReader::new(child.stdout.take().expect("its output"));
    let (send, times) = mpsc::channel();
    std::thread::spawn(move || {
        let read: Vec<f64> = out.lines().map_while(Result::ok).filter_map(|line| line.parse().ok()).collect();
        let _ = send.send(read);
    });
    let read = times.recv_timeout(PATIENCE).ok();
    let _ = child.kill();
    let _ = child.wait();
    read
}

fn shown(ns: f64) -> String {
    match ns {
        ns if ns < 10_000.0 => format!("{ns:.0} ns"),
        ns if ns < 1e6 => format!("{:.1} µs", ns / 1e3),
        ns => format!("{:.2} ms", ns / 1e6),
    }
}

fn table() -> Result<(), String> {
    for (what, n) in SIZES {
        println!("\n## {what}\n\n| Call | Library | Given Rust | Ratio |\n|---|---|---|---|");
        let size = n.to_string();
        for call in generate::calls(&[])? {
            let sized = [Input::Text, Input::Line, Input::Segments].iter().any(|x| call.takes.contains(x));
            // what the given Rust does not have: `pairs` and `widths` time some of it
            let ours = [Input::Kind, Input::Offset].iter().any(|x| call.takes.contains(x))
                || oracle::wide::stem(call.name).is_some()
                || ["enter", "enter_matches", "without_plus"].contains(&call.name);
            if (!sized && n != SIZES[0].1) || ours {
                continue;
            }
            let counts: &[u32] = if call.takes.contains(&Input::Count) { &[1, u32::MAX] } else { &[0] };
            for &count in counts {
                let with = match count {
                    0 if facts(call.name).is_some() => ", each of them",
                    0 => "",
                    1 => ", count 1",
                    _ => ", largest count",
                };
                let count = count.to_string();
                match ask(&["measure", call.name, &size, &count]).as_deref() {
                    Some(&[library, rust]) => {
                        println!("| `{}`{with} | {} | {} | {:.2} |", call.name, shown(library), shown(rust), library / rust);
                    }
                    Some(_) => return Err(format!("no times of {}", call.name)),
                    None => {
                        let Some(&[library]) = ask(&["alone", call.name, &size, &count]).as_deref() else {
                            return Err(format!("the library took over {PATIENCE:?} on {}", call.name));
                        };
                        println!("| `{}`{with} | {} | over {} s | |", call.name, shown(library), PATIENCE.as_secs());
                    }
                }
            }
        }
    }
    Ok(())
}

fn main() {
    let words: Vec<String> = std::env::args().skip(1).collect();
    let number = |i: usize| words[i].parse::<u64>().expect("a number");
    let done = match words.first().map(String::as_str) {
        Some("measure") => measure(&words[1], number(2) as usize, number(3) as u32),
        Some("alone") => alone(&words[1], number(2) as usize, number(3) as u32),
        Some("pairs") => pairs(),
        Some("letters") => letters(),
        Some("widths") => widths(),
        Some("engines") => engines(),
        Some("edits") => Ok(edits()),
        Some("rows") => Ok(row_table()),
        Some("second") => second(),
        Some("check") => Ok(check()),
        _ => table()
            .and_then(|()| letters())
            .map(|()| check())
            .and_then(|()| growth())
            .and_then(|()| pairs())
            .and_then(|()| widths())
            .and_then(|()| engines())
            .map(|()| edits())
            .map(|()| row_table())
            .and_then(|()| second()),
    };
    if let Err(why) = done {
        eprintln!("speed: {why}");
        std::process::exit(1);
    }
}
