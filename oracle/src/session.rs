//! Document 01's session over the given motions, with `$` and UTF-8 as document 02 has them (#104, #105): the input's bytes to the output's.

use crate::calls::{self, Words};
use crate::generate::Dice;
use crate::{Caret, points};

/// Key and count of a command row, or nothing where it is malformed.
fn command(row: &[u8]) -> Option<(&str, u32)> {
    let row = std::str::from_utf8(row).ok()?;
    let (key, digits) = match row.split_once(' ') {
        None => (row, None),
        Some((key, digits)) => (key, Some(digits)),
    };
    let count = match digits {
        None => 0,
        Some(d) if (1..=9).contains(&d.len()) && d.bytes().all(|b| b.is_ascii_digit()) => d.parse().ok()?,
        Some(_) => return None,
    };
    Some((key, count))
}

/// Where a key takes the caret; nothing for a key that is not known.
fn press(text: &[u32], at: Caret, key: &str, count: u32) -> Option<Result<Caret, u32>> {
    let list = points("@,48-57,_");
    let words = |big| Words { folds: &[], list: &list, big };
    let moved = match key {
        "h" => calls::move_left(text, at, count),
        "l" => calls::move_right_in_line(text, at, count),
        "w" | "W" => calls::move_word_fwd(text, at, words(key == "W"), count),
        "b" | "B" => calls::move_word_back(text, at, words(key == "B"), count),
        "e" | "E" => calls::move_word_end(text, at, words(key == "E"), count, false),
        "ge" | "gE" => calls::move_word_end_back(text, at, words(key == "gE"), count),
        "0" => calls::move_line_start(text, at),
        "^" => calls::move_first_non_blank(text, at),
        "$" => {
            // document 02, #104: past the end of every row
            let ends = |caret| Caret { sticky: Some(u32::MAX), ..caret };
            return Some(calls::move_line_end(text, at).map(ends));
        }
        "g_" => calls::move_last_non_blank(text, at),
        "{" => calls::move_paragraph_prev(text, at, count),
        "}" => calls::move_paragraph_next(text, at, count),
        "[[" => calls::move_section_backward(text, at, count),
        "]]" => calls::move_section_forward(text, at, count),
        "[]" => calls::move_section_end_backward(text, at, count),
        "][" => calls::move_section_end_forward(text, at, count),
        "+" => calls::move_first_non_blank_next_line(text, at, count),
        "-" => calls::move_first_non_blank_prev_line(text, at, count),
        "_" => calls::move_first_non_blank_line(text, at, count),
        "gg" => calls::move_top(text, at),
        "G" => calls::move_bottom(text, at, count),
        "|" => calls::move_goto_column(text, at, count),
        "%" => calls::match_bracket(text, at).map(|(_, caret)| caret),
        "j" => return Some(calls::move_down(text, at, &[], 8, count)),
        "k" => return Some(calls::move_up(text, at, &[], 8, count)),
        _ => return None,
    };
    Some(moved.map(|caret| Caret { sticky: None, ..caret }))
}

pub fn session(input: &[u8]) -> Vec<u8> {
    let refused = b"refused\n".to_vec();
    if input.len() > 16_384 || std::str::from_utf8(input).is_err() {
        return refused;
    }
    let mut rows = input.split(|&b| b == b'\n');
    let commands: Vec<&[u8]> = rows.by_ref().take_while(|row| *row != b".").collect();
    if commands.len() == input.split(|&b| b == b'\n').count() {
        return refused;
    }
    let text = points(std::str::from_utf8(&rows.collect::<Vec<_>>().join(&b'\n')).expect("rows of UTF-8"));
    let mut at = Caret::at(0, 0);
    let mut out = String::new();
    for row in commands {
        let shown = match command(row).and_then(|(key, count)| Some((key, press(&text, at, key, count)?))) {
            None => "?".into(),
            Some((_, Err(number))) => format!("!{number}"),
            Some((key, Ok(caret))) => {
                at = caret;
                key.into()
            }
        };
        out += &format!("{shown} {} {}\n", at.row, at.col);
    }
    out.into_bytes()
}

const KEYS: [&str; 29] = [
    "h", "l", "w", "b", "e", "W", "B", "E", "ge", "gE", "0", "^", "$", "g_", "{", "}", "[[", "]]", "[]", "][", "+", "-", "_",
    "gg", "G", "|", "%", "j", "k",
];
const NO_KEYS: [&str; 25] = [
    "g", "[", "]", "x", "", "wW", "w1", " w", "gg1", "?", "!", "jj", "..", " .", ". ", "\r", "j\r", ".\r", "é", "é 1", "jé", "→", "\u{FF4A}",
    "\u{FEFF}j", "j\u{A0}1",
];
const COUNTS: [&str; 14] =
    ["", "", "", "", " 0", " 1", " 1", " 2", " 3", " 9", " 100", " 007", " 123456789", " 999999999"];
const NO_COUNTS: [&str; 13] = [
    " ", "  1", " 1 ", " -1", " +1", " 1a", " 0000000000", "\t1", " 1 2", " 1234567890", " 4294967296", " \u{661}", "\u{3000}1",
];
const TEXTS: [&str; 12] = [
    "ab ({[]})<>\n\n.", "ab_1 \t\n", "{}\nx \n", "a\n", "[(])\n", " \t\nab", "ab,;. 12\n", "\ta\tbc\n \n", "aé→ (ü)\n", "é\u{301}à\t\n",
    "あ日a \n\t", "→←𝄞 {}\n",
];
/// Bytes that are no UTF-8 somewhere, and separators that no text may hold.
const ODD: [&[u8]; 16] = [
    b"\0", b"\x0B", b"\x0C", b"\r", b"\x7F", b"\x80", b"\xFF", b"\xC3", b"\xE2\x86", b"\xC0\x80", b"\xED\xA0\x80", b"\xF4\x90\x80\x80", b"\xC2\x85",
    b"\xE2\x80\xA8", b"\xE2\x80\xA9", b"\xEF\xBB\xBF",
];

/// A random input: mostly sound command rows and a text, sometimes malformed or refused.
pub fn random(dice: &mut Dice) -> Vec<u8> {
    let mut input = Vec::new();
    for _ in 0..dice.pick(&[0, 1, 2, 3, 5, 8, 13, 30]) {
        let key = if dice.once_in(12) { dice.pick(&NO_KEYS) } else { dice.pick(&KEYS) };
        let count = if dice.once_in(15) { dice.pick(&NO_COUNTS) } else { dice.pick(&COUNTS) };
        input.extend_from_slice(key.as_bytes());
        input.extend_from_slice(count.as_bytes());
        input.push(b'\n');
    }
    if !dice.once_in(20) {
        input.extend_from_slice(if dice.once_in(20) { b"." } else { b".\n" });
    }
    let alphabet: Vec<char> = dice.pick(&TEXTS).chars().collect();
    for _ in 0..dice.pick(&[0, 1, 2, 5, 10, 20, 60, 200]) {
        input.extend_from_slice(dice.pick(&alphabet).to_string().as_bytes());
    }
    if dice.once_in(12) {
        let at = if dice.once_in(2) { input.len() } else { dice.below(input.len() + 1) };
        input.splice(at..at, dice.pick(&ODD).iter().copied());
    }
    input
}

/// Every input of up to `most` bytes over a small alphabet, and over one with the bytes of `é` and of an arrow, shortest first.
pub fn small(most: usize, mut visit: impl FnMut(&[u8])) {
    for alphabet in [&b"jg$ 1.\n"[..], b"$.\n\xC3\xA9\xE2\x86\x92"] {
        let mut row: Vec<Vec<u8>> = vec![Vec::new()];
        for length in 0..=most {
            row.iter().for_each(|input| visit(input));
            if length < most {
                row = row.iter().flat_map(|r| alphabet.iter().map(|&b| [&r[..], &[b]].concat())).collect();
            }
        }
    }
}

/// Inputs at document 01's limits and one past them, and those with the longest outputs.
pub fn limits() -> Vec<Vec<u8>> {
    let joined = |parts: &[(&[u8], usize)]| parts.iter().flat_map(|(part, times)| part.repeat(*times)).collect::<Vec<u8>>();
    let mut inputs = vec![
        joined(&[(b"w\n.\n", 1), (b"a", 16_380)]),
        joined(&[(b"w\n.\n", 1), (b"a", 16_381)]),
        joined(&[(b"a", 20_000)]),
        joined(&[(b"\n", 16_382), (b".\n", 1)]),
        joined(&[(b"\n", 16_383), (b".", 1)]),
        joined(&[(b"\n", 16_384), (b".", 1)]),
        joined(&[(b"\n", 16_384)]),
        joined(&[(b"G\n", 8_190), (b".\n", 1)]),
        joined(&[(b"G\n", 1), (b"\n", 15_380), (b".\n", 1), (b"\n", 998)]),
        joined(&[(b"$\nj\n", 1), (b"\n", 13_300), (b".\n", 1), (b"\n", 1), (b"a", 1_001)]),
        joined(&[(b"h\n", 6_000), (b".\n", 1), (b"\x0B", 1)]),
        joined(&[(b"$\n|123\n", 100), (b".\n", 1), (b"a", 12_345)]),
        joined(&[(b"$\n.\n", 1), ("é".as_bytes(), 8_190)]),
        joined(&[(b"$\n.\n", 1), ("é".as_bytes(), 8_191)]),
        joined(&[("é\n".as_bytes(), 5_460), (b".\n", 1)]),
        joined(&[(b"$\nj\n", 1), (b".\n", 1), ("→é\n".as_bytes(), 2_000)]),
    ];
    for odd in ODD {
        inputs.push([b"w\nj\n.\n", &b"a".repeat(100)[..], odd].concat());
        inputs.push([odd, b"\n.\n"].concat());
        inputs.push([b"w\n", odd, b".\na"].concat());
    }
    for input in ["", ".", ".\n", ".\n.", "..\n. \n.\n.\n", "w\nw\n", "w", "w\r\n.\r\na b\n"] {
        inputs.push(input.into());
    }
    inputs
}
