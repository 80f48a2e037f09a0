//! The refusal table, from document 01 alone. Nothing here looks at the given Rust.
//!
//! A call puts the inputs that it takes into `Inputs`; the lowest number that applies is given.

/// The inputs that a call takes; what it doesn't take stays `None`.
#[derive(Clone, Copy, Default)]
pub struct Inputs<'a> {
    pub text: Option<&'a [u32]>,
    pub row: Option<&'a [u32]>,
    /// A character sought or tested.
    pub character: Option<u32>,
    /// Row and column of a caret.
    pub caret: Option<(u32, u32)>,
    pub folds: Option<&'a [u32]>,
    pub tabstop: Option<u32>,
    pub list: Option<&'a [u32]>,
    /// Whether the list is parsed into its table.
    pub parsed: bool,
    /// Segments to be written, and the places lent for their numbers.
    pub room: Option<(usize, usize)>,
    pub segments: Option<&'a [u32]>,
}

const LIMIT: usize = 1_048_576;
const BREAKS: [u32; 6] = [0x0B, 0x0C, 0x0D, 0x85, 0x2028, 0x2029];

fn forbidden(x: u32) -> bool {
    x > 0x10FFFF || (0xD800..=0xDFFF).contains(&x)
}

/// The character count of each row.
fn row_lengths(text: &[u32]) -> Vec<usize> {
    text.split(|&x| x == 0x0A).map(<[u32]>::len).collect()
}

fn bad_caret(text: &[u32], (row, col): (u32, u32)) -> bool {
    match row_lengths(text).get(row as usize) {
        None => true,
        Some(&length) => col as usize > length,
    }
}

fn bad_folds(text: &[u32], folds: &[u32]) -> bool {
    let rows = row_lengths(text).len();
    folds.len() % 3 != 0
        || folds.len() / 3 > 256
        || folds.chunks(3).any(|f| f[0] > f[1] || f[1] as usize >= rows || f[2] > 1)
}

const WHITE: [(u32, u32); 10] = [
    (0x09, 0x0D),
    (0x20, 0x20),
    (0x85, 0x85),
    (0xA0, 0xA0),
    (0x1680, 0x1680),
    (0x2000, 0x200A),
    (0x2028, 0x2029),
    (0x202F, 0x202F),
    (0x205F, 0x205F),
    (0x3000, 0x3000),
];

fn white(x: u32) -> bool {
    WHITE.iter().any(|&(first, last)| first <= x && x <= last)
}

/// One or more digits with one optional leading plus, below 2^32.
fn number(s: &[u32]) -> bool {
    let digits = if s.first() == Some(&0x2B) { &s[1..] } else { s };
    let mut value = 0u64;
    for &x in digits {
        if !(0x30..=0x39).contains(&x) {
            return false;
        }
        value = (value * 10 + u64::from(x - 0x30)).min(1 << 32);
    }
    !digits.is_empty() && value < 1 << 32
}

/// Whether a trimmed part, not empty, is kept as a token.
fn kept(part: &[u32]) -> bool {
    let range = part.iter().position(|&x| x == 0x2D).is_some_and(|at| number(&part[..at]) && number(&part[at + 1..]));
    range || number(part) || part.len() == 1
}

/// How many tokens of a list are kept.
pub fn tokens(list: &[u32]) -> usize {
    list.split(|&x| x == 0x2C)
        .filter(|part| {
            let from = part.iter().position(|&x| !white(x));
            let to = part.iter().rposition(|&x| !white(x));
            matches!((from, to), (Some(from), Some(to)) if kept(&part[from..=to]))
        })
        .count()
}

/// The lowest number that applies, or 0.
pub fn refusal(given: &Inputs) -> u32 {
    let long = |s: Option<&[u32]>| s.is_some_and(|s| s.len() > LIMIT);
    let wrong = |s: Option<&[u32]>| s.is_some_and(|s| s.iter().any(|&x| forbidden(x)));
    if long(given.text) || long(given.row) {
        return 1;
    }
    if wrong(given.text) || wrong(given.row) || given.character.is_some_and(forbidden) {
        return 2;
    }
    if given.text.is_some_and(|t| t.iter().any(|x| BREAKS.contains(x))) {
        return 3;
    }
    let text = given.text.unwrap_or(&[]);
    if given.caret.is_some_and(|at| bad_caret(text, at)) {
        return 4;
    }
    if given.folds.is_some_and(|f| bad_folds(text, f)) {
        return 5;
    }
    if given.tabstop.is_some_and(|n| n > 1000) {
        return 6;
    }
    if given.list.is_some_and(|l| l.len() > 1024) || wrong(given.list) {
        return 7;
    }
    if given.parsed && given.list.is_some_and(|l| tokens(l) > 128) {
        return 8;
    }
    if given.room.is_some_and(|(segments, places)| 2 * segments > places) {
        return 9;
    }
    if given.segments.is_some_and(|s| s.len() % 2 != 0) {
        return 10;
    }
    0
}
