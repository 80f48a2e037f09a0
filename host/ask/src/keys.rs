//! The keys of the session, each by the crate's method.

use std::fmt;
use tsivareza::{Caret, Cells, Folds, KeywordList, Refusal, Text};

type Counted = fn(Caret, &Text, u32) -> Result<Caret, Refusal>;

/// A key and its count, 0 where none was typed.
pub struct Key {
    name: &'static str,
    count: u32,
    go: Counted,
}

fn words(big: bool) -> (Folds, KeywordList, bool) {
    (Folds::new(), KeywordList::default(), big)
}

fn forward(big: bool, k: Caret, text: &Text, count: u32) -> Result<Caret, Refusal> {
    let (folds, list, big) = words(big);
    k.move_word_fwd(text, &folds, &list, big, count)
}

fn back(big: bool, k: Caret, text: &Text, count: u32) -> Result<Caret, Refusal> {
    let (folds, list, big) = words(big);
    k.move_word_back(text, &folds, &list, big, count)
}

fn end(big: bool, k: Caret, text: &Text, count: u32) -> Result<Caret, Refusal> {
    let (folds, list, big) = words(big);
    k.move_word_end(text, &folds, &list, big, count, false)
}

fn end_back(big: bool, k: Caret, text: &Text, count: u32) -> Result<Caret, Refusal> {
    k.move_word_end_back(text, &KeywordList::default(), big, count)
}

const KEYS: &[(&str, Counted)] = &[
    ("h", |k, text, n| k.move_left(text, n)),
    ("l", |k, text, n| k.move_right_in_line(text, n)),
    ("w", |k, text, n| forward(false, k, text, n)),
    ("b", |k, text, n| back(false, k, text, n)),
    ("e", |k, text, n| end(false, k, text, n)),
    ("W", |k, text, n| forward(true, k, text, n)),
    ("B", |k, text, n| back(true, k, text, n)),
    ("E", |k, text, n| end(true, k, text, n)),
    ("ge", |k, text, n| end_back(false, k, text, n)),
    ("gE", |k, text, n| end_back(true, k, text, n)),
    ("0", |k, text, _| k.move_line_start(text)),
    ("^", |k, text, _| k.move_first_non_blank(text)),
    ("$", |k, text, _| k.move_line_end(text)),
    ("g_", |k, text, _| k.move_last_non_blank(text)),
    ("{", |k, text, n| k.move_paragraph_prev(text, n)),
    ("}", |k, text, n| k.move_paragraph_next(text, n)),
    ("[[", |k, text, n| k.move_section_backward(text, n)),
    ("]]", |k, text, n| k.move_section_forward(text, n)),
    ("[]", |k, text, n| k.move_section_end_backward(text, n)),
    ("][", |k, text, n| k.move_section_end_forward(text, n)),
    ("+", |k, text, n| k.move_first_non_blank_next_line(text, n)),
    ("-", |k, text, n| k.move_first_non_blank_prev_line(text, n)),
    ("_", |k, text, n| k.move_first_non_blank_line(text, n)),
    ("gg", |k, text, _| k.move_top(text)),
    ("G", |k, text, n| k.move_bottom(text, n)),
    ("|", |k, text, n| k.move_goto_column(text, n)),
    ("%", |k, text, _| Ok(k.match_bracket(text)?.unwrap_or(k))),
    ("j", |k, text, n| k.move_down(text, &Folds::new(), n, Cells::default())),
    ("k", |k, text, n| k.move_up(text, &Folds::new(), n, Cells::default())),
];

impl Key {
    /// A key, and then nothing or a space and 1 to 9 digits, as in a session.
    pub fn read(typed: &str) -> Option<Key> {
        let (name, count) = match typed.split_once(' ') {
            None => (typed, 0),
            Some((name, digits)) => {
                let fits = (1..=9).contains(&digits.len()) && digits.bytes().all(|b| b.is_ascii_digit());
                (name, fits.then(|| digits.parse().ok()).flatten()?)
            }
        };
        KEYS.iter().find(|known| known.0 == name).map(|&(name, go)| Key { name, count, go })
    }

    pub fn go(&self, text: &Text, from: Caret) -> Result<Caret, Refusal> {
        (self.go)(from, text, self.count)
    }
}

impl fmt::Display for Key {
    fn fmt(&self, to: &mut fmt::Formatter) -> fmt::Result {
        match self.count {
            0 => to.write_str(self.name),
            count => write!(to, "{} {count}", self.name),
        }
    }
}

#[cfg(test)]
mod tests {
    use super::*;

    /// Every key lands where the proved session's caret does, from its start.
    #[test]
    fn keys_are_the_sessions() {
        let text = "if (a) {\n  é → b-c\n}\n\n{ x }\n}\n";
        for &(name, go) in KEYS {
            for count in [0, 1, 2, 3, 9] {
                let session = format!("{name} {count}\n.\n{text}");
                let printed = String::from_utf8(tsivareza::session(session.as_bytes())).unwrap();
                let k = go(Caret::at(0, 0), &text.parse().unwrap(), count).unwrap();
                assert_eq!(printed, format!("{name} {} {}\n", k.row, k.col), "{name} {count}");
            }
        }
    }

    #[test]
    fn what_is_no_key() {
        for typed in ["", "x", "w3", "w  3", "w 1234567890", "w -1", "w 3 ", " w", "ww"] {
            assert!(Key::read(typed).is_none(), "{typed}");
        }
        assert_eq!(Key::read("w 3").unwrap().to_string(), "w 3");
        assert_eq!(Key::read("ge").unwrap().to_string(), "ge");
    }
}
