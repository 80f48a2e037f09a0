//! The types that a host works with, against naive versions of what they are said to do.

use tsivareza::{Caret, Cells, Fold, Folds, Kind, KeywordList, Range, Refusal, Text, Viewport, Wrap};

/// A small generator of numbers: xorshift.
struct Dice(u64);

impl Dice {
    fn below(&mut self, n: usize) -> usize {
        self.0 ^= self.0 << 13;
        self.0 ^= self.0 >> 7;
        self.0 ^= self.0 << 17;
        (self.0 % n as u64) as usize
    }

    fn text(&mut self, most: usize) -> String {
        let signs = ['a', 'é', '→', ' ', '\n', '\n', '(', ')', '{', '}', '😀', '\t'];
        (0..self.below(most + 1)).map(|_| signs[self.below(signs.len())]).collect()
    }
}

/// The position of an offset, counted from the top.
fn place(text: &str, offset: usize) -> (u32, u32) {
    let before: Vec<char> = text.chars().take(offset).collect();
    let row = before.iter().filter(|x| **x == '\n').count();
    let col = before.iter().rev().take_while(|x| **x != '\n').count();
    (row as u32, col as u32)
}

fn is_true(text: &Text, wanted: &str) {
    assert_eq!(text.to_string(), wanted);
    let rows: Vec<&str> = wanted.split('\n').collect();
    assert_eq!(text.rows() as usize, rows.len());
    let starts: Vec<u32> = rows.iter().scan(0, |at, row| { let start = *at; *at += row.chars().count() as u32 + 1; Some(start) }).collect();
    assert_eq!(text.row_starts(), starts);
    let content = if rows.len() > 1 && rows.last() == Some(&"") { rows.len() - 1 } else { rows.len() };
    assert_eq!(text.content_rows() as usize, content);
    for (row, line) in rows.iter().enumerate() {
        assert_eq!(text.row_string(row as u32).as_deref(), Some(*line));
    }
    assert_eq!(text.row(rows.len() as u32), None);
    let len = wanted.chars().count();
    for offset in 0..=len {
        assert_eq!(text.position(offset), Some(place(wanted, offset)));
        assert_eq!(text.offset(place(wanted, offset)), Some(offset));
    }
    assert_eq!((text.position(len + 1), text.offset((u32::MAX, 0)), text.offset((0, u32::MAX))), (None, None, None));
}

#[test]
fn edits_keep_the_table() {
    let mut dice = Dice(0x5EED);
    for _ in 0..60 {
        let mut wanted = dice.text(30);
        let mut text: Text = wanted.parse().unwrap();
        let mut folds = Folds::new();
        let mut caret = Caret::at(0, 0);
        for _ in 0..40 {
            is_true(&text, &wanted);
            let len = wanted.chars().count();
            let (from, to) = (dice.below(len + 1), dice.below(len + 1));
            let k = dice.below(len + 1);
            caret = Caret { sticky: Some(3), ..Caret::at(place(&wanted, k).0, place(&wanted, k).1) };
            let new = dice.text(6);
            let chars: Vec<char> = wanted.chars().collect();
            let range = Range { start: place(&wanted, from), end: place(&wanted, to) };
            let (told, after, at) = match dice.below(3) {
                0 => {
                    let after: String = chars[..from].iter().chain(&new.chars().collect::<Vec<_>>()).chain(&chars[from..]).collect();
                    let at = if k >= from { k + new.chars().count() } else { k };
                    (text.insert(range.start, &new, &mut caret, &mut folds), after, at)
                }
                1 => {
                    let after: String = if from <= to { chars[..from].iter().chain(&chars[to..]).collect() } else { wanted.clone() };
                    let at = if k >= to { k - (to - from.min(to)) } else { k.min(from) };
                    (text.delete(range, &mut caret, &mut folds), after, at)
                }
                _ => {
                    let n = new.chars().count();
                    let after: String =
                        if from <= to { chars[..from].iter().copied().chain(new.chars()).chain(chars[to..].iter().copied()).collect() } else { wanted.clone() };
                    let at = if k >= to { k - (to - from.min(to)) + n } else if k >= from { from + n } else { k };
                    (text.replace(range, &new, &mut caret, &mut folds), after, at)
                }
            };
            match told {
                Ok(()) => {
                    let (row, col) = place(&after, at);
                    assert_eq!(caret, Caret::at(row, col), "{wanted:?} {range:?} {new:?} {k}");
                    wanted = after;
                }
                Err(refusal) => {
                    assert_eq!((refusal, from > to, caret.sticky), (Refusal::Position, true, Some(3)));
                }
            }
        }
        is_true(&text, &wanted);
        _ = caret;
    }
}

#[test]
fn refused_edits_change_nothing() {
    let mut text: Text = "a {\nb\n}\n".parse().unwrap();
    let (mut caret, mut folds) = (Caret { row: 1, col: 1, sticky: Some(4) }, Folds::from_iter([Fold { start: 0, end: 2, closed: true }]));
    let before = (text.clone(), caret, folds.clone());
    let whole = Range { start: (0, 0), end: (3, 0) };
    assert_eq!(text.insert((0, 0), "\r", &mut caret, &mut folds), Err(Refusal::LineBreak));
    assert_eq!(text.insert((0, 9), "x", &mut caret, &mut folds), Err(Refusal::Position));
    assert_eq!(text.insert((0, 0), &"x".repeat(1_048_577), &mut caret, &mut folds), Err(Refusal::TooLong));
    assert_eq!(text.insert((0, 0), &"\n".repeat(1_048_576), &mut caret, &mut folds), Err(Refusal::Full));
    assert_eq!(text.delete(Range { start: (1, 0), end: (0, 0) }, &mut caret, &mut folds), Err(Refusal::Position));
    assert_eq!(text.replace(whole, "\u{2028}", &mut caret, &mut folds), Err(Refusal::LineBreak));
    assert_eq!((&text, caret, &folds), (&before.0, before.1, &before.2));
    let mut outside = Caret::at(9, 0);
    assert_eq!(text.delete(whole, &mut outside, &mut folds), Err(Refusal::Caret));
    let mut wrong = Folds::from_iter([Fold { start: 2, end: 1, closed: false }]);
    assert_eq!(text.delete(whole, &mut caret, &mut wrong), Err(Refusal::Folds));
    assert_eq!((&text, outside, wrong.len()), (&before.0, Caret::at(9, 0), 1));
    text.delete(whole, &mut caret, &mut folds).unwrap();
    assert_eq!((text, caret, folds), (Text::default(), Caret::at(0, 0), Folds::new()));
}

#[test]
fn the_largest_text() {
    let most = "a\n".repeat(524_288);
    let mut text: Text = most.parse().unwrap();
    assert_eq!((text.rows(), text.content_rows()), (524_289, 524_288));
    let (mut caret, mut folds) = (Caret::at(0, 0), Folds::new());
    assert_eq!(text.insert((0, 0), "x", &mut caret, &mut folds), Err(Refusal::Full));
    text.replace(Range { start: (0, 0), end: (0, 1) }, "é", &mut caret, &mut folds).unwrap();
    assert_eq!(text.row_string(0).as_deref(), Some("é"));
    assert_eq!((most + "a").parse::<Text>(), Err(Refusal::TooLong));
    let rows = "\n".repeat(1_048_576);
    assert_eq!(rows.parse::<Text>().unwrap().rows(), 1_048_577);
}

/// Every method on numbers that no text has.
#[test]
fn no_number_makes_a_method_panic() {
    let (text, folds, list): (Text, _, _) = ("ab (c)\n\t→\n".parse().unwrap(), Folds::new(), KeywordList::default());
    for n in [0, 1, u32::MAX - 1, u32::MAX] {
        let caret = Caret { row: 0, col: 1, sticky: Some(n) };
        let cells = Cells { tabstop: n.min(1_000), ..Cells::default() };
        let window = Viewport { top: n, height: n as u16, width: n as u16, wrap: Wrap::Word };
        for moved in [
            caret.move_left(&text, n),
            caret.move_goto_column(&text, n),
            caret.move_bottom(&text, n),
            caret.move_up(&text, &folds, n, cells),
            caret.move_down(&text, &folds, n, cells),
            caret.move_screen_down(&text, &folds, &window, n, cells),
            caret.move_viewport_top(&text, &window, n),
            caret.move_viewport_middle(&text, &window),
            caret.move_viewport_bottom(&text, &window, n),
            caret.move_word_fwd(&text, &folds, &list, true, n),
        ] {
            let moved = moved.unwrap();
            assert!(text.offset(moved.position()).is_some());
        }
        assert_eq!(caret.move_down(&text, &folds, 1, Cells { tabstop: 1_001, ..cells }), Err(Refusal::Tabstop));
        _ = (text.row(n), text.visual_col(n, n, cells), text.char_col(0, n, cells), text.position(n as usize));
        _ = (text.inner_pair(Kind::Angle, n, n), text.segments(0, n as u16, Wrap::Char, cells.ambiguous));
        _ = text.slice(Range { start: (n, n), end: (0, n) });
        _ = Caret::at(n, n).match_bracket(&text);
        let mut many = Folds::from_iter((0..300).map(|_| Fold { start: n, end: n, closed: true }));
        assert_eq!(many.to_file(&text), Err(Refusal::Folds));
        assert_eq!(text.clone().insert((0, 0), "x", &mut caret.unstuck(), &mut many), Err(Refusal::Folds));
        assert_eq!(many.len(), 300);
    }
    assert_eq!(Folds::from_file(&text, &[]), Err(Refusal::FoldFileLength));
}
