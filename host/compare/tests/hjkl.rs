//! The crate's module with hjkl's names beside the given Rust: one host, its `use` changed, on the oracle's buffer.

use hjkl_buffer::Fold;
use hjkl_engine::types::{FoldProvider as _, Pos, Query};
use hjkl_engine::{SnapshotFoldProvider, View};
use oracle::Outcome;
use oracle::case::{CALLS, Case};
use oracle::generate::{self, Dice};
use std::cell::Cell;
use tsivareza::Refusal;
use tsivareza::hjkl::{Buffer, FoldProvider};

const HOSTS: &str = include_str!("../../../docs/HOSTS.md");

/// The oracle's buffer as a host has it that moves over.
struct Moved {
    view: View,
    refusal: Cell<Option<Refusal>>,
}

impl Buffer for Moved {
    fn row_count(&self) -> usize {
        self.view.line_count() as usize
    }
    fn row(&self, row: usize) -> String {
        self.view.line(row as u32)
    }
    fn cursor(&self) -> (usize, usize) {
        (self.view.at.line as usize, self.view.at.col as usize)
    }
    fn set_cursor(&mut self, row: usize, col: usize) {
        self.view.at = Pos { line: row as u32, col: col as u32 };
    }
    fn refused(&self, refusal: Refusal) {
        self.refusal.set(Some(refusal));
    }
}

struct MovedFolds(SnapshotFoldProvider);

impl FoldProvider for MovedFolds {
    fn is_row_hidden(&self, row: usize) -> bool {
        self.0.is_row_hidden(row)
    }
}

/// What a host's call leaves: the number or place that it answers, or whether it was found, and the sticky column.
type Left = (Option<(usize, usize)>, bool, Option<usize>);

macro_rules! host {
    ($name:ident, $motions:path, $buffer:ty, $folds:ty, $viewport:path, $wrap:expr) => {
        fn $name(case: &Case, buf: &mut $buffer, folds: &$folds) -> Option<Left> {
            use $motions::*;
            use $viewport as Window;
            let (n, offset, tabstop) = (case.count as usize, case.column as usize, case.tabstop as usize);
            let mut sticky = case.caret.sticky.map(|col| col as usize);
            let list: String = case.list.iter().filter_map(|&x| char::from_u32(x)).collect();
            let window =
                Window { top_row: case.view.top as usize, height: case.view.height, text_width: case.view.width, wrap: $wrap(case) };
            let (mut answer, mut found) = (None, false);
            match case.call.name {
                "content_row_count" => answer = Some((content_row_count(buf), 0)),
                "move_left" => move_left(buf, n),
                "move_right_in_line" => move_right_in_line(buf, n),
                "move_right_to_end" => move_right_to_end(buf, n),
                "move_space_fwd" => move_space_fwd(buf, n),
                "move_backspace_back" => move_backspace_back(buf, n),
                "move_line_start" => move_line_start(buf),
                "move_first_non_blank" => move_first_non_blank(buf),
                "move_line_end" => move_line_end(buf),
                "move_goto_column" => move_goto_column(buf, n),
                "move_last_non_blank" => move_last_non_blank(buf),
                "move_paragraph_prev" => move_paragraph_prev(buf, n),
                "move_paragraph_next" => move_paragraph_next(buf, n),
                "move_section_backward" => move_section_backward(buf, n),
                "move_section_forward" => move_section_forward(buf, n),
                "move_section_end_backward" => move_section_end_backward(buf, n),
                "move_section_end_forward" => move_section_end_forward(buf, n),
                "move_first_non_blank_next_line" => move_first_non_blank_next_line(buf, n),
                "move_first_non_blank_prev_line" => move_first_non_blank_prev_line(buf, n),
                "move_first_non_blank_line" => move_first_non_blank_line(buf, n),
                "move_top" => move_top(buf),
                "move_bottom" => move_bottom(buf, n),
                "move_word_fwd" => move_word_fwd(buf, folds, case.big, n, &list),
                "move_word_back" => move_word_back(buf, folds, case.big, n, &list),
                "move_word_end" => move_word_end(buf, folds, case.big, n, case.stop, &list),
                "move_word_end_back" => move_word_end_back(buf, case.big, n, &list),
                "matching_bracket_pos" => answer = matching_bracket_pos(buf, case.caret.row as usize, case.caret.col as usize),
                "match_bracket" => found = match_bracket(buf),
                "find_char_on_line" => {
                    let x = char::from_u32(case.character).unwrap_or(' ');
                    found = find_char_on_line(buf, x, case.forward, case.till, case.skip);
                }
                "move_up" => move_up(buf, folds, n, &mut sticky, tabstop),
                "move_down" => move_down(buf, folds, n, &mut sticky, tabstop),
                "move_screen_up" => move_screen_up(buf, folds, &window, n, &mut sticky, tabstop),
                "move_screen_down" => move_screen_down(buf, folds, &window, n, &mut sticky, tabstop),
                "move_viewport_top" => move_viewport_top(buf, &window, offset),
                "move_viewport_middle" => move_viewport_middle(buf, &window),
                "move_viewport_bottom" => move_viewport_bottom(buf, &window, offset),
                _ => return None,
            }
            Some((answer, found, sticky))
        }
    };
}

fn wrap(case: &Case) -> tsivareza::Wrap {
    match case.view.wrap {
        hjkl_buffer::Wrap::None => tsivareza::Wrap::None,
        hjkl_buffer::Wrap::Char => tsivareza::Wrap::Char,
        hjkl_buffer::Wrap::Word => tsivareza::Wrap::Word,
    }
}

host!(before, hjkl_engine::motions, View, SnapshotFoldProvider, hjkl_buffer::Viewport, |case: &Case| case.view.wrap);
host!(after, tsivareza::hjkl, Moved, MovedFolds, tsivareza::hjkl::Viewport, wrap);

fn provider(case: &Case, rows: usize) -> SnapshotFoldProvider {
    let fold = |f: &[u32]| Fold { start_row: f[0] as usize, end_row: f[1] as usize, closed: f[2] == 1, auto_generated: false };
    SnapshotFoldProvider::new(case.folds.chunks_exact(3).map(fold).collect(), rows)
}

/// Whether the case was tried: left out are folds that the library refuses, for a host only says which rows are hidden, texts and
/// lists that are no strings, and large counts, which the given Rust goes round by round.
fn tried(case: &Case) -> bool {
    let refused = match case.answer() {
        Outcome::Outside | Outcome::Refused(2 | 5) => return false,
        Outcome::Refused(number) => Some(number),
        _ => None,
    };
    let string = |points: &[u32]| points.iter().map(|&x| char::from_u32(x)).collect::<Option<String>>();
    let (Some(text), Some(_)) = (string(&case.text), string(&case.list)) else { return false };
    if case.count > 10_000 || case.text.len() > 100_000 {
        return false;
    }
    let at = Pos { line: case.caret.row, col: case.caret.col };
    let rows = text.split('\n').count();
    let mut moved = Moved { view: View::new(&text, at), refusal: Cell::new(None) };
    let Some(left) = after(case, &mut moved, &MovedFolds(provider(case, rows))) else { return false };
    assert_eq!(moved.refusal.get().map(Refusal::number), refused, "{case}");
    if refused.is_some() {
        assert_eq!((moved.view.at, left.1, left.2), (at, false, case.caret.sticky.map(|col| col as usize)), "{case}");
        return true;
    }
    let mut view = View::new(&text, at);
    let wanted = before(case, &mut view, &provider(case, rows)).expect("the same calls");
    assert_eq!((moved.view.at, left), (view.at, wanted), "{case}");
    true
}

#[test]
fn every_motion_beside_the_given_rust() {
    let mut names = 0;
    for call in &CALLS {
        let count = (0..2_000).filter(|&index| tried(&generate::random(call, &mut Dice::new(33, index)))).count();
        assert!(count == 0 || count > 500, "{}: {count} cases", call.name);
        names += usize::from(count > 0);
        let row = format!("\n| `{}(buf", call.name);
        assert_eq!(HOSTS.contains(&row), count > 0, "docs/HOSTS.md, {}", call.name);
    }
    assert_eq!(names, 36);
}

/// A count, an offset and a sticky column that no u32 holds, and a row that holds a separator.
#[test]
fn large_numbers_and_a_row_of_two() {
    let large = usize::MAX;
    let text = "ab cd\n\nab";
    let at = Pos { line: 0, col: 1 };
    let new = || Moved { view: View::new(text, at), refusal: Cell::new(None) };
    let none = MovedFolds(SnapshotFoldProvider::new(Vec::new(), 3));
    let mut buf = new();
    tsivareza::hjkl::move_left(&mut buf, large);
    assert_eq!(buf.cursor(), (0, 0));
    let mut sticky = Some(large);
    tsivareza::hjkl::move_down(&mut buf, &none, large, &mut sticky, 8);
    assert_eq!((buf.cursor(), sticky), ((2, 1), Some(large)));
    tsivareza::hjkl::move_viewport_top(
        &mut buf,
        &tsivareza::hjkl::Viewport { top_row: large, height: 1, text_width: 0, wrap: tsivareza::Wrap::None },
        large,
    );
    assert_eq!((buf.cursor(), buf.refusal.get()), ((2, 0), None));
    tsivareza::hjkl::move_down(&mut buf, &none, 1, &mut sticky, large);
    assert_eq!(buf.refusal.get(), Some(Refusal::Tabstop));

    struct Two;
    impl Buffer for Two {
        fn row_count(&self) -> usize {
            1
        }
        fn row(&self, _: usize) -> String {
            "a\nb".into()
        }
        fn cursor(&self) -> (usize, usize) {
            (0, 0)
        }
        fn set_cursor(&mut self, _: usize, _: usize) {
            panic!("a refused motion moved");
        }
        fn refused(&self, refusal: Refusal) {
            assert_eq!(refusal, Refusal::LineBreak);
        }
    }
    tsivareza::hjkl::move_bottom(&mut Two, 0);
    assert_eq!(tsivareza::hjkl::matching_bracket_pos(&Two, 0, 0), None);
}
