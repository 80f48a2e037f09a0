//! Every position that a motion writes is tested when it is written, those in the middle of a call
//! and those after any number of others among them.

use hjkl_engine::types::{Cursor, Pos};
use hjkl_engine::{View, motions};

fn pos(line: u32, col: u32) -> Pos {
    Pos { line, col }
}

#[test]
fn a_row_and_at_most_its_character_count() {
    let view = View::new("a\u{3042}\n\nb\n", pos(0, 0));
    for (row, count) in [2, 0, 1, 0].into_iter().enumerate() {
        assert!(view.is_inside(pos(row as u32, count)));
        assert!(!view.is_inside(pos(row as u32, count + 1)));
    }
    assert!(!view.is_inside(pos(4, 0)));
}

#[test]
fn the_first_outside_is_kept_whatever_is_written_before_and_after() {
    let mut view = View::new("ab\nc", pos(0, 0));
    for _ in 0..5_000 {
        view.set_cursor(pos(0, 2));
    }
    assert_eq!(view.outside, None);
    for p in [pos(1, 2), pos(2, 0), pos(0, 0)] {
        view.set_cursor(p);
    }
    assert_eq!((view.at, view.outside, view.writes), (pos(0, 0), Some(pos(1, 2)), 5_003));
}

#[test]
fn each_round_is_a_write() {
    let mut view = View::new(&"a".repeat(3_000), pos(0, 0));
    motions::move_space_fwd(&mut view, 2_500);
    assert_eq!((view.at, view.outside, view.writes), (pos(0, 2_500), None, 2_500));
    // the row's first column, and then its first character that is no blank
    let mut view = View::new("a\n b", pos(0, 0));
    motions::move_bottom(&mut view, 0);
    assert_eq!((view.at, view.outside, view.writes), (pos(1, 1), None, 2));
}
