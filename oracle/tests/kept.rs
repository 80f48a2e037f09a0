//! Document 02's #110: without an offset the screen moves that remember answer row, column and sticky column as the given Rust's
//! screen moves, counts add, and the corners, by their smallest inputs.

use oracle::case::{self, Case};
use oracle::generate::{Dice, random, small};
use oracle::kept::screen_kept;
use oracle::{Caret, Outcome, Viewport, Wrap, calls, points};

const PAIR: [(&str, bool); 2] = [("move_screen_up_kept", false), ("move_screen_down_kept", true)];

/// The given Rust's screen move of the same inputs.
fn given(k: &Case, down: bool) -> Result<Caret, u32> {
    let go = if down { calls::move_screen_down } else { calls::move_screen_up };
    go(&k.text, k.caret, &k.folds, k.view, k.tabstop, k.count)
}

fn as_the_given(k: &Case, down: bool) -> bool {
    match k.answer() {
        Outcome::Kept(caret, _) => given(k, down) == Ok(caret),
        Outcome::Refused(number) => given(k, down) == Err(number),
        Outcome::Outside => true,
        other => panic!("{k}: {other}"),
    }
}

#[test]
fn without_an_offset_as_the_given_rust() {
    for (name, down) in PAIR {
        let call = case::call(name).unwrap();
        let mut cases = 0;
        let mut visit = |case: &Case| {
            if case.offset.is_none() {
                assert!(as_the_given(case, down), "{case}");
                cases += 1;
            }
        };
        small(call, 3, &mut visit);
        for index in 0..20_000 {
            visit(&Case { offset: None, ..random(call, &mut Dice::new(3, index)) });
        }
        assert!(cases > 40_000, "{name}: {cases} cases");
    }
}

/// Two calls, the second on the whole caret of the first, against one.
#[test]
fn counts_add() {
    for (name, down) in PAIR {
        let call = case::call(name).unwrap();
        let mut sums = 0;
        for index in 0..20_000 {
            let k = random(call, &mut Dice::new(4, index));
            let go = |caret, offset, count| screen_kept(&k.text, caret, offset, &k.folds, k.view, k.tabstop, count, down);
            if calls::sum_wraps(&k.text, k.view.width, k.view.wrap) {
                continue;
            }
            for (m, n) in [(1, 1), (1, 2), (2, 1), (3, 4)] {
                let twice = go(k.caret, k.offset, m).and_then(|(caret, offset)| go(caret, offset, n));
                assert_eq!(twice, go(k.caret, k.offset, m + n), "{k}: {m} and {n}");
                sums += 1;
            }
        }
        assert!(sums > 40_000, "{name}: {sums} sums");
    }
}

/// Row, column, sticky column and offset after a move from a caret without a sticky column.
fn after(text: &str, folds: &[u32], (width, wrap): (u16, Wrap), at: (u32, u32), offset: Option<u32>, down: bool) -> (u32, u32, u32, Option<u32>) {
    let view = Viewport { width, wrap, ..Viewport::default() };
    let (k, offset) = screen_kept(&points(text), Caret::at(at.0, at.1), offset, folds, view, 8, 1, down).unwrap();
    (k.row, k.col, k.sticky.unwrap(), offset)
}

#[test]
fn corners() {
    let (one, two, words) = ((1, Wrap::Char), (2, Wrap::Char), (2, Wrap::Word));
    assert_eq!(after("", &[], one, (0, 0), None, true), (0, 0, 0, Some(0)));
    assert_eq!(after("ab", &[], (4, Wrap::Char), (0, 2), None, true), (0, 2, 2, Some(2)));
    assert_eq!(after("aa aa", &[], words, (0, 1), None, true), (0, 2, 1, Some(1)));
    assert_eq!(after("aa aa", &[], words, (0, 2), Some(1), true), (0, 4, 2, Some(1)));
    assert_eq!(after("abcd", &[], two, (0, 4), None, false), (0, 1, 4, Some(2)));
    assert_eq!(after("abcd", &[], two, (0, 1), Some(2), true), (0, 3, 1, Some(2)));
    assert_eq!(after("abcd", &[], two, (0, 0), Some(u32::MAX), true), (0, 3, 0, Some(u32::MAX)));
    assert_eq!(after("\n\na", &[1, 2, 1], one, (0, 0), Some(0), true), (1, 0, 0, Some(0)));
    assert_eq!(after("\n\na", &[1, 2, 1], one, (1, 0), None, true), (2, 0, 0, Some(0)));
    assert_eq!(after("\na", &[0, 1, 1], one, (1, 1), None, false), (0, 0, 1, Some(0)));
    assert_eq!(after("ab\n\nab", &[0, 1, 1], two, (0, 1), None, true), (2, 0, 1, Some(0)));
    assert_eq!(after("a\nbcde", &[0, 1, 1], two, (0, 0), None, true), (1, 2, 0, Some(0)));
    assert_eq!(after("a\nbcde", &[0, 1, 1], two, (0, 0), Some(0), true), (0, 0, 0, Some(0)));
    assert_eq!(after("\n", &[0, 1, 1], one, (1, 0), None, true), (0, 0, 0, Some(0)));
    assert_eq!(after("\u{3042}", &[], one, (0, 1), None, true), (0, 1, 2, Some(1)));
    assert_eq!(after("", &[], (0, Wrap::None), (0, 0), Some(1), true), (0, 0, 0, None));
}
