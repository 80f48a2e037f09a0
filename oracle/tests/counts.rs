//! Document 02's #109 on the given Rust: a motion with count m and then with count n against one with count m + n, on every
//! text of up to 4 code points, and the examples of docs/COUNTS.md of counts that don't add.

use oracle::calls::{self, Words};
use oracle::{Caret, Viewport, Wrap, points};

type Answer = Result<Caret, u32>;
type Move<'a> = &'a dyn Fn(&[u32], Caret, u32) -> Answer;

/// The second call takes the whole caret that the first returned.
fn twice(first: Move, second: Move, text: &[u32], caret: Caret, m: u32, n: u32) -> Answer {
    second(text, first(text, caret, m)?, n)
}

const COUNTS: [(u32, u32); 6] = [(1, 1), (1, 2), (2, 1), (3, 2), (1, 4_294_967_294), (4_294_967_294, 1)];

/// How many sums were compared, each equal; a caret past the text is refused in both.
fn adds(name: &str, alphabet: &[u32], counts: &[(u32, u32)], first: Move, second: Move) -> u32 {
    let mut texts = vec![vec![]];
    let mut cases = 0;
    for length in 0..=4 {
        for text in &texts {
            for (row, col) in (0..=length + 1).flat_map(|row| (0..=length + 1).map(move |col| (row, col))) {
                for sticky in [None, Some(3)] {
                    let caret = Caret { row, col, sticky };
                    for &(m, n) in counts {
                        let sum = first(text, caret, m + n);
                        assert_eq!(twice(first, second, text, caret, m, n), sum, "{name}: {text:?} {caret:?} {m} and {n}");
                        cases += u32::from(sum.is_ok());
                    }
                }
            }
        }
        texts = texts.iter().flat_map(|t| alphabet.iter().map(move |&c| [&t[..], &[c]].concat())).collect();
    }
    cases
}

#[test]
fn ways_add() {
    let ways: [(&str, Move); 11] = [
        ("left", &calls::move_left),
        ("right", &calls::move_right_in_line),
        ("right to end", &calls::move_right_to_end),
        ("space", &calls::move_space_fwd),
        ("backspace", &calls::move_backspace_back),
        ("section backward", &calls::move_section_backward),
        ("section forward", &calls::move_section_forward),
        ("section end backward", &calls::move_section_end_backward),
        ("section end forward", &calls::move_section_end_forward),
        ("next line", &calls::move_first_non_blank_next_line),
        ("previous line", &calls::move_first_non_blank_prev_line),
    ];
    for (name, way) in ways {
        // the given `move_space_fwd` and `move_backspace_back` walk every round of a count
        let counts = if name.ends_with("space") { &COUNTS[..4] } else { &COUNTS[..] };
        assert!(adds(name, &points("a{} \n"), counts, way, way) > 10_000, "{name}");
    }
}

/// The folds where they fit the rows of the text, and none where they don't.
fn fitting<'a>(text: &[u32], folds: &'a [u32]) -> &'a [u32] {
    let rows = text.iter().filter(|&&c| c == 10).count() as u32 + 1;
    if folds.chunks(3).all(|fold| fold[1] < rows) { folds } else { &[] }
}

#[test]
fn words_add_with_stop_in_the_first_call_alone() {
    let list = points("@,48-57,_");
    for folds in [&[][..], &[0, 1, 1], &[1, 2, 1]] {
        for big in [false, true] {
            let words = |text: &[u32]| Words { folds: fitting(text, folds), list: &list, big };
            let fwd = |t: &[u32], k, n| calls::move_word_fwd(t, k, words(t), n);
            let back = |t: &[u32], k, n| calls::move_word_back(t, k, words(t), n);
            let end = |t: &[u32], k, n| calls::move_word_end(t, k, words(t), n, false);
            let stop = |t: &[u32], k, n| calls::move_word_end(t, k, words(t), n, true);
            let end_back = |t: &[u32], k, n| calls::move_word_end_back(t, k, words(t), n);
            let moves: [(&str, Move, Move); 5] =
                [("w", &fwd, &fwd), ("b", &back, &back), ("e", &end, &end), ("e with stop", &stop, &end), ("ge", &end_back, &end_back)];
            for (name, first, second) in moves {
                assert!(adds(name, &points("a. \n"), &COUNTS[..4], first, second) > 4_000, "{name}");
            }
        }
    }
}

#[test]
fn rows_add_with_the_sticky_column_that_the_first_returned() {
    for folds in [&[][..], &[0, 1, 1], &[1, 2, 1]] {
        let up = |t: &[u32], k, n| calls::move_up(t, k, fitting(t, folds), 3, n);
        let down = |t: &[u32], k, n| calls::move_down(t, k, fitting(t, folds), 3, n);
        for (name, go) in [("k", &up as Move), ("j", &down)] {
            assert!(adds(name, &points("a\t\u{3042}\n"), &COUNTS[..4], go, go) > 4_000, "{name}");
        }
    }
}

#[test]
fn what_is_left_of_a_count_is_left_of_the_sum() {
    let (text, list) = (points("ab cd ef"), points("@,48-57,_"));
    let fwd = |t: &[u32], k, n| calls::move_word_fwd(t, k, Words { folds: &[], list: &list, big: false }, n);
    assert_eq!(twice(&fwd, &fwd, &text, Caret::at(0, 0), 2, 3), Ok(Caret::at(0, 8)));
    assert_eq!(fwd(&text, Caret::at(0, 0), 5), Ok(Caret::at(0, 8)));
}

/// 1 and then 1, and 2, from a caret without a sticky column: row and column of each.
fn ends(go: Move, text: &str, row: u32, col: u32) -> [(u32, u32); 2] {
    let (text, caret) = (points(text), Caret::at(row, col));
    [twice(go, go, &text, caret, 1, 1), go(&text, caret, 2)].map(|k| k.map(|k| (k.row, k.col)).unwrap())
}

#[test]
fn paragraphs_do_not_add() {
    let (on, back): (Move, Move) = (&calls::move_paragraph_next, &calls::move_paragraph_prev);
    assert_eq!(ends(on, "a", 0, 1), [(0, 0), (0, 1)]);
    assert_eq!(ends(on, "\na", 0, 0), [(1, 0), (0, 0)]);
    assert_eq!(ends(back, "a", 0, 1), [(0, 0), (0, 1)]);
    assert_eq!(ends(back, "\n", 1, 0), [(0, 0), (1, 0)]);
}

#[test]
fn screen_moves_do_not_add() {
    let view = |width, wrap| Viewport { top: 0, height: 9, width, wrap };
    let down = |folds: &'static [u32], width, wrap| move |t: &[u32], k, n| calls::move_screen_down(t, k, folds, view(width, wrap), 8, n);
    let up = |width, wrap| move |t: &[u32], k, n| calls::move_screen_up(t, k, &[], view(width, wrap), 8, n);
    assert_eq!(ends(&down(&[], 2, Wrap::Word), "aa aa", 0, 1), [(0, 3), (0, 4)]);
    assert_eq!(ends(&down(&[1, 2, 1], 1, Wrap::Char), "\n\na", 0, 0), [(2, 0), (1, 0)]);
    assert_eq!(ends(&up(2, Wrap::Word), "aa aa", 0, 4), [(0, 0), (0, 1)]);
    assert_eq!(ends(&up(2, Wrap::Char), "aaa\na", 1, 1), [(0, 0), (0, 1)]);
}

#[test]
fn stop_in_both_calls_does_not_add() {
    let list = points("@,48-57,_");
    let stop = |t: &[u32], k, n| calls::move_word_end(t, k, Words { folds: &[], list: &list, big: false }, n, true);
    assert_eq!(ends(&stop, "a a", 0, 0), [(0, 0), (0, 2)]);
}

#[test]
fn rows_without_the_sticky_column_do_not_add() {
    let down = |t: &[u32], k, n| calls::move_down(t, k, &[], 8, n);
    let drops = |t: &[u32], k, n| down(t, k, n).map(|k| Caret { sticky: None, ..k });
    assert_eq!(ends(&drops, "aa\n\naa", 0, 1), [(2, 0), (2, 1)]);
    assert_eq!(ends(&down, "aa\n\naa", 0, 1), [(2, 1), (2, 1)]);
}
