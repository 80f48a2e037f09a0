//! The examples of document 01, its limits and its printed session, on the given Rust.

use oracle::calls::{self, Words};
use oracle::{Caret, Wrap, points};

fn pair(text: &str, row: u32, col: u32) -> Option<(u32, u32)> {
    calls::matching_bracket_pos(&points(text), row, col).unwrap()
}

fn plain<'a>(list: &'a [u32], big: bool) -> Words<'a> {
    Words { folds: &[], list, big }
}

fn segments(row: &str, width: u16, mode: Wrap) -> Vec<u32> {
    let mut room = [0; 16];
    let n = calls::wrap_segments(&points(row), width, mode, &mut room).unwrap();
    room[..2 * n as usize].to_vec()
}

#[test]
fn p1_to_p4_brackets() {
    let p1 = "if (n) {\nx (y)\n}";
    assert_eq!(pair(p1, 0, 7), Some((2, 0)));
    assert_eq!(pair(p1, 2, 0), Some((0, 7)));
    assert_eq!(pair(p1, 0, 2), None);
    assert_eq!(pair("<<>", 0, 0), None);
    assert_eq!(pair("<<>", 0, 1), Some((0, 2)));
    assert_eq!(pair("<<>", 0, 2), Some((0, 1)));
    assert_eq!(pair("([)]", 0, 0), Some((0, 2)));
    assert_eq!(pair("([)]", 0, 1), Some((0, 3)));
    let p4 = points("<(>)");
    assert_eq!(calls::match_bracket(&p4, Caret::at(0, 0)), Ok((true, Caret::at(0, 3))));
    assert_eq!(pair("<(>)", 0, 0), Some((0, 2)));
}

#[test]
fn p5_to_p7_rows() {
    assert_eq!(segments("ab cd", 4, Wrap::Word), [0, 3, 3, 5]);
    assert_eq!(segments("ab cd", 4, Wrap::Char), [0, 4, 4, 5]);
    assert_eq!(segments("\u{3042}\u{3042}", 1, Wrap::Char), [0, 1, 1, 2]);
    let row = points("\tx");
    assert_eq!(calls::cursor_visual_col(&row, 0, 8), Ok(7));
    assert_eq!(calls::cursor_visual_col(&row, 1, 8), Ok(8));
    assert_eq!(calls::visual_col_to_char_col(&row, 7, 8), Ok(0));
    assert_eq!(calls::visual_col_to_char_col(&row, 8, 8), Ok(1));
}

#[test]
fn p8_p9_rows_and_paragraphs() {
    for (text, rows) in [("", 1), ("\n", 1), ("a\n\n", 2)] {
        assert_eq!(calls::content_row_count(&points(text)), Ok(rows));
    }
    let text = points("a\n\nb");
    for (count, row) in [(1, 1), (2, 2), (3, 0)] {
        assert_eq!(calls::move_paragraph_next(&text, Caret::at(0, 0), count), Ok(Caret::at(row, 0)));
    }
}

#[test]
fn p10_words() {
    let (text, list) = (points("a\n\n\nb"), points("@,48-57,_"));
    assert_eq!(calls::move_word_fwd(&text, Caret::at(1, 0), plain(&list, false), 1), Ok(Caret::at(2, 0)));
    assert_eq!(calls::move_word_fwd(&text, Caret::at(1, 0), plain(&list, true), 1), Ok(Caret::at(3, 0)));
}

#[test]
fn p11_keyword_lists() {
    let held = |list: &str| -> Vec<u32> {
        (0..128).filter(|&c| calls::is_keyword_char(c, &points(list)) == Ok(true)).collect()
    };
    assert_eq!(held("+48-57"), (48..=57).collect::<Vec<_>>());
    assert!(held("a-z").is_empty());
    assert!(held("57-48").is_empty());
    assert_eq!(held("5"), [5]);
}

#[test]
fn p12_find() {
    let text = points("axx");
    let find = |skip| calls::find_char_on_line(&text, Caret::at(0, 0), 0x78, true, true, skip);
    assert_eq!(find(false), Ok((true, Caret::at(0, 0))));
    assert_eq!(find(true), Ok((true, Caret::at(0, 1))));
}

#[test]
fn run_only() {
    let list = points("@,48-57,_");
    let a = |n| vec![0x61; n];
    assert_eq!(calls::content_row_count(&a(1_048_576)), Ok(1));
    assert_eq!(calls::content_row_count(&a(1_048_577)), Err(1));
    assert_eq!(calls::parse(&points(&"a,".repeat(128))), Ok(128));
    assert_eq!(calls::parse(&points(&"a,".repeat(129))), Err(8));
    assert_eq!(calls::is_keyword_char(0x61, &points(&"a,".repeat(129))), Ok(true));
    let text = points("ab\n\n");
    let down = |folds: usize, tabstop, at| calls::move_down(&text, at, &[0, 1, 1].repeat(folds), tabstop, 1);
    assert_eq!(down(256, 8, Caret::at(0, 0)).map(|k| k.row), Ok(2));
    assert_eq!(down(257, 8, Caret::at(0, 0)), Err(5));
    assert_eq!(down(0, 1_000, Caret::at(0, 0)).map(|k| k.row), Ok(1));
    assert_eq!(down(0, 1_001, Caret::at(0, 0)), Err(6));
    assert_eq!(calls::move_left(&text, Caret::at(0, 2), 1), Ok(Caret::at(0, 1)));
    assert_eq!(calls::move_left(&text, Caret::at(0, 3), 1), Err(4));
    assert_eq!(calls::move_word_fwd(&points("ab"), Caret::at(0, 0), plain(&list, false), 1), Ok(Caret::at(0, 2)));
    assert_eq!(calls::move_first_non_blank_line(&points("a\n"), Caret::at(1, 0), 1), Ok(Caret::at(0, 0)));
}

#[test]
fn printed_session() {
    let input = "w 1\nj 1\n% 1\n.\nif (n) {\nx (y)\n}\n";
    let shown = |input: &str| String::from_utf8(oracle::session::session(input.as_bytes())).unwrap();
    assert_eq!(shown(input), "w 0 3\nj 1 3\n% 1 2\n");
    assert_eq!(shown("w 1\n"), "refused\n");
    assert_eq!(shown("$\n.\n\u{E9}\u{2192}"), "$ 0 1\n");
    assert_eq!(shown("w\n\u{E9}\n.\na b\u{85}"), "!3 0 0\n? 0 0\n");
    assert_eq!(oracle::session::session(b"$\n.\n\xE9"), b"refused\n");
    assert_eq!(oracle::session::session(b"\xC3\n.\na"), b"refused\n");
    assert_eq!(shown("x\nw 1234567890\n\nw  1\n.\nab\n"), "? 0 0\n? 0 0\n? 0 0\n? 0 0\n");
    assert_eq!(shown("w\n.\na\rb"), "!3 0 0\n");
    // document 02, #104: after `$`, j and k follow the ends, until a key other than these is accepted
    assert_eq!(shown("j\n$\nj\n.\nabc\nab\nabc"), "j 1 0\n$ 1 1\nj 2 2\n");
    assert_eq!(shown("$\nj\nj\nj\n.\nabc\nd\n\nefgh"), "$ 0 2\nj 1 0\nj 2 0\nj 3 3\n");
    assert_eq!(shown("$\nj 9\nj\nk\n.\nab\nbcd\n"), "$ 0 1\nj 2 0\nj 2 0\nk 1 2\n");
    assert_eq!(shown("$ 5\nx\nj\n.\na\nbcd"), "$ 0 0\n? 0 0\nj 1 2\n");
    assert_eq!(shown("$\nj\nl\nk\n.\nabc\nd"), "$ 0 2\nj 1 0\nl 1 0\nk 0 0\n");
    assert_eq!(shown("."), "");
    let full = |n: usize| format!(".\n{}", "a".repeat(n - 2));
    assert_eq!(shown(&full(16_384)), "");
    assert_eq!(shown(&full(16_385)), "refused\n");
}

/// The places of the corners: overlong forms, surrogates and values too large at the second byte, what is cut off at its length.
#[test]
fn places_of_bad_bytes() {
    let bad: [(&[u8], usize); 20] = [
        (b"\x80", 0),
        (b"\xBF", 0),
        (b"\xC0", 0),
        (b"\xC1\x80", 0),
        (b"\xF5", 0),
        (b"\xFF", 0),
        (b"\xE0\x80\x80", 1),
        (b"\xE0\x9F", 1),
        (b"\xF0\x8F", 1),
        (b"\xE2\x28\xA1", 1),
        (b"\xED\xA0\x80", 1),
        (b"\xF4\x90\x80\x80", 1),
        (b"\xE2\x82", 2),
        (b"\xF0\x90\x80", 3),
        (b"\xE0", 1),
        (b"\x61\xF0\x9F\x98", 4),
        (b"\xE2\x82\xE2", 2),
        (b"\xC3\xC3", 1),
        (b"\x61\xBF", 1),
        (b"\xE0\x80", 1),
    ];
    for (bytes, place) in bad {
        assert_eq!(oracle::utf8::decoded(bytes), Err(place), "{bytes:02x?}");
        assert_eq!(oracle::utf8::by_std(bytes), Err(place), "{bytes:02x?}");
    }
}
