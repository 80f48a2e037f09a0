//! Vim's own keyword lists of document 02's #108, list by list, and that more tails find no longer beginning.

use oracle::generate::texts;
use oracle::{points, vim};

fn held(list: &str) -> Vec<u32> {
    (0..256).filter(|&x| vim::vim_matches(&points(list), x) == Ok(true)).collect()
}

#[test]
fn lists_of_the_grammar() {
    for (list, tokens, codes) in [
        ("", 0, ""),
        (",", 1, ","),
        ("a,,", 2, ",a"),
        ("a,,,b", 3, ",ab"),
        (",,,", 2, ","),
        ("^", 1, "^"),
        ("a,^", 2, "^a"),
        (",,^", 2, ",^"),
        ("^^", 1, ""),
        ("^^-z", 1, ""),
        ("Z-^", 1, "Z[\\]^"),
        ("94-a", 1, "^_`a"),
        ("+-.,^,", 2, "+-."),
        ("-", 1, "-"),
        ("---", 1, "-"),
        ("+--", 1, "+,-"),
        (",-,", 1, ","),
        ("@-@", 1, "@"),
        ("a,^a,a", 3, "a"),
        ("00097", 1, "a"),
        ("64", 1, "@"),
        ("a, ,b", 3, " ab"),
        ("0", 1, "\u{0}"),
        ("a-0255,^b-255", 2, "a"),
    ] {
        assert_eq!(vim::vim_parse(&points(list)), Ok(tokens), "{list}");
        assert_eq!(held(list), points(codes), "{list}");
    }
    for (x, by) in [('a', false), ('Z', true), ('\u{E9}', true), ('\u{3042}', true), ('9', false)] {
        assert_eq!(vim::vim_matches(&points("@,^a-z"), x.into()), Ok(by), "{x}");
    }
}

#[test]
fn places() {
    for (list, place) in [
        ("a,", 2), (",,", 2), ("a,,,", 4), (",a", 1), ("a,,b", 3), ("a,^,b", 4), ("^-~", 2), ("^-^", 2), ("^a^", 2), ("aa", 1), ("5a", 1),
        ("-5", 1), ("+48", 1), ("a-", 2), ("--", 2), (",-", 2), ("@-", 2), ("48--57", 3), ("1-2-3", 3), ("48-57-", 5), ("z-a", 2), ("a-,", 2),
        ("57-48", 3), ("2-1", 3), ("200-1", 4), ("201-200", 6), ("256", 2), ("0256", 3), ("4294967393", 2), ("\u{E9}", 0), ("a-\u{E9}", 2),
        ("a, b", 3), ("a ,b", 1), ("@@", 1), ("a-9", 3), ("a-8", 2), ("a-0", 3), ("a-1", 3), ("a-3", 2), ("200-19", 4), ("200-20", 6),
        ("26-25", 5), ("26-3,", 4), ("128-~", 4),
    ] {
        assert_eq!(vim::vim_parse(&points(list)), Err((17, place)), "{list}");
    }
    assert_eq!(vim::vim_parse(&points(&("0".repeat(1_021) + "25-"))), Err((17, 1_024)));
    assert_eq!(vim::vim_parse(&points(&("0".repeat(1_022) + "25-"))), Err((7, 0)));
    let many = vec!["a"; 129].join(",");
    assert_eq!(vim::vim_parse(&points(&many)), Err((8, 0)));
    assert_eq!(vim::vim_parse(&points(&(many + ","))), Err((17, 258)));
}

/// What some list begins with, by every tail of up to three code points, is what it is by the few tails that are tried.
#[test]
fn more_tails() {
    let alphabet = points("^@-,z0259");
    let tails = texts(&alphabet, 3);
    for list in texts(&alphabet, 3) {
        let any = tails.iter().any(|tail| vim::in_grammar(&[&list[..], tail].concat()));
        let whole = match vim::vim_parse(&list) {
            Ok(_) => true,
            Err((number, place)) => number == 17 && place as usize == list.len(),
        };
        assert_eq!(any, whole, "{list:x?}");
    }
}

#[test]
fn written_again() {
    for (list, written) in [("@,048-57,_,^,,^", "@,48-57,_,^,,^"), ("", ""), ("00,^0", "0,^0"), ("Z-094,^@,,", "Z-94,^@,,"), ("@-@", "@-@")] {
        assert_eq!(vim::vim_write(&points(list), written.len()), Ok(points(written)), "{list}");
        if !written.is_empty() {
            assert_eq!(vim::vim_write(&points(list), written.len() - 1), Err((14, 0)), "{list}");
        }
    }
    let long = vec!["^d-z"; 128].join(",");
    assert_eq!(vim::vim_write(&points(&long), 639), Ok(points(&long)));
}

/// The word motions by a list: column by column over `abc é.`, by lists that differ in one character.
#[test]
fn words() {
    let text = points("abc \u{E9}.");
    let to = |list: &str, col: u32| {
        let caret = oracle::Caret::at(0, col);
        let given = |text: &[u32], list: &[u32]| {
            oracle::calls::move_word_fwd(text, caret, oracle::calls::Words { folds: &[], list, big: false }, 1)
        };
        vim::word_by_vim(&text, caret, Some(&[]), &points(list), given).map(|k| k.col)
    };
    let row = |list: &str| (0..6).map(|col| to(list, col).unwrap()).collect::<Vec<_>>();
    assert_eq!(row("@"), [4, 4, 4, 4, 5, 6]);
    assert_eq!(row("@,^b"), [1, 2, 4, 4, 5, 6]);
    assert_eq!(row("a-c"), [4, 4, 4, 4, 6, 6]);
    assert_eq!(row(" ,."), [4, 4, 4, 4, 5, 6]);
    assert_eq!(to("a,", 0), Err((17, 2)));
    assert_eq!(to("a,", 7), Err((4, 0)));
}
