//! The retired plus signs of document 02's #112, list by list, and that the given Rust reads a converted list as it reads the list.

use oracle::case::call;
use oracle::generate::{Dice, random, small};
use oracle::{calls, plus, points};

#[test]
fn lists_with_a_sign() {
    for (list, place, left) in [
        ("+48", 0, "48"),
        ("+5", 0, "5"),
        ("+00", 0, "00"),
        ("+48-57", 0, "48-57"),
        ("48-+57", 3, "48-57"),
        ("+48-+57", 0, "48-57"),
        ("57-+48", 3, "57-48"),
        ("+4294967295", 0, "4294967295"),
        (" \t+4\u{3000},@", 2, " \t4\u{3000},@"),
        (",,+1,,+2", 2, ",,1,,2"),
        ("+4,++4,+,4-+5", 0, "4,++4,+,4-5"),
    ] {
        assert_eq!(plus::enter(&points(list)), Err((21, place)), "{list}");
        assert_eq!(plus::without_plus(&points(list), left.chars().count()), Ok(points(left)), "{list}");
        assert_eq!(plus::without_plus(&points(list), left.chars().count() - 1), Err(14), "{list}");
    }
}

#[test]
fn lists_without_one() {
    for list in [
        "+", " + ", "++4", "1-++2", "+1+2", "4+", "+48-", "+-5", "-+5", "+1-2-3", "+ 4", "1- +2", "1 -+2", "+4294967296",
        "1-+4294967296", "+a", "+@", "+\u{661}", "", "@,48-57,_",
    ] {
        assert!(plus::enter(&points(list)).is_ok(), "{list}");
        assert_eq!(plus::without_plus(&points(list), list.len()), Ok(points(list)), "{list}");
    }
}

#[test]
fn the_sign_behind_the_last_token() {
    let list = points(&(vec!["4"; 129].join(",") + ",+4"));
    assert_eq!(plus::enter(&list), Err((21, 258)));
    assert_eq!(plus::enter(&list[..257]), Err((8, 0)));
    assert_eq!(plus::without_plus(&list, list.len()).map(|left| left.len()), Ok(list.len() - 1));
}

/// By the given Rust: an entered list has the tokens that it reads, and a converted one those of the list and the same characters.
fn read_alike(list: &[u32], tested: &[u32]) {
    let read = calls::parse(list);
    match plus::enter(list) {
        Err((21, _)) => {}
        entered => assert_eq!(entered.map_err(|(number, _)| number), read, "{list:x?}"),
    }
    let Ok(left) = plus::without_plus(list, list.len()) else { return assert_eq!(read, Err(7)) };
    assert_eq!(plus::enter(&left).map_err(|(number, _)| number), read, "{list:x?}");
    for &x in tested {
        let held = calls::matches(list, x);
        assert_eq!(calls::matches(&left, x), held, "{list:x?}, {x:x}");
        assert_eq!(plus::enter_matches(&left, x).map_err(|(number, _)| number), held, "{list:x?}, {x:x}");
    }
}

#[test]
fn the_given_reader_reads_a_converted_list_alike() {
    let tested = points("\u{4}\u{5},-+4059@_az \u{E9}\u{3000}");
    small(call("enter").unwrap(), 6, |case| read_alike(&case.list, &[4, 0x2B, 0x2D, 0x34, 0x40, 0x61]));
    for index in 0..4_000 {
        read_alike(&random(call("without_plus").unwrap(), &mut Dice::new(3, index)).list, &tested);
    }
}
