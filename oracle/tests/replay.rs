//! The stored list of the program `replay` is what `oracle replay` writes, and reaches every call and every refusal.

use oracle::case::{CALLS, Case, Input};
use oracle::{Outcome, replay};
use std::collections::BTreeSet;

/// The refusals that a call has, by what it takes (document 01, "Refusal numbers"; document 02, #108, #112 and #113).
fn refusals(case: &Case) -> BTreeSet<u32> {
    let parsed = case.takes(Input::List) && !matches!(case.call.name, "is_keyword_char" | "without_plus");
    let tested = case.takes(Input::Character) && case.call.name != "is_scalar";
    let classes = case.call.name == "word_classes" || case.call.name.ends_with("_by_class");
    let by_input: [(bool, &[u32]); 13] = [
        (case.takes(Input::Text), &[1, 2, 3]),
        (case.takes(Input::Line), &[1, 2]),
        (tested, &[2]),
        (case.takes(Input::Caret) || case.takes(Input::Kind), &[4]),
        (case.takes(Input::Folds), &[5]),
        (case.takes(Input::Tabstop), &[6]),
        (case.takes(Input::List), &[7]),
        (parsed, &[8]),
        (case.call.name.starts_with("wrap_segments"), &[9]),
        (case.takes(Input::Segments), &[10]),
        (matches!(case.call.name, "without_plus" | "vim_write") || classes, &[14]),
        (case.call.name.starts_with("vim_") || case.call.name.ends_with("_by_vim"), &[17]),
        (matches!(case.call.name, "enter" | "enter_matches"), &[21]),
    ];
    by_input.iter().filter(|(takes, _)| *takes).flat_map(|(_, n)| *n).copied().collect()
}

/// Each motion that takes a table is answered with its own and a longer one, and refused with 15 and with 16.
fn every_motion_with_a_table(list: &[replay::Row]) {
    let tabled = |row: &&replay::Row| row.call.ends_with("_rows") && row.words.contains(" by [");
    let motions: BTreeSet<&str> = list.iter().filter(tabled).filter_map(|row| row.words.split(' ').next()).collect();
    assert_eq!(motions.len(), 42, "{motions:?}");
    for name in motions {
        let rows = list.iter().filter(tabled).filter(|row| row.words.split(' ').next() == Some(name));
        let (mut answered, mut short, mut wrong) = (0, 0, 0);
        for row in rows {
            match row.outcome {
                Outcome::Refused(15) => short += 1,
                Outcome::Refused(16) => wrong += 1,
                Outcome::Refused(_) => {}
                _ => answered += 1,
            }
        }
        assert!(answered >= 2 && short >= 1 && wrong >= 1, "{name}: {answered} answered, {short} with 15, {wrong} with 16");
    }
}

#[test]
fn the_stored_list_is_current() {
    let list = replay::list();
    let rows: String = list.iter().map(|row| format!("{}\n", row.numbers)).collect();
    let stored = include_str!("../../crates/replay/stdin");
    let first = rows.lines().zip(stored.lines()).position(|(now, then)| now != then);
    assert!(rows == stored, "crates/replay/stdin is not what `oracle replay` writes, first at row {first:?} from 0");
    assert!(stored.len() <= 1_048_576, "the program reads at most 1,048,576 bytes");
    let said = format!("{0} cases, {0} agree\n", list.len());
    assert_eq!(include_str!("../../crates/replay/stdout"), said);

    for call in &CALLS {
        let (mut answered, mut refused) = (0, BTreeSet::new());
        for row in list.iter().filter(|row| row.call == call.name) {
            match row.outcome {
                Outcome::Refused(number) | Outcome::RefusedAt(number, _) => _ = refused.insert(number),
                _ => answered += 1,
            }
        }
        assert!(answered >= 40, "{}: {answered} cases are answered", call.name);
        assert_eq!(refused, refusals(&Case::new(call)), "the refusals of {}", call.name);
    }
    every_motion_with_a_table(&list);
    let beside = [
        ("utf8_decode", [13, 14].as_slice()),
        ("utf8_encode", &[1, 2, 14]),
        ("insert", &[1, 2, 3, 4, 5, 11, 12]),
        ("delete", &[1, 2, 3, 4, 5, 11]),
        ("folds_write", &[1, 2, 3, 5, 14]),
        ("folds_read", &[1, 2, 3, 5, 14, 18, 19, 20]),
        ("row_starts", &[1, 2, 3, 15]),
        ("insert_rows", &[1, 2, 3, 4, 5, 11, 12, 15, 16]),
        ("delete_rows", &[1, 2, 3, 4, 5, 11, 15, 16]),
        ("motion_rows", &[1, 2, 3, 4, 15, 16]),
        ("word_rows", &[1, 2, 3, 4, 5, 7, 8, 15, 16]),
        ("vertical_rows", &[1, 2, 3, 4, 5, 6, 15, 16]),
        ("screen_kept_rows", &[1, 2, 3, 4, 5, 6, 15, 16]),
        ("viewport_rows", &[1, 2, 3, 4, 15, 16]),
        ("seek_rows", &[1, 2, 3, 4, 15, 16]),
        ("jumps", &[1, 2, 3, 4, 5, 7, 8, 14, 15, 16, 22]),
    ];
    for (call, all) in beside {
        let rows: Vec<_> = list.iter().filter(|row| row.call == call).collect();
        let least = if call.ends_with("_rows") && !matches!(call, "insert_rows" | "delete_rows") { 4 } else { 30 };
        let answered = rows.iter().filter(|row| !matches!(row.outcome, Outcome::Refused(_))).count();
        assert!(answered >= least, "{call}: {answered} cases are answered");
        let refused: BTreeSet<u32> = rows.iter().filter_map(|row| if let Outcome::Refused(n) = row.outcome { Some(n) } else { None }).collect();
        assert_eq!(refused, all.iter().copied().collect(), "the refusals of {call}");
    }
}
