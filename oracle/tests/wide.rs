//! The setting wide, document 02's #107: class A against unicode-width's own reading of it, and the columns and segments of small rows
//! against a version with the other width function, written apart from `wide`.

use oracle::case::Case;
use oracle::{Outcome, points, wide};
use unicode_width::UnicodeWidthChar;

#[test]
fn the_class_is_what_it_is_said_to_be() {
    let class: Vec<u32> = wide::CLASS_A.iter().flat_map(|range| range.clone()).collect();
    assert_eq!((wide::CLASS_A.len(), class.len()), (179, 138_739));
    assert!(wide::CLASS_A.windows(2).all(|two| two[0].end() + 1 < *two[1].start()));
    let widths = |w: usize| class.iter().filter(|&&x| char::from_u32(x).expect("a scalar value").width() == Some(w)).count();
    assert_eq!((widths(0), widths(1), widths(2)), (368, 138_371, 0));
    assert!(!class.iter().any(|&x| char::from_u32(x).is_some_and(char::is_whitespace)));
}

/// `width_cjk` reads class A as wide, but for the soft hyphen.
#[test]
fn wide_is_width_cjk() {
    let differ = |c: &char| wide::width(*c) as usize != c.width_cjk().unwrap_or(1);
    assert_eq!(('\0'..=char::MAX).filter(differ).collect::<Vec<_>>(), ['\u{AD}']);
}

/// Where each character begins, and where the row ends.
fn starts(row: &[char], tab: u64) -> Vec<u64> {
    let mut at = vec![0];
    for &c in row {
        let last = at[at.len() - 1];
        at.push(if c == '\t' { (last / tab + 1) * tab } else { last + u64::from(wide::width(c)) });
    }
    at
}

/// The segments by characters: the most that fit, or one.
fn segments(row: &[char], width: u32) -> Vec<u32> {
    let cells = |part: &[char]| part.iter().map(|&c| wide::width(c).max(1)).sum::<u32>();
    let (mut start, mut all) = (0, Vec::new());
    while start < row.len() {
        let fits = |&end: &usize| cells(&row[start..end]) <= width;
        let end = (start + 1..=row.len()).take_while(fits).last().unwrap_or(start + 1);
        all.extend([start as u32, end as u32]);
        start = end;
    }
    all
}

#[test]
fn small_rows_are_as_the_other_width_function_has_them() {
    let alphabet = points("a\t\u{2192}\u{B0}\u{301}\u{3042}");
    for row in oracle::generate::texts(&alphabet, 4) {
        let chars: Vec<char> = row.iter().map(|&x| char::from_u32(x).expect("a scalar value")).collect();
        let case = |name| Case { line: row.clone(), ..Case::new(oracle::case::call(name).expect("a call")) };
        for tabstop in [1, 4, 8] {
            let at = starts(&chars, tabstop.into());
            for (i, &start) in at.iter().enumerate() {
                let column = i as u32;
                let asked = Case { column, tabstop, ..case("char_col_to_visual_col_wide") };
                assert_eq!(asked.answer(), Outcome::Number(start), "{asked}");
            }
            for column in 1..=at[row.len()] as u32 + 1 {
                let holds = |i: &usize| at[*i] <= column.into() && u64::from(column) < at[i + 1];
                let found = (0..row.len()).find(holds).unwrap_or(row.len());
                let asked = Case { column, tabstop, ..case("visual_col_to_char_col_wide") };
                assert_eq!(asked.answer(), Outcome::Number(found as u64), "{asked}");
            }
        }
        for width in 1..6 {
            let mut asked = case("wrap_segments_wide");
            (asked.view.width, asked.view.wrap, asked.room) = (width, oracle::Wrap::Char, 2 * row.len() as u32 + 2);
            let wanted = if row.is_empty() { vec![0, 0] } else { segments(&chars, width.into()) };
            let Outcome::Segments(count, room) = asked.answer() else { panic!("{asked}") };
            assert_eq!((count as usize, &room[..wanted.len()]), (wanted.len() / 2, &wanted[..]), "{asked}");
        }
    }
}

/// The examples of docs/DECISIONS.md and of the request: an arrow before `b`, and two arrows.
#[test]
fn arrows() {
    let down = |name: &str| format!("{name} text=2192,62,a,61,62,63 row=0 col=1 sticky=none folds= tabstop=8 count=1").parse::<Case>().expect("a case");
    assert_eq!(down("move_down").answer().to_string(), "moved 1 1 1");
    assert_eq!(down("move_down_wide").answer().to_string(), "moved 1 2 2");
}
