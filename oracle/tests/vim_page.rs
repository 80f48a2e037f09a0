//! What docs/VIM.md says of the given Rust, row by row.

use oracle::{Caret, Viewport, Wrap, calls, points, session, string};

const PAGE: &str = include_str!("../../docs/VIM.md");

struct Row {
    text: Vec<u32>,
    from: Caret,
    keys: Vec<String>,
    here: (u32, u32),
}

/// The cells of a table's row; `\|` is no edge.
fn cells(line: &str) -> Vec<String> {
    let inner = line.trim().trim_start_matches('|').replace("\\|", "\u{0}");
    inner.trim_end_matches('|').split('|').map(|cell| cell.trim().replace('\u{0}', "|")).collect()
}

fn quoted(cell: &str) -> &str {
    cell.split('`').nth(1).unwrap_or_else(|| panic!("`{cell}` has nothing in backticks"))
}

fn place(cell: &str) -> (u32, u32) {
    let (row, col) = cell.split_once(':').unwrap_or_else(|| panic!("`{cell}` is no place"));
    (row.parse().expect(cell), col.parse().expect(cell))
}

/// `\u{301}` and the signs for a separator, a tab and a space.
fn spelt(text: &str) -> String {
    let mut pieces = text.split("\\u{");
    let mut all = pieces.next().unwrap_or_default().to_string();
    for piece in pieces {
        let (number, rest) = piece.split_once('}').expect("a number in braces");
        all.push(u32::from_str_radix(number, 16).ok().and_then(char::from_u32).expect("a code point"));
        all.push_str(rest);
    }
    all.replace('⏎', "\n").replace('⇥', "\t").replace('␣', " ")
}

fn rows() -> Vec<Row> {
    let tables = PAGE.lines().filter(|line| line.starts_with('|') && line.contains('`') && !line.starts_with("| text"));
    tables
        .map(|line| {
            let [text, from, keys, _, here] = <[String; 5]>::try_from(cells(line)).unwrap_or_else(|_| panic!("{line}"));
            let times = text.split_once(" times ").map_or(1, |(n, _)| n.parse().expect(line));
            let (row, col) = place(&from);
            Row {
                text: points(&spelt(quoted(&text)).repeat(times)),
                from: Caret::at(row, col),
                keys: quoted(&keys).split(' ').map(str::to_string).collect(),
                here: place(&here),
            }
        })
        .collect()
}

/// Keys of the session, from a caret: `G` and `|` go there first.
fn by_session(row: &Row) -> (u32, u32) {
    let mut input = format!("G {}\n| {}\n", row.from.row + 1, row.from.col + 1);
    for key in &row.keys {
        let digits = key.bytes().take_while(|b| b.is_ascii_digit()).count();
        let digits = if digits == key.len() { 0 } else { digits };
        let (count, key) = key.split_at(digits);
        input.push_str(key);
        if !count.is_empty() {
            input.push_str(&format!(" {count}"));
        }
        input.push('\n');
    }
    input.push_str(".\n");
    input.push_str(&string(&row.text));
    let printed = String::from_utf8(session::session(input.as_bytes())).expect("UTF-8");
    assert!(!printed.contains(['?', '!']), "{printed}");
    let mut last = printed.lines().last().expect("a line").rsplit(' ');
    let col = last.next().and_then(|n| n.parse().ok()).expect("a column");
    (last.next().and_then(|n| n.parse().ok()).expect("a row"), col)
}

fn landed(caret: Result<Caret, u32>) -> (u32, u32) {
    let caret = caret.expect("no refusal");
    (caret.row, caret.col)
}

/// Keys that a session does not have, in the window that the page names.
fn by_calls(row: &Row, keys: &[&str]) -> Option<(u32, u32)> {
    let window = |wrap| Viewport { top: 0, height: 23, width: 40, wrap };
    let down = |wrap| landed(calls::move_screen_down(&row.text, row.from, &[], window(wrap), 8, 1));
    let till = |k: Caret, skip| calls::find_char_on_line(&row.text, k, 'x'.into(), true, true, skip).expect("no refusal").1;
    Some(match keys {
        ["space"] => landed(calls::move_space_fwd(&row.text, row.from, 1)),
        ["gj"] => down(Wrap::None),
        ["wrap", "gj"] => down(Wrap::Char),
        ["linebreak", "gj"] => down(Wrap::Word),
        ["wrap", "L"] => landed(calls::move_viewport_bottom(&row.text, row.from, window(Wrap::Char), 0)),
        ["wrap", "M"] => landed(calls::move_viewport_middle(&row.text, row.from, window(Wrap::Char))),
        ["30H"] => landed(calls::move_viewport_top(&row.text, row.from, window(Wrap::None), 29)),
        ["tx"] => landed(Ok(till(row.from, false))),
        ["tx;", "tx;"] => landed(Ok(till(till(row.from, true), true))),
        ["tx", "tx;"] => landed(Ok(till(till(row.from, false), true))),
        _ => return None,
    })
}

#[test]
fn the_page_says_what_the_given_rust_answers() {
    let rows = rows();
    assert!(rows.len() > 50, "{} rows", rows.len());
    let mut wrong = Vec::new();
    for row in &rows {
        let keys: Vec<&str> = row.keys.iter().map(String::as_str).collect();
        let lands = by_calls(row, &keys).unwrap_or_else(|| by_session(row));
        if lands != row.here {
            wrong.push(format!("{:?} from {:?}, {keys:?}: {lands:?}, the page has {:?}", string(&row.text), row.from, row.here));
        }
    }
    assert!(wrong.is_empty(), "{}", wrong.join("\n"));
}
