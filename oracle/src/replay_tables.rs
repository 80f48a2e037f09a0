//! The rows of the replay's list on row starts, group 22, by `row_table`.
//!
//! Operation 0 fills a table, its list; the answer is the number, how many rows have content, and the table. Any other has in
//! its list how many rows have content, how many places the table has, those, and what the call takes beside them. An insert,
//! 1, and a delete, 2, are else as group 19 has them, with what is put in; the answer is the number, the caret, three sizes,
//! both buffers and the table. From 100, 200, 300, 600, 700 and 800 on stand the operations of groups 8, 10, 11, 12, 9 and 18,
//! with their lists, as these groups have them.

use crate::Outcome;
use crate::case::{CALLS, Call, Case, FILLER};
use crate::edits::Page;
use crate::generate::{self, Dice};
use crate::replay::{self, Row, SEED};
use crate::replay_buffers::{points, random_page, row};
use crate::row_table::{self, Tabled};

const FILLS: u64 = 60;
const EDITS: u64 = 200;

/// Cases of each motion, one for each way that a table can be, and how many code points their texts have at most.
const MOTIONS: usize = 6;
const LONGEST: usize = 20;

/// A table for a text, in one of some ways wrong.
fn table(dice: &mut Dice, text: &[u32]) -> (Vec<u32>, u32) {
    let (mut starts, content) = row_table::counted(text);
    if dice.once_in(10) {
        starts.pop();
    }
    starts.resize(starts.len() + dice.pick(&[0, 1, 5, 12]), 777);
    if dice.once_in(12) && !starts.is_empty() {
        let at = dice.below(starts.len());
        starts[at] += 1;
    }
    (starts, content + u32::from(dice.once_in(20)))
}

fn fill(text: &[u32], before: &[u32]) -> Row {
    let mut after = before.to_vec();
    let (number, told) = row_table::fill(text, &mut after).map_or_else(|f| (f, FILLER), |content| (0, content));
    let head = [22, 0, 0, 0, 0, 0, 0, 0, 0, 0, text.len() as u32, 0, before.len() as u32];
    let words = format!("row_starts of {} code points into {before:?}", text.len());
    row("row_starts", number, told.into(), &[&head, text, before, &[number, told], &after], words)
}

pub(crate) fn random_fill(dice: &mut Dice) -> Row {
    let text = points(dice, &[0, 1, 3, 6, 10, 16]);
    let (before, _) = table(dice, &text);
    fill(&text, &before)
}

/// An edit of a page with a table, of `put` or, without it, a delete.
fn edit(before: &Tabled, from: (u32, u32), to: (u32, u32), put: Option<&[u32]>) -> Row {
    let mut after = before.clone();
    let (op, call, number) = match put {
        Some(points) => (1, "insert_rows", after.insert(points, from)),
        None => (2, "delete_rows", after.delete(from, to)),
    };
    let list = [&[before.content, before.table.len() as u32], &before.table[..], put.unwrap_or(&[])].concat();
    let Page { text, folds, caret, sizes } = &before.page;
    let head = [22, op, from.0, from.1, to.0, to.1, sizes[0], sizes[1], caret[0], caret[1]];
    let counts = [text, folds, &list].map(|part| part.len() as u32);
    let words = format!("{call} of {} code points from {from:?} to {to:?}, {before:x?}", put.map_or(0, <[u32]>::len));
    let left = [after.page.sizes[0], after.page.sizes[1], after.content];
    let parts: [&[u32]; 11] = [
        &head, &counts, text, folds, &list, &[number], &after.page.caret, &left, &after.page.text, &after.page.folds, &after.table,
    ];
    row(call, number, left[0].into(), &parts, words)
}

pub(crate) fn random_edit(dice: &mut Dice) -> Row {
    let (page, from, to, put) = random_page(dice);
    let (table, content) = table(dice, &page.text[..page.text.len().min(page.sizes[0] as usize)]);
    edit(&Tabled { page, table, content }, from, to, put.as_deref())
}

/// The first operation of a motion's group here, and the call of a host that it stands for.
fn stem(group: u32) -> Option<(u32, &'static str)> {
    match group {
        8 => Some((100, "motion_rows")),
        10 => Some((200, "word_rows")),
        11 => Some((300, "vertical_rows")),
        12 => Some((600, "viewport_rows")),
        9 => Some((700, "seek_rows")),
        18 => Some((800, "screen_kept_rows")),
        _ => None,
    }
}

/// A motion with this table; nothing for a call that takes none.
fn motion(k: &Case, table: &[u32], content: u32) -> Option<Row> {
    let asked = replay::asked(k);
    let (first, call) = stem(asked.head[0])?;
    let outcome = row_table::second(k.answer(), &k.text, table, content);
    let head = [&[22, asked.head[1] + first], &asked.head[2..]].concat();
    let list = [&[content, table.len() as u32], table, &asked.list].concat();
    let counts = [asked.text, asked.folds, &list].map(|part| part.len() as u32);
    let answer = replay::answer(k, asked.places, &outcome)?;
    let numbers = replay::written(&[&head, &counts, asked.text, asked.folds, &list, &answer]);
    Some(Row { call, words: format!("{k} by {table:?}, {content} with content -> {outcome}"), outcome, numbers })
}

/// Random cases of a motion that are answered without a table, each with a table in another way: the text's own, a longer one,
/// another count, one place short, one of its places damaged, and two of these at once.
fn motions(call: &'static Call, seed: u64, n: usize) -> impl Iterator<Item = Row> {
    let random = (0..).map(move |index| generate::random(call, &mut Dice::new(seed, index)));
    let short = random.filter(|k| k.text.len() <= LONGEST && k.list.len() <= LONGEST && !matches!(k.answer(), Outcome::Refused(_)));
    short.take(n).enumerate().filter_map(move |(i, k)| {
        let (mut table, content) = row_table::counted(&k.text);
        let dice = &mut Dice::new(seed, i as u64);
        match i % 6 {
            0 => {}
            1 => table.extend([777, 0]),
            2 => return motion(&k, &table, dice.pick(&[0, content + 1, u32::MAX])),
            3 => _ = table.pop(),
            4 => {
                let at = dice.below(table.len());
                table[at] = table[at].wrapping_add(dice.pick(&[1, 2, u32::MAX]));
            }
            _ => {
                table.pop();
                return motion(&k, &table, content + 1);
            }
        }
        motion(&k, &table, content)
    })
}

pub(crate) fn random_motions(seed: u64, n: usize) -> impl Iterator<Item = Row> {
    CALLS.iter().filter(|call| stem(replay::asked(&Case::new(call)).head[0]).is_some()).flat_map(move |call| motions(call, seed, n))
}

/// The limits of a call that are refused, one for each number, with a table that is refused too.
fn refused(call: &'static Call) -> Vec<Row> {
    let mut rows: Vec<Row> = Vec::new();
    for k in generate::limits(call) {
        let Outcome::Refused(number) = k.answer() else { continue };
        if k.folds.len() < 100 && k.list.len() < 600 && !rows.iter().any(|row| row.outcome == Outcome::Refused(number)) {
            rows.extend(motion(&k, &[9], 9));
        }
    }
    rows
}

/// Random fills and edits of small pages, tables that are too short, a text that is longer than its buffer, too many code
/// points, each motion with every kind of table, and the refusals of each call of a host.
pub fn tables() -> Vec<Row> {
    let mut rows: Vec<Row> = (0..FILLS).map(|index| random_fill(&mut Dice::new(SEED, index))).collect();
    let long = vec![0x61; 1_048_577];
    rows.push(fill(&long, &[]));
    rows.extend([0xD800, 0x0D].map(|bad| fill(&[bad], &[])));
    rows.extend([("", 0), ("a\n", 1), ("\n\n", 2), ("a\n\nb", 2)].map(|(text, places)| fill(&crate::points(text), &vec![9; places])));
    rows.extend((0..EDITS).map(|index| random_edit(&mut Dice::new(SEED, index))));
    let page = |len, caret| Page { text: vec![0x61, 0x0A], folds: vec![], caret: [caret, 0, 1, 7, 1, 3], sizes: [len, 0] };
    let tabled = |len, caret| Tabled { page: page(len, caret), table: vec![9], content: 9 };
    rows.extend([edit(&tabled(3, 0), (0, 0), (0, 0), Some(&[0xD800])), edit(&tabled(3, 0), (0, 0), (0, 1), None)]);
    rows.extend([edit(&tabled(2, 2), (9, 0), (9, 0), Some(&[0x61])), edit(&tabled(2, 2), (0, 0), (9, 1), None)]);
    rows.push(edit(&tabled(2, 0), (9, 0), (9, 0), Some(&long)));
    rows.extend(random_motions(SEED, MOTIONS));
    for name in ["move_left", "move_word_fwd", "move_up", "move_viewport_top", "find_char_on_line", "move_screen_up_kept"] {
        rows.extend(CALLS.iter().filter(|call| call.name == name).flat_map(refused));
    }
    rows
}
