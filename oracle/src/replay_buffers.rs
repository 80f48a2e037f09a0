//! The rows of the replay's list on lent buffers: edits, group 19, and fold files, group 20, by `edits` and `fold_file`.
//!
//! An edit: operation 0 inserts, 1 deletes; from row and column, up to row and column, code points and folds held, the
//! caret's row and column, which keeps a sticky column and an offset. Its text and its folds are the whole buffers, its list
//! what is put in; the answer is the number, the caret, the sizes and both buffers. A fold file: operation 0 writes the folds
//! and 1 reads the list, with a byte as a number, into so many places.

use crate::case::FILLER;
use crate::edits::Page;
use crate::fold_file::{self, Fold};
use crate::generate::Dice;
use crate::replay::{FILLER_BYTE, Row, SEED, written};
use crate::Outcome;

const EDITS: u64 = 240;
const FILES: u64 = 60;

pub(crate) fn row(call: &'static str, number: u32, told: u64, parts: &[&[u32]], words: String) -> Row {
    let outcome = if number == 0 { Outcome::Number(told) } else { Outcome::Refused(number) };
    Row { call, words: format!("{words} -> {outcome}"), outcome, numbers: written(parts) }
}

/// An edit of a page, of `points` or, without them, a delete.
fn edit(page: &Page, from: (u32, u32), to: (u32, u32), points: Option<&[u32]>) -> Row {
    let mut after = page.clone();
    let number = match points {
        Some(put) => after.insert(put, from),
        None => after.delete(from, to),
    };
    let (op, call) = if points.is_some() { (0, "insert") } else { (1, "delete") };
    let list = points.unwrap_or(&[]);
    let head = [19, op, from.0, from.1, to.0, to.1, page.sizes[0], page.sizes[1], page.caret[0], page.caret[1]];
    let counts = [&page.text, &page.folds, &list.to_vec()].map(|part| part.len() as u32);
    let words = format!("{call} of {list:x?} from {from:?} to {to:?}, {page:x?}");
    let parts: [&[u32]; 10] = [
        &head, &counts, &page.text, &page.folds, list, &[number], &after.caret, &after.sizes, &after.text, &after.folds,
    ];
    row(call, number, after.sizes[0].into(), &parts, words)
}

/// A position in a text, or once in so many just outside it.
fn place(dice: &mut Dice, text: &[u32], outside: usize) -> (u32, u32) {
    let rows: Vec<&[u32]> = text.split(|&x| x == 10).collect();
    let at = dice.below(rows.len());
    match dice.below(outside) {
        0 => (rows.len() as u32, 0),
        1 => (at as u32, rows[at].len() as u32 + 1),
        _ => (at as u32, dice.below(rows[at].len() + 1) as u32),
    }
}

pub(crate) fn points(dice: &mut Dice, sizes: &[usize]) -> Vec<u32> {
    let mut points: Vec<u32> = (0..dice.pick(sizes)).map(|_| dice.pick(&[0x61, 0x62, 0x20, 0x0A, 0x0A, 0x2192])).collect();
    if dice.once_in(24) && !points.is_empty() {
        let at = dice.below(points.len());
        points[at] = dice.pick(&[0xD800, 0x11_0000, 0x0D, 0x2028]);
    }
    points
}

/// A random page, a stretch of it, mostly in order, and what is put in, or nothing for a delete.
pub(crate) fn random_page(dice: &mut Dice) -> (Page, (u32, u32), (u32, u32), Option<Vec<u32>>) {
    let mut text = points(dice, &[0, 1, 3, 6, 10, 16]);
    let rows = text.iter().filter(|&&x| x == 10).count() + 1;
    let mut folds = Vec::new();
    for _ in 0..dice.pick(&[0, 0, 1, 2, 4]) {
        let start = dice.below(rows);
        let past = usize::from(dice.once_in(16));
        let end = start + dice.below(rows - start + past);
        folds.extend([start as u32, end as u32, dice.below(2) as u32]);
    }
    let (from, to, caret) = (place(dice, &text, 20), place(dice, &text, 20), place(dice, &text, 24));
    let (len, count) = (text.len() as u32 + u32::from(dice.once_in(40)), folds.len() as u32 / 3 + u32::from(dice.once_in(40)));
    text.resize(text.len() + dice.pick(&[0, 2, 8, 20]), 9);
    folds.resize(folds.len() + dice.pick(&[0, 0, 1, 3]), 8);
    let page = Page { text, folds, caret: [caret.0, caret.1, 1, 7, 1, 3], sizes: [len, count] };
    if dice.once_in(2) {
        return (page, from, from, Some(points(dice, &[0, 1, 2, 4, 9])));
    }
    let backward = dice.once_in(12);
    let (first, last) = if (from > to) != backward { (to, from) } else { (from, to) };
    (page, first, last, None)
}

pub(crate) fn random_edit(dice: &mut Dice) -> Row {
    let (page, from, to, points) = random_page(dice);
    edit(&page, from, to, points.as_deref())
}

/// Random edits of small pages, a text that is longer than its buffer, and too many code points put in.
pub fn edits() -> Vec<Row> {
    let mut rows: Vec<Row> = (0..EDITS).map(|index| random_edit(&mut Dice::new(SEED, index))).collect();
    let page = |len| Page { text: vec![0x61, 0x0A], folds: vec![], caret: [0, 0, 1, 7, 1, 3], sizes: [len, 0] };
    rows.extend([edit(&page(3), (0, 0), (0, 0), Some(&[0xD800])), edit(&page(3), (0, 0), (0, 1), None)]);
    rows.push(edit(&page(2), (9, 0), (9, 0), Some(&vec![0x61; 1_048_577])));
    rows
}

/// Folds into a file of so many places.
fn write(text: &[u32], folds: &[u32], room: usize) -> Row {
    let answer = fold_file::write(text, folds, room);
    let (number, file) = answer.map_or_else(|f| (f, None), |file| (0, Some(file)));
    let told = file.as_ref().map_or(FILLER, |file| file.len() as u32);
    let mut places: Vec<u32> = file.unwrap_or_default().into_iter().map(u32::from).collect();
    places.resize(room, FILLER_BYTE);
    let counts = [text.len() as u32, folds.len() as u32, 0];
    let words = format!("folds_write of {} code points and {folds:?} into {room} places", text.len());
    let head = [20, 0, room as u32, 0, 0, 0, 0, 0, 0, 0];
    row("folds_write", number, told.into(), &[&head, &counts, text, folds, &[number, told], &places], words)
}

/// A file into so many places for folds.
fn read(text: &[u32], file: &[u8], room: usize) -> Row {
    let answer = fold_file::read(text, file, room);
    let (number, folds) = answer.map_or_else(|f| (f, None), |folds| (0, Some(folds)));
    let told = folds.as_ref().map_or(FILLER, |folds| folds.len() as u32 / 3);
    let mut places = folds.unwrap_or_default();
    places.resize(room, FILLER);
    let list: Vec<u32> = file.iter().map(|&b| b.into()).collect();
    let counts = [text.len() as u32, 0, list.len() as u32];
    let words = format!("folds_read of {} code points and {file:x?} into {room} places", text.len());
    let head = [20, 1, room as u32, 0, 0, 0, 0, 0, 0, 0];
    row("folds_read", number, told.into(), &[&head, &counts, text, &list, &[number, told], &places], words)
}

fn file_of(folds: &[u32]) -> Vec<u8> {
    let list: Vec<Fold> = folds.chunks(3).map(|f| [f[0], f[1], f[2]]).collect();
    fold_file::written(&list)
}

/// Folds over so many rows; no two in a row are the same.
fn folds(dice: &mut Dice, n: usize, rows: usize) -> Vec<u32> {
    let fold = |dice: &mut Dice| {
        let start = dice.below(rows);
        [start as u32, (start + dice.below(rows - start)) as u32, dice.below(2) as u32]
    };
    (0..n).flat_map(|_| fold(dice)).collect()
}

/// Damage of a file: its length, a byte, or a byte with the sums put right.
fn damaged(dice: &mut Dice, mut file: Vec<u8>) -> Vec<u8> {
    let at = dice.below(file.len());
    match dice.below(6) {
        0 => file.truncate(at),
        1 => file.extend([0; 512].iter().take(dice.pick(&[1, 512]))),
        2 => file[at] ^= 1 << dice.below(8),
        3 => file[at] = file[at].wrapping_add(1),
        _ => {
            let byte = dice.pick(&[0, 2, 3, 400, 508, 509]);
            file[byte] = file[byte].wrapping_add(1 + dice.below(60) as u8);
            file = fold_file::summed(file);
        }
    }
    file
}

pub(crate) fn random_file(dice: &mut Dice, rows: &mut Vec<Row>) {
    let text = points(dice, &[0, 1, 4, 9, 20]);
    let lines = text.iter().filter(|&&x| x == 10).count() + 1 + usize::from(dice.once_in(6));
    let n = dice.pick(&[0, 1, 2, 3]);
    let list = folds(dice, n, lines);
    let room = if dice.once_in(6) { 511 } else { 512 + dice.below(4) };
    rows.push(write(&text, &list, room));
    let places = if dice.once_in(6) { list.len().saturating_sub(1) } else { list.len() + dice.below(4) };
    rows.push(read(&text, &file_of(&list), places));
    let file = damaged(dice, file_of(&list));
    rows.push(read(&text, &file, 9));
}

/// Random files of a few folds, with damage, and then 0, 1, 56, 57, 256 and 257 folds, and texts that
/// are refused.
pub fn fold_files() -> Vec<Row> {
    let mut rows = Vec::new();
    for index in 0..FILES {
        random_file(&mut Dice::new(SEED, index), &mut rows);
    }
    let (dice, text) = (&mut Dice::new(SEED, FILES), vec![10; 600]);
    for n in [0, 1, 56, 57, 112, 113, 256, 257] {
        let list = folds(dice, n, 601);
        rows.push(write(&text, &list, 2560));
        rows.push(read(&text, &file_of(&list), 771));
    }
    let long = vec![0x61; 1_048_577];
    rows.extend([write(&long, &[], 4), read(&long, &[], 0)]);
    for bad in [0xD800, 0x0D] {
        rows.extend([write(&[bad], &[0, 9, 0], 0), read(&[bad], &[1], 0)]);
    }
    rows.sort_by_key(|row| row.call);
    rows
}
