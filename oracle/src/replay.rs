//! The list that the program `replay` runs: cases with the given Rust's answers, as rows of decimal numbers.
//!
//! A row is the call's group and its operation there, eight numbers, how many numbers follow of a text or row, of folds and
//! of a list (keywords, or segments), those, and the answer: 0 or the refusal's number, and what the places lent for the
//! answer and for what is written hold afterwards. A space ends each number but the last; `3*97` is 97 three times. A call
//! whose refusal may have a place has the place, or 0, behind the number. UTF-8, which the given Rust has no call for, comes
//! last, by RFC 3629's tables: groups 14 and 15, with a byte as a number. A screen move
//! that remembers, group 18, has in its list whether an offset is kept, and that. Edits and fold files, groups 19 and 20:
//! `replay_buffers`. The second engine of the word motions is group 21: operations 0 to 4 as group 10 has them, 5 the classes; a
//! place for a class is a number. Row starts are group 22: `replay_tables`. Vim's own lists are group 23: operations 0 and 1 as the
//! exports have them, 2 a list written. Jumps are group 24: `replay_jumps`. The word motions by a Vim list are group 25: as group 10
//! has them.

use crate::case::{CALLS, Call, Case, FILLER, FILLER_CLASS, Input};
use crate::generate::{self, Dice};
use crate::{Outcome, Wrap, replay_buffers, replay_jumps, replay_tables, utf8, wide};

pub(crate) const SEED: u64 = 9;

/// Random cases of each call, and how many code points their texts have at most.
const CASES: usize = 80;
const LONGEST: usize = 40;

/// A longer row is left out, and so are calls that are lent more places to write into.
const WIDEST: usize = 2_000;
const MOST_PLACES: u32 = 64;

/// The motions of one argument list by their operation, in the order of motions.rs.
const MOTIONS: [&str; 21] = [
    "move_left",
    "move_right_in_line",
    "move_right_to_end",
    "move_space_fwd",
    "move_backspace_back",
    "move_line_start",
    "move_first_non_blank",
    "move_line_end",
    "move_goto_column",
    "move_last_non_blank",
    "move_paragraph_prev",
    "move_paragraph_next",
    "move_section_backward",
    "move_section_forward",
    "move_section_end_backward",
    "move_section_end_forward",
    "move_first_non_blank_next_line",
    "move_first_non_blank_prev_line",
    "move_first_non_blank_line",
    "move_top",
    "move_bottom",
];

/// A case as the program takes it: group, operation and numbers, and the places lent for the answer.
pub(crate) struct Asked<'a> {
    pub(crate) head: Vec<u32>,
    pub(crate) places: usize,
    pub(crate) text: &'a [u32],
    pub(crate) folds: &'a [u32],
    pub(crate) list: Vec<u32>,
}

pub(crate) fn asked(k: &Case) -> Asked<'_> {
    let (group, op, numbers) = numbers(k);
    let places = match group {
        7 => 3,
        8 | 10..=12 | 25 => 4,
        9 => 5,
        13 => 9,
        18 => 6,
        21 if op < 5 => 4,
        _ => 1,
    };
    let mut head = vec![group, op];
    head.extend(numbers);
    head.resize(10, 0);
    let (text, folds, list): (&[u32], &[u32], &[u32]) = match group {
        0 => (&[], &[], &[]),
        1 | 16 | 17 | 23 => (&[], &[], &k.list),
        2 | 3 | 5 => (&k.line, &[], &[]),
        4 => (&[], &[], &k.segments),
        10 | 25 if op == 4 => (&k.text, &[], &k.list),
        10 | 25 => (&k.text, &k.folds, &k.list),
        21 if op >= 4 => (&k.text, &[], &k.list),
        21 => (&k.text, &k.folds, &k.list),
        11 | 18 => (&k.text, &k.folds, &[]),
        _ => (&k.text, &[], &[]),
    };
    let own = [k.offset.is_some().into(), k.offset.unwrap_or(0)];
    Asked { head, places, text, folds, list: if group == 18 { own.to_vec() } else { list.to_vec() } }
}

/// What a host adds to the number of a call on widths: class A is wide.
const WIDE: u32 = 256;

/// Group, operation, and the numbers that it takes, in the order of the exports.
fn numbers(k: &Case) -> (u32, u32, Vec<u32>) {
    let Some(name) = wide::stem(k.call.name) else { return plain_numbers(k, k.call.name) };
    let (group, op, numbers) = plain_numbers(k, name);
    (group, op + WIDE, numbers)
}

/// The same by the name of a call without the flag.
fn plain_numbers(k: &Case, name: &str) -> (u32, u32, Vec<u32>) {
    let (row, col, count) = (k.caret.row, k.caret.col, k.count);
    let (held, sticky) = (k.caret.sticky.is_some().into(), k.caret.sticky.unwrap_or(0));
    let caret = |more: &[u32]| [&[row, col, held, sticky], more].concat();
    if let Some(op) = MOTIONS.iter().position(|motion| *motion == name) {
        return (8, op as u32, caret(&[count]));
    }
    let (x, at, tab) = (k.character, k.column, k.tabstop);
    let word = |op| (10, op, caret(&[count, k.big.into()]));
    let by_vim = |op| (25, op, caret(&[count, k.big.into()]));
    let by_class = |op| (21, op, caret(&[count, k.big.into(), k.room]));
    let (top, height, width, wrap) = (k.view.top, k.view.height.into(), k.view.width.into(), mode(k.view.wrap));
    let upright = |op| (11, op, caret(&[count, tab, wrap, width]));
    let kept = |op| (18, op, caret(&[count, tab, wrap, width]));
    let edge = |op, offset| (12, op, caret(&[offset, top, height]));
    match name {
        "is_scalar" => (0, 0, vec![x]),
        "is_white" => (0, 1, vec![x]),
        "is_letter" => (0, 2, vec![x]),
        "width" => (0, 3, vec![x]),
        "parse" => (1, 0, vec![0]),
        "matches" => (1, 1, vec![x]),
        "is_keyword_char" => (1, 2, vec![x]),
        "visual_col_to_char_col" => (2, 0, vec![at, tab]),
        "char_col_to_visual_col" => (2, 1, vec![at, tab]),
        "cursor_visual_col" => (2, 2, vec![at, tab]),
        "leading_visual_width" => (2, 3, vec![0, tab]),
        "char_col_for_visual_offset" => (3, 0, vec![k.start, k.end, at]),
        "visual_offset_for_char_col" => (3, 1, vec![k.start, 0, at]),
        "segment_for_col" => (4, 0, vec![at]),
        "wrap_segments" => (5, wrap, vec![width, k.room]),
        "content_row_count" => (6, 0, vec![]),
        "matching_bracket_pos" => (7, 0, vec![row, col]),
        "inner_pair" => (13, k.kind as u32, vec![row, col]),
        "enter" => (16, 0, vec![0]),
        "enter_matches" => (16, 1, vec![x]),
        "without_plus" => (17, 0, vec![k.room]),
        "vim_parse" => (23, 0, vec![0]),
        "vim_matches" => (23, 1, vec![x]),
        "vim_write" => (23, 2, vec![k.room]),
        "match_bracket" => (9, 0, caret(&[0])),
        "find_char_on_line" => {
            (9, 1 + u32::from(k.forward) + 2 * u32::from(k.till) + 4 * u32::from(k.skip), caret(&[x]))
        }
        "move_word_fwd" => word(0),
        "move_word_back" => word(1),
        "move_word_end" => word(2 + u32::from(k.stop)),
        "move_word_end_back" => word(4),
        "word_fwd_by_class" => by_class(0),
        "word_back_by_class" => by_class(1),
        "word_end_by_class" => by_class(2 + u32::from(k.stop)),
        "word_end_back_by_class" => by_class(4),
        "word_fwd_by_vim" => by_vim(0),
        "word_back_by_vim" => by_vim(1),
        "word_end_by_vim" => by_vim(2 + u32::from(k.stop)),
        "word_end_back_by_vim" => by_vim(4),
        "word_classes" => (21, 5, vec![0, 0, 0, 0, 0, 0, k.room]),
        "move_up" => upright(0),
        "move_down" => upright(1),
        "move_screen_up" => upright(2),
        "move_screen_down" => upright(3),
        "move_screen_up_kept" => kept(0),
        "move_screen_down_kept" => kept(1),
        "move_viewport_top" => edge(0, count),
        "move_viewport_middle" => edge(1, 0),
        "move_viewport_bottom" => edge(2, count),
        name => unreachable!("{name} has no group"),
    }
}

fn mode(wrap: Wrap) -> u32 {
    match wrap {
        Wrap::None => 0,
        Wrap::Char => 1,
        Wrap::Word => 2,
    }
}

fn numbers_of(slice: &[u8]) -> Vec<u32> {
    slice.iter().map(|&x| x.into()).collect()
}

/// The number and the places afterwards; nothing where there is no answer to compare with.
pub(crate) fn answer(k: &Case, places: usize, outcome: &Outcome) -> Option<Vec<u32>> {
    let held = |c: &crate::Caret| [c.row, c.col, c.sticky.is_some().into(), c.sticky.unwrap_or(0)];
    let mut all = match outcome {
        Outcome::Refused(number) | Outcome::RefusedAt(number, _) => {
            let lent = if k.takes(Input::Room) { k.room as usize } else { 0 };
            let filler = if numbers(k).0 == 21 { FILLER_CLASS.into() } else { FILLER };
            [vec![*number], vec![FILLER; places], vec![filler; lent]].concat()
        }
        Outcome::Moved(caret) => [&[0][..], &held(caret)].concat(),
        Outcome::Kept(caret, offset) => [&[0][..], &held(caret), &[offset.is_some().into(), offset.unwrap_or(0)]].concat(),
        Outcome::Told(truth, caret) => [&[0, u32::from(*truth)][..], &held(caret)].concat(),
        Outcome::Place(None) => vec![0, 0, 0, 0],
        Outcome::Place(Some((row, col))) => vec![0, 1, *row, *col],
        Outcome::Ranges(None) => vec![0; 10],
        Outcome::Ranges(Some(places)) => [&[0, 1], &places[..]].concat(),
        Outcome::Number(n) => vec![0, u32::try_from(*n).expect("an answer that a u32 holds")],
        Outcome::Truth(truth) => vec![0, u32::from(*truth)],
        Outcome::Segments(count, room) | Outcome::Written(count, room) => [&[0, *count], &room[..]].concat(),
        Outcome::Classes(count, slice) => [vec![0, *count], numbers_of(slice)].concat(),
        Outcome::Classed(caret, slice) => [vec![0], held(caret).to_vec(), numbers_of(slice)].concat(),
        Outcome::Outside => return None,
    };
    if matches!(k.call.name, "enter" | "enter_matches") || matches!(numbers(k).0, 23 | 25) {
        all.insert(1, if let Outcome::RefusedAt(_, place) = outcome { *place } else { 0 });
    }
    Some(all)
}

/// A case of the list: its numbers, and the case and its answer in words.
pub struct Row {
    pub call: &'static str,
    pub outcome: Outcome,
    pub numbers: String,
    pub words: String,
}

/// The row of a case; nothing where the list leaves it out.
fn row(k: &Case) -> Option<Row> {
    if k.takes(Input::Room) && k.room > MOST_PLACES {
        return None;
    }
    let Asked { head, places, text, folds, list } = asked(k);
    let counts = [text, folds, &list[..]].map(|part| part.len() as u32);
    let given = written(&[&head, &counts, text, folds, &list]);
    if given.len() > WIDEST {
        return None;
    }
    let outcome = k.answer();
    let numbers = [given, written(&[&answer(k, places, &outcome)?])].join(" ");
    Some(Row { call: k.call.name, words: format!("{k} -> {outcome}"), outcome, numbers })
}

/// The numbers of some parts; no run goes on from one part into the next.
pub(crate) fn written(parts: &[&[u32]]) -> String {
    let runs = parts.iter().flat_map(|part| part.chunk_by(|a, b| a == b)).map(|run| match run.len() {
        n @ 1..4 => vec![run[0].to_string(); n].join(" "),
        n => format!("{n}*{}", run[0]),
    });
    runs.collect::<Vec<_>>().join(" ")
}

/// Random cases of a call on short texts.
pub(crate) fn random(call: &'static Call, seed: u64, n: usize) -> impl Iterator<Item = Row> {
    let random = (0..).map(move |index| generate::random(call, &mut Dice::new(seed, index)));
    let short = random.filter(|k| k.text.len() <= LONGEST && k.line.len() <= LONGEST);
    short.filter_map(|k| row(&k)).take(n)
}

/// The rows of a call: random cases, then the limits.
fn rows(call: &'static Call) -> Vec<Row> {
    let limits = generate::limits(call).into_iter().filter_map(|k| row(&k));
    random(call, SEED, CASES).chain(limits).collect()
}

/// What places lent for bytes hold before a call.
pub(crate) const FILLER_BYTE: u32 = 0xA5;

/// The code points of texts of UTF-8, and values that are none.
const POINTS: [u32; 16] =
    [0, 0x0A, 0x61, 0x61, 0x7A, 0x7F, 0x80, 0xE9, 0x7FF, 0x800, 0x2192, 0xD7FF, 0xE000, 0xFFFF, 0x1_0000, 0x10_FFFF];
const NO_POINTS: [u32; 3] = [0xD800, 0xDFFF, 0x11_0000];
const EDGES: [u8; 12] = [0x7F, 0x80, 0xBF, 0xC0, 0xC2, 0xE0, 0xED, 0xEF, 0xF0, 0xF4, 0xF5, 0xFF];

/// A row of group 14 or 15: what is given, the places lent, the answer's first numbers, and what the places hold then.
fn coding(group: u32, given: &[u32], room: usize, told: &[u32], left: Vec<u32>, filler: u32) -> Row {
    let (call, outcome) = (["utf8_decode", "utf8_encode"][group as usize - 14], match told[0] {
        0 => Outcome::Number(left.len() as u64),
        number => Outcome::Refused(number),
    });
    let words = format!("{call} of {given:x?} into {room} places -> {outcome}");
    let places = [left.clone(), vec![filler; room - left.len()]].concat();
    let counts = [given.len() as u32, 0, 0];
    let numbers = written(&[&[group, 0, room as u32, 0, 0, 0, 0, 0, 0, 0], &counts, given, told, &places]);
    Row { call, outcome, numbers, words }
}

fn decoded(bytes: &[u8], room: usize) -> Row {
    let given: Vec<u32> = bytes.iter().map(|&b| b.into()).collect();
    match utf8::decode(bytes, room) {
        Ok(points) => coding(14, &given, room, &[0, 0, points.len() as u32], points, FILLER),
        Err((number, place)) => coding(14, &given, room, &[number, place, FILLER], vec![], FILLER),
    }
}

fn encoded(points: &[u32], room: usize) -> Row {
    match utf8::encode(points, room) {
        Ok(bytes) => coding(15, points, room, &[0, bytes.len() as u32], bytes.iter().map(|&b| b.into()).collect(), FILLER_BYTE),
        Err(number) => coding(15, points, room, &[number, FILLER], vec![], FILLER_BYTE),
    }
}

/// Random texts of at most 64 bytes both ways, with damage: decoded, and encoded.
pub(crate) fn codings(seed: u64, n: usize) -> (Vec<Row>, Vec<Row>) {
    let (mut there, mut back) = (Vec::new(), Vec::new());
    for index in 0..n as u64 {
        let dice = &mut Dice::new(seed, index);
        let mut points: Vec<u32> = (0..dice.pick(&[0, 1, 2, 3, 5, 9, 16])).map(|_| dice.pick(&POINTS)).collect();
        let mut bytes: Vec<u8> = points.iter().flat_map(|&x| utf8::encoded(x)).collect();
        let short = |dice: &mut Dice, most: usize| if dice.once_in(6) { most.saturating_sub(1) } else { most.min(60) + dice.below(4) };
        if dice.once_in(8) && !points.is_empty() {
            let at = dice.below(points.len());
            points[at] = dice.pick(&NO_POINTS);
        }
        back.push(encoded(&points, short(dice, bytes.len())));
        let most = points.len();
        if dice.once_in(2) {
            let at = dice.below(bytes.len() + 1);
            match dice.below(3) {
                0 => bytes.truncate(at),
                1 => bytes.insert(at, dice.pick(&EDGES)),
                _ => _ = bytes.splice(at..bytes.len().min(at + 1), [dice.pick(&EDGES)]).count(),
            }
            bytes.truncate(64);
        }
        there.push(decoded(&bytes, short(dice, most)));
    }
    (there, back)
}

/// The rows of the list, in its order.
pub fn list() -> Vec<Row> {
    let buffers = replay_buffers::edits().into_iter().chain(replay_buffers::fold_files());
    let (there, mut back) = codings(SEED, CASES);
    back.push(encoded(&vec![0x61; 1_048_577], 4));
    let later = replay_tables::tables().into_iter().chain(replay_jumps::jumps());
    CALLS.iter().flat_map(rows).chain(there).chain(back).chain(buffers).chain(later).collect()
}
