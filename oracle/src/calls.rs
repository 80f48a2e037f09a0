//! One function per public call: the given Rust on plain values, behind the refusal table.

use crate::refusals::{Inputs, refusal};
use crate::{Caret, Viewport, Wrap, string};
use hjkl_buffer::{Fold, KeywordSpec};
use hjkl_engine::motions;
use hjkl_engine::types::{Pos, Query};
use hjkl_engine::{SnapshotFoldProvider, View};

type Answer<T> = Result<T, u32>;

fn accept(given: &Inputs) -> Answer<()> {
    match refusal(given) {
        0 => Ok(()),
        number => Err(number),
    }
}

/// The given buffer with the caret in it. Every position written must be inside the text.
struct Desk {
    view: View,
    sticky: Option<usize>,
}

impl Desk {
    fn new(text: &[u32], caret: Caret) -> Desk {
        Desk {
            view: View::new(&string(text), Pos { line: caret.row, col: caret.col }),
            sticky: caret.sticky.map(|s| s as usize),
        }
    }

    fn caret(&self) -> Caret {
        let View { at, outside, .. } = self.view;
        assert!(outside.is_none(), "a position outside the text was written: {outside:?}");
        assert!(self.view.is_inside(at), "the caret was left outside the text: {at:?}");
        let sticky = self.sticky.map(|s| u32::try_from(s).expect("a sticky column below 2^32"));
        Caret { row: at.line, col: at.col, sticky }
    }

    fn folds(&self, folds: &[u32]) -> SnapshotFoldProvider {
        let folds = folds.chunks(3).map(|f| Fold {
            start_row: f[0] as usize,
            end_row: f[1] as usize,
            closed: f[2] == 1,
            auto_generated: false,
        });
        SnapshotFoldProvider::new(folds.collect(), self.view.line_count() as usize)
    }
}

fn viewport(v: Viewport) -> hjkl_buffer::Viewport {
    hjkl_buffer::Viewport { top_row: v.top as usize, height: v.height, text_width: v.width, wrap: v.wrap }
}

fn on<'a>(text: &'a [u32], caret: Caret) -> Inputs<'a> {
    Inputs { text: Some(text), caret: Some((caret.row, caret.col)), ..Inputs::default() }
}

// ── Rows ────────────────────────────────────────────────────────────

pub fn content_row_count(text: &[u32]) -> Answer<u32> {
    accept(&Inputs { text: Some(text), ..Inputs::default() })?;
    Ok(motions::content_row_count(&Desk::new(text, Caret::at(0, 0)).view) as u32)
}

// ── Motions of a text and a caret ───────────────────────────────────

fn moved(text: &[u32], caret: Caret, go: impl FnOnce(&mut View)) -> Answer<Caret> {
    accept(&on(text, caret))?;
    let mut desk = Desk::new(text, caret);
    go(&mut desk.view);
    Ok(desk.caret())
}

macro_rules! plain {
    ($($name:ident)*) => { $(
        pub fn $name(text: &[u32], caret: Caret) -> Answer<Caret> {
            moved(text, caret, motions::$name)
        }
    )* };
}

macro_rules! counted {
    ($($name:ident)*) => { $(
        pub fn $name(text: &[u32], caret: Caret, count: u32) -> Answer<Caret> {
            moved(text, caret, |view| motions::$name(view, count as usize))
        }
    )* };
}

plain! { move_line_start move_first_non_blank move_line_end move_last_non_blank move_top }

counted! {
    move_left move_right_in_line move_right_to_end move_space_fwd move_backspace_back move_goto_column
    move_paragraph_prev move_paragraph_next
    move_section_backward move_section_forward move_section_end_backward move_section_end_forward
    move_first_non_blank_next_line move_first_non_blank_prev_line move_first_non_blank_line move_bottom
}

// ── Words ───────────────────────────────────────────────────────────

/// The answer for a count: past the rounds in which a position could change, two counts that agree
/// stand on a position that a round leaves as it is, and so does every larger count.
fn capped(text: &[u32], count: u32, run: impl Fn(u32) -> Caret) -> Caret {
    let enough = text.len() as u32 + 2;
    if count > enough + 1 {
        let end = run(enough);
        if end == run(enough + 1) {
            return end;
        }
    }
    run(count)
}

#[derive(Clone, Copy)]
pub struct Words<'a> {
    pub folds: &'a [u32],
    pub list: &'a [u32],
    pub big: bool,
}

fn word(
    text: &[u32],
    caret: Caret,
    words: Words,
    takes_folds: bool,
    count: u32,
    go: impl Fn(&mut View, &SnapshotFoldProvider, usize, &str),
) -> Answer<Caret> {
    let folds = takes_folds.then_some(words.folds);
    accept(&Inputs { folds, list: Some(words.list), parsed: true, ..on(text, caret) })?;
    let list = string(words.list);
    Ok(capped(text, count, |count| {
        let mut desk = Desk::new(text, caret);
        let folds = desk.folds(words.folds);
        go(&mut desk.view, &folds, count as usize, &list);
        desk.caret()
    }))
}

pub fn move_word_fwd(text: &[u32], caret: Caret, words: Words, count: u32) -> Answer<Caret> {
    word(text, caret, words, true, count, |view, folds, n, list| motions::move_word_fwd(view, folds, words.big, n, list))
}

pub fn move_word_back(text: &[u32], caret: Caret, words: Words, count: u32) -> Answer<Caret> {
    word(text, caret, words, true, count, |view, folds, n, list| motions::move_word_back(view, folds, words.big, n, list))
}

pub fn move_word_end(text: &[u32], caret: Caret, words: Words, count: u32, stop: bool) -> Answer<Caret> {
    word(text, caret, words, true, count, |view, folds, n, list| {
        motions::move_word_end(view, folds, words.big, n, stop, list)
    })
}

pub fn move_word_end_back(text: &[u32], caret: Caret, words: Words, count: u32) -> Answer<Caret> {
    let words = Words { folds: &[], ..words };
    word(text, caret, words, false, count, |view, _, n, list| motions::move_word_end_back(view, words.big, n, list))
}

// ── Brackets and find ───────────────────────────────────────────────

pub fn matching_bracket_pos(text: &[u32], row: u32, col: u32) -> Answer<Option<(u32, u32)>> {
    accept(&Inputs { text: Some(text), ..Inputs::default() })?;
    let desk = Desk::new(text, Caret::at(0, 0));
    let place = motions::matching_bracket_pos(&desk.view, row as usize, col as usize);
    Ok(place.map(|(row, col)| (row as u32, col as u32)))
}

pub fn match_bracket(text: &[u32], caret: Caret) -> Answer<(bool, Caret)> {
    accept(&on(text, caret))?;
    let mut desk = Desk::new(text, caret);
    let told = motions::match_bracket(&mut desk.view);
    Ok((told, desk.caret()))
}

pub fn find_char_on_line(
    text: &[u32],
    caret: Caret,
    sought: u32,
    forward: bool,
    till: bool,
    skip_adjacent: bool,
) -> Answer<(bool, Caret)> {
    accept(&Inputs { character: Some(sought), ..on(text, caret) })?;
    let mut desk = Desk::new(text, caret);
    let sought = char::from_u32(sought).expect("a scalar value");
    let told = motions::find_char_on_line(&mut desk.view, sought, forward, till, skip_adjacent);
    Ok((told, desk.caret()))
}

// ── Vertical, screen and viewport moves ─────────────────────────────

fn vertical(
    text: &[u32],
    caret: Caret,
    folds: &[u32],
    tabstop: u32,
    go: impl FnOnce(&mut View, &SnapshotFoldProvider, &mut Option<usize>, usize),
) -> Answer<Caret> {
    accept(&Inputs { folds: Some(folds), tabstop: Some(tabstop), ..on(text, caret) })?;
    let mut desk = Desk::new(text, caret);
    let folds = desk.folds(folds);
    go(&mut desk.view, &folds, &mut desk.sticky, tabstop as usize);
    Ok(desk.caret())
}

pub fn move_up(text: &[u32], caret: Caret, folds: &[u32], tabstop: u32, count: u32) -> Answer<Caret> {
    vertical(text, caret, folds, tabstop, |view, folds, sticky, tab| motions::move_up(view, folds, count as usize, sticky, tab))
}

pub fn move_down(text: &[u32], caret: Caret, folds: &[u32], tabstop: u32, count: u32) -> Answer<Caret> {
    vertical(text, caret, folds, tabstop, |view, folds, sticky, tab| {
        motions::move_down(view, folds, count as usize, sticky, tab)
    })
}

pub fn move_screen_up(text: &[u32], caret: Caret, folds: &[u32], v: Viewport, tabstop: u32, count: u32) -> Answer<Caret> {
    vertical(text, caret, folds, tabstop, |view, folds, sticky, tab| {
        motions::move_screen_up(view, folds, &viewport(v), count as usize, sticky, tab)
    })
}

pub fn move_screen_down(text: &[u32], caret: Caret, folds: &[u32], v: Viewport, tabstop: u32, count: u32) -> Answer<Caret> {
    vertical(text, caret, folds, tabstop, |view, folds, sticky, tab| {
        motions::move_screen_down(view, folds, &viewport(v), count as usize, sticky, tab)
    })
}

pub fn move_viewport_top(text: &[u32], caret: Caret, v: Viewport, offset: u32) -> Answer<Caret> {
    moved(text, caret, |view| motions::move_viewport_top(view, &viewport(v), offset as usize))
}

pub fn move_viewport_middle(text: &[u32], caret: Caret, v: Viewport) -> Answer<Caret> {
    moved(text, caret, |view| motions::move_viewport_middle(view, &viewport(v)))
}

pub fn move_viewport_bottom(text: &[u32], caret: Caret, v: Viewport, offset: u32) -> Answer<Caret> {
    moved(text, caret, |view| motions::move_viewport_bottom(view, &viewport(v), offset as usize))
}

// ── Calls on one row ────────────────────────────────────────────────

fn row_of(row: &[u32], tabstop: Option<u32>) -> Answer<String> {
    accept(&Inputs { row: Some(row), tabstop, ..Inputs::default() })?;
    Ok(string(row))
}

macro_rules! columns {
    ($($name:ident)*) => { $(
        pub fn $name(row: &[u32], col: u32, tabstop: u32) -> Answer<u64> {
            let line = row_of(row, Some(tabstop))?;
            Ok(hjkl_buffer::$name(&line, col as usize, tabstop as usize) as u64)
        }
    )* };
}

columns! { visual_col_to_char_col char_col_to_visual_col cursor_visual_col }

pub fn leading_visual_width(row: &[u32], tabstop: u32) -> Answer<u64> {
    let line = row_of(row, Some(tabstop))?;
    Ok(hjkl_buffer::leading_visual_width(&line, tabstop as usize) as u64)
}

/// The number of segments; they are put at the front of `room`, the rest stays.
pub fn wrap_segments(row: &[u32], width: u16, mode: Wrap, room: &mut [u32]) -> Answer<u32> {
    let line = row_of(row, None)?;
    let segments = hjkl_buffer::wrap::wrap_segments(&line, width, mode);
    accept(&Inputs { room: Some((segments.len(), room.len())), ..Inputs::default() })?;
    for (place, &(start, end)) in room.chunks_exact_mut(2).zip(&segments) {
        place.copy_from_slice(&[start as u32, end as u32]);
    }
    Ok(segments.len() as u32)
}

pub fn char_col_for_visual_offset(row: &[u32], start: u32, end: u32, offset: u32) -> Answer<u64> {
    let line = row_of(row, None)?;
    let segment = (start as usize, end as usize);
    Ok(hjkl_buffer::wrap::char_col_for_visual_offset(&line, segment, offset as usize) as u64)
}

pub fn visual_offset_for_char_col(row: &[u32], start: u32, col: u32) -> Answer<u64> {
    let line = row_of(row, None)?;
    Ok(hjkl_buffer::wrap::visual_offset_for_char_col(&line, start as usize, col as usize) as u64)
}

pub fn segment_for_col(segments: &[u32], col: u32) -> Answer<u64> {
    accept(&Inputs { segments: Some(segments), ..Inputs::default() })?;
    let segments: Vec<_> = segments.chunks(2).map(|s| (s[0] as usize, s[1] as usize)).collect();
    Ok(hjkl_buffer::wrap::segment_for_col(&segments, col as usize) as u64)
}

/// Whether the given sum of cells in a u16 passes 65,535 on some row of the text.
pub fn sum_wraps(text: &[u32], width: u16, mode: Wrap) -> bool {
    use unicode_width::UnicodeWidthChar;
    if mode == Wrap::None || width == 0 {
        return false;
    }
    let cells = |x: &u32| char::from_u32(*x).and_then(|c| c.width()).unwrap_or(1).max(1) as u32;
    // The sum before a character is at most the width, so only such a character can pass the limit.
    text.split(|&x| x == 10).any(|row| {
        let widest = row.iter().map(cells).max().unwrap_or(0);
        let all: u32 = row.iter().map(cells).sum();
        u32::from(width) + widest > 65_535 && all > 65_535
    })
}

// ── Keyword lists and character facts ───────────────────────────────

/// The number of kept tokens.
pub fn parse(list: &[u32]) -> Answer<u32> {
    accept(&Inputs { list: Some(list), parsed: true, ..Inputs::default() })?;
    Ok(crate::refusals::tokens(list) as u32)
}

/// A list parsed into its table, and a character tested by the table.
pub fn matches(list: &[u32], tested: u32) -> Answer<bool> {
    accept(&Inputs { list: Some(list), parsed: true, character: Some(tested), ..Inputs::default() })?;
    Ok(KeywordSpec::parse(&string(list)).matches(char::from_u32(tested).expect("a scalar value")))
}

pub fn is_keyword_char(tested: u32, list: &[u32]) -> Answer<bool> {
    accept(&Inputs { list: Some(list), character: Some(tested), ..Inputs::default() })?;
    Ok(hjkl_buffer::is_keyword_char(char::from_u32(tested).expect("a scalar value"), &string(list)))
}

pub fn is_scalar(x: u32) -> bool {
    char::from_u32(x).is_some()
}

fn tested(x: u32) -> Answer<char> {
    accept(&Inputs { character: Some(x), ..Inputs::default() })?;
    Ok(char::from_u32(x).expect("a scalar value"))
}

pub fn is_letter(x: u32) -> Answer<bool> {
    tested(x).map(char::is_alphabetic)
}

pub fn is_white(x: u32) -> Answer<bool> {
    tested(x).map(char::is_whitespace)
}

/// The width of a character, None read as 1.
pub fn width_of(c: char) -> u32 {
    use unicode_width::UnicodeWidthChar;
    c.width().unwrap_or(1) as u32
}

pub fn width(x: u32) -> Answer<u32> {
    tested(x).map(width_of)
}
