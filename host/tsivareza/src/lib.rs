//! A text engine in which every function is proved to meet its contract, for a Rust host: vim-like motions, brackets, edits,
//! folds, keyword lists, and the columns and segments of rows.
//!
//! A [`Text`] is checked once, when it is made; a motion is a method of the [`Caret`] and hands back a new one; what is refused says
//! why, as a [`Refusal`], and leaves everything as it was. No input makes a call panic.
//!
//! ```
//! use tsivareza::{Caret, Folds, Kind, KeywordList, Text};
//! let mut text: Text = "if (gusts > 35) {\n    Nobody drives up.\n}\n".parse()?;
//! let (mut caret, mut folds) = (Caret::at(0, 0), Folds::new());
//! caret = caret.move_word_fwd(&text, &folds, &KeywordList::default(), false, 2)?;
//! assert_eq!(caret, Caret::at(0, 4));
//! if let Some(branch) = text.inner_pair(Kind::Curly, 1, 7)? {
//!     text.replace(branch.between, "\n    Wait.\n", &mut caret, &mut folds)?;
//! }
//! assert_eq!(text.to_string(), "if (gusts > 35) {\n    Wait.\n}\n");
//! # Ok::<(), tsivareza::Refusal>(())
//! ```
//!
//! [`hjkl`] has the motions under hjkl's names and argument order, over a host's own buffer.
//!
//! # The calls by numbers
//!
//! Below these are the calls that they are made of, on slices and numbers; comparison runs use them.
//! A text, row or list goes as code points, or through a [`Room`] as bytes, four to a code point, the
//! lowest first. A call that is refused gives document 01's number as `Err`, or from 100 on the
//! boundary's: 100 no such operation, mode or kind of bracket, 101 bytes that make no whole code points, 102 too
//! little room, 103 an answer that no u32 holds. 101 comes first, then 102, then 100, for with one of
//! these there is no call to be made; then the lowest of document 01's that applies. 103 stands in an
//! answer's place, in [`segment_for_col`] alone, and of [`utf8_decode`] it comes first of all. Of what
//! is lent, a refusal changes a [`Room`] alone.
//!
//! ```
//! assert_eq!(tsivareza::matching_bracket_pos(&[0x28, 0x5B, 0x29, 0x5D], 0, 0), Ok(Some((0, 2))));
//! assert_eq!(tsivareza::matching_bracket_pos(&[0x28, 0x0D, 0x29], 0, 0), Err(3));
//! let mut room = tsivareza::Room::new(2);
//! assert_eq!(room.content_row_count(&tsivareza::bytes(&[0x61, 0x0A])), Ok(1));
//! ```

#![deny(unsafe_code)]

mod classes;
mod edits;
mod encodings;
mod fold_files;
mod inner;
mod jumps;
mod kept;
mod motion_rows;
#[allow(unsafe_code)]
mod raw;
mod row_table;
mod signs;
mod upright;
mod vim;

// The examples of the papers are tests.
#[cfg(doctest)]
#[doc = include_str!("../../../README.md")]
#[doc = include_str!("../../../docs/TUTORIAL.md")]
#[doc = include_str!("../../../docs/LISTS.md")]
struct Papers;

pub use classes::{word_by_class, word_classes};
pub use edits::Page;
pub use encodings::{utf8_decode, utf8_encode};
pub use fold_files::{folds_read, folds_write};
pub use inner::{Kind, Range, Ranges, inner_pair};
pub use jumps::{Ground, Jump, jumps};
pub use kept::{Kept, ScreenKept, screen_kept, screen_kept_as};
pub use motion_rows::{Rows, motion_rows, screen_kept_rows, seek_rows, vertical_rows, viewport_rows, word_rows};
pub use row_table::{TabledPage, row_starts};
pub use signs::{Enter, enter, without_plus};
pub use vim::{Vim, vim_list, vim_write, word_vim};
pub use upright::{Steps, Vertical, Viewport, vertical, vertical_as, viewport};

// What a host works with: the calls above are by numbers, and these are made of them.
mod caret;
mod fold_list;
pub mod hjkl;
mod keyword_list;
mod refusal;
mod screen;
mod text;
mod word_list;

pub use fold_list::{Fold, Folds};
pub use keyword_list::KeywordList;
pub use refusal::Refusal;
pub use screen::Cells;
pub use text::Text;
pub use upright::ViewportMove;
pub use word_list::{VimList, WordList};

// The examples of the papers for hosts are tests too.
#[cfg(doctest)]
#[doc = include_str!("../../../docs/HOSTS.md")]
#[doc = include_str!("../../../docs/API.md")]
struct HostPapers;

use raw::lent;

/// What the places for an answer hold before a call; a refusal leaves them so.
const UNTOUCHED: u32 = 0x5EED_5EED;

/// The answer that a call puts into N places, or the number that it is refused with.
fn answer<const N: usize>(call: impl FnOnce(&mut [u32; N]) -> u32) -> Result<[u32; N], u32> {
    let mut out = [UNTOUCHED; N];
    match call(&mut out) {
        0 => Ok(out),
        number => {
            assert_eq!(out, [UNTOUCHED; N], "a refusal wrote into its answer");
            Err(number)
        }
    }
}

fn number(call: impl FnOnce(&mut [u32; 1]) -> u32) -> Result<u32, u32> {
    answer(call).map(|[n]| n)
}

/// The same of a call whose refusal has a place, in the high half: its number, and the place.
fn placed_answer<const N: usize>(call: impl FnOnce(&mut [u32; N]) -> u64) -> Result<[u32; N], (u32, u32)> {
    let mut out = [UNTOUCHED; N];
    match call(&mut out) {
        0 => Ok(out),
        told => {
            assert_eq!(out, [UNTOUCHED; N], "a refusal wrote into its answer");
            Err((told as u32, (told >> 32) as u32))
        }
    }
}

fn placed(call: impl FnOnce(&mut [u32; 1]) -> u64) -> Result<u32, (u32, u32)> {
    placed_answer(call).map(|[n]| n)
}

/// Code points as bytes.
///
/// ```
/// assert_eq!(tsivareza::bytes(&[0x61, 0x2192]), [0x61, 0, 0, 0, 0x92, 0x21, 0, 0]);
/// ```
pub fn bytes(points: &[u32]) -> Vec<u8> {
    points.iter().flat_map(|x| x.to_le_bytes()).collect()
}

/// The same calls on bytes, with room for the code points of a text.
///
/// A call puts the code points of its bytes at the start of the room, one argument after the other,
/// before it looks at them, and leaves the rest of the room as it was: also where it is refused, for
/// there is no other place to read them in. After 101 or 102 all of the room is as it was.
///
/// ```
/// let mut room = tsivareza::Room::new(3);
/// assert_eq!(room.content_row_count(&tsivareza::bytes(&[0x61, 0xD800])), Err(2));
/// assert_eq!(room.points(), [0x61, 0xD800, 0]);
/// assert_eq!(room.content_row_count(&[0x62]), Err(101));
/// assert_eq!(room.content_row_count(&tsivareza::bytes(&[0x62; 4])), Err(102));
/// assert_eq!(room.points(), [0x61, 0xD800, 0]);
/// ```
pub struct Room(Vec<u32>);

impl Room {
    /// Room for that many code points.
    ///
    /// ```
    /// assert_eq!(tsivareza::Room::new(2).points(), [0, 0]);
    /// ```
    pub fn new(points: usize) -> Room {
        Room(vec![0; points])
    }

    /// What the room holds.
    ///
    /// ```
    /// let mut room = tsivareza::Room::new(2);
    /// assert_eq!(room.content_row_count(&tsivareza::bytes(&[0x61])), Ok(1));
    /// assert_eq!(room.points(), [0x61, 0]);
    /// ```
    pub fn points(&self) -> &[u32] {
        &self.0
    }
}

// ── Widths ──────────────────────────────────────────────────────────

/// How a screen shows the characters of class A (Ambiguous) of EastAsianWidth.txt, as arrows and the degree sign: by
/// their width, or in two cells where that is one. The calls on widths have a form that takes it, with `_as` at the end
/// of its name; the others are narrow.
///
/// ```
/// use tsivareza::{Ambiguous, Caret, Columns, Steps, Vertical, columns_as, vertical_as, width_as};
/// assert_eq!((width_as(0x2192, Ambiguous::Narrow), width_as(0x2192, Ambiguous::Wide)), (Ok(1), Ok(2)));
/// let arrow_b = [0x2192, 0x62];
/// assert_eq!(columns_as(Columns::CharColToVisualCol(1), &arrow_b, 8, Ambiguous::Wide), Ok(2));
/// let text = [&arrow_b[..], &[0x0A, 0x61, 0x62, 0x63]].concat();
/// let (k, steps) = (Caret { row: 0, col: 1, sticky: None }, Steps { folds: &[], count: 1, tabstop: 8 });
/// let down = |a| vertical_as(Vertical::Down, &text, k, steps, a).map(|k| (k.row, k.col, k.sticky));
/// assert_eq!(down(Ambiguous::Narrow), Ok((1, 1, Some(1))));
/// assert_eq!(down(Ambiguous::Wide), Ok((1, 2, Some(2))));
/// ```
#[derive(Clone, Copy, Debug, Default, PartialEq, Eq)]
pub enum Ambiguous {
    #[default]
    /// By their width.
    Narrow,
    /// In two cells where that is one.
    Wide,
}

impl Ambiguous {
    /// The number of a call, with the flag where the setting is wide.
    fn flagged(self, op: u32) -> u32 {
        match self {
            Ambiguous::Narrow => op,
            Ambiguous::Wide => op + 256,
        }
    }
}

// ── Characters ──────────────────────────────────────────────────────

fn character(op: u32, x: u32) -> Result<u32, u32> {
    number(|out| lent::tsivareza_character(op, x, out))
}

/// Whether x is a scalar value; it is never refused.
///
/// ```
/// assert!(tsivareza::is_scalar(0x61));
/// assert!(!tsivareza::is_scalar(0xD800));
/// assert!(!tsivareza::is_scalar(0x110000));
/// ```
pub fn is_scalar(x: u32) -> bool {
    character(0, x) == Ok(1)
}

/// Whether x is white space; `Err(2)` where it is no scalar value.
///
/// ```
/// assert_eq!(tsivareza::is_white(0xA0), Ok(true));
/// assert_eq!(tsivareza::is_white(0xD800), Err(2));
/// ```
pub fn is_white(x: u32) -> Result<bool, u32> {
    character(1, x).map(|n| n == 1)
}

/// Whether x is a letter; `Err(2)` where it is no scalar value.
///
/// ```
/// assert_eq!(tsivareza::is_letter(0x7B), Ok(false));
/// assert_eq!(tsivareza::is_letter(0xDFFF), Err(2));
/// ```
pub fn is_letter(x: u32) -> Result<bool, u32> {
    character(2, x).map(|n| n == 1)
}

/// How many cells x is wide, a tab 1; `Err(2)` where it is no scalar value.
///
/// ```
/// assert_eq!(tsivareza::width(0x3042), Ok(2));
/// assert_eq!(tsivareza::width(0x110000), Err(2));
/// ```
pub fn width(x: u32) -> Result<u32, u32> {
    width_as(x, Ambiguous::Narrow)
}

/// The same under a setting.
///
/// ```
/// use tsivareza::{Ambiguous, width_as};
/// assert_eq!((width_as(0xB0, Ambiguous::Narrow), width_as(0xB0, Ambiguous::Wide)), (Ok(1), Ok(2)));
/// ```
pub fn width_as(x: u32, ambiguous: Ambiguous) -> Result<u32, u32> {
    character(ambiguous.flagged(3), x)
}

// ── Rows ────────────────────────────────────────────────────────────

/// How many rows have content: the last doesn't where it is empty, unless it is row 0. Refused are 1 to 3.
///
/// ```
/// assert_eq!(tsivareza::content_row_count(&[0x61, 0x0A]), Ok(1));
/// ```
pub fn content_row_count(text: &[u32]) -> Result<u32, u32> {
    number(|out| lent::tsivareza_content_row_count_u32(text, out))
}

impl Room {
    /// [`content_row_count`] of bytes.
    ///
    /// ```
    /// assert_eq!(tsivareza::Room::new(2).content_row_count(&tsivareza::bytes(&[0x61, 0x0A])), Ok(1));
    /// ```
    pub fn content_row_count(&mut self, text: &[u8]) -> Result<u32, u32> {
        let room = &mut self.0;
        number(|out| lent::tsivareza_content_row_count(text, room, out))
    }
}

// ── Keyword lists ───────────────────────────────────────────────────

/// A question about a keyword list.
///
/// ```
/// use tsivareza::{Keywords, keywords};
/// let asked = [Keywords::Parse, Keywords::Matches(0x37), Keywords::IsKeywordChar(0x2D)];
/// let list: Vec<u32> = "@,48-57".chars().map(u32::from).collect();
/// assert_eq!(asked.map(|asked| keywords(asked, &list)), [Ok(2), Ok(1), Ok(0)]);
/// ```
#[derive(Clone, Copy)]
pub enum Keywords {
    /// How many tokens are kept in the list's table.
    Parse,
    /// Whether the list's table holds a character: 1 if so.
    Matches(u32),
    /// Whether the list, read directly, holds a character: 1 if so.
    IsKeywordChar(u32),
}

impl Keywords {
    fn numbers(self) -> (u32, u32) {
        match self {
            Keywords::Parse => (0, 0),
            Keywords::Matches(x) => (1, x),
            Keywords::IsKeywordChar(x) => (2, x),
        }
    }
}

/// The answer for a list; 2 for the character, then 7 and 8.
///
/// ```
/// use tsivareza::{Keywords, keywords};
/// assert_eq!(keywords(Keywords::Parse, &[0x40, 0x2C, 0x5F]), Ok(2));
/// assert_eq!(keywords(Keywords::Matches(0x5F), &[0x40, 0x2C, 0x5F]), Ok(1));
/// ```
pub fn keywords(asked: Keywords, list: &[u32]) -> Result<u32, u32> {
    let (op, x) = asked.numbers();
    number(|out| lent::tsivareza_keywords_u32(op, list, x, out))
}

impl Room {
    /// [`keywords`] of bytes.
    ///
    /// ```
    /// use tsivareza::{Keywords, Room, bytes};
    /// assert_eq!(Room::new(1).keywords(Keywords::Parse, &bytes(&[0x40])), Ok(1));
    /// ```
    pub fn keywords(&mut self, asked: Keywords, list: &[u8]) -> Result<u32, u32> {
        let ((op, x), room) = (asked.numbers(), &mut self.0);
        number(|out| lent::tsivareza_keywords(op, list, room, x, out))
    }
}

// ── Tab columns ─────────────────────────────────────────────────────

/// A question about the columns of a row.
///
/// ```
/// use tsivareza::{Columns, columns};
/// let asked = [Columns::VisualColToCharCol(8), Columns::CharColToVisualCol(1), Columns::CursorVisualCol(0), Columns::LeadingVisualWidth];
/// assert_eq!(asked.map(|asked| columns(asked, &[0x09, 0x78], 8)), [Ok(1), Ok(8), Ok(7), Ok(8)]);
/// ```
#[derive(Clone, Copy)]
pub enum Columns {
    /// The character in a cell.
    VisualColToCharCol(u32),
    /// The cell that a character starts in.
    CharColToVisualCol(u32),
    /// The cell that a caret is drawn in: the last one of a tab.
    CursorVisualCol(u32),
    /// How many cells of spaces and tabs the row begins with.
    LeadingVisualWidth,
}

impl Columns {
    fn numbers(self, ambiguous: Ambiguous) -> (u32, u32) {
        let (op, col) = match self {
            Columns::VisualColToCharCol(col) => (0, col),
            Columns::CharColToVisualCol(col) => (1, col),
            Columns::CursorVisualCol(col) => (2, col),
            Columns::LeadingVisualWidth => (3, 0),
        };
        (ambiguous.flagged(op), col)
    }
}

/// The answer for a row; 1, 2 and 6.
///
/// ```
/// use tsivareza::{Columns, columns};
/// assert_eq!(columns(Columns::CursorVisualCol(0), &[0x09, 0x78], 8), Ok(7));
/// ```
pub fn columns(asked: Columns, row: &[u32], tabstop: u32) -> Result<u32, u32> {
    columns_as(asked, row, tabstop, Ambiguous::Narrow)
}

/// The same under a setting; `LeadingVisualWidth` is the same under both.
///
/// ```
/// use tsivareza::{Ambiguous, Columns, columns_as};
/// let at = |ambiguous| columns_as(Columns::CharColToVisualCol(1), &[0x2192, 0x78], 8, ambiguous);
/// assert_eq!((at(Ambiguous::Narrow), at(Ambiguous::Wide)), (Ok(1), Ok(2)));
/// ```
pub fn columns_as(asked: Columns, row: &[u32], tabstop: u32, ambiguous: Ambiguous) -> Result<u32, u32> {
    let (op, col) = asked.numbers(ambiguous);
    number(|out| lent::tsivareza_columns_u32(op, row, col, tabstop, out))
}

impl Room {
    /// [`columns`] of bytes.
    ///
    /// ```
    /// use tsivareza::{Columns, Room, bytes};
    /// assert_eq!(Room::new(2).columns(Columns::LeadingVisualWidth, &bytes(&[0x09, 0x78]), 8), Ok(8));
    /// ```
    pub fn columns(&mut self, asked: Columns, row: &[u8], tabstop: u32) -> Result<u32, u32> {
        self.columns_as(asked, row, tabstop, Ambiguous::Narrow)
    }

    /// [`columns_as`] of bytes.
    ///
    /// ```
    /// use tsivareza::{Ambiguous, Columns, Room, bytes};
    /// let wide = Room::new(2).columns_as(Columns::CharColToVisualCol(1), &bytes(&[0x2192, 0x78]), 8, Ambiguous::Wide);
    /// assert_eq!(wide, Ok(2));
    /// ```
    pub fn columns_as(&mut self, asked: Columns, row: &[u8], tabstop: u32, ambiguous: Ambiguous) -> Result<u32, u32> {
        let ((op, col), room) = (asked.numbers(ambiguous), &mut self.0);
        number(|out| lent::tsivareza_columns(op, row, room, col, tabstop, out))
    }
}

// ── Row wrapping ────────────────────────────────────────────────────

/// How a row is broken.
///
/// ```
/// use tsivareza::{Wrap, wrap_segments};
/// let row: Vec<u32> = "ab cd".chars().map(u32::from).collect();
/// let count = |mode| wrap_segments(&row, 4, mode, &mut [0; 8]);
/// assert_eq!([Wrap::None, Wrap::Char, Wrap::Word].map(count), [Ok(1), Ok(2), Ok(2)]);
/// ```
#[derive(Clone, Copy, Debug)]
pub enum Wrap {
    /// Not at all.
    None = 0,
    /// At the width.
    Char = 1,
    /// Behind white space, where there is some.
    Word = 2,
}

/// The number of segments; they stand at the front of `segments`, start and end of each.
///
/// ```
/// use tsivareza::{Wrap, wrap_segments};
/// let (row, mut segments) = ("ab cd".chars().map(u32::from).collect::<Vec<_>>(), [9; 5]);
/// assert_eq!(wrap_segments(&row, 4, Wrap::Word, &mut segments), Ok(2));
/// assert_eq!(segments, [0, 3, 3, 5, 9]);
/// assert_eq!(wrap_segments(&row, 4, Wrap::Word, &mut segments[..3]), Err(9));
/// ```
pub fn wrap_segments(row: &[u32], width: u16, mode: Wrap, segments: &mut [u32]) -> Result<u32, u32> {
    wrap_segments_as(row, width, mode, segments, Ambiguous::Narrow)
}

/// The same under a setting.
///
/// ```
/// use tsivareza::{Ambiguous, Wrap, wrap_segments_as};
/// let count = |ambiguous| wrap_segments_as(&[0x2192; 4], 4, Wrap::Char, &mut [0; 8], ambiguous);
/// assert_eq!((count(Ambiguous::Narrow), count(Ambiguous::Wide)), (Ok(1), Ok(2)));
/// ```
pub fn wrap_segments_as(row: &[u32], width: u16, mode: Wrap, segments: &mut [u32], ambiguous: Ambiguous) -> Result<u32, u32> {
    let mode = ambiguous.flagged(mode as u32);
    number(|out| lent::tsivareza_wrap_segments_u32(mode, row, width, segments, out))
}

/// A question about the cells within a segment of a row.
///
/// ```
/// use tsivareza::{Offsets, offsets};
/// let row = [0x61, 0x3042, 0x61];
/// assert_eq!(offsets(Offsets::CharColForVisualOffset { start: 1, end: 3, offset: 2 }, &row), Ok(2));
/// assert_eq!(offsets(Offsets::VisualOffsetForCharCol { start: 1, col: 2 }, &row), Ok(2));
/// ```
#[derive(Clone, Copy)]
pub enum Offsets {
    /// The character in a cell of a segment.
    CharColForVisualOffset { start: u32, end: u32, offset: u32 },
    /// The cell of a character within the segment that begins at a start.
    VisualOffsetForCharCol { start: u32, col: u32 },
}

impl Offsets {
    fn numbers(self, ambiguous: Ambiguous) -> (u32, u32, u32, u32) {
        match self {
            Offsets::CharColForVisualOffset { start, end, offset } => (ambiguous.flagged(0), start, end, offset),
            Offsets::VisualOffsetForCharCol { start, col } => (ambiguous.flagged(1), start, 0, col),
        }
    }
}

/// The answer for a row; 1 and 2.
///
/// ```
/// use tsivareza::{Offsets, offsets};
/// assert_eq!(offsets(Offsets::VisualOffsetForCharCol { start: 1, col: 2 }, &[0x61, 0x3042, 0x61]), Ok(2));
/// ```
pub fn offsets(asked: Offsets, row: &[u32]) -> Result<u32, u32> {
    offsets_as(asked, row, Ambiguous::Narrow)
}

/// The same under a setting.
///
/// ```
/// use tsivareza::{Ambiguous, Offsets, offsets_as};
/// let asked = Offsets::VisualOffsetForCharCol { start: 0, col: 1 };
/// assert_eq!((offsets_as(asked, &[0x2192], Ambiguous::Narrow), offsets_as(asked, &[0x2192], Ambiguous::Wide)), (Ok(1), Ok(2)));
/// ```
pub fn offsets_as(asked: Offsets, row: &[u32], ambiguous: Ambiguous) -> Result<u32, u32> {
    let (op, start, end, at) = asked.numbers(ambiguous);
    number(|out| lent::tsivareza_offsets_u32(op, row, start, end, at, out))
}

/// Which segment a column is in, the last where it is in none; 10 where a segment is cut.
///
/// ```
/// assert_eq!(tsivareza::segment_for_col(&[0, 3, 3, 5], 3), Ok(1));
/// assert_eq!(tsivareza::segment_for_col(&[0, 3, 3], 3), Err(10));
/// ```
pub fn segment_for_col(segments: &[u32], col: u32) -> Result<u32, u32> {
    number(|out| lent::tsivareza_segment_for_col_u32(segments, col, out))
}

impl Room {
    /// [`wrap_segments`] of bytes.
    ///
    /// ```
    /// use tsivareza::{Room, Wrap, bytes};
    /// let mut segments = [9; 4];
    /// assert_eq!(Room::new(2).wrap_segments(&bytes(&[0x61; 2]), 1, Wrap::Char, &mut segments), Ok(2));
    /// assert_eq!(segments, [0, 1, 1, 2]);
    /// ```
    pub fn wrap_segments(&mut self, row: &[u8], width: u16, mode: Wrap, segments: &mut [u32]) -> Result<u32, u32> {
        self.wrap_segments_as(row, width, mode, segments, Ambiguous::Narrow)
    }

    /// [`wrap_segments_as`] of bytes.
    ///
    /// ```
    /// use tsivareza::{Ambiguous, Room, Wrap, bytes};
    /// let mut segments = [9; 4];
    /// let wide = Room::new(2).wrap_segments_as(&bytes(&[0x2192; 2]), 2, Wrap::Char, &mut segments, Ambiguous::Wide);
    /// assert_eq!((wide, segments), (Ok(2), [0, 1, 1, 2]));
    /// ```
    pub fn wrap_segments_as(
        &mut self,
        row: &[u8],
        width: u16,
        mode: Wrap,
        segments: &mut [u32],
        ambiguous: Ambiguous,
    ) -> Result<u32, u32> {
        let (mode, room) = (ambiguous.flagged(mode as u32), &mut self.0);
        number(|out| lent::tsivareza_wrap_segments(mode, row, room, width, segments, out))
    }

    /// [`offsets`] of bytes.
    ///
    /// ```
    /// use tsivareza::{Offsets, Room, bytes};
    /// assert_eq!(Room::new(1).offsets(Offsets::VisualOffsetForCharCol { start: 0, col: 1 }, &bytes(&[0x3042])), Ok(2));
    /// ```
    pub fn offsets(&mut self, asked: Offsets, row: &[u8]) -> Result<u32, u32> {
        self.offsets_as(asked, row, Ambiguous::Narrow)
    }

    /// [`offsets_as`] of bytes.
    ///
    /// ```
    /// use tsivareza::{Ambiguous, Offsets, Room, bytes};
    /// let asked = Offsets::VisualOffsetForCharCol { start: 0, col: 1 };
    /// assert_eq!(Room::new(1).offsets_as(asked, &bytes(&[0x2192]), Ambiguous::Wide), Ok(2));
    /// ```
    pub fn offsets_as(&mut self, asked: Offsets, row: &[u8], ambiguous: Ambiguous) -> Result<u32, u32> {
        let ((op, start, end, at), room) = (asked.numbers(ambiguous), &mut self.0);
        number(|out| lent::tsivareza_offsets(op, row, room, start, end, at, out))
    }

    /// [`segment_for_col`] of bytes.
    ///
    /// ```
    /// assert_eq!(tsivareza::Room::new(4).segment_for_col(&tsivareza::bytes(&[0, 3, 3, 5]), 3), Ok(1));
    /// ```
    pub fn segment_for_col(&mut self, segments: &[u8], col: u32) -> Result<u32, u32> {
        let room = &mut self.0;
        number(|out| lent::tsivareza_segment_for_col(segments, room, col, out))
    }
}

// ── Carets and motions ──────────────────────────────────────────────

/// Row, column and sticky column.
///
/// ```
/// use tsivareza::{Caret, Text};
/// let text: Text = "ab cd".parse()?;
/// assert_eq!(Caret { row: 0, col: 4, sticky: None }.move_line_start(&text)?, Caret::at(0, 0));
/// # Ok::<(), tsivareza::Refusal>(())
/// ```
#[derive(Clone, Copy, Debug, PartialEq, Eq)]
pub struct Caret {
    /// Counted from 0.
    pub row: u32,
    /// In code points, at most the row's character count.
    pub col: u32,
    /// The cell that up and down keep to, where there is one.
    pub sticky: Option<u32>,
}

impl Caret {
    fn held(self) -> (u32, u32) {
        (self.sticky.is_some().into(), self.sticky.unwrap_or(0))
    }

    fn of([row, col, held, sticky]: [u32; 4]) -> Caret {
        Caret { row, col, sticky: (held == 1).then_some(sticky) }
    }
}

macro_rules! motions {
    ($($name:ident)*) => {
        /// A motion of a text, a caret and a count, in the order of motions.rs; some take no count.
        ///
        /// ```
        /// use tsivareza::{Caret, MOTIONS, motion};
        /// let (_, last) = MOTIONS[MOTIONS.len() - 1];
        /// assert_eq!(motion(last, &[0x61, 0x0A, 0x62], Caret::at(0, 0), 0), Ok(Caret::at(1, 0)));
        /// ```
        #[allow(non_camel_case_types)]
        #[derive(Clone, Copy, Debug)]
        pub enum Motion { $($name),* }

        /// Every motion, with its name.
        pub const MOTIONS: &[(&str, Motion)] = &[$((stringify!($name), Motion::$name)),*];
    };
}

motions! {
    move_left move_right_in_line move_right_to_end move_space_fwd move_backspace_back move_line_start
    move_first_non_blank move_line_end move_goto_column move_last_non_blank move_paragraph_prev move_paragraph_next
    move_section_backward move_section_forward move_section_end_backward move_section_end_forward
    move_first_non_blank_next_line move_first_non_blank_prev_line move_first_non_blank_line move_top move_bottom
}

/// The caret after a motion; 1 to 4.
///
/// ```
/// use tsivareza::{Caret, Motion, motion};
/// let k = Caret { row: 0, col: 0, sticky: None };
/// assert_eq!(motion(Motion::move_line_end, &[0x61; 3], k, 0).map(|k| k.col), Ok(2));
/// ```
pub fn motion(which: Motion, text: &[u32], k: Caret, count: u32) -> Result<Caret, u32> {
    let (held, sticky) = k.held();
    answer(|out| lent::tsivareza_motion_u32(which as u32, text, k.row, k.col, held, sticky, count, out))
    .map(Caret::of)
}

/// A search from a caret.
///
/// ```
/// use tsivareza::{Caret, Seek, seek};
/// let to = Seek::FindCharOnLine { x: 0x62, forward: true, till: false, skip_adjacent: false };
/// assert_eq!(seek(to, &[0x61, 0x20, 0x62], Caret::at(0, 0)), Ok((true, Caret::at(0, 2))));
/// assert_eq!(seek(Seek::MatchBracket, &[0x61], Caret::at(0, 0)), Ok((false, Caret::at(0, 0))));
/// ```
#[derive(Clone, Copy, Debug)]
pub enum Seek {
    /// `%`: the partner of a bracket at or after the caret in its row.
    MatchBracket,
    /// `f`, `F`, `t` and `T`: a character of the row.
    FindCharOnLine { x: u32, forward: bool, till: bool, skip_adjacent: bool },
}

impl Seek {
    fn numbers(self) -> (u32, u32) {
        match self {
            Seek::MatchBracket => (0, 0),
            Seek::FindCharOnLine { x, forward, till, skip_adjacent } => {
                (1 + u32::from(forward) + 2 * u32::from(till) + 4 * u32::from(skip_adjacent), x)
            }
        }
    }
}

/// Whether it was found, and the caret.
fn told([found, row, col, held, sticky]: [u32; 5]) -> (bool, Caret) {
    (found == 1, Caret::of([row, col, held, sticky]))
}

/// Whether it was found, and the caret; 1 to 4, 2 for the character too.
///
/// ```
/// use tsivareza::{Caret, Seek, seek};
/// let k = Caret { row: 0, col: 0, sticky: None };
/// assert_eq!(seek(Seek::MatchBracket, &[0x28, 0x29], k).map(|(found, k)| (found, k.col)), Ok((true, 1)));
/// ```
pub fn seek(which: Seek, text: &[u32], k: Caret) -> Result<(bool, Caret), u32> {
    let ((op, x), (held, sticky)) = (which.numbers(), k.held());
    answer(|out| lent::tsivareza_seek_u32(op, text, k.row, k.col, held, sticky, x, out)).map(told)
}

/// The partner of the bracket at a row and a column.
///
/// ```
/// assert_eq!(tsivareza::matching_bracket_pos(&[0x7B, 0x0A, 0x7D], 0, 0), Ok(Some((1, 0))));
/// assert_eq!(tsivareza::matching_bracket_pos(&[0x7B, 0x0A, 0x7D], 0, 1), Ok(None));
/// ```
pub fn matching_bracket_pos(text: &[u32], row: u32, col: u32) -> Result<Option<(u32, u32)>, u32> {
    answer(|out| lent::tsivareza_matching_bracket_pos_u32(text, row, col, out))
        .map(|[found, row, col]| (found == 1).then_some((row, col)))
}

impl Room {
    /// [`motion`] of bytes.
    ///
    /// ```
    /// use tsivareza::{Caret, Motion, Room, bytes};
    /// let k = Caret { row: 0, col: 0, sticky: None };
    /// assert_eq!(Room::new(3).motion(Motion::move_line_end, &bytes(&[0x61; 3]), k, 0).map(|k| k.col), Ok(2));
    /// ```
    pub fn motion(&mut self, which: Motion, text: &[u8], k: Caret, count: u32) -> Result<Caret, u32> {
        let ((held, sticky), room) = (k.held(), &mut self.0);
        answer(|out| lent::tsivareza_motion(which as u32, text, room, k.row, k.col, held, sticky, count, out))
        .map(Caret::of)
    }

    /// [`seek`] of bytes.
    ///
    /// ```
    /// use tsivareza::{Caret, Room, Seek, bytes};
    /// let k = Caret { row: 0, col: 0, sticky: None };
    /// assert!(Room::new(2).seek(Seek::MatchBracket, &bytes(&[0x28, 0x29]), k).is_ok_and(|(found, _)| found));
    /// ```
    pub fn seek(&mut self, which: Seek, text: &[u8], k: Caret) -> Result<(bool, Caret), u32> {
        let ((op, x), (held, sticky), room) = (which.numbers(), k.held(), &mut self.0);
        answer(|out| lent::tsivareza_seek(op, text, room, k.row, k.col, held, sticky, x, out))
            .map(told)
    }

    /// [`matching_bracket_pos`] of bytes.
    ///
    /// ```
    /// assert_eq!(tsivareza::Room::new(2).matching_bracket_pos(&tsivareza::bytes(&[0x28, 0x29]), 0, 0), Ok(Some((0, 1))));
    /// ```
    pub fn matching_bracket_pos(&mut self, text: &[u8], row: u32, col: u32) -> Result<Option<(u32, u32)>, u32> {
        let room = &mut self.0;
        answer(|out| lent::tsivareza_matching_bracket_pos(text, room, row, col, out))
        .map(|[found, row, col]| (found == 1).then_some((row, col)))
    }
}

// ── Word motions ────────────────────────────────────────────────────

/// A word motion.
///
/// ```
/// use tsivareza::{Caret, Word, Words, word};
/// let words = Words { folds: &[], list: &[0x40], big: false };
/// let to = |which| word(which, &[0x61, 0x61, 0x20, 0x62], Caret::at(0, 3), words, 1).map(|k| k.col);
/// assert_eq!([Word::Back, Word::EndBack, Word::End { stop: true }].map(to), [Ok(0), Ok(1), Ok(3)]);
/// ```
#[derive(Clone, Copy, Debug)]
pub enum Word {
    /// `w`.
    Fwd,
    /// `b`.
    Back,
    /// `e`; with `stop` the first round may stay.
    End { stop: bool },
    /// It takes no folds.
    EndBack,
}

impl Word {
    fn number(self) -> u32 {
        match self {
            Word::Fwd => 0,
            Word::Back => 1,
            Word::End { stop } => 2 + u32::from(stop),
            Word::EndBack => 4,
        }
    }
}

/// What a word motion takes beside text, caret and count: folds and a keyword list, as code points or bytes.
///
/// ```
/// use tsivareza::{Caret, Word, Words, word};
/// let small = Words { folds: &[], list: &[0x40], big: false };
/// let to = |words| word(Word::Fwd, &[0x61, 0x28, 0x20, 0x62], Caret::at(0, 0), words, 1).map(|k| k.col);
/// assert_eq!((to(small), to(Words { big: true, ..small })), (Ok(1), Ok(3)));
/// ```
#[derive(Clone, Copy, Debug)]
pub struct Words<'a, T = u32> {
    /// Start, end and 1 where closed, of each.
    pub folds: &'a [T],
    /// The keyword list.
    pub list: &'a [T],
    /// Whether only white space ends a word.
    pub big: bool,
}

/// The caret after a word motion; 1 to 5, 7 and 8.
///
/// ```
/// use tsivareza::{Caret, Word, Words, word};
/// let (k, words) = (Caret { row: 0, col: 0, sticky: None }, Words { folds: &[], list: &[0x40], big: false });
/// assert_eq!(word(Word::Fwd, &[0x61, 0x20, 0x61], k, words, 1).map(|k| k.col), Ok(2));
/// ```
pub fn word(which: Word, text: &[u32], k: Caret, words: Words, count: u32) -> Result<Caret, u32> {
    let (held, sticky) = k.held();
    let Words { folds, list, big } = words;
    answer(|out| lent::tsivareza_word_u32(which.number(), text, folds, list, k.row, k.col, held, sticky, big.into(), count, out))
    .map(Caret::of)
}

impl Room {
    /// The room takes the code points of the text, the folds and the list.
    ///
    /// ```
    /// use tsivareza::{Caret, Room, Word, Words, bytes};
    /// let (text, list) = (bytes(&[0x61, 0x20, 0x62]), bytes(&[0x40]));
    /// let words = Words { folds: &[], list: &list, big: false };
    /// assert_eq!(Room::new(4).word(Word::Fwd, &text, Caret::at(0, 0), words, 1), Ok(Caret::at(0, 2)));
    /// ```
    pub fn word(&mut self, which: Word, text: &[u8], k: Caret, words: Words<u8>, count: u32) -> Result<Caret, u32> {
        let ((held, sticky), room) = (k.held(), &mut self.0);
        let Words { folds, list, big } = words;
        answer(|out| {
            lent::tsivareza_word(
                which.number(), text, folds, list, room, k.row, k.col, held, sticky, big.into(), count, out,
            )
        })
        .map(Caret::of)
    }
}

// ── Session ─────────────────────────────────────────────────────────

/// Room for the longest output of a session; that it is enough is proved.
pub const SESSION_ROOM: usize = 393_240;

/// What document 01's session prints: command rows, a row with only a full stop, and a text.
///
/// ```
/// let input = b"w 1\nj 1\n% 1\n.\nif (n) {\nx (y)\n}\n";
/// assert_eq!(tsivareza::session(input), b"w 0 3\nj 1 3\n% 1 2\n");
/// assert_eq!(tsivareza::session(b"no full-stop row"), b"refused\n");
/// ```
pub fn session(input: &[u8]) -> Vec<u8> {
    Printer::new().session(input)
}

/// Room for what sessions print, one after another.
///
/// ```
/// let mut printer = tsivareza::Printer::new();
/// assert_eq!(printer.session(b"l 1\n.\nab\n"), b"l 0 1\n");
/// assert_eq!(printer.session(b"l 9\n.\nab\n"), b"l 0 1\n");
/// ```
pub struct Printer(Box<[u8; SESSION_ROOM]>);

impl Printer {
    /// Room for the longest output.
    ///
    /// ```
    /// assert_eq!(tsivareza::Printer::new().session(b".\n"), b"");
    /// ```
    pub fn new() -> Printer {
        Printer(Box::new([0xEE; SESSION_ROOM]))
    }

    /// As [`session`]; the thousand bytes past the output are seen to be as they were.
    ///
    /// ```
    /// assert_eq!(tsivareza::Printer::new().session(b"gx 1\n.\na\n"), b"? 0 0\n");
    /// ```
    pub fn session(&mut self, input: &[u8]) -> Vec<u8> {
        let count = lent::tsivareza_session(input, &mut self.0);
        assert!(self.0[count..].iter().take(1000).all(|&b| b == 0xEE), "a session wrote past its output");
        let printed = self.0[..count].to_vec();
        self.0[..count].fill(0xEE);
        printed
    }
}

impl Default for Printer {
    fn default() -> Printer {
        Printer::new()
    }
}
