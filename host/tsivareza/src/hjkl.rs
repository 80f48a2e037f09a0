//! hjkl's motions under their own names, with their arguments in the same order, by the proved calls.
//!
//! For a host that calls `hjkl_engine::motions` today: its buffer implements [`Buffer`], its folds [`FoldProvider`], and then a
//! change of one `use` moves it over. docs/HOSTS.md has the table of functions.
//!
//! A call reads the whole text from the buffer and checks it. What hjkl would take and the library refuses, as a text with U+000D,
//! moves nothing and is told to [`Buffer::refused`]. A host that moves often keeps a [`Text`](crate::Text), which is checked once.
//!
//! ```
//! use tsivareza::Refusal;
//! use tsivareza::hjkl::{self as motions, Buffer};
//!
//! struct Pane { rows: Vec<String>, at: (usize, usize) }
//!
//! impl Buffer for Pane {
//!     fn row_count(&self) -> usize { self.rows.len() }
//!     fn row(&self, row: usize) -> String { self.rows[row].clone() }
//!     fn cursor(&self) -> (usize, usize) { self.at }
//!     fn set_cursor(&mut self, row: usize, col: usize) { self.at = (row, col) }
//!     fn refused(&self, refusal: Refusal) { eprintln!("{refusal}") }
//! }
//!
//! let mut pane = Pane { rows: vec!["if (n) {".into(), "}".into()], at: (0, 7) };
//! assert!(motions::match_bracket(&mut pane));
//! assert_eq!(pane.at, (1, 0));
//! ```

#![forbid(unsafe_code)]
#![warn(missing_docs)]

use crate::{
    Caret, Motion, Refusal, Seek, Steps, Vertical, ViewportMove, Word, Words, Wrap, content_row_count as content_rows,
    matching_bracket_pos as partner, motion, seek, vertical, viewport as to_viewport, word,
};
use std::cell::Cell;

/// What the motions need of a host's buffer.
///
/// ```
/// use tsivareza::{Refusal, hjkl::{Buffer, move_left}};
/// struct Row(&'static str, usize);
/// impl Buffer for Row {
///     fn row_count(&self) -> usize { 1 }
///     fn row(&self, _: usize) -> String { self.0.into() }
///     fn cursor(&self) -> (usize, usize) { (0, self.1) }
///     fn set_cursor(&mut self, _: usize, col: usize) { self.1 = col }
///     fn refused(&self, refusal: Refusal) { panic!("{refusal}") }
/// }
/// let mut row = Row("abc", 2);
/// move_left(&mut row, 1);
/// assert_eq!(row.1, 1);
/// ```
pub trait Buffer {
    /// How many rows there are, at least one.
    fn row_count(&self) -> usize;
    /// A row below that number, without its separator.
    fn row(&self, row: usize) -> String;
    /// Row and column of the cursor.
    fn cursor(&self) -> (usize, usize);
    /// Stores the cursor; it is called where a motion changes it.
    fn set_cursor(&mut self, row: usize, col: usize);
    /// A motion was refused, and moved nothing.
    fn refused(&self, refusal: Refusal);
}

/// What the motions need of a host's folds: the rows that closed ones hide.
///
/// ```
/// use tsivareza::{Fold, Folds, hjkl::FoldProvider};
/// let folds = Folds::from_iter([Fold { start: 0, end: 2, closed: true }]);
/// assert!(!folds.is_row_hidden(0) && folds.is_row_hidden(2));
/// ```
pub trait FoldProvider {
    /// Whether some closed fold hides the row.
    fn is_row_hidden(&self, row: usize) -> bool;
}

impl FoldProvider for crate::Folds {
    fn is_row_hidden(&self, row: usize) -> bool {
        u32::try_from(row).is_ok_and(|row| self.iter().any(|fold| fold.hides(row)))
    }
}

/// A plain buffer: rows, a cursor, and the last refusal. For tries and tests.
///
/// ```
/// use tsivareza::Refusal;
/// use tsivareza::hjkl::{Plain, move_line_end};
/// let mut buf = Plain::new("abc\nde", (1, 0));
/// move_line_end(&mut buf);
/// assert_eq!((buf.cursor, buf.refusal()), ((1, 1), None));
/// let mut buf = Plain::new("abc\r\nde", (1, 0));
/// move_line_end(&mut buf);
/// assert_eq!((buf.cursor, buf.refusal()), ((1, 0), Some(Refusal::LineBreak)));
/// ```
#[derive(Clone, Debug)]
pub struct Plain {
    rows: Vec<String>,
    /// Row and column.
    pub cursor: (usize, usize),
    refusal: Cell<Option<Refusal>>,
}

impl Plain {
    /// The buffer of a text, with its cursor.
    ///
    /// ```
    /// assert_eq!(tsivareza::hjkl::Plain::new("abc", (0, 1)).cursor, (0, 1));
    /// ```
    pub fn new(text: &str, cursor: (usize, usize)) -> Plain {
        Plain { rows: text.split('\n').map(String::from).collect(), cursor, refusal: Cell::new(None) }
    }

    /// What was refused last.
    ///
    /// ```
    /// assert_eq!(tsivareza::hjkl::Plain::new("abc", (0, 1)).refusal(), None);
    /// ```
    pub fn refusal(&self) -> Option<Refusal> {
        self.refusal.get()
    }
}

impl Buffer for Plain {
    fn row_count(&self) -> usize {
        self.rows.len()
    }
    fn row(&self, row: usize) -> String {
        self.rows.get(row).cloned().unwrap_or_default()
    }
    fn cursor(&self) -> (usize, usize) {
        self.cursor
    }
    fn set_cursor(&mut self, row: usize, col: usize) {
        self.cursor = (row, col);
    }
    fn refused(&self, refusal: Refusal) {
        self.refusal.set(Some(refusal));
    }
}

/// What the motions need of a window, by hjkl's field names.
///
/// ```
/// use tsivareza::{Wrap, hjkl::Viewport};
/// let window = Viewport { top_row: 0, height: 40, text_width: 80, wrap: Wrap::Word };
/// assert_eq!(window.height, 40);
/// ```
#[derive(Clone, Copy, Debug)]
pub struct Viewport {
    /// The row at its top.
    pub top_row: usize,
    /// How many rows it shows.
    pub height: u16,
    /// How many cells of text a row has.
    pub text_width: u16,
    /// How long rows are broken.
    pub wrap: Wrap,
}

/// A number as the calls take it: past all rows, columns and rounds of a text the largest does the same.
fn small(number: usize) -> u32 {
    u32::try_from(number).unwrap_or(u32::MAX)
}

/// The code points of all rows. More than a text may have are not read.
fn points<B: Buffer + ?Sized>(buf: &B) -> Result<Vec<u32>, Refusal> {
    let mut points: Vec<u32> = Vec::new();
    for row in 0..buf.row_count() {
        if row > 0 {
            points.push(0x0A);
        }
        let line = buf.row(row);
        if line.contains('\n') {
            return Err(Refusal::LineBreak);
        }
        points.extend(line.chars().map(u32::from));
        if points.len() > 1_048_576 {
            return Err(Refusal::TooLong);
        }
    }
    Ok(points)
}

fn caret<B: Buffer + ?Sized>(buf: &B) -> Caret {
    let (row, col) = buf.cursor();
    Caret::at(small(row), small(col))
}

/// The answer of a call on the buffer's text and caret; a refusal is told to the buffer.
fn asked<B: Buffer + ?Sized, T>(buf: &B, call: impl FnOnce(&[u32], Caret) -> Result<T, u32>) -> Option<T> {
    let answer = points(buf).and_then(|points| call(&points, caret(buf)).map_err(Refusal::plain));
    answer.map_err(|refusal| buf.refused(refusal)).ok()
}

fn store<B: Buffer + ?Sized>(buf: &mut B, to: Caret) {
    if caret(buf).position() != to.position() {
        buf.set_cursor(to.row as usize, to.col as usize);
    }
}

fn go<B: Buffer + ?Sized>(buf: &mut B, call: impl FnOnce(&[u32], Caret) -> Result<Caret, u32>) {
    if let Some(to) = asked(buf, call) {
        store(buf, to);
    }
}

/// A closed fold for each run of hidden rows: these hide the same, and nothing else of folds is looked at.
fn folds<B: Buffer + ?Sized, F: FoldProvider + ?Sized>(buf: &B, folds: &F) -> Vec<u32> {
    let mut found: Vec<u32> = Vec::new();
    // one more than a list may have is refused
    for row in 1..buf.row_count() {
        if found.len() > 3 * 256 {
            break;
        }
        if folds.is_row_hidden(row) {
            match found.last_chunk_mut::<3>() {
                Some([_, end, _]) if *end as usize + 1 == row => *end = small(row),
                _ => found.extend([small(row - 1), small(row), 1]),
            }
        }
    }
    found
}

/// How many rows have content; all of them where the text is refused.
///
/// ```
/// use tsivareza::hjkl::{Plain, content_row_count};
/// assert_eq!(content_row_count(&Plain::new("a\n", (0, 0))), 1);
/// ```
pub fn content_row_count<B: Buffer + ?Sized>(buf: &B) -> usize {
    asked(buf, |text, _| content_rows(text)).map_or(buf.row_count(), |rows| rows as usize)
}

macro_rules! motions {
    ($($name:ident $(by $count:ident)?: $text:literal, $row:literal $col:literal $(, $example:literal)? => $to_row:literal $to_col:literal;)*) => { $(
        #[doc = concat!("[`Caret::", stringify!($name), "`].")]
        ///
        /// ```
        #[doc = concat!("use tsivareza::hjkl::{Plain, ", stringify!($name), "};")]
        #[doc = concat!("let mut buf = Plain::new(", stringify!($text), ", (", $row, ", ", $col, "));")]
        #[doc = concat!(stringify!($name), "(&mut buf", $(", ", $example,)? ");")]
        #[doc = concat!("assert_eq!(buf.cursor, (", $to_row, ", ", $to_col, "));")]
        /// ```
        pub fn $name<B: Buffer>(buf: &mut B $(, $count: usize)?) {
            go(buf, |text, k| motion(Motion::$name, text, k, 0 $(+ small($count))?));
        }
    )* };
}

motions! {
    move_left by count: "ab cd", 0 3, 2 => 0 1;
    move_right_in_line by count: "abc", 0 0, 9 => 0 2;
    move_right_to_end by count: "abc", 0 0, 9 => 0 3;
    move_space_fwd by count: "ab\ncd", 0 1, 1 => 1 0;
    move_backspace_back by count: "ab\ncd", 1 0, 1 => 0 1;
    move_line_start: "ab cd", 0 3 => 0 0;
    move_first_non_blank: "  ab", 0 3 => 0 2;
    move_line_end: "abc", 0 0 => 0 2;
    move_goto_column by count: "abcdef", 0 5, 3 => 0 2;
    move_last_non_blank: "ab  ", 0 0 => 0 1;
    move_paragraph_prev by count: "a\n\nb", 2 0, 1 => 1 0;
    move_paragraph_next by count: "a\n\nb", 0 0, 1 => 1 0;
    move_section_backward by count: "{\n}\n{\n}", 3 0, 1 => 2 0;
    move_section_forward by count: "{\n}\n{\n}", 0 0, 1 => 2 0;
    move_section_end_backward by count: "{\n}\n{\n}", 3 0, 1 => 1 0;
    move_section_end_forward by count: "{\n}\n{\n}", 0 0, 1 => 1 0;
    move_first_non_blank_next_line by count: "a\n  b", 0 0, 1 => 1 2;
    move_first_non_blank_prev_line by count: "  a\nb", 1 0, 1 => 0 2;
    move_first_non_blank_line by count: "  a\nb", 0 0, 1 => 0 2;
    move_top: "  a\nb", 1 0 => 0 2;
    move_bottom by count: "a\n b\n", 0 0, 0 => 1 1;
}

fn step<B: Buffer, F: FoldProvider + ?Sized>(
    which: Vertical,
    buf: &mut B,
    provider: &F,
    count: usize,
    sticky_col: &mut Option<usize>,
    tabstop: usize,
) {
    let (hidden, held) = (folds(buf, provider), sticky_col.map(small));
    let steps = Steps { folds: &hidden, count: small(count), tabstop: small(tabstop) };
    let to = asked(buf, |text, k| vertical(which, text, Caret { sticky: held, ..k }, steps));
    if let Some(to) = to {
        // one that was there is kept, whatever its size
        *sticky_col = sticky_col.or(to.sticky.map(|col| col as usize));
        store(buf, to);
    }
}

/// [`Caret::move_up`]; the host keeps the sticky column.
///
/// ```
/// use tsivareza::{Folds, hjkl::{Plain, move_up}};
/// let (mut buf, mut sticky) = (Plain::new("abc\n\nabc", (2, 2)), None);
/// move_up(&mut buf, &Folds::new(), 2, &mut sticky, 8);
/// assert_eq!((buf.cursor, sticky), ((0, 2), Some(2)));
/// ```
pub fn move_up<B: Buffer, F: FoldProvider + ?Sized>(
    buf: &mut B,
    folds: &F,
    count: usize,
    sticky_col: &mut Option<usize>,
    tabstop: usize,
) {
    step(Vertical::Up, buf, folds, count, sticky_col, tabstop);
}

/// [`Caret::move_down`]; the host keeps the sticky column.
///
/// ```
/// use tsivareza::{Folds, hjkl::{Plain, move_down}};
/// let (mut buf, mut sticky) = (Plain::new("abc\n\nabc", (0, 2)), None);
/// move_down(&mut buf, &Folds::new(), 1, &mut sticky, 8);
/// assert_eq!((buf.cursor, sticky), ((1, 0), Some(2)));
/// ```
pub fn move_down<B: Buffer, F: FoldProvider + ?Sized>(
    buf: &mut B,
    folds: &F,
    count: usize,
    sticky_col: &mut Option<usize>,
    tabstop: usize,
) {
    step(Vertical::Down, buf, folds, count, sticky_col, tabstop);
}

/// [`Caret::move_screen_up`]; the host keeps the sticky column.
///
/// ```
/// use tsivareza::{Folds, Wrap, hjkl::{Plain, Viewport, move_screen_up}};
/// let (mut buf, mut sticky) = (Plain::new("abcdef", (0, 5)), None);
/// let window = Viewport { top_row: 0, height: 3, text_width: 4, wrap: Wrap::Char };
/// move_screen_up(&mut buf, &Folds::new(), &window, 1, &mut sticky, 8);
/// assert_eq!(buf.cursor, (0, 1));
/// ```
pub fn move_screen_up<B: Buffer, F: FoldProvider + ?Sized>(
    buf: &mut B,
    folds: &F,
    viewport: &Viewport,
    count: usize,
    sticky_col: &mut Option<usize>,
    tabstop: usize,
) {
    let up = Vertical::ScreenUp { mode: viewport.wrap, width: viewport.text_width };
    step(up, buf, folds, count, sticky_col, tabstop);
}

/// [`Caret::move_screen_down`]; the host keeps the sticky column.
///
/// ```
/// use tsivareza::{Folds, Wrap, hjkl::{Plain, Viewport, move_screen_down}};
/// let (mut buf, mut sticky) = (Plain::new("abcdef", (0, 1)), None);
/// let window = Viewport { top_row: 0, height: 3, text_width: 4, wrap: Wrap::Char };
/// move_screen_down(&mut buf, &Folds::new(), &window, 1, &mut sticky, 8);
/// assert_eq!(buf.cursor, (0, 5));
/// ```
pub fn move_screen_down<B: Buffer, F: FoldProvider + ?Sized>(
    buf: &mut B,
    folds: &F,
    viewport: &Viewport,
    count: usize,
    sticky_col: &mut Option<usize>,
    tabstop: usize,
) {
    let down = Vertical::ScreenDown { mode: viewport.wrap, width: viewport.text_width };
    step(down, buf, folds, count, sticky_col, tabstop);
}

fn by_words<B: Buffer>(which: Word, buf: &mut B, folds: &[u32], big: bool, count: usize, iskeyword: &str) {
    let list: Vec<u32> = iskeyword.chars().map(u32::from).collect();
    go(buf, |text, k| word(which, text, k, Words { folds, list: &list, big }, small(count)));
}

/// [`Caret::move_word_fwd`].
///
/// ```
/// use tsivareza::{Folds, hjkl::{Plain, move_word_fwd}};
/// let mut buf = Plain::new("if (n) {", (0, 0));
/// move_word_fwd(&mut buf, &Folds::new(), false, 2, "@,48-57,_");
/// assert_eq!(buf.cursor, (0, 4));
/// ```
pub fn move_word_fwd<B: Buffer, F: FoldProvider + ?Sized>(buf: &mut B, folds: &F, big: bool, count: usize, iskeyword: &str) {
    let hidden = self::folds(buf, folds);
    by_words(Word::Fwd, buf, &hidden, big, count, iskeyword);
}

/// [`Caret::move_word_back`].
///
/// ```
/// use tsivareza::{Folds, hjkl::{Plain, move_word_back}};
/// let mut buf = Plain::new("if (n) {", (0, 7));
/// move_word_back(&mut buf, &Folds::new(), true, 1, "@,48-57,_");
/// assert_eq!(buf.cursor, (0, 3));
/// ```
pub fn move_word_back<B: Buffer, F: FoldProvider + ?Sized>(buf: &mut B, folds: &F, big: bool, count: usize, iskeyword: &str) {
    let hidden = self::folds(buf, folds);
    by_words(Word::Back, buf, &hidden, big, count, iskeyword);
}

/// [`Caret::move_word_end`].
///
/// ```
/// use tsivareza::{Folds, hjkl::{Plain, move_word_end}};
/// let mut buf = Plain::new("a bc", (0, 0));
/// move_word_end(&mut buf, &Folds::new(), false, 1, false, "@,48-57,_");
/// assert_eq!(buf.cursor, (0, 3));
/// ```
pub fn move_word_end<B: Buffer, F: FoldProvider + ?Sized>(
    buf: &mut B,
    folds: &F,
    big: bool,
    count: usize,
    stop: bool,
    iskeyword: &str,
) {
    let hidden = self::folds(buf, folds);
    by_words(Word::End { stop }, buf, &hidden, big, count, iskeyword);
}

/// [`Caret::move_word_end_back`]; it takes no folds.
///
/// ```
/// use tsivareza::hjkl::{Plain, move_word_end_back};
/// let mut buf = Plain::new("ab cd", (0, 4));
/// move_word_end_back(&mut buf, false, 1, "@,48-57,_");
/// assert_eq!(buf.cursor, (0, 1));
/// ```
pub fn move_word_end_back<B: Buffer>(buf: &mut B, big: bool, count: usize, iskeyword: &str) {
    by_words(Word::EndBack, buf, &[], big, count, iskeyword);
}

/// [`Text::matching_bracket_pos`](crate::Text::matching_bracket_pos); none where the text is refused.
///
/// ```
/// use tsivareza::hjkl::{Plain, matching_bracket_pos};
/// assert_eq!(matching_bracket_pos(&Plain::new("([)]", (0, 0)), 0, 1), Some((0, 3)));
/// ```
pub fn matching_bracket_pos<B: Buffer>(buf: &B, row: usize, col: usize) -> Option<(usize, usize)> {
    let (row, col) = asked(buf, |text, _| partner(text, small(row), small(col)))??;
    Some((row as usize, col as usize))
}

fn found<B: Buffer>(buf: &mut B, which: Seek) -> bool {
    let Some((found, to)) = asked(buf, |text, k| seek(which, text, k)) else {
        return false;
    };
    store(buf, to);
    found
}

/// [`Caret::match_bracket`]; false where it finds none, and where it is refused.
///
/// ```
/// use tsivareza::hjkl::{Plain, match_bracket};
/// let mut buf = Plain::new("<(>)", (0, 0));
/// assert!(match_bracket(&mut buf));
/// assert_eq!(buf.cursor, (0, 3));
/// ```
pub fn match_bracket<B: Buffer>(buf: &mut B) -> bool {
    found(buf, Seek::MatchBracket)
}

/// [`Caret::find_char_on_line`]; false where it finds none, and where it is refused.
///
/// ```
/// use tsivareza::hjkl::{Plain, find_char_on_line};
/// let mut buf = Plain::new("axx", (0, 0));
/// assert!(find_char_on_line(&mut buf, 'x', true, true, true));
/// assert_eq!(buf.cursor, (0, 1));
/// ```
pub fn find_char_on_line<B: Buffer>(buf: &mut B, ch: char, forward: bool, till: bool, skip_adjacent: bool) -> bool {
    found(buf, Seek::FindCharOnLine { x: ch.into(), forward, till, skip_adjacent })
}

/// [`Caret::move_viewport_top`].
///
/// ```
/// use tsivareza::{Wrap, hjkl::{Plain, Viewport, move_viewport_top}};
/// let mut buf = Plain::new("a\nb\nc\nd", (0, 0));
/// let window = Viewport { top_row: 0, height: 3, text_width: 4, wrap: Wrap::Char };
/// move_viewport_top(&mut buf, &window, 1);
/// assert_eq!(buf.cursor, (1, 0));
/// ```
pub fn move_viewport_top<B: Buffer>(buf: &mut B, viewport: &Viewport, offset: usize) {
    let top = small(viewport.top_row);
    go(buf, |text, k| to_viewport(ViewportMove::Top { top, offset: small(offset) }, text, k));
}

/// [`Caret::move_viewport_middle`].
///
/// ```
/// use tsivareza::{Wrap, hjkl::{Plain, Viewport, move_viewport_middle}};
/// let mut buf = Plain::new("a\nb\nc\nd", (0, 0));
/// let window = Viewport { top_row: 0, height: 3, text_width: 4, wrap: Wrap::Char };
/// move_viewport_middle(&mut buf, &window);
/// assert_eq!(buf.cursor, (1, 0));
/// ```
pub fn move_viewport_middle<B: Buffer>(buf: &mut B, viewport: &Viewport) {
    let (top, height) = (small(viewport.top_row), viewport.height);
    go(buf, |text, k| to_viewport(ViewportMove::Middle { top, height }, text, k));
}

/// [`Caret::move_viewport_bottom`].
///
/// ```
/// use tsivareza::{Wrap, hjkl::{Plain, Viewport, move_viewport_bottom}};
/// let mut buf = Plain::new("a\nb\nc\nd", (0, 0));
/// let window = Viewport { top_row: 0, height: 3, text_width: 4, wrap: Wrap::Char };
/// move_viewport_bottom(&mut buf, &window, 0);
/// assert_eq!(buf.cursor, (2, 0));
/// ```
pub fn move_viewport_bottom<B: Buffer>(buf: &mut B, viewport: &Viewport, offset: usize) {
    let (top, height) = (small(viewport.top_row), viewport.height);
    go(buf, |text, k| to_viewport(ViewportMove::Bottom { top, height, offset: small(offset) }, text, k));
}
