//! The motions with a table of row starts.

use crate::{
    Ambiguous, Caret, Kept, Motion, Room, ScreenKept, Seek, Steps, Vertical, ViewportMove, Word, Words, answer, raw::lent, told,
};

/// The row starts of a text and how many of its rows have content, as [`row_starts`](crate::row_starts) gives them and a
/// [`TabledPage`](crate::TabledPage) keeps them. A motion that takes them answers as the one without; where that refuses
/// nothing, `Err(15)` says that there are fewer places than the text has rows, and `Err(16)` that they are not the text's.
/// Places behind the rows are not looked at.
///
/// ```
/// use tsivareza::{Caret, Motion, Rows, motion, motion_rows, row_starts};
/// let (text, mut table) = ([0x61, 0x0A, 0x62], [9; 4]);
/// let content = row_starts(&text, &mut table).unwrap();
/// let (k, rows) = (Caret { row: 1, col: 0, sticky: None }, Rows { starts: &table, content });
/// assert_eq!(motion_rows(Motion::move_top, &text, rows, k, 1), motion(Motion::move_top, &text, k, 1));
/// assert_eq!(motion_rows(Motion::move_top, &text, Rows { starts: &table[..1], content }, k, 1), Err(15));
/// assert_eq!(motion_rows(Motion::move_top, &text, Rows { content: 1, ..rows }, k, 1), Err(16));
/// assert_eq!(motion_rows(Motion::move_top, &text, Rows { content: 1, ..rows }, Caret { row: 2, ..k }, 1), Err(4));
/// ```
#[derive(Clone, Copy, Debug)]
pub struct Rows<'a> {
    pub starts: &'a [u32],
    pub content: u32,
}

/// [`motion`](crate::motion) with the text's row starts.
///
/// ```
/// use tsivareza::{Caret, Motion, Rows, motion_rows};
/// let rows = Rows { starts: &[0, 2], content: 2 };
/// assert_eq!(motion_rows(Motion::move_bottom, &[0x61, 0x0A, 0x62], rows, Caret::at(0, 0), 0), Ok(Caret::at(1, 0)));
/// ```
pub fn motion_rows(which: Motion, text: &[u32], rows: Rows, k: Caret, count: u32) -> Result<Caret, u32> {
    let (held, sticky) = k.held();
    answer(|out| {
        lent::tsivareza_motion_rows_u32(which as u32, text, rows.starts, rows.content, k.row, k.col, held, sticky, count, out)
    })
    .map(Caret::of)
}

/// [`word`](crate::word) with the text's row starts.
///
/// ```
/// use tsivareza::{Caret, Rows, Word, Words, word_rows};
/// let (text, rows) = ([0x61, 0x0A, 0x62], Rows { starts: &[0, 2], content: 2 });
/// let (k, words) = (Caret { row: 0, col: 0, sticky: None }, Words { folds: &[], list: &[0x40], big: false });
/// assert_eq!(word_rows(Word::Fwd, &text, rows, k, words, 1), Ok(Caret { row: 1, col: 0, sticky: None }));
/// ```
pub fn word_rows(which: Word, text: &[u32], rows: Rows, k: Caret, words: Words, count: u32) -> Result<Caret, u32> {
    let (held, sticky) = k.held();
    let Words { folds, list, big } = words;
    answer(|out| {
        lent::tsivareza_word_rows_u32(
            which.number(),
            text,
            rows.starts,
            rows.content,
            folds,
            list,
            k.row,
            k.col,
            held,
            sticky,
            big.into(),
            count,
            out,
        )
    })
    .map(Caret::of)
}

/// [`vertical_as`](crate::vertical_as) with the text's row starts.
///
/// ```
/// use tsivareza::{Ambiguous, Caret, Rows, Steps, Vertical, vertical_rows};
/// let (text, rows) = ([0x61, 0x0A], Rows { starts: &[0, 2], content: 1 });
/// let (k, steps) = (Caret { row: 0, col: 0, sticky: None }, Steps { folds: &[], count: 1, tabstop: 8 });
/// let down = vertical_rows(Vertical::Down, &text, rows, k, steps, Ambiguous::Narrow);
/// assert_eq!(down, Ok(Caret { row: 1, col: 0, sticky: Some(0) }));
/// ```
pub fn vertical_rows(
    which: Vertical,
    text: &[u32],
    rows: Rows,
    k: Caret,
    steps: Steps,
    ambiguous: Ambiguous,
) -> Result<Caret, u32> {
    let ((op, mode, width), (held, sticky)) = (which.numbers(ambiguous), k.held());
    let Steps { folds, count, tabstop } = steps;
    answer(|out| {
        lent::tsivareza_vertical_rows_u32(
            op,
            text,
            rows.starts,
            rows.content,
            folds,
            k.row,
            k.col,
            held,
            sticky,
            mode,
            width,
            count,
            tabstop,
            out,
        )
    })
    .map(Caret::of)
}

/// [`screen_kept_as`](crate::screen_kept_as) with the text's row starts.
///
/// ```
/// use tsivareza::{Ambiguous, Caret, Kept, Rows, ScreenKept, Steps, Wrap, screen_kept_rows};
/// let (text, rows) = ([0x61, 0x0A, 0x62], Rows { starts: &[0, 2], content: 2 });
/// let at = |row| Kept { caret: Caret { row, col: 0, sticky: Some(0) }, offset: Some(0) };
/// let (down, steps) = (ScreenKept::Down { mode: Wrap::Char, width: 4 }, Steps { folds: &[], count: 1, tabstop: 8 });
/// assert_eq!(screen_kept_rows(down, &text, rows, at(0), steps, Ambiguous::Narrow), Ok(at(1)));
/// ```
pub fn screen_kept_rows(
    which: ScreenKept,
    text: &[u32],
    rows: Rows,
    k: Kept,
    steps: Steps,
    ambiguous: Ambiguous,
) -> Result<Kept, u32> {
    let ((op, mode, width), [row, col, held, sticky, kept, offset]) = (which.numbers(ambiguous), k.numbers());
    let Steps { folds, count, tabstop } = steps;
    answer(|out| {
        lent::tsivareza_screen_kept_rows_u32(
            op,
            text,
            rows.starts,
            rows.content,
            folds,
            row,
            col,
            held,
            sticky,
            kept,
            offset,
            mode,
            width,
            count,
            tabstop,
            out,
        )
    })
    .map(Kept::of)
}

/// [`viewport`](crate::viewport) with the text's row starts.
///
/// ```
/// use tsivareza::{Caret, Rows, ViewportMove, viewport_rows};
/// let (text, rows) = ([0x61, 0x0A, 0x62], Rows { starts: &[0, 2], content: 2 });
/// let bottom = ViewportMove::Bottom { top: 0, height: 2, offset: 0 };
/// let k = Caret { row: 0, col: 0, sticky: None };
/// assert_eq!(viewport_rows(bottom, &text, rows, k), Ok(Caret { row: 1, col: 0, sticky: None }));
/// ```
pub fn viewport_rows(which: ViewportMove, text: &[u32], rows: Rows, k: Caret) -> Result<Caret, u32> {
    let ((op, top, height, offset), (held, sticky)) = (which.numbers(), k.held());
    answer(|out| {
        lent::tsivareza_viewport_rows_u32(
            op,
            text,
            rows.starts,
            rows.content,
            k.row,
            k.col,
            held,
            sticky,
            top,
            height,
            offset,
            out,
        )
    })
    .map(Caret::of)
}

/// [`seek`](crate::seek) with the text's row starts.
///
/// ```
/// use tsivareza::{Caret, Rows, Seek, seek_rows};
/// let (text, rows) = ([0x28, 0x0A, 0x29], Rows { starts: &[0, 2], content: 2 });
/// let at = |row| Caret { row, col: 0, sticky: None };
/// assert_eq!(seek_rows(Seek::MatchBracket, &text, rows, at(0)), Ok((true, at(1))));
/// ```
pub fn seek_rows(which: Seek, text: &[u32], rows: Rows, k: Caret) -> Result<(bool, Caret), u32> {
    let ((op, x), (held, sticky)) = (which.numbers(), k.held());
    answer(|out| lent::tsivareza_seek_rows_u32(op, text, rows.starts, rows.content, k.row, k.col, held, sticky, x, out))
        .map(told)
}

/// The same on bytes, four to a code point; the starts are numbers as they are.
impl Room {
    /// [`motion_rows`] of bytes.
    ///
    /// ```
    /// use tsivareza::{Caret, Motion, Room, Rows, bytes};
    /// let rows = Rows { starts: &[0, 2], content: 2 };
    /// let text = bytes(&[0x61, 0x0A, 0x62]);
    /// assert_eq!(Room::new(3).motion_rows(Motion::move_bottom, &text, rows, Caret::at(0, 0), 0), Ok(Caret::at(1, 0)));
    /// ```
    pub fn motion_rows(&mut self, which: Motion, text: &[u8], rows: Rows, k: Caret, count: u32) -> Result<Caret, u32> {
        let (held, sticky) = k.held();
        answer(|out| {
            lent::tsivareza_motion_rows(
                which as u32,
                text,
                rows.starts,
                rows.content,
                &mut self.0,
                k.row,
                k.col,
                held,
                sticky,
                count,
                out,
            )
        })
        .map(Caret::of)
    }

    /// [`word_rows`] of bytes.
    ///
    /// ```
    /// use tsivareza::{Caret, Room, Rows, Word, Words, bytes};
    /// let (text, list) = (bytes(&[0x61, 0x0A, 0x62]), bytes(&[0x40]));
    /// let (rows, words) = (Rows { starts: &[0, 2], content: 2 }, Words { folds: &[], list: &list, big: false });
    /// assert_eq!(Room::new(4).word_rows(Word::Fwd, &text, rows, Caret::at(0, 0), words, 1), Ok(Caret::at(1, 0)));
    /// ```
    pub fn word_rows(
        &mut self,
        which: Word,
        text: &[u8],
        rows: Rows,
        k: Caret,
        words: Words<u8>,
        count: u32,
    ) -> Result<Caret, u32> {
        let (held, sticky) = k.held();
        let Words { folds, list, big } = words;
        answer(|out| {
            lent::tsivareza_word_rows(
                which.number(),
                text,
                rows.starts,
                rows.content,
                folds,
                list,
                &mut self.0,
                k.row,
                k.col,
                held,
                sticky,
                big.into(),
                count,
                out,
            )
        })
        .map(Caret::of)
    }

    /// [`vertical_rows`] of bytes.
    ///
    /// ```
    /// use tsivareza::{Ambiguous, Caret, Room, Rows, Steps, Vertical, bytes};
    /// let (text, rows) = (bytes(&[0x61, 0x0A, 0x62]), Rows { starts: &[0, 2], content: 2 });
    /// let steps = Steps { folds: &[], count: 1, tabstop: 8 };
    /// let down = Room::new(3).vertical_rows(Vertical::Down, &text, rows, Caret::at(0, 0), steps, Ambiguous::Narrow);
    /// assert_eq!(down.map(|k| k.row), Ok(1));
    /// ```
    pub fn vertical_rows(
        &mut self,
        which: Vertical,
        text: &[u8],
        rows: Rows,
        k: Caret,
        steps: Steps<u8>,
        ambiguous: Ambiguous,
    ) -> Result<Caret, u32> {
        let ((op, mode, width), (held, sticky)) = (which.numbers(ambiguous), k.held());
        let Steps { folds, count, tabstop } = steps;
        answer(|out| {
            lent::tsivareza_vertical_rows(
                op,
                text,
                rows.starts,
                rows.content,
                folds,
                &mut self.0,
                k.row,
                k.col,
                held,
                sticky,
                mode,
                width,
                count,
                tabstop,
                out,
            )
        })
        .map(Caret::of)
    }

    /// [`screen_kept_rows`] of bytes.
    ///
    /// ```
    /// use tsivareza::{Ambiguous, Caret, Kept, Room, Rows, ScreenKept, Steps, Wrap, bytes};
    /// let (text, rows) = (bytes(&[0x61, 0x0A, 0x62]), Rows { starts: &[0, 2], content: 2 });
    /// let (k, steps) = (Kept { caret: Caret::at(0, 0), offset: None }, Steps { folds: &[], count: 1, tabstop: 8 });
    /// let down = ScreenKept::Down { mode: Wrap::Char, width: 4 };
    /// assert_eq!(Room::new(3).screen_kept_rows(down, &text, rows, k, steps, Ambiguous::Narrow).map(|k| k.caret.row), Ok(1));
    /// ```
    pub fn screen_kept_rows(
        &mut self,
        which: ScreenKept,
        text: &[u8],
        rows: Rows,
        k: Kept,
        steps: Steps<u8>,
        ambiguous: Ambiguous,
    ) -> Result<Kept, u32> {
        let ((op, mode, width), [row, col, held, sticky, kept, offset]) = (which.numbers(ambiguous), k.numbers());
        let Steps { folds, count, tabstop } = steps;
        answer(|out| {
            lent::tsivareza_screen_kept_rows(
                op,
                text,
                rows.starts,
                rows.content,
                folds,
                &mut self.0,
                row,
                col,
                held,
                sticky,
                kept,
                offset,
                mode,
                width,
                count,
                tabstop,
                out,
            )
        })
        .map(Kept::of)
    }

    /// [`viewport_rows`] of bytes.
    ///
    /// ```
    /// use tsivareza::{Caret, Room, Rows, ViewportMove, bytes};
    /// let (text, rows) = (bytes(&[0x61, 0x0A, 0x62]), Rows { starts: &[0, 2], content: 2 });
    /// let bottom = ViewportMove::Bottom { top: 0, height: 2, offset: 0 };
    /// assert_eq!(Room::new(3).viewport_rows(bottom, &text, rows, Caret::at(0, 0)), Ok(Caret::at(1, 0)));
    /// ```
    pub fn viewport_rows(&mut self, which: ViewportMove, text: &[u8], rows: Rows, k: Caret) -> Result<Caret, u32> {
        let ((op, top, height, offset), (held, sticky)) = (which.numbers(), k.held());
        answer(|out| {
            lent::tsivareza_viewport_rows(
                op,
                text,
                rows.starts,
                rows.content,
                &mut self.0,
                k.row,
                k.col,
                held,
                sticky,
                top,
                height,
                offset,
                out,
            )
        })
        .map(Caret::of)
    }

    /// [`seek_rows`] of bytes.
    ///
    /// ```
    /// use tsivareza::{Caret, Room, Rows, Seek, bytes};
    /// let (text, rows) = (bytes(&[0x28, 0x0A, 0x29]), Rows { starts: &[0, 2], content: 2 });
    /// assert_eq!(Room::new(3).seek_rows(Seek::MatchBracket, &text, rows, Caret::at(0, 0)), Ok((true, Caret::at(1, 0))));
    /// ```
    pub fn seek_rows(&mut self, which: Seek, text: &[u8], rows: Rows, k: Caret) -> Result<(bool, Caret), u32> {
        let ((op, x), (held, sticky)) = (which.numbers(), k.held());
        answer(|out| {
            lent::tsivareza_seek_rows(op, text, rows.starts, rows.content, &mut self.0, k.row, k.col, held, sticky, x, out)
        })
        .map(told)
    }
}
