//! Up, down, the screen and the viewport.

use crate::{Ambiguous, Caret, Room, Wrap, answer, raw::lent};

/// A motion by visible rows, or under wrap by segments.
///
/// ```
/// use tsivareza::{Caret, Steps, Vertical, Wrap, vertical};
/// let steps = Steps { folds: &[], count: 1, tabstop: 8 };
/// let to = |which| vertical(which, &[0x61; 4], Caret::at(0, 0), steps).map(|k| k.col);
/// assert_eq!([Vertical::Down, Vertical::ScreenDown { mode: Wrap::Char, width: 2 }].map(to), [Ok(0), Ok(2)]);
/// ```
#[derive(Clone, Copy, Debug)]
pub enum Vertical {
    /// `k`.
    Up,
    /// `j`.
    Down,
    /// With mode None or width 0 it moves as up does.
    ScreenUp { mode: Wrap, width: u16 },
    /// `gj`, likewise.
    ScreenDown { mode: Wrap, width: u16 },
}

impl Vertical {
    pub(crate) fn numbers(self, ambiguous: Ambiguous) -> (u32, u32, u16) {
        let (op, mode, width) = match self {
            Vertical::Up => (0, 0, 0),
            Vertical::Down => (1, 0, 0),
            Vertical::ScreenUp { mode, width } => (2, mode as u32, width),
            Vertical::ScreenDown { mode, width } => (3, mode as u32, width),
        };
        (ambiguous.flagged(op), mode, width)
    }
}

/// What a vertical motion takes beside text and caret: folds, three numbers each (start, end, closed),
/// as numbers or as bytes, a count and a tabstop.
///
/// ```
/// use tsivareza::{Caret, Steps, Vertical, vertical};
/// // row 1 is hidden by a closed fold over the first two rows
/// let steps = Steps { folds: &[0, 1, 1], count: 1, tabstop: 8 };
/// assert_eq!(vertical(Vertical::Down, &[0x61, 0x0A, 0x62, 0x0A, 0x63], Caret::at(0, 0), steps).map(|k| k.row), Ok(2));
/// ```
#[derive(Clone, Copy, Debug)]
pub struct Steps<'a, T = u32> {
    /// Start, end and 1 where closed, of each.
    pub folds: &'a [T],
    /// How many rows or segments; 0 acts as 1.
    pub count: u32,
    /// At most 1,000.
    pub tabstop: u32,
}

/// The sticky column is set from then on.
///
/// ```
/// use tsivareza::{Caret, Steps, Vertical, vertical};
/// let (text, k) = ([0x61, 0x0A], Caret { row: 0, col: 0, sticky: None });
/// let steps = Steps { folds: &[], count: 1, tabstop: 8 };
/// assert_eq!(vertical(Vertical::Down, &text, k, steps), Ok(Caret { row: 1, col: 0, sticky: Some(0) }));
/// ```
pub fn vertical(which: Vertical, text: &[u32], k: Caret, steps: Steps) -> Result<Caret, u32> {
    vertical_as(which, text, k, steps, Ambiguous::Narrow)
}

/// The same under a setting for widths.
///
/// ```
/// use tsivareza::{Ambiguous, Caret, Steps, Vertical, vertical_as};
/// let text = [0x2192, 0x62, 0x0A, 0x61, 0x62, 0x63];
/// let down = |a| vertical_as(Vertical::Down, &text, Caret::at(0, 1), Steps { folds: &[], count: 1, tabstop: 8 }, a).map(|k| k.col);
/// assert_eq!((down(Ambiguous::Narrow), down(Ambiguous::Wide)), (Ok(1), Ok(2)));
/// ```
pub fn vertical_as(which: Vertical, text: &[u32], k: Caret, steps: Steps, ambiguous: Ambiguous) -> Result<Caret, u32> {
    let ((op, mode, width), (held, sticky)) = (which.numbers(ambiguous), k.held());
    let Steps { folds, count, tabstop } = steps;
    answer(|out| lent::tsivareza_vertical_u32(op, text, folds, k.row, k.col, held, sticky, mode, width, count, tabstop, out))
    .map(Caret::of)
}

/// A window on a text: the row at its top, how many rows it shows, how many cells of text a row has, and how long rows are broken.
///
/// ```
/// use tsivareza::{Caret, Text, Viewport, Wrap};
/// let text: Text = "a\nb\nc\nd".parse()?;
/// let window = Viewport { top: 1, height: 2, width: 40, wrap: Wrap::Word };
/// assert_eq!(Caret::at(0, 0).move_viewport_bottom(&text, &window, 0)?, Caret::at(2, 0));
/// # Ok::<(), tsivareza::Refusal>(())
/// ```
#[derive(Clone, Copy, Debug)]
pub struct Viewport {
    /// The row at its top.
    pub top: u32,
    /// How many rows it shows.
    pub height: u16,
    /// How many cells of text a row has; with 0 rows are not broken.
    pub width: u16,
    /// How long rows are broken.
    pub wrap: Wrap,
}

/// A motion to a row of a viewport; its width and mode play no part.
///
/// ```
/// use tsivareza::{Caret, ViewportMove, viewport};
/// let to = |which| viewport(which, &[0x61, 0x0A, 0x62, 0x0A, 0x63], Caret::at(0, 0)).map(|k| k.row);
/// let all = [
///     ViewportMove::Top { top: 0, offset: 0 },
///     ViewportMove::Middle { top: 0, height: 3 },
///     ViewportMove::Bottom { top: 0, height: 3, offset: 0 },
/// ];
/// assert_eq!(all.map(to), [Ok(0), Ok(1), Ok(2)]);
/// ```
#[derive(Clone, Copy, Debug)]
pub enum ViewportMove {
    /// `H`: rows below the top.
    Top { top: u32, offset: u32 },
    /// `M`.
    Middle { top: u32, height: u16 },
    /// `L`: rows above the bottom.
    Bottom { top: u32, height: u16, offset: u32 },
}

impl ViewportMove {
    pub(crate) fn numbers(self) -> (u32, u32, u16, u32) {
        match self {
            ViewportMove::Top { top, offset } => (0, top, 0, offset),
            ViewportMove::Middle { top, height } => (1, top, height, 0),
            ViewportMove::Bottom { top, height, offset } => (2, top, height, offset),
        }
    }
}

/// The sticky column is kept.
///
/// ```
/// use tsivareza::{Caret, ViewportMove, viewport};
/// let bottom = ViewportMove::Bottom { top: 0, height: 9, offset: 0 };
/// assert_eq!(viewport(bottom, &[0x61, 0x0A, 0x62], Caret::at(0, 0)), Ok(Caret::at(1, 0)));
/// ```
pub fn viewport(which: ViewportMove, text: &[u32], k: Caret) -> Result<Caret, u32> {
    let ((op, top, height, offset), (held, sticky)) = (which.numbers(), k.held());
    answer(|out| lent::tsivareza_viewport_u32(op, text, k.row, k.col, held, sticky, top, height, offset, out))
    .map(Caret::of)
}

impl Room {
    /// The room takes the code points of the text and the numbers of the folds.
    ///
    /// ```
    /// use tsivareza::{Caret, Room, Steps, Vertical, bytes};
    /// let steps = Steps { folds: &[], count: 1, tabstop: 8 };
    /// let down = Room::new(3).vertical(Vertical::Down, &bytes(&[0x61, 0x0A, 0x62]), Caret::at(0, 0), steps);
    /// assert_eq!(down.map(|k| k.row), Ok(1));
    /// ```
    pub fn vertical(&mut self, which: Vertical, text: &[u8], k: Caret, steps: Steps<u8>) -> Result<Caret, u32> {
        self.vertical_as(which, text, k, steps, Ambiguous::Narrow)
    }

    /// [`vertical_as`] of bytes.
    ///
    /// ```
    /// use tsivareza::{Ambiguous, Caret, Room, Steps, Vertical, bytes};
    /// let (text, steps) = (bytes(&[0x2192, 0x62, 0x0A, 0x61, 0x62, 0x63]), Steps { folds: &[], count: 1, tabstop: 8 });
    /// let down = Room::new(6).vertical_as(Vertical::Down, &text, Caret::at(0, 1), steps, Ambiguous::Wide);
    /// assert_eq!(down.map(|k| k.col), Ok(2));
    /// ```
    pub fn vertical_as(
        &mut self,
        which: Vertical,
        text: &[u8],
        k: Caret,
        steps: Steps<u8>,
        ambiguous: Ambiguous,
    ) -> Result<Caret, u32> {
        let ((op, mode, width), (held, sticky)) = (which.numbers(ambiguous), k.held());
        let Steps { folds, count, tabstop } = steps;
        answer(|out| {
            lent::tsivareza_vertical(
                op, text, folds, &mut self.0, k.row, k.col, held, sticky, mode, width, count, tabstop, out,
            )
        })
        .map(Caret::of)
    }

    /// [`viewport`] of bytes.
    ///
    /// ```
    /// use tsivareza::{Caret, Room, ViewportMove, bytes};
    /// let k = Caret { row: 0, col: 0, sticky: None };
    /// assert_eq!(Room::new(3).viewport(ViewportMove::Top { top: 1, offset: 0 }, &bytes(&[0x61, 0x0A, 0x61]), k).map(|k| k.row), Ok(1));
    /// ```
    pub fn viewport(&mut self, which: ViewportMove, text: &[u8], k: Caret) -> Result<Caret, u32> {
        let ((op, top, height, offset), (held, sticky)) = (which.numbers(), k.held());
        answer(|out| lent::tsivareza_viewport(op, text, &mut self.0, k.row, k.col, held, sticky, top, height, offset, out))
        .map(Caret::of)
    }
}
