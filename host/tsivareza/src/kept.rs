//! The screen moves that remember their offset within a segment.

use crate::{Ambiguous, Caret, Room, Steps, Wrap, answer, raw::lent};

/// A caret with the offset within a segment that it keeps, where it keeps one. What every other motion answers keeps none.
///
/// ```
/// use tsivareza::{Caret, Cells, Folds, Kept, Text, Viewport, Wrap};
/// let text: Text = "aa aa".parse()?;
/// let window = Viewport { top: 0, height: 9, width: 2, wrap: Wrap::Word };
/// let k = Kept { caret: Caret::at(0, 1), offset: None }.move_screen_down(&text, &Folds::new(), &window, 1, Cells::default())?;
/// assert_eq!((k.caret.position(), k.offset), ((0, 2), Some(1)));
/// # Ok::<(), tsivareza::Refusal>(())
/// ```
#[derive(Clone, Copy, Debug, PartialEq, Eq)]
pub struct Kept {
    /// The caret.
    pub caret: Caret,
    /// The offset within a segment.
    pub offset: Option<u32>,
}

/// Up or down by segments. With mode None or width 0 the move is that of up and down, and keeps no offset.
///
/// ```
/// use tsivareza::{Caret, Kept, ScreenKept, Steps, Wrap, screen_kept};
/// let k = Kept { caret: Caret::at(0, 3), offset: None };
/// let up = ScreenKept::Up { mode: Wrap::Char, width: 2 };
/// let after = screen_kept(up, &[0x61; 4], k, Steps { folds: &[], count: 1, tabstop: 8 });
/// assert_eq!(after.map(|k| (k.caret.col, k.offset)), Ok((1, Some(1))));
/// ```
#[derive(Clone, Copy, Debug)]
pub enum ScreenKept {
    /// `gk`.
    Up { mode: Wrap, width: u16 },
    /// `gj`.
    Down { mode: Wrap, width: u16 },
}

impl ScreenKept {
    pub(crate) fn numbers(self, ambiguous: Ambiguous) -> (u32, u32, u16) {
        let (op, mode, width) = match self {
            ScreenKept::Up { mode, width } => (0, mode as u32, width),
            ScreenKept::Down { mode, width } => (1, mode as u32, width),
        };
        (ambiguous.flagged(op), mode, width)
    }
}

impl Kept {
    pub(crate) fn numbers(self) -> [u32; 6] {
        let (held, sticky) = self.caret.held();
        [self.caret.row, self.caret.col, held, sticky, self.offset.is_some().into(), self.offset.unwrap_or(0)]
    }

    pub(crate) fn of([row, col, held, sticky, kept, offset]: [u32; 6]) -> Kept {
        Kept { caret: Caret::of([row, col, held, sticky]), offset: (kept == 1).then_some(offset) }
    }
}

/// Each segment at the caret's offset, which is set where there is none, and kept: past a segment of one character the column
/// comes back.
///
/// ```
/// use tsivareza::{Caret, Kept, ScreenKept, Steps, Wrap, screen_kept};
/// let text = [0x61, 0x61, 0x20, 0x61, 0x61];
/// let down = ScreenKept::Down { mode: Wrap::Word, width: 2 };
/// let steps = Steps { folds: &[], count: 1, tabstop: 8 };
/// let at = |col, offset| Kept { caret: Caret { row: 0, col, sticky: Some(1) }, offset };
/// assert_eq!(screen_kept(down, &text, at(1, None), steps), Ok(at(2, Some(1))));
/// assert_eq!(screen_kept(down, &text, at(2, Some(1)), steps), Ok(at(4, Some(1))));
/// ```
pub fn screen_kept(which: ScreenKept, text: &[u32], k: Kept, steps: Steps) -> Result<Kept, u32> {
    screen_kept_as(which, text, k, steps, Ambiguous::Narrow)
}

/// The same under a setting for widths.
///
/// ```
/// use tsivareza::{Ambiguous, Caret, Kept, ScreenKept, Steps, Wrap, screen_kept_as};
/// let (k, down) = (Kept { caret: Caret::at(0, 0), offset: None }, ScreenKept::Down { mode: Wrap::Char, width: 2 });
/// let steps = Steps { folds: &[], count: 1, tabstop: 8 };
/// let after = |ambiguous| screen_kept_as(down, &[0x2192; 4], k, steps, ambiguous).map(|k| k.caret.col);
/// assert_eq!((after(Ambiguous::Narrow), after(Ambiguous::Wide)), (Ok(2), Ok(1)));
/// ```
pub fn screen_kept_as(which: ScreenKept, text: &[u32], k: Kept, steps: Steps, ambiguous: Ambiguous) -> Result<Kept, u32> {
    let ((op, mode, width), [row, col, held, sticky, kept, offset]) = (which.numbers(ambiguous), k.numbers());
    let Steps { folds, count, tabstop } = steps;
    answer(|out| {
        lent::tsivareza_screen_kept_u32(
            op, text, folds, row, col, held, sticky, kept, offset, mode, width, count, tabstop, out,
        )
    })
    .map(Kept::of)
}

impl Room {
    /// The room takes the code points of the text and the numbers of the folds.
    ///
    /// ```
    /// use tsivareza::{Caret, Kept, Room, ScreenKept, Steps, Wrap, bytes};
    /// let (k, down) = (Kept { caret: Caret::at(0, 0), offset: None }, ScreenKept::Down { mode: Wrap::Char, width: 2 });
    /// let after = Room::new(4).screen_kept(down, &bytes(&[0x61; 4]), k, Steps { folds: &[], count: 1, tabstop: 8 });
    /// assert_eq!(after.map(|k| k.caret.col), Ok(2));
    /// ```
    pub fn screen_kept(&mut self, which: ScreenKept, text: &[u8], k: Kept, steps: Steps<u8>) -> Result<Kept, u32> {
        self.screen_kept_as(which, text, k, steps, Ambiguous::Narrow)
    }

    /// [`screen_kept_as`] of bytes.
    ///
    /// ```
    /// use tsivareza::{Ambiguous, Caret, Kept, Room, ScreenKept, Steps, Wrap, bytes};
    /// let (k, down) = (Kept { caret: Caret::at(0, 0), offset: None }, ScreenKept::Down { mode: Wrap::Char, width: 2 });
    /// let steps = Steps { folds: &[], count: 1, tabstop: 8 };
    /// let after = Room::new(4).screen_kept_as(down, &bytes(&[0x2192; 4]), k, steps, Ambiguous::Wide);
    /// assert_eq!(after.map(|k| k.caret.col), Ok(1));
    /// ```
    pub fn screen_kept_as(
        &mut self,
        which: ScreenKept,
        text: &[u8],
        k: Kept,
        steps: Steps<u8>,
        ambiguous: Ambiguous,
    ) -> Result<Kept, u32> {
        let ((op, mode, width), [row, col, held, sticky, kept, offset]) = (which.numbers(ambiguous), k.numbers());
        let Steps { folds, count, tabstop } = steps;
        answer(|out| {
            lent::tsivareza_screen_kept(
                op, text, folds, &mut self.0, row, col, held, sticky, kept, offset, mode, width, count, tabstop, out,
            )
        })
        .map(Kept::of)
    }
}
