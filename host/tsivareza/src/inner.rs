//! The text inside a pair of brackets.

use crate::{Room, answer, raw::lent};

/// A kind of bracket. Angles are the signs `<` and `>` wherever they stand: comparison signs and the heads of arrows pair too.
///
/// ```
/// use tsivareza::{Kind, Text};
/// let text: Text = "a < 12 {x > 3}".parse()?;
/// assert_eq!(text.inner_pair(Kind::Curly, 0, 9)?.map(|pair| pair.whole.start), Some((0, 7)));
/// assert_eq!(text.inner_pair(Kind::Angle, 0, 9)?.map(|pair| pair.whole.start), Some((0, 2)));
/// # Ok::<(), tsivareza::Refusal>(())
/// ```
#[derive(Clone, Copy, Debug, PartialEq, Eq)]
pub enum Kind {
    /// `(` and `)`.
    Round,
    /// `[` and `]`.
    Square,
    /// `{` and `}`.
    Curly,
    /// `<` and `>`.
    Angle,
}

/// From a position up to another, which it does not hold: row and column each.
///
/// ```
/// use tsivareza::{Range, Text};
/// let text: Text = "ab\ncd".parse()?;
/// assert_eq!(text.slice(Range { start: (0, 1), end: (1, 1) }).as_deref(), Some("b\nc"));
/// # Ok::<(), tsivareza::Refusal>(())
/// ```
#[derive(Clone, Copy, Debug, PartialEq, Eq)]
pub struct Range {
    /// Where it begins.
    pub start: (u32, u32),
    /// Where it is over.
    pub end: (u32, u32),
}

/// What stands between the brackets of a pair, and that with them.
///
/// ```
/// use tsivareza::{Kind, Range, Ranges, Text};
/// let text: Text = "(a)".parse()?;
/// let pair = Ranges { between: Range { start: (0, 1), end: (0, 2) }, whole: Range { start: (0, 0), end: (0, 3) } };
/// assert_eq!(text.inner_pair(Kind::Round, 0, 1)?, Some(pair));
/// # Ok::<(), tsivareza::Refusal>(())
/// ```
#[derive(Clone, Copy, Debug, PartialEq, Eq)]
pub struct Ranges {
    /// Between the brackets.
    pub between: Range,
    /// With them.
    pub whole: Range,
}

fn ranges([found, a, b, c, d, e, f, g, h]: [u32; 9]) -> Option<Ranges> {
    let range = |start, end| Range { start, end };
    (found == 1).then_some(Ranges { between: range((a, b), (c, d)), whole: range((e, f), (g, h)) })
}

/// The innermost pair of a kind that encloses a position; a position on either bracket is enclosed. The column may be the
/// row's character count; beyond it, or below the last row, the call is refused with 4.
///
/// ```
/// use tsivareza::{Kind, Range, Ranges, inner_pair};
/// let text: Vec<u32> = "f(a, (b))".chars().map(u32::from).collect();
/// let pair = inner_pair(Kind::Round, &text, 0, 2).unwrap().unwrap();
/// assert_eq!(pair.between, Range { start: (0, 2), end: (0, 8) });
/// assert_eq!(pair.whole, Range { start: (0, 1), end: (0, 9) });
/// assert_eq!(inner_pair(Kind::Round, &text, 0, 9), Ok(None));
/// assert_eq!(inner_pair(Kind::Round, &text, 0, 10), Err(4));
/// ```
pub fn inner_pair(kind: Kind, text: &[u32], row: u32, col: u32) -> Result<Option<Ranges>, u32> {
    answer(|out| lent::tsivareza_inner_pair_u32(kind as u32, text, row, col, out)).map(ranges)
}

impl Room {
    /// [`inner_pair`] of bytes.
    ///
    /// ```
    /// use tsivareza::{Kind, Room, bytes};
    /// assert!(Room::new(2).inner_pair(Kind::Round, &bytes(&[0x28, 0x29]), 0, 0).is_ok_and(|pair| pair.is_some()));
    /// ```
    pub fn inner_pair(&mut self, kind: Kind, text: &[u8], row: u32, col: u32) -> Result<Option<Ranges>, u32> {
        let room = &mut self.0;
        answer(|out| lent::tsivareza_inner_pair(kind as u32, text, room, row, col, out))
        .map(ranges)
    }
}
