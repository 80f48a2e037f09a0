//! Edits of a text in a buffer, with its folds in another and a caret.

use crate::{Room, raw::lent};

/// A text and its folds at the start of two buffers, a caret and the sizes: how many code points and how many folds the
/// buffers hold. The caret is row, column, 1 and the sticky column where it has one, and 1 and the offset within a segment
/// where it keeps one; an edit clears the last four.
///
/// ```
/// use tsivareza::Page;
/// // `ab` in a buffer of four places, no folds, and the caret behind it
/// let mut page = Page { text: vec![97, 98, 0, 0], folds: vec![], caret: [0, 2, 0, 0, 0, 0], sizes: [2, 0] };
/// assert_eq!(page.insert(&[99], (0, 2)), Ok(()));
/// assert_eq!((&page.text[..], page.caret[1], page.sizes), (&[97, 98, 99, 0][..], 3, [3, 0]));
/// ```
#[derive(Clone, Debug, PartialEq, Eq)]
pub struct Page {
    /// The buffer of the text.
    pub text: Vec<u32>,
    /// The buffer of the folds.
    pub folds: Vec<u32>,
    /// Row, column, and the sticky column and the offset behind a 1 each.
    pub caret: [u32; 6],
    /// How many code points and folds there are.
    pub sizes: [u32; 2],
}

fn told(number: u32) -> Result<(), u32> {
    if number == 0 { Ok(()) } else { Err(number) }
}

impl Page {
    /// Puts code points at a position. A caret there goes behind them; folds of later rows move down with them.
    ///
    /// ```
    /// use tsivareza::Page;
    /// let mut page = Page { text: vec![97, 10, 98, 0, 0], folds: vec![0, 1, 1], caret: [0, 1, 0, 0, 0, 0], sizes: [3, 1] };
    /// assert_eq!(page.insert(&[120, 10], (0, 1)), Ok(()));
    /// assert_eq!((&page.text[..], page.caret), (&[97, 120, 10, 10, 98][..], [1, 0, 0, 0, 0, 0]));
    /// assert_eq!((&page.folds[..], page.sizes), (&[0, 2, 1][..], [5, 1]));
    /// assert_eq!(page.insert(&[121], (0, 0)), Err(12));
    /// ```
    pub fn insert(&mut self, points: &[u32], (row, col): (u32, u32)) -> Result<(), u32> {
        let (text, folds) = (&mut self.text, &mut self.folds);
        told(lent::tsivareza_insert_u32(text, folds, points, row, col, &mut self.caret, &mut self.sizes))
    }

    /// Takes away what stands from a position up to another. A fold whose differing ends become one row is dropped.
    ///
    /// ```
    /// use tsivareza::Page;
    /// let mut page = Page { text: vec![97, 10, 98], folds: vec![0, 1, 1], caret: [1, 1, 1, 7, 0, 0], sizes: [3, 1] };
    /// assert_eq!(page.delete((0, 1), (1, 0)), Ok(()));
    /// assert_eq!((&page.text[..], page.caret), (&[97, 98, 0][..], [0, 2, 0, 0, 0, 0]));
    /// assert_eq!((&page.folds[..], page.sizes), (&[0, 0, 0][..], [2, 0]));
    /// assert_eq!(page.delete((0, 1), (0, 0)), Err(11));
    /// ```
    pub fn delete(&mut self, (row, col): (u32, u32), (end_row, end_col): (u32, u32)) -> Result<(), u32> {
        let (text, folds) = (&mut self.text, &mut self.folds);
        told(lent::tsivareza_delete(text, folds, row, col, end_row, end_col, &mut self.caret, &mut self.sizes))
    }
}

impl Room {
    /// `Page::insert` of bytes, four to a code point.
    ///
    /// ```
    /// use tsivareza::{Page, Room, bytes};
    /// let mut page = Page { text: vec![97, 0], folds: vec![], caret: [0; 6], sizes: [1, 0] };
    /// assert_eq!(Room::new(1).insert(&mut page, &bytes(&[98]), (0, 1)), Ok(()));
    /// assert_eq!((page.text, page.sizes), (vec![97, 98], [2, 0]));
    /// ```
    pub fn insert(&mut self, page: &mut Page, points: &[u8], (row, col): (u32, u32)) -> Result<(), u32> {
        let (text, folds, room) = (&mut page.text, &mut page.folds, &mut self.0);
        told(lent::tsivareza_insert(text, folds, points, room, row, col, &mut page.caret, &mut page.sizes))
    }
}
