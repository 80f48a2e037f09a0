//! Where the rows of a text start, kept in a table from edit to edit.

use crate::{Page, Room, raw::lent};

/// Puts where each row starts into the table, and answers how many rows have content.
///
/// ```
/// use tsivareza::row_starts;
/// let mut table = [9; 3];
/// assert_eq!((row_starts(&[97, 10], &mut table), table), (Ok(1), [0, 2, 9]));
/// assert_eq!(row_starts(&[97, 10], &mut table[..1]), Err(15));
/// ```
pub fn row_starts(text: &[u32], table: &mut [u32]) -> Result<u32, u32> {
    let mut out = [0];
    let number = lent::tsivareza_row_starts_u32(text, table, &mut out);
    if number == 0 { Ok(out[0]) } else { Err(number) }
}

/// A page with the table of its row starts, and how many of its rows have content.
///
/// ```
/// use tsivareza::{Page, TabledPage};
/// let page = Page { text: vec![97, 10, 98], folds: vec![], caret: [0; 6], sizes: [3, 0] };
/// let mut host = TabledPage { page, table: vec![0, 2], content: 2 };
/// assert_eq!(host.delete((0, 1), (1, 0)), Ok(()));
/// assert_eq!((host.table, host.content), (vec![0, 0], 1));
/// ```
#[derive(Clone, Debug, PartialEq, Eq)]
pub struct TabledPage {
    /// The text, folds and caret.
    pub page: Page,
    /// Where each row starts.
    pub table: Vec<u32>,
    /// How many rows have content.
    pub content: u32,
}

impl TabledPage {
    /// The sizes as an edit reads and writes them, and back.
    fn with_sizes(&mut self, edit: impl FnOnce(&mut TabledPage, &mut [u32; 3]) -> u32) -> Result<(), u32> {
        let [len, count] = self.page.sizes;
        let mut sizes = [len, count, self.content];
        let number = edit(self, &mut sizes);
        let [len, count, content] = sizes;
        (self.page.sizes, self.content) = ([len, count], content);
        if number == 0 { Ok(()) } else { Err(number) }
    }

    /// `Page::insert`, and the table is that of the new text.
    ///
    /// ```
    /// use tsivareza::{Page, TabledPage};
    /// let page = Page { text: vec![97, 10, 98, 0], folds: vec![], caret: [0; 6], sizes: [3, 0] };
    /// let mut host = TabledPage { page, table: vec![0, 2, 9, 9], content: 2 };
    /// assert_eq!(host.insert(&[10], (1, 1)), Ok(()));
    /// assert_eq!((&host.table[..], host.content), (&[0, 2, 4, 9][..], 2));
    /// host.table[1] = 1;
    /// assert_eq!(host.delete((0, 0), (0, 1)), Err(16));
    /// ```
    pub fn insert(&mut self, points: &[u32], (row, col): (u32, u32)) -> Result<(), u32> {
        self.with_sizes(|host, sizes| {
            let (text, folds, table) = (&mut host.page.text, &mut host.page.folds, &mut host.table);
            lent::tsivareza_insert_rows_u32(text, folds, table, points, row, col, &mut host.page.caret, sizes)
        })
    }

    /// `Page::delete`, and the table is that of the new text.
    ///
    /// ```
    /// use tsivareza::{Page, TabledPage};
    /// let page = Page { text: vec![97, 10], folds: vec![], caret: [0; 6], sizes: [2, 0] };
    /// let mut host = TabledPage { page, table: vec![0, 2], content: 1 };
    /// assert_eq!(host.delete((0, 0), (1, 0)), Ok(()));
    /// assert_eq!((host.page.sizes, host.content), ([0, 0], 1));
    /// ```
    pub fn delete(&mut self, (row, col): (u32, u32), (end_row, end_col): (u32, u32)) -> Result<(), u32> {
        self.with_sizes(|host, sizes| {
            let (text, folds, table) = (&mut host.page.text, &mut host.page.folds, &mut host.table);
            lent::tsivareza_delete_rows(text, folds, table, row, col, end_row, end_col, &mut host.page.caret, sizes)
        })
    }
}

impl Room {
    /// `row_starts` of bytes, four to a code point.
    ///
    /// ```
    /// use tsivareza::{Room, bytes};
    /// let mut table = [9; 2];
    /// assert_eq!(Room::new(2).row_starts(&bytes(&[97, 10]), &mut table), Ok(1));
    /// assert_eq!(table, [0, 2]);
    /// ```
    pub fn row_starts(&mut self, text: &[u8], table: &mut [u32]) -> Result<u32, u32> {
        let mut out = [0];
        let number = lent::tsivareza_row_starts(text, &mut self.0, table, &mut out);
        if number == 0 { Ok(out[0]) } else { Err(number) }
    }

    /// `TabledPage::insert` of bytes, four to a code point.
    ///
    /// ```
    /// use tsivareza::{Page, Room, TabledPage, bytes};
    /// let page = Page { text: vec![97, 0], folds: vec![], caret: [0; 6], sizes: [1, 0] };
    /// let mut host = TabledPage { page, table: vec![0, 9], content: 1 };
    /// assert_eq!(Room::new(1).insert_rows(&mut host, &bytes(&[10]), (0, 0)), Ok(()));
    /// assert_eq!((host.table, host.content), (vec![0, 1], 2));
    /// ```
    pub fn insert_rows(&mut self, host: &mut TabledPage, points: &[u8], (row, col): (u32, u32)) -> Result<(), u32> {
        let room = &mut self.0;
        host.with_sizes(|host, sizes| {
            let (text, folds, table) = (&mut host.page.text, &mut host.page.folds, &mut host.table);
            lent::tsivareza_insert_rows(text, folds, table, points, room, row, col, &mut host.page.caret, sizes)
        })
    }
}
