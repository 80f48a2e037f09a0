//! A text that a host owns, with the table of its row starts.

#![forbid(unsafe_code)]
#![warn(missing_docs)]

use crate::{
    Ambiguous, Caret, Cells, Columns, Folds, Kind, Page, Range, Ranges, Refusal, Rows, TabledPage, Wrap, columns_as, inner_pair,
    matching_bracket_pos, row_starts, utf8_decode, utf8_encode, wrap_segments_as,
};
use std::fmt;
use std::str::FromStr;

/// The most code points that a text may have.
const MOST: usize = 1_048_576;

/// A text: its code points, where each row starts, and how many rows have content. It is checked when it is made, and edits keep
/// it so; a motion over it is refused for its caret, folds or settings alone.
///
/// ```
/// use tsivareza::{Kind, Text};
/// let text: Text = "if (gusts > 35) {\n    Nobody drives up.\n}\n".parse()?;
/// assert_eq!((text.rows(), text.content_rows()), (4, 3));
/// let branch = text.inner_pair(Kind::Curly, 1, 7)?.expect("a branch around row 1");
/// assert_eq!(branch.whole.end, (2, 1));
/// assert_eq!(text.slice(branch.between).as_deref(), Some("\n    Nobody drives up.\n"));
/// # Ok::<(), tsivareza::Refusal>(())
/// ```
#[derive(Clone, Debug, PartialEq, Eq)]
pub struct Text {
    points: Vec<u32>,
    starts: Vec<u32>,
    content: u32,
}

fn separators(points: &[u32]) -> usize {
    points.iter().filter(|&&x| x == 0x0A).count()
}

/// The code points as a string, by the proved encoder.
fn string(points: &[u32]) -> String {
    let mut bytes = vec![0; 4 * points.len()];
    let count = utf8_encode(points, &mut bytes).unwrap_or(0);
    bytes.truncate(count as usize);
    String::from_utf8(bytes).unwrap_or_default()
}

impl Text {
    /// The text of code points: [`Refusal::TooLong`], [`Refusal::NoScalar`], [`Refusal::LineBreak`].
    ///
    /// ```
    /// use tsivareza::{Refusal, Text};
    /// assert_eq!(Text::new(vec![0x61, 0x0A, 0x62])?.to_string(), "a\nb");
    /// assert_eq!(Text::new(vec![0xD800]), Err(Refusal::NoScalar));
    /// # Ok::<(), Refusal>(())
    /// ```
    pub fn new(points: Vec<u32>) -> Result<Text, Refusal> {
        let mut starts = vec![0; separators(&points) + 1];
        let content = row_starts(&points, &mut starts).map_err(Refusal::plain)?;
        Ok(Text { points, starts, content })
    }

    /// The text of a file's bytes: also [`Refusal::Utf8`], with the place where they go wrong.
    ///
    /// ```
    /// use tsivareza::{Refusal, Text};
    /// assert_eq!(Text::from_utf8("{ é → }".as_bytes())?.points().len(), 7);
    /// assert_eq!(Text::from_utf8(b"caf\xE9."), Err(Refusal::Utf8 { at: 4 }));
    /// # Ok::<(), Refusal>(())
    /// ```
    pub fn from_utf8(bytes: &[u8]) -> Result<Text, Refusal> {
        let mut points = vec![0; bytes.len()];
        let count = utf8_decode(bytes, &mut points).map_err(Refusal::placed)?;
        points.truncate(count as usize);
        Text::new(points)
    }

    /// Its code points.
    ///
    /// ```
    /// assert_eq!("é\n".parse::<tsivareza::Text>()?.points(), [0xE9, 0x0A]);
    /// # Ok::<(), tsivareza::Refusal>(())
    /// ```
    pub fn points(&self) -> &[u32] {
        &self.points
    }

    /// Where each row starts among the code points.
    ///
    /// ```
    /// assert_eq!("ab\nc\n".parse::<tsivareza::Text>()?.row_starts(), [0, 3, 5]);
    /// # Ok::<(), tsivareza::Refusal>(())
    /// ```
    pub fn row_starts(&self) -> &[u32] {
        &self.starts
    }

    /// What the calls with a table take: the row starts, and how many rows have content.
    pub(crate) fn table(&self) -> Rows<'_> {
        Rows { starts: &self.starts, content: self.content }
    }

    /// How many rows it has: one more than separators.
    ///
    /// ```
    /// assert_eq!("ab\nc\n".parse::<tsivareza::Text>()?.rows(), 3);
    /// # Ok::<(), tsivareza::Refusal>(())
    /// ```
    pub fn rows(&self) -> u32 {
        self.starts.len() as u32
    }

    /// How many rows have content: the last row doesn't where it is empty, unless it is row 0.
    ///
    /// ```
    /// assert_eq!("ab\nc\n".parse::<tsivareza::Text>()?.content_rows(), 2);
    /// # Ok::<(), tsivareza::Refusal>(())
    /// ```
    pub fn content_rows(&self) -> u32 {
        self.content
    }

    /// The code points of a row, without its separator.
    ///
    /// ```
    /// let text: tsivareza::Text = "ab\nc".parse()?;
    /// assert_eq!(text.row(1), Some(&[0x63][..]));
    /// assert_eq!(text.row(2), None);
    /// # Ok::<(), tsivareza::Refusal>(())
    /// ```
    pub fn row(&self, row: u32) -> Option<&[u32]> {
        let row = row as usize;
        let start = *self.starts.get(row)? as usize;
        let end = self.starts.get(row + 1).map_or(self.points.len(), |&next| (next as usize).saturating_sub(1));
        self.points.get(start..end)
    }

    /// A row as a string.
    ///
    /// ```
    /// assert_eq!("ab\né".parse::<tsivareza::Text>()?.row_string(1).as_deref(), Some("é"));
    /// # Ok::<(), tsivareza::Refusal>(())
    /// ```
    pub fn row_string(&self, row: u32) -> Option<String> {
        self.row(row).map(string)
    }

    /// Where a position stands among the code points; its column may be the row's character count.
    ///
    /// ```
    /// let text: tsivareza::Text = "ab\nc".parse()?;
    /// assert_eq!(text.offset((1, 1)), Some(4));
    /// assert_eq!(text.offset((0, 3)), None);
    /// # Ok::<(), tsivareza::Refusal>(())
    /// ```
    pub fn offset(&self, (row, col): (u32, u32)) -> Option<usize> {
        let line = self.row(row)?;
        (col as usize <= line.len()).then(|| self.starts[row as usize] as usize + col as usize)
    }

    /// The position of an offset; it may be the text's length.
    ///
    /// ```
    /// let text: tsivareza::Text = "ab\nc".parse()?;
    /// assert_eq!(text.position(4), Some((1, 1)));
    /// assert_eq!(text.position(5), None);
    /// # Ok::<(), tsivareza::Refusal>(())
    /// ```
    pub fn position(&self, offset: usize) -> Option<(u32, u32)> {
        let row = self.starts.partition_point(|&start| start as usize <= offset).checked_sub(1)?;
        (offset <= self.points.len()).then(|| (row as u32, offset as u32 - self.starts[row]))
    }

    /// What stands in a range; none where the text does not have it.
    ///
    /// ```
    /// use tsivareza::{Range, Text};
    /// let text: Text = "ab\ncd".parse()?;
    /// assert_eq!(text.slice(Range { start: (0, 1), end: (1, 1) }).as_deref(), Some("b\nc"));
    /// assert_eq!(text.slice(Range { start: (1, 1), end: (0, 1) }), None);
    /// # Ok::<(), tsivareza::Refusal>(())
    /// ```
    pub fn slice(&self, range: Range) -> Option<String> {
        self.points.get(self.offset(range.start)?..self.offset(range.end)?).map(string)
    }

    /// The partner of the bracket at a position, of all four kinds; none where there is no bracket, the text has no such position or
    /// nothing balances it.
    ///
    /// ```
    /// let text: tsivareza::Text = "([)]".parse()?;
    /// assert_eq!(text.matching_bracket_pos(0, 0), Some((0, 2)));
    /// assert_eq!(text.matching_bracket_pos(7, 0), None);
    /// # Ok::<(), tsivareza::Refusal>(())
    /// ```
    pub fn matching_bracket_pos(&self, row: u32, col: u32) -> Option<(u32, u32)> {
        // the text was accepted, and nothing else is refused
        matching_bracket_pos(&self.points, row, col).unwrap_or(None)
    }

    /// The innermost pair of a kind around a position, its brackets counted, as two ranges; [`Refusal::Caret`] where the text has no
    /// such position.
    ///
    /// ```
    /// use tsivareza::{Kind, Range, Refusal, Text};
    /// let text: Text = "f(a, (b))".parse()?;
    /// let pair = text.inner_pair(Kind::Round, 0, 2)?.expect("a pair");
    /// assert_eq!(pair.between, Range { start: (0, 2), end: (0, 8) });
    /// assert_eq!(text.inner_pair(Kind::Round, 0, 9)?, None);
    /// assert_eq!(text.inner_pair(Kind::Round, 0, 10), Err(Refusal::Caret));
    /// # Ok::<(), Refusal>(())
    /// ```
    pub fn inner_pair(&self, kind: Kind, row: u32, col: u32) -> Result<Option<Ranges>, Refusal> {
        inner_pair(kind, &self.points, row, col).map_err(Refusal::plain)
    }

    /// The cell in which the character at a column starts, a tab running to the next multiple of the tabstop:
    /// [`Refusal::Caret`], [`Refusal::Tabstop`].
    ///
    /// ```
    /// use tsivareza::{Cells, Text};
    /// let text: Text = "\tx".parse()?;
    /// assert_eq!(text.visual_col(0, 1, Cells::default())?, 8);
    /// # Ok::<(), tsivareza::Refusal>(())
    /// ```
    pub fn visual_col(&self, row: u32, col: u32, cells: Cells) -> Result<u32, Refusal> {
        let line = self.row(row).ok_or(Refusal::Caret)?;
        columns_as(Columns::CharColToVisualCol(col), line, cells.tabstop, cells.ambiguous).map_err(Refusal::plain)
    }

    /// The column of the character in a cell: [`Refusal::Caret`], [`Refusal::Tabstop`].
    ///
    /// ```
    /// use tsivareza::{Cells, Text};
    /// let text: Text = "\tx".parse()?;
    /// assert_eq!((text.char_col(0, 7, Cells::default())?, text.char_col(0, 8, Cells::default())?), (0, 1));
    /// # Ok::<(), tsivareza::Refusal>(())
    /// ```
    pub fn char_col(&self, row: u32, cell: u32, cells: Cells) -> Result<u32, Refusal> {
        let line = self.row(row).ok_or(Refusal::Caret)?;
        columns_as(Columns::VisualColToCharCol(cell), line, cells.tabstop, cells.ambiguous).map_err(Refusal::plain)
    }

    /// The segments in which a row is shown under wrap: start and end of each, which tile it; [`Refusal::Caret`] where there is no
    /// such row.
    ///
    /// ```
    /// use tsivareza::{Ambiguous, Text, Wrap};
    /// let text: Text = "ab cd".parse()?;
    /// assert_eq!(text.segments(0, 4, Wrap::Word, Ambiguous::Narrow)?, [(0, 3), (3, 5)]);
    /// # Ok::<(), tsivareza::Refusal>(())
    /// ```
    pub fn segments(&self, row: u32, width: u16, wrap: Wrap, ambiguous: Ambiguous) -> Result<Vec<(u32, u32)>, Refusal> {
        let line = self.row(row).ok_or(Refusal::Caret)?;
        // a segment has a character at least, but for that of an empty row
        let mut places = vec![0; 2 * line.len().max(1)];
        let count = wrap_segments_as(line, width, wrap, &mut places, ambiguous).map_err(Refusal::plain)?;
        Ok(places.chunks_exact(2).take(count as usize).map(|segment| (segment[0], segment[1])).collect())
    }

    /// Puts a string at a position, and corrects the caret and the folds: a caret there goes behind it, rows below move down.
    /// [`Refusal::TooLong`], [`Refusal::LineBreak`], [`Refusal::Caret`], [`Refusal::Folds`], [`Refusal::Position`], and
    /// [`Refusal::Full`] where the text would have more than 1,048,576 code points. Nothing is changed then.
    ///
    /// ```
    /// use tsivareza::{Caret, Folds, Refusal, Text};
    /// let mut text: Text = "ad".parse()?;
    /// let (mut caret, mut folds) = (Caret::at(0, 1), Folds::new());
    /// text.insert((0, 1), "b\nc", &mut caret, &mut folds)?;
    /// assert_eq!((text.to_string().as_str(), caret), ("ab\ncd", Caret::at(1, 1)));
    /// assert_eq!(text.row_starts(), [0, 3]);
    /// assert_eq!(text.insert((9, 0), "b", &mut caret, &mut folds), Err(Refusal::Position));
    /// # Ok::<(), Refusal>(())
    /// ```
    pub fn insert(&mut self, at: (u32, u32), new: &str, caret: &mut Caret, folds: &mut Folds) -> Result<(), Refusal> {
        let new: Vec<u32> = new.chars().map(u32::from).collect();
        // room for the new text, and no more of either than a text may have
        let most = (self.points.len() + new.len()).min(MOST.max(self.points.len()));
        let rows = (self.starts.len() + separators(&new)).min(MOST + 1);
        self.edit(most, rows, caret, folds, |page| page.insert(&new, at))
    }

    /// Takes away what stands in a range, and corrects the caret and the folds: a caret in it goes to its start, and a fold whose
    /// differing ends become one row is dropped. [`Refusal::Caret`], [`Refusal::Folds`], and [`Refusal::Position`] where the text
    /// does not have the range. Nothing is changed then.
    ///
    /// ```
    /// use tsivareza::{Caret, Folds, Range, Text};
    /// let mut text: Text = "ab\ncd".parse()?;
    /// let (mut caret, mut folds) = (Caret::at(1, 2), Folds::new());
    /// text.delete(Range { start: (0, 1), end: (1, 1) }, &mut caret, &mut folds)?;
    /// assert_eq!((text.to_string().as_str(), caret), ("ad", Caret::at(0, 2)));
    /// # Ok::<(), tsivareza::Refusal>(())
    /// ```
    pub fn delete(&mut self, range: Range, caret: &mut Caret, folds: &mut Folds) -> Result<(), Refusal> {
        self.edit(self.points.len(), self.starts.len(), caret, folds, |page| page.delete(range.start, range.end))
    }

    /// A string in place of a range: deleted, then inserted, both or none. Refused as these are.
    ///
    /// ```
    /// use tsivareza::{Caret, Folds, Kind, Refusal, Text};
    /// let mut text: Text = "if (gusts > 35) {\n    Nobody drives up.\n}".parse()?;
    /// let (mut caret, mut folds) = (Caret::at(2, 1), Folds::new());
    /// let branch = text.inner_pair(Kind::Curly, 1, 7)?.expect("a branch").between;
    /// text.replace(branch, "\n    Wait.\n", &mut caret, &mut folds)?;
    /// assert_eq!(text.to_string(), "if (gusts > 35) {\n    Wait.\n}");
    /// assert_eq!(text.replace(branch, "\r", &mut caret, &mut folds), Err(Refusal::LineBreak));
    /// assert_eq!(text.to_string(), "if (gusts > 35) {\n    Wait.\n}");
    /// # Ok::<(), Refusal>(())
    /// ```
    pub fn replace(&mut self, range: Range, new: &str, caret: &mut Caret, folds: &mut Folds) -> Result<(), Refusal> {
        let (mut after, mut k, mut list) = (self.clone(), *caret, folds.clone());
        after.delete(range, &mut k, &mut list)?;
        after.insert(range.start, new, &mut k, &mut list)?;
        (*self, *caret, *folds) = (after, k, list);
        Ok(())
    }

    /// An edit by the call that keeps the table, in buffers of this text's that have `most` places and `rows` rows.
    fn edit(
        &mut self,
        most: usize,
        rows: usize,
        caret: &mut Caret,
        folds: &mut Folds,
        call: impl FnOnce(&mut TabledPage) -> Result<(), u32>,
    ) -> Result<(), Refusal> {
        let (mut text, mut table) = (std::mem::take(&mut self.points), std::mem::take(&mut self.starts));
        let (len, had) = (text.len() as u32, table.len());
        text.resize(most, 0);
        table.resize(rows, 0);
        let count = folds.len() as u32;
        let (held, sticky) = (caret.sticky.is_some().into(), caret.sticky.unwrap_or(0));
        let page =
            Page { text, folds: folds.take(), caret: [caret.row, caret.col, held, sticky, 0, 0], sizes: [len, count] };
        let mut host = TabledPage { page, table, content: self.content };
        let told = call(&mut host);
        let TabledPage { page, table, content } = host;
        let [len, count] = page.sizes;
        (self.points, self.starts, self.content) = (page.text, table, content);
        self.points.truncate(len as usize);
        let rows = if told.is_ok() { separators(&self.points) + 1 } else { had };
        self.starts.truncate(rows);
        let mut numbers = page.folds;
        numbers.truncate(3 * count as usize);
        folds.put(numbers);
        told.map_err(Refusal::plain)?;
        *caret = Caret::at(page.caret[0], page.caret[1]);
        Ok(())
    }
}

impl FromStr for Text {
    type Err = Refusal;

    fn from_str(text: &str) -> Result<Text, Refusal> {
        Text::from_utf8(text.as_bytes())
    }
}

impl TryFrom<&str> for Text {
    type Error = Refusal;

    fn try_from(text: &str) -> Result<Text, Refusal> {
        text.parse()
    }
}

impl fmt::Display for Text {
    fn fmt(&self, to: &mut fmt::Formatter) -> fmt::Result {
        to.write_str(&string(&self.points))
    }
}

impl From<Text> for String {
    fn from(text: Text) -> String {
        string(&text.points)
    }
}

impl Default for Text {
    /// The empty text, of one empty row.
    fn default() -> Text {
        Text { points: Vec::new(), starts: vec![0], content: 1 }
    }
}
