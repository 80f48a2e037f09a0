//! Folds as a list that a host owns.

#![forbid(unsafe_code)]
#![warn(missing_docs)]

use crate::{Refusal, Text, folds_read, folds_write};

/// A fold: its first and last row, and whether it is closed. A closed fold hides the rows behind its first.
///
/// ```
/// use tsivareza::Fold;
/// assert!(Fold { start: 1, end: 3, closed: true }.hides(2));
/// assert!(!Fold { start: 1, end: 3, closed: true }.hides(1));
/// assert!(!Fold { start: 1, end: 3, closed: false }.hides(2));
/// ```
#[derive(Clone, Copy, Debug, PartialEq, Eq, Hash)]
pub struct Fold {
    /// Its first row.
    pub start: u32,
    /// Its last row.
    pub end: u32,
    /// Whether it is closed.
    pub closed: bool,
}

impl Fold {
    /// Whether it hides a row.
    ///
    /// ```
    /// assert!(tsivareza::Fold { start: 0, end: 2, closed: true }.hides(2));
    /// ```
    pub fn hides(self, row: u32) -> bool {
        self.closed && self.start < row && row <= self.end
    }
}

/// A list of folds. Whether they fit a text is told where a call takes both: at most 256, no start behind its end, no end below the
/// last row, else [`Refusal::Folds`].
///
/// ```
/// use tsivareza::{Caret, Cells, Fold, Folds, Text};
/// let text: Text = "if (a) {\n  x\n}\nend".parse()?;
/// let folds: Folds = [Fold { start: 0, end: 2, closed: true }].into_iter().collect();
/// assert_eq!(Caret::at(0, 0).move_down(&text, &folds, 1, Cells::default())?.row, 3);
/// # Ok::<(), tsivareza::Refusal>(())
/// ```
#[derive(Clone, Debug, Default, PartialEq, Eq)]
pub struct Folds(Vec<u32>);

impl Folds {
    /// No folds.
    ///
    /// ```
    /// assert!(tsivareza::Folds::new().is_empty());
    /// ```
    pub fn new() -> Folds {
        Folds::default()
    }

    /// Puts a fold behind the others.
    ///
    /// ```
    /// use tsivareza::{Fold, Folds};
    /// let mut folds = Folds::new();
    /// folds.push(Fold { start: 0, end: 2, closed: true });
    /// assert_eq!(folds.len(), 1);
    /// ```
    pub fn push(&mut self, fold: Fold) {
        self.0.extend([fold.start, fold.end, fold.closed.into()]);
    }

    /// How many there are.
    ///
    /// ```
    /// assert_eq!(tsivareza::Folds::new().len(), 0);
    /// ```
    pub fn len(&self) -> usize {
        self.0.len() / 3
    }

    /// Whether there are none.
    ///
    /// ```
    /// assert!(tsivareza::Folds::new().is_empty());
    /// ```
    pub fn is_empty(&self) -> bool {
        self.0.is_empty()
    }

    /// Each fold, in order.
    ///
    /// ```
    /// use tsivareza::{Fold, Folds};
    /// let one = Fold { start: 0, end: 2, closed: true };
    /// assert!(Folds::from_iter([one]).iter().eq([one]));
    /// ```
    pub fn iter(&self) -> impl Iterator<Item = Fold> + '_ {
        self.0.chunks_exact(3).map(|fold| Fold { start: fold[0], end: fold[1], closed: fold[2] == 1 })
    }

    /// As the calls below take them: start, end and 1 where closed, of each.
    ///
    /// ```
    /// use tsivareza::{Fold, Folds};
    /// assert_eq!(Folds::from_iter([Fold { start: 0, end: 2, closed: true }]).numbers(), [0, 2, 1]);
    /// ```
    pub fn numbers(&self) -> &[u32] {
        &self.0
    }

    pub(crate) fn take(&mut self) -> Vec<u32> {
        std::mem::take(&mut self.0)
    }

    pub(crate) fn put(&mut self, numbers: Vec<u32>) {
        self.0 = numbers;
    }

    /// The file of the folds, in blocks of 512 bytes: [`Refusal::Folds`] where they don't fit the text.
    ///
    /// ```
    /// use tsivareza::{Fold, Folds, Text};
    /// let text: Text = "if (a) {\n  x\n}".parse()?;
    /// let folds = Folds::from_iter([Fold { start: 0, end: 2, closed: true }]);
    /// let file = folds.to_file(&text)?;
    /// assert_eq!(file.len(), 512);
    /// assert_eq!(Folds::from_file(&text, &file)?, folds);
    /// # Ok::<(), tsivareza::Refusal>(())
    /// ```
    pub fn to_file(&self, text: &Text) -> Result<Vec<u8>, Refusal> {
        let mut file = vec![0; 512 * self.len().min(256).div_ceil(56).max(1)];
        folds_write(text.points(), &self.0, &mut file).map_err(Refusal::plain)?;
        Ok(file)
    }

    /// The folds of a file: [`Refusal::FoldFileLength`], [`Refusal::FoldFileSum`], [`Refusal::FoldFileLayout`], and
    /// [`Refusal::Folds`] where they don't fit the text that is open.
    ///
    /// ```
    /// use tsivareza::{Folds, Refusal, Text};
    /// let text: Text = "a\nb".parse()?;
    /// let mut file = Folds::new().to_file(&text)?;
    /// file[100] = 1;
    /// assert_eq!(Folds::from_file(&text, &file), Err(Refusal::FoldFileSum));
    /// # Ok::<(), Refusal>(())
    /// ```
    pub fn from_file(text: &Text, file: &[u8]) -> Result<Folds, Refusal> {
        let mut numbers = vec![0; 3 * 256];
        let count = folds_read(text.points(), file, &mut numbers).map_err(Refusal::plain)?;
        numbers.truncate(3 * count as usize);
        Ok(Folds(numbers))
    }
}

impl FromIterator<Fold> for Folds {
    fn from_iter<I: IntoIterator<Item = Fold>>(folds: I) -> Folds {
        let mut list = Folds::new();
        list.extend(folds);
        list
    }
}

impl Extend<Fold> for Folds {
    fn extend<I: IntoIterator<Item = Fold>>(&mut self, folds: I) {
        folds.into_iter().for_each(|fold| self.push(fold));
    }
}
