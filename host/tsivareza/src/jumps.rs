//! Jumps over one text: it is checked once, and each jump starts where the one before ended.

use crate::{Kept, Room, answer, raw::lent};

/// A jump with its count; `%` takes none.
///
/// ```
/// use tsivareza::{Caret, Folds, Jump, KeywordList, Text};
/// let text: Text = "if (n)".parse()?;
/// let (places, _) = Caret::at(0, 0).jumps(&text, &Folds::new(), &KeywordList::default(), &[Jump::WordEnd(2), Jump::MatchBracket])?;
/// assert_eq!(places, [(0, 3), (0, 5)]);
/// # Ok::<(), tsivareza::Refusal>(())
/// ```
#[derive(Clone, Copy, Debug, PartialEq, Eq)]
pub enum Jump {
    WordFwd(u32),
    WordBack(u32),
    WordEnd(u32),
    MatchBracket,
}

impl Jump {
    /// The two numbers of a jump: its kind, then its count.
    ///
    /// ```
    /// use tsivareza::Jump;
    /// assert_eq!([Jump::WordBack(7), Jump::MatchBracket].map(Jump::pair), [[1, 7], [3, 1]]);
    /// ```
    pub fn pair(self) -> [u32; 2] {
        match self {
            Jump::WordFwd(count) => [0, count],
            Jump::WordBack(count) => [1, count],
            Jump::WordEnd(count) => [2, count],
            Jump::MatchBracket => [3, 1],
        }
    }
}

/// What jumps take beside text and caret: the text's row starts and its number of rows with content, as
/// [`row_starts`](crate::row_starts) makes them, then folds and a keyword list, as code points or bytes.
///
/// ```
/// use tsivareza::{Caret, Ground, Kept, jumps};
/// let ground = Ground { starts: &[0], content: 1, folds: &[], list: &[0x40] };
/// let (k, mut answers) = (Kept { caret: Caret::at(0, 0), offset: None }, [9; 2]);
/// assert_eq!(jumps(&[0x61, 0x20, 0x62], k, ground, &[0, 1], &mut answers).map(|k| k.caret), Ok(Caret::at(0, 2)));
/// assert_eq!(answers, [0, 2]);
/// ```
#[derive(Clone, Copy, Debug)]
pub struct Ground<'a, T = u32> {
    pub starts: &'a [u32],
    pub content: u32,
    pub folds: &'a [T],
    pub list: &'a [T],
}

/// Makes the jumps of `pairs`, a kind and a count each, puts row and column after each into `answers`, and answers the caret at
/// the end. Refused are what a word motion refuses, then the table (15, 16), then with 22 a kind above 3 or an odd length, then
/// with 14 fewer places than `pairs` has; then the answers stay.
///
/// ```
/// use tsivareza::{Caret, Ground, Jump, Kept, jumps, row_starts};
/// let points = |text: &str| text.chars().map(u32::from).collect::<Vec<_>>();
/// let (text, list) = (points("if (n) {\n  y\n}"), points("@,48-57,_"));
/// let mut starts = [0; 3];
/// let content = row_starts(&text, &mut starts).unwrap();
/// let ground = Ground { starts: &starts, content, folds: &[], list: &list };
/// let at = |row, col| Kept { caret: Caret { row, col, sticky: Some(3) }, offset: None };
/// let pairs = [Jump::WordFwd(1), Jump::MatchBracket, Jump::WordBack(2)].map(Jump::pair).concat();
/// let mut answers = [9; 7];
/// assert_eq!(jumps(&text, at(0, 0), ground, &pairs, &mut answers), Ok(at(0, 3)));
/// assert_eq!(answers, [0, 3, 0, 5, 0, 3, 9]);
/// assert_eq!(jumps(&text, at(0, 0), ground, &[4, 1], &mut answers), Err(22));
/// assert_eq!(jumps(&text, at(0, 0), ground, &pairs, &mut answers[..5]), Err(14));
/// ```
pub fn jumps(text: &[u32], k: Kept, ground: Ground, pairs: &[u32], answers: &mut [u32]) -> Result<Kept, u32> {
    let [row, col, held, sticky, kept, offset] = k.numbers();
    let Ground { starts, content, folds, list } = ground;
    answer(|out| {
        lent::tsivareza_jumps_u32(text, starts, content, folds, list, row, col, held, sticky, kept, offset, pairs, answers, out)
    })
    .map(Kept::of)
}

impl Room {
    /// The room takes the code points of the text, the folds and the list.
    ///
    /// ```
    /// use tsivareza::{Caret, Ground, Kept, Room, bytes};
    /// let (text, list) = (bytes(&[0x61, 0x20, 0x62]), bytes(&[0x40]));
    /// let ground = Ground { starts: &[0], content: 1, folds: &[], list: &list };
    /// let (k, mut answers) = (Kept { caret: Caret::at(0, 0), offset: None }, [9; 2]);
    /// assert!(Room::new(4).jumps(&text, k, ground, &[0, 1], &mut answers).is_ok());
    /// assert_eq!(answers, [0, 2]);
    /// ```
    pub fn jumps(&mut self, text: &[u8], k: Kept, ground: Ground<u8>, pairs: &[u32], answers: &mut [u32]) -> Result<Kept, u32> {
        let [row, col, held, sticky, kept, offset] = k.numbers();
        let Ground { starts, content, folds, list } = ground;
        answer(|out| {
            lent::tsivareza_jumps(
                text,
                folds,
                list,
                &mut self.0,
                starts,
                content,
                row,
                col,
                held,
                sticky,
                kept,
                offset,
                pairs,
                answers,
                out,
            )
        })
        .map(Kept::of)
    }
}
