//! Vim's own keyword lists: read, tested and written, and the word motions by them.

use crate::{Caret, Room, Word, Words, placed, placed_answer, raw::lent};

/// A question to a Vim list.
///
/// ```
/// use tsivareza::{Vim, vim_list};
/// assert_eq!([Vim::Count, Vim::Matches(0x61)].map(|asked| vim_list(asked, &[0x40])), [Ok(1), Ok(1)]);
/// ```
#[derive(Clone, Copy)]
pub enum Vim {
    /// How many tokens the list has.
    Count,
    /// Whether the list holds a character: 1 if so.
    Matches(u32),
}

impl Vim {
    fn numbers(self) -> (u32, u32) {
        match self {
            Vim::Count => (0, 0),
            Vim::Matches(x) => (1, x),
        }
    }
}

/// A list read by the grammar of Vim's documentation. What is refused is told with its number and its
/// place: 7, then 17 with the length of the longest beginning that some list of the grammar has, then
/// 8; the place is 0 but for 17. A character that is no scalar value is 2, before these.
///
/// ```
/// let list = |text: &str| text.chars().map(u32::from).collect::<Vec<_>>();
/// let vim = |text: &str| tsivareza::vim_list(tsivareza::Vim::Count, &list(text));
/// assert_eq!(vim("@,^a-z,48-57,_"), Ok(4));
/// assert_eq!(vim("a,^,b"), Err((17, 4)));
/// assert_eq!(tsivareza::vim_list(tsivareza::Vim::Matches('a' as u32), &list("@,^a-z")), Ok(0));
/// ```
pub fn vim_list(asked: Vim, list: &[u32]) -> Result<u32, (u32, u32)> {
    let (op, x) = asked.numbers();
    placed(|out| lent::tsivareza_vim_list_u32(op, list, x, out))
}

/// Reads a Vim list and writes it to the start of `written`, each end as it was spelt, numbers without
/// leading zeros, and answers how many code points those are; 7, 17, 8, then 14 where `written` is too
/// short.
///
/// ```
/// let list: Vec<u32> = "@,048-57,_,^,,^".chars().map(u32::from).collect();
/// let mut written = [0; 14];
/// assert_eq!(tsivareza::vim_write(&list, &mut written), Ok(14));
/// assert!(written.into_iter().eq("@,48-57,_,^,,^".chars().map(u32::from)));
/// assert_eq!(tsivareza::vim_write(&list, &mut written[..13]), Err((14, 0)));
/// ```
pub fn vim_write(list: &[u32], written: &mut [u32]) -> Result<u32, (u32, u32)> {
    placed(|out| lent::tsivareza_vim_write_u32(list, written, out))
}

/// The caret after a word motion by a Vim list: 1 to 5, then what [`vim_list`] refuses, 17 with its place.
///
/// ```
/// use tsivareza::{Caret, Word, Words, word_vim};
/// let points = |text: &str| text.chars().map(u32::from).collect::<Vec<_>>();
/// let (text, list) = (points("ISO-8859"), points("@,48-57,^a-z"));
/// let to = |list: &[u32]| word_vim(Word::Fwd, &text, Caret::at(0, 0), Words { folds: &[], list, big: false }, 1);
/// assert_eq!(to(&list), Ok(Caret::at(0, 3)));
/// assert_eq!(to(&points("@,-")), Ok(Caret::at(0, 4)));
/// assert_eq!(to(&points("a,")), Err((17, 2)));
/// ```
pub fn word_vim(which: Word, text: &[u32], k: Caret, words: Words, count: u32) -> Result<Caret, (u32, u32)> {
    let (held, sticky) = k.held();
    let Words { folds, list, big } = words;
    placed_answer(|out| {
        lent::tsivareza_word_vim_u32(which.number(), text, folds, list, k.row, k.col, held, sticky, big.into(), count, out)
    })
    .map(Caret::of)
}

impl Room {
    /// [`word_vim`] of bytes: the room takes the code points of the text, the folds and the list.
    ///
    /// ```
    /// use tsivareza::{Caret, Room, Word, Words, bytes};
    /// let (text, list) = (bytes(&[0x61, 0x62, 0x20]), bytes(&[0x61]));
    /// let words = Words { folds: &[], list: &list, big: false };
    /// assert_eq!(Room::new(4).word_vim(Word::Fwd, &text, Caret::at(0, 0), words, 1), Ok(Caret::at(0, 1)));
    /// ```
    pub fn word_vim(&mut self, which: Word, text: &[u8], k: Caret, words: Words<u8>, count: u32) -> Result<Caret, (u32, u32)> {
        let ((held, sticky), room) = (k.held(), &mut self.0);
        let Words { folds, list, big } = words;
        placed_answer(|out| {
            lent::tsivareza_word_vim(
                which.number(), text, folds, list, room, k.row, k.col, held, sticky, big.into(), count, out,
            )
        })
        .map(Caret::of)
    }

    /// [`vim_list`] of bytes.
    ///
    /// ```
    /// use tsivareza::{Room, Vim, bytes};
    /// assert_eq!(Room::new(2).vim_list(Vim::Count, &bytes(&[0x61, 0x2C])), Err((17, 2)));
    /// ```
    pub fn vim_list(&mut self, asked: Vim, list: &[u8]) -> Result<u32, (u32, u32)> {
        let ((op, x), room) = (asked.numbers(), &mut self.0);
        placed(|out| lent::tsivareza_vim_list(op, list, room, x, out))
    }

    /// [`vim_write`] of bytes.
    ///
    /// ```
    /// use tsivareza::{Room, bytes};
    /// let mut written = [9; 3];
    /// assert_eq!(Room::new(3).vim_write(&bytes(&[0x30, 0x30, 0x37]), &mut written), Ok(1));
    /// assert_eq!(written, [0x37, 9, 9]);
    /// ```
    pub fn vim_write(&mut self, list: &[u8], written: &mut [u32]) -> Result<u32, (u32, u32)> {
        let room = &mut self.0;
        placed(|out| lent::tsivareza_vim_write(list, room, written, out))
    }
}
