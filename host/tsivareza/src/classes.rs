//! The second engine of the word motions: the classes of a text's places, and the motions by them.

use crate::{Caret, Room, Word, Words, answer, number, raw::lent};

/// Writes the class of each place of the text to the start of `classes`, one for each code point and one for the text's end,
/// and answers how many: 0 word, 1 mark, 2 space, 3 empty row, 4 row end. The places past them stay. Refused are the text, the
/// list, and then, with 14, a slice that is too short; it stays as it was then.
///
/// ```
/// let points = |text: &str| text.chars().map(u32::from).collect::<Vec<_>>();
/// let mut classes = [9; 10];
/// assert_eq!(tsivareza::word_classes(&points("if (n) {"), &points("@,48-57,_"), &mut classes), Ok(9));
/// assert_eq!(classes, [0, 0, 2, 1, 0, 1, 2, 1, 4, 9]);
/// assert_eq!(tsivareza::word_classes(&points("a\n"), &points("@"), &mut classes), Ok(3));
/// assert_eq!(classes[..3], [0, 4, 3]);
/// assert_eq!(tsivareza::word_classes(&points("a\n"), &points("@"), &mut classes[..2]), Err(14));
/// ```
pub fn word_classes(text: &[u32], list: &[u32], classes: &mut [u8]) -> Result<u32, u32> {
    number(|out| lent::tsivareza_word_classes_u32(text, list, classes, out))
}

/// A word motion by the classes, which are written to the start of the slice: the answer of [`word`](crate::word), and 14 where
/// the slice is too short and nothing else is refused.
///
/// ```
/// use tsivareza::{Caret, Word, Words, word, word_by_class};
/// let points = |text: &str| text.chars().map(u32::from).collect::<Vec<_>>();
/// let (text, list) = (points("if (n) {"), points("@,48-57,_"));
/// let (k, words) = (Caret { row: 0, col: 0, sticky: None }, Words { folds: &[], list: &list, big: false });
/// let mut classes = [9; 9];
/// assert_eq!(word_by_class(Word::Fwd, &text, k, words, 2, &mut classes), Ok(Caret { row: 0, col: 4, sticky: None }));
/// assert_eq!(word_by_class(Word::Fwd, &text, k, words, 2, &mut classes), word(Word::Fwd, &text, k, words, 2));
/// assert_eq!(word_by_class(Word::Fwd, &text, k, words, 2, &mut classes[..8]), Err(14));
/// ```
pub fn word_by_class(which: Word, text: &[u32], k: Caret, words: Words, count: u32, classes: &mut [u8]) -> Result<Caret, u32> {
    let (held, sticky) = k.held();
    let Words { folds, list, big } = words;
    answer(|out| {
        lent::tsivareza_word_by_class_u32(
            which.number(), text, folds, list, k.row, k.col, held, sticky, big.into(), count, classes, out,
        )
    })
    .map(Caret::of)
}

impl Room {
    /// The room takes the code points of the text and the list.
    ///
    /// ```
    /// use tsivareza::{Room, bytes};
    /// let mut classes = [9; 3];
    /// assert_eq!(Room::new(3).word_classes(&bytes(&[0x61, 0x0A]), &bytes(&[0x40]), &mut classes), Ok(3));
    /// assert_eq!(classes, [0, 4, 3]);
    /// ```
    pub fn word_classes(&mut self, text: &[u8], list: &[u8], classes: &mut [u8]) -> Result<u32, u32> {
        number(|out| lent::tsivareza_word_classes(text, list, &mut self.0, classes, out))
    }

    /// The room takes the code points of the text, the folds and the list.
    ///
    /// ```
    /// use tsivareza::{Caret, Room, Word, Words, bytes};
    /// let (text, list) = (bytes(&[0x61, 0x20, 0x62]), bytes(&[0x40]));
    /// let (k, words) = (Caret::at(0, 0), Words { folds: &[], list: &list, big: false });
    /// assert_eq!(Room::new(4).word_by_class(Word::Fwd, &text, k, words, 1, &mut [0; 4]), Ok(Caret::at(0, 2)));
    /// ```
    pub fn word_by_class(
        &mut self,
        which: Word,
        text: &[u8],
        k: Caret,
        words: Words<u8>,
        count: u32,
        classes: &mut [u8],
    ) -> Result<Caret, u32> {
        let ((held, sticky), room) = (k.held(), &mut self.0);
        let Words { folds, list, big } = words;
        answer(|out| {
            lent::tsivareza_word_by_class(
                which.number(), text, folds, list, room, k.row, k.col, held, sticky, big.into(), count, classes, out,
            )
        })
        .map(Caret::of)
    }
}
