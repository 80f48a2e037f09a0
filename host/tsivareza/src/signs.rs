//! Keyword lists where plus signs are retired: the entry that refuses them, and the converter that writes a list without.

use crate::{Room, number, placed, raw::lent};

/// A question to the entry of a keyword list.
///
/// ```
/// use tsivareza::{Enter, enter};
/// assert_eq!([Enter::Count, Enter::Matches(0x61)].map(|asked| enter(asked, &[0x40])), [Ok(1), Ok(1)]);
/// ```
#[derive(Clone, Copy)]
pub enum Enter {
    /// How many tokens are kept in the list's table.
    Count,
    /// Whether the list's table holds a character: 1 if so.
    Matches(u32),
}

impl Enter {
    fn numbers(self) -> (u32, u32) {
        match self {
            Enter::Count => (0, 0),
            Enter::Matches(x) => (1, x),
        }
    }
}

/// A list entered, read as [`keywords`](crate::keywords) reads it. What is refused is told with its
/// number and its place: 7, then 21 with the place of the first retired sign, then 8; the place is 0
/// but for 21. A character that is no scalar value is 2, before these.
///
/// ```
/// let list = |text: &str| text.chars().map(u32::from).collect::<Vec<_>>();
/// let enter = |text: &str| tsivareza::enter(tsivareza::Enter::Count, &list(text));
/// assert_eq!(enter("5,+48"), Err((21, 2)));
/// assert_eq!(enter("5,48"), Ok(2));
/// assert_eq!(enter("5,++4,+"), Ok(2));
/// ```
pub fn enter(asked: Enter, list: &[u32]) -> Result<u32, (u32, u32)> {
    let (op, x) = asked.numbers();
    placed(|out| lent::tsivareza_enter_u32(op, list, x, out))
}

/// Writes the list without its retired signs to the start of `written`, all else as it stood, and
/// answers how many code points those are; 7, then 14 where `written` is too short.
///
/// ```
/// let list: Vec<u32> = "+48-+57, ++4".chars().map(u32::from).collect();
/// let mut written = [0; 10];
/// assert_eq!(tsivareza::without_plus(&list, &mut written), Ok(10));
/// assert!(written.into_iter().eq("48-57, ++4".chars().map(u32::from)));
/// assert_eq!(tsivareza::without_plus(&list, &mut written[..9]), Err(14));
/// ```
pub fn without_plus(list: &[u32], written: &mut [u32]) -> Result<u32, u32> {
    number(|out| lent::tsivareza_without_plus_u32(list, written, out))
}

impl Room {
    /// [`enter`] of bytes.
    ///
    /// ```
    /// use tsivareza::{Enter, Room, bytes};
    /// assert_eq!(Room::new(2).enter(Enter::Count, &bytes(&[0x2B, 0x34])), Err((21, 0)));
    /// ```
    pub fn enter(&mut self, asked: Enter, list: &[u8]) -> Result<u32, (u32, u32)> {
        let ((op, x), room) = (asked.numbers(), &mut self.0);
        placed(|out| lent::tsivareza_enter(op, list, room, x, out))
    }

    /// [`without_plus`] of bytes.
    ///
    /// ```
    /// let mut written = [0; 2];
    /// assert_eq!(tsivareza::Room::new(2).without_plus(&tsivareza::bytes(&[0x2B, 0x34]), &mut written), Ok(1));
    /// ```
    pub fn without_plus(&mut self, list: &[u8], written: &mut [u32]) -> Result<u32, u32> {
        let room = &mut self.0;
        number(|out| lent::tsivareza_without_plus(list, room, written, out))
    }
}
