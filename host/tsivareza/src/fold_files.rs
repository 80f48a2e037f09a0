//! Folds into a file and back, over lent slices.

use crate::{Room, number, raw::lent};

/// Puts the file of `folds`, three numbers each, at the start of `file`, and answers how many bytes it
/// has: 512 for each 56 folds or part of them, and for none. Refused are the text (1 to 3), the folds
/// (5) and then too little room (14); nothing is written then.
///
/// ```
/// let text = [0x61, 0x0A, 0x62];
/// let mut file = [0; 512];
/// assert_eq!(tsivareza::folds_write(&text, &[0, 1, 1], &mut file), Ok(512));
/// assert_eq!(file[..14], [0, 0, 1, 0, 0, 0, 0, 0, 1, 0, 0, 0, 1, 0]);
/// assert_eq!(tsivareza::folds_write(&text, &[0, 2, 1], &mut file), Err(5));
/// ```
pub fn folds_write(text: &[u32], folds: &[u32], file: &mut [u8]) -> Result<u32, u32> {
    number(|out| lent::tsivareza_folds_write_u32(text, folds, file, out))
}

/// Puts the folds of `file` at the start of `folds`, and answers how many there are. Refused are the
/// text (1 to 3), a length that isn't 1 to 5 blocks (18), a sum that doesn't fit (19), any other rule
/// of the layout broken (20), folds that the text refuses (5) and then too little room (14); nothing
/// is written then.
///
/// ```
/// let text = [0x61, 0x0A, 0x62];
/// let mut file = [0; 512];
/// tsivareza::folds_write(&text, &[0, 1, 1], &mut file).unwrap();
/// let mut folds = [7; 4];
/// assert_eq!(tsivareza::folds_read(&text, &file, &mut folds), Ok(1));
/// assert_eq!(folds, [0, 1, 1, 7]);
/// file[12] = 0;
/// assert_eq!(tsivareza::folds_read(&text, &file, &mut folds), Err(19));
/// ```
pub fn folds_read(text: &[u32], file: &[u8], folds: &mut [u32]) -> Result<u32, u32> {
    number(|out| lent::tsivareza_folds_read_u32(text, file, folds, out))
}

impl Room {
    /// [`folds_write`] of bytes.
    ///
    /// ```
    /// assert_eq!(tsivareza::Room::new(0).folds_write(&[], &[], &mut [0; 512]), Ok(512));
    /// ```
    pub fn folds_write(&mut self, text: &[u8], folds: &[u8], file: &mut [u8]) -> Result<u32, u32> {
        let room = &mut self.0;
        number(|out| lent::tsivareza_folds_write(text, folds, room, file, out))
    }

    /// [`folds_read`] of bytes.
    ///
    /// ```
    /// assert_eq!(tsivareza::Room::new(0).folds_read(&[], &[0; 512], &mut []), Ok(0));
    /// ```
    pub fn folds_read(&mut self, text: &[u8], file: &[u8], folds: &mut [u32]) -> Result<u32, u32> {
        let room = &mut self.0;
        number(|out| lent::tsivareza_folds_read(text, file, room, folds, out))
    }
}
