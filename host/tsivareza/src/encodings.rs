//! UTF-8: code points from bytes and back, over lent slices.

use crate::{Room, number, placed, raw::lent};

/// Puts the code points of `bytes` at the start of `points`, and answers how many there are. What is
/// refused is told with its number and its place: 13 and where the first byte stands that RFC 3629
/// can't have there, the length where the bytes are cut off; then 14, too little room, with 0. More
/// than 4,294,967,295 bytes are refused with 103 before anything is looked at.
///
/// ```
/// let mut points = [0; 4];
/// assert_eq!(tsivareza::utf8_decode("é→".as_bytes(), &mut points), Ok(2));
/// assert_eq!(points, [0xE9, 0x2192, 0, 0]);
/// assert_eq!(tsivareza::utf8_decode(&[0x61, 0xE2, 0x28, 0xA1], &mut points), Err((13, 2)));
/// assert_eq!(tsivareza::utf8_decode(b"abcde", &mut points), Err((14, 0)));
/// ```
pub fn utf8_decode(bytes: &[u8], points: &mut [u32]) -> Result<u32, (u32, u32)> {
    placed(|out| lent::tsivareza_utf8_decode(bytes, points, out))
}

/// Puts the encoding of `points` at the start of `bytes`, and answers how many bytes it has; 1, 2 and
/// then 14, too little room.
///
/// ```
/// let mut bytes = [0; 5];
/// assert_eq!(tsivareza::utf8_encode(&[0xE9, 0x2192], &mut bytes), Ok(5));
/// assert_eq!(&bytes, "é→".as_bytes());
/// assert_eq!(tsivareza::utf8_encode(&[0xD800], &mut bytes), Err(2));
/// ```
pub fn utf8_encode(points: &[u32], bytes: &mut [u8]) -> Result<u32, u32> {
    number(|out| lent::tsivareza_utf8_encode_u32(points, bytes, out))
}

impl Room {
    /// [`utf8_encode`] of bytes, four to a code point.
    ///
    /// ```
    /// let mut written = [0; 2];
    /// assert_eq!(tsivareza::Room::new(1).utf8_encode(&tsivareza::bytes(&[0xE9]), &mut written), Ok(2));
    /// ```
    pub fn utf8_encode(&mut self, points: &[u8], bytes: &mut [u8]) -> Result<u32, u32> {
        let room = &mut self.0;
        number(|out| lent::tsivareza_utf8_encode(points, room, bytes, out))
    }
}
