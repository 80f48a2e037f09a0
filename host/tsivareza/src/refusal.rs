//! Why a call is refused, by name.

#![forbid(unsafe_code)]
#![warn(missing_docs)]

use std::fmt;

macro_rules! refusals {
    ($($(#[$doc:meta])* $name:ident $({ $place:ident })? = $number:literal: $says:literal,)*) => {
        /// Why a call was refused: a name for each number of documents 01 and 02, and from 100 on for the boundary's. Nothing that
        /// was lent has changed then.
        ///
        /// ```
        /// use tsivareza::{Refusal, Text};
        /// let refusal = "one\r\ntwo".parse::<Text>().unwrap_err();
        /// assert_eq!(refusal, Refusal::LineBreak);
        /// assert_eq!(refusal.number(), 3);
        /// assert_eq!(refusal.to_string(), "the text holds a line break other than U+000A, as files from Windows do (refusal 3)");
        /// ```
        #[derive(Clone, Copy, Debug, PartialEq, Eq, Hash)]
        #[non_exhaustive]
        pub enum Refusal {
            $($(#[$doc])* $name $({
                /// Where it goes wrong, counted from 0.
                $place: u32,
            })?,)*
            /// A number that this version of the crate has no name for.
            Unnamed {
                /// The number.
                number: u32,
            },
        }

        impl Refusal {
            /// The refusal of a number, and of the place that is told with it; the others have none, and leave it out.
            ///
            /// ```
            /// use tsivareza::Refusal;
            /// assert_eq!(Refusal::of(4, 0), Refusal::Caret);
            /// assert_eq!(Refusal::of(13, 7), Refusal::Utf8 { at: 7 });
            /// assert_eq!(Refusal::of(99, 0), Refusal::Unnamed { number: 99 });
            /// ```
            pub fn of(number: u32, place: u32) -> Refusal {
                match number {
                    $($number => Refusal::$name $({ $place: place })?,)*
                    _ => Refusal::Unnamed { number },
                }
            }

            /// Its number, as the calls below give it.
            ///
            /// ```
            /// assert_eq!(tsivareza::Refusal::FoldFileSum.number(), 19);
            /// ```
            pub fn number(self) -> u32 {
                match self {
                    $(Refusal::$name { .. } => $number,)*
                    Refusal::Unnamed { number } => number,
                }
            }

            fn says(self) -> &'static str {
                match self {
                    $(Refusal::$name { .. } => $says,)*
                    Refusal::Unnamed { .. } => "the call was refused",
                }
            }
        }

        #[cfg(test)]
        const NUMBERS: &[u32] = &[$($number),*];
    };
}

refusals! {
    /// 1: a text or row of more than 1,048,576 code points, or a text that is said to be longer than its buffer.
    TooLong = 1: "the text has more than 1,048,576 code points",
    /// 2: a value that is no scalar value, in a text or row or as the character sought.
    NoScalar = 2: "a value is no Unicode scalar value: it is a surrogate or above U+10FFFF",
    /// 3: a text with U+000B, U+000C, U+000D, U+0085, U+2028 or U+2029.
    LineBreak = 3: "the text holds a line break other than U+000A, as files from Windows do",
    /// 4: a caret or position that the text does not have.
    Caret = 4: "the text has no such row, or the row no such column",
    /// 5: folds that don't fit the text.
    Folds = 5: "the folds don't fit the text: over 256 of them, one that starts behind its end, or one that ends below the last row",
    /// 6: a tabstop above 1,000.
    Tabstop = 6: "the tabstop is above 1,000",
    /// 7: a keyword list that is too long, or holds a value that is no scalar value.
    List = 7: "the keyword list has more than 1,024 code points, or a value that is no scalar value",
    /// 8: a keyword list of more than 128 kept tokens.
    Tokens = 8: "the keyword list has more than 128 tokens",
    /// 9: too little room for the segments of a row.
    SegmentRoom = 9: "there is too little room for the segments of the row",
    /// 10: a slice of segments of odd length.
    OddSegments = 10: "the segments are of odd length: each is a start and an end",
    /// 11: an edit at a position that the text does not have, or from a position up to an earlier one.
    Position = 11: "the edit is at a position that the text does not have, or its end stands before its start",
    /// 12: an insert that the buffer has no room for, or after which the text would have more than 1,048,576 code points.
    Full = 12: "the text would outgrow its buffer, or 1,048,576 code points",
    /// 13: bytes that are no UTF-8: where the first byte stands that RFC 3629 can't have there, the length where they are cut off.
    Utf8 { at } = 13: "the bytes are no UTF-8",
    /// 14: too little room for the answer.
    Room = 14: "there is too little room for the answer",
    /// 15: a table with fewer places than the text has rows.
    TableRoom = 15: "the table of row starts is too short for the rows",
    /// 16: a table of row starts, or a number of content rows, that isn't the text's.
    Table = 16: "the table of row starts is not the text's",
    /// 17: a list that Vim's grammar does not have: the length of the longest beginning that some list of it has.
    VimList { at } = 17: "this is no list of Vim's grammar",
    /// 18: a fold file whose length isn't 1 to 5 blocks of 512 bytes.
    FoldFileLength = 18: "the fold file's length is not 1 to 5 blocks of 512 bytes",
    /// 19: a fold file with a sum that doesn't fit.
    FoldFileSum = 19: "a check sum of the fold file doesn't fit: a byte of it has changed",
    /// 20: a fold file that breaks another rule of the layout.
    FoldFileLayout = 20: "the fold file breaks a rule of its layout",
    /// 21: a list with a plus sign that is retired: where the first stands.
    Plus { at } = 21: "the keyword list has a plus sign before a number, which is retired",
    /// 22: a jump of an unknown kind, or an odd list of jumps.
    Jumps = 22: "a jump is of an unknown kind, or the list of jumps is of odd length",
    /// 100: no such operation, mode or kind of bracket.
    Operation = 100: "there is no such operation, mode or kind of bracket",
    /// 101: bytes that make no whole code points.
    Bytes = 101: "the bytes make no whole code points of four bytes",
    /// 102: too little room for the code points of the bytes.
    ByteRoom = 102: "there is too little room for the code points of the bytes",
    /// 103: an answer or a length that no u32 holds.
    TooLarge = 103: "an answer or a length is above 4,294,967,295",
}

impl Refusal {
    /// Where it goes wrong, counted from 0, of those that have a place: the byte of bad UTF-8, the code point of a list.
    ///
    /// ```
    /// use tsivareza::{KeywordList, Refusal, Text};
    /// assert_eq!(Text::from_utf8(b"caf\xE9.").unwrap_err().place(), Some(4));
    /// assert_eq!(KeywordList::entered("5,+48").unwrap_err().place(), Some(2));
    /// assert_eq!(Refusal::Caret.place(), None);
    /// ```
    pub fn place(self) -> Option<u32> {
        match self {
            Refusal::Utf8 { at } | Refusal::VimList { at } | Refusal::Plus { at } => Some(at),
            _ => None,
        }
    }

    pub(crate) fn plain(number: u32) -> Refusal {
        Refusal::of(number, 0)
    }

    pub(crate) fn placed((number, place): (u32, u32)) -> Refusal {
        Refusal::of(number, place)
    }
}

impl fmt::Display for Refusal {
    fn fmt(&self, to: &mut fmt::Formatter) -> fmt::Result {
        to.write_str(self.says())?;
        match self {
            Refusal::Utf8 { at } => write!(to, ": byte {at} can't stand where it does, or is missing")?,
            Refusal::VimList { at } => write!(to, ": only its first {at} code points begin one")?,
            Refusal::Plus { at } => write!(to, ": at code point {at}")?,
            _ => {}
        }
        write!(to, " (refusal {})", self.number())
    }
}

impl std::error::Error for Refusal {}

#[cfg(test)]
mod tests {
    use super::*;

    #[test]
    fn every_number_has_a_name_and_is_told() {
        assert_eq!(NUMBERS, &(1..=22).chain(100..=103).collect::<Vec<u32>>()[..]);
        for &number in NUMBERS {
            let refusal = Refusal::of(number, 5);
            assert_eq!((refusal.number(), matches!(refusal, Refusal::Unnamed { .. })), (number, false));
            let told = refusal.to_string();
            assert!(told.ends_with(&format!(" (refusal {number})")) && told.len() > 30, "{told}");
            assert_eq!(refusal.place().is_some(), [13, 17, 21].contains(&number));
            assert_eq!(told.contains('5') && refusal.place() == Some(5), refusal.place().is_some());
        }
        let paper = include_str!("../../../docs/API.md");
        for &number in NUMBERS {
            let debug = format!("{:?}", Refusal::of(number, 5));
            let name = debug.split(' ').next().unwrap_or_default();
            assert!(paper.contains(&format!("| {number} | `{name}` |")), "docs/API.md has no row of {number}, {name}");
        }
        for number in [0, 23, 99, 104, u32::MAX] {
            assert_eq!(Refusal::of(number, 5), Refusal::Unnamed { number });
            assert_eq!(Refusal::of(number, 5).number(), number);
        }
    }
}
