//! A stand-in for the rope that the given text walks: one string, and where its rows start.
//! Rows are separated by U+000A alone (document 01).

use std::borrow::Cow;
use std::ops::Range;
use std::sync::Arc;

#[derive(Clone)]
pub struct Rope {
    text: Arc<str>,
    starts: Arc<[usize]>,
}

pub struct RopeSlice<'a>(&'a str);

impl Rope {
    pub fn from_text(text: &str) -> Rope {
        let starts = std::iter::once(0).chain(text.match_indices('\n').map(|(at, _)| at + 1)).collect();
        Rope { text: text.into(), starts }
    }

    pub fn len_lines(&self) -> usize {
        self.starts.len()
    }

    pub fn len_bytes(&self) -> usize {
        self.text.len()
    }

    pub fn line_to_byte(&self, row: usize) -> usize {
        self.starts[row]
    }

    pub fn byte_slice(&self, range: Range<usize>) -> RopeSlice<'_> {
        RopeSlice(&self.text[range])
    }

    pub fn is_char_boundary(&self, byte: usize) -> bool {
        self.text.is_char_boundary(byte)
    }
}

impl<'a> From<RopeSlice<'a>> for Cow<'a, str> {
    fn from(slice: RopeSlice<'a>) -> Cow<'a, str> {
        Cow::Borrowed(slice.0)
    }
}
