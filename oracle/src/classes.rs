//! The classes of a text's places, which the given Rust does not have: from the words of document 02, #113, place by place, each
//! by itself. Where the motions by them lead to is told by the given Rust.

use crate::refusals::{Inputs, refusal};
use crate::{Caret, string};
use hjkl_buffer::KeywordSpec;

/// What a place is to the word motions, by its number.
const WORD: u8 = 0;
const MARK: u8 = 1;
const SPACE: u8 = 2;
const EMPTY_ROW: u8 = 3;
const ROW_END: u8 = 4;

/// One class for each code point and one for the text's end, of a text and a list that are accepted.
pub fn classes(text: &[u32], list: &[u32]) -> Vec<u8> {
    let spec = KeywordSpec::parse(&string(list));
    let separates = |at: usize| text[at] == 10;
    let class = |at: usize| {
        if at == text.len() || separates(at) {
            return if at == 0 || separates(at - 1) { EMPTY_ROW } else { ROW_END };
        }
        match char::from_u32(text[at]).expect("a scalar value") {
            c if c.is_whitespace() => SPACE,
            c if spec.matches(c) => WORD,
            _ => MARK,
        }
    };
    (0..=text.len()).map(class).collect()
}

/// A slice of so many places that hold `filler`, with the classes in front; 14 where there are too few.
fn held(text: &[u32], list: &[u32], places: usize, filler: u8) -> Result<Vec<u8>, u32> {
    if places < text.len() + 1 {
        return Err(14);
    }
    let mut slice = classes(text, list);
    slice.resize(places, filler);
    Ok(slice)
}

/// The classes as a call of their own: how many, and the slice afterwards.
pub fn word_classes(text: &[u32], list: &[u32], places: usize, filler: u8) -> Result<(u32, Vec<u8>), u32> {
    match refusal(&Inputs { text: Some(text), list: Some(list), parsed: true, ..Inputs::default() }) {
        0 => held(text, list, places, filler).map(|slice| (text.len() as u32 + 1, slice)),
        number => Err(number),
    }
}

/// A word motion by the classes: the first engine's answer, and the slice afterwards; 14 after its refusals.
pub fn word_by_class(first: Result<Caret, u32>, text: &[u32], list: &[u32], places: usize, filler: u8) -> Result<(Caret, Vec<u8>), u32> {
    let caret = first?;
    held(text, list, places, filler).map(|slice| (caret, slice))
}
