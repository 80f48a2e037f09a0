//! `inner_pair`, which the given Rust does not have: from the words of document 02, #101, over pairs as demand 3 words
//! them. Nothing here walks as the library does.

use crate::refusals::{Inputs, refusal};

/// The four kinds: open and close.
pub const KINDS: [(u32, u32); 4] = [(0x28, 0x29), (0x5B, 0x5D), (0x7B, 0x7D), (0x3C, 0x3E)];

/// A longer text has its pairs by `pairs_by_stack`: by demand 3's words they take the cube of its length.
const SHORT: usize = 300;

/// Demand 3's words: to an open the nearest close behind it, with as many opens as closes of the kind from one to the
/// other, both ends counted.
pub fn pairs(text: &[u32], (open, close): (u32, u32)) -> Vec<(usize, usize)> {
    let count = |sign: u32, i: usize, j: usize| text[i..=j].iter().filter(|&&x| x == sign).count();
    let partner = |i: usize| (i + 1..text.len()).find(|&j| text[j] == close && count(open, i, j) == count(close, i, j));
    let opens = (0..text.len()).filter(|&i| text[i] == open);
    opens.filter_map(|i| partner(i).map(|j| (i, j))).collect()
}

/// The same pairs, in one pass.
pub fn pairs_by_stack(text: &[u32], (open, close): (u32, u32)) -> Vec<(usize, usize)> {
    let (mut open_at, mut all) = (Vec::new(), Vec::new());
    for (j, &x) in text.iter().enumerate() {
        if x == open {
            open_at.push(j);
        } else if x == close {
            all.extend(open_at.pop().map(|i| (i, j)));
        }
    }
    all
}

/// The one of these pairs around an offset that every other one is around.
fn innermost(around: &[(usize, usize)]) -> Option<(usize, usize)> {
    let &(i, j) = around.iter().min_by_key(|(i, j)| j - i)?;
    let encloses = |&(a, b): &(usize, usize)| (a, b) == (i, j) || (a < i && j < b);
    assert!(around.iter().all(encloses), "a pair around the position does not enclose the innermost one");
    Some((i, j))
}

/// Rows and columns of four positions: start and end of what is between the brackets, and of that with them.
pub fn inner_pair(text: &[u32], kind: usize, row: u32, col: u32) -> Result<Option<[u32; 8]>, u32> {
    match refusal(&Inputs { text: Some(text), caret: Some((row, col)), ..Inputs::default() }) {
        0 => {}
        number => return Err(number),
    }
    let starts: Vec<usize> = std::iter::once(0).chain((0..text.len()).filter(|&i| text[i] == 0x0A).map(|i| i + 1)).collect();
    let at = starts[row as usize] + col as usize;
    let all = if text.len() <= SHORT { pairs(text, KINDS[kind]) } else { pairs_by_stack(text, KINDS[kind]) };
    let around: Vec<_> = all.into_iter().filter(|&(i, j)| i <= at && at <= j).collect();
    let place = |offset: usize| {
        let row = starts.partition_point(|&start| start <= offset) - 1;
        [row as u32, (offset - starts[row]) as u32]
    };
    let ranges = |(i, j): (usize, usize)| [i + 1, j, i, j + 1].map(place).concat().try_into().expect("four positions");
    Ok(innermost(&around).map(ranges))
}
