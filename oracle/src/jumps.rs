//! Jumps over one text, which the given Rust has no call for: from the words of document 02, #114. Each jump is one of its single
//! motions, from where the one before ended.

use crate::calls::{self, Words};
use crate::refusals::{Inputs, refusal};
use crate::{Caret, row_table};

/// What a call takes: a text with its row starts and the number of its rows with content, folds, a keyword list, a caret with the
/// offset that it keeps, and a kind and a count for each jump.
#[derive(Clone, Debug)]
pub struct Course {
    pub text: Vec<u32>,
    pub starts: Vec<u32>,
    pub content: u32,
    pub folds: Vec<u32>,
    pub list: Vec<u32>,
    pub caret: Caret,
    pub offset: Option<u32>,
    pub pairs: Vec<u32>,
}

impl Course {
    /// The number that a call with so many places for answers is refused with, or 0.
    fn refused(&self, places: usize) -> u32 {
        let inputs = Inputs {
            text: Some(&self.text),
            caret: Some((self.caret.row, self.caret.col)),
            folds: Some(&self.folds),
            list: Some(&self.list),
            parsed: true,
            ..Inputs::default()
        };
        let odd = self.pairs.len() % 2 == 1 || self.pairs.iter().step_by(2).any(|&kind| kind > 3);
        let in_turn = [
            refusal(&inputs),
            row_table::refused(&self.text, &self.starts, self.content),
            if odd { 22 } else { 0 },
            if places < self.pairs.len() { 14 } else { 0 },
        ];
        in_turn.into_iter().find(|&number| number != 0).unwrap_or(0)
    }

    /// One jump: `w`, `b`, `e` or `%`, which stays where it finds nothing.
    fn jump(&self, caret: Caret, kind: u32, count: u32) -> Result<Caret, u32> {
        let words = Words { folds: &self.folds, list: &self.list, big: false };
        match kind {
            0 => calls::move_word_fwd(&self.text, caret, words, count),
            1 => calls::move_word_back(&self.text, caret, words, count),
            2 => calls::move_word_end(&self.text, caret, words, count, false),
            _ => calls::match_bracket(&self.text, caret).map(|(_, caret)| caret),
        }
    }

    /// The caret at the end, with the offset that it keeps, and a row and a column for each jump in the places for answers.
    pub fn jumps(&self, answers: &mut [u32]) -> Result<(Caret, Option<u32>), u32> {
        match self.refused(answers.len()) {
            0 => {}
            number => return Err(number),
        }
        let mut caret = self.caret;
        for (pair, place) in self.pairs.chunks(2).zip(answers.chunks_mut(2)) {
            caret = self.jump(caret, pair[0], pair[1])?;
            place.copy_from_slice(&[caret.row, caret.col]);
        }
        Ok((caret, if self.pairs.is_empty() { self.offset } else { None }))
    }
}

#[cfg(test)]
mod tests {
    use super::*;

    fn course(text: &str, pairs: &[u32]) -> Course {
        let text = crate::points(text);
        let (starts, content) = row_table::counted(&text);
        let caret = Caret { row: 0, col: 0, sticky: Some(7) };
        Course { text, starts, content, folds: vec![], list: crate::points("@"), caret, offset: Some(3), pairs: pairs.to_vec() }
    }

    #[test]
    fn each_jump_goes_on_from_the_one_before() {
        let mut answers = [9; 5];
        let end = course("ab (c)\nd", &[0, 1, 3, 5]).jumps(&mut answers);
        assert_eq!(end, Ok((Caret { row: 0, col: 5, sticky: Some(7) }, None)));
        assert_eq!(answers, [0, 3, 0, 5, 9]);
        assert_eq!(course("ab", &[]).jumps(&mut []), Ok((Caret { row: 0, col: 0, sticky: Some(7) }, Some(3))));
        assert_eq!(course("ab", &[3, 1, 2, 1]).jumps(&mut answers).map(|(k, _)| (k.row, k.col)), Ok((0, 1)));
        assert_eq!(answers[..4], [0, 0, 0, 1]);
    }

    #[test]
    fn refusals_in_their_order() {
        let mut bad = course("ab", &[4, 1]);
        assert_eq!(bad.jumps(&mut []), Err(22));
        bad.content = 2;
        assert_eq!(bad.jumps(&mut []), Err(16));
        bad.starts.clear();
        assert_eq!(bad.jumps(&mut []), Err(15));
        bad.list = vec![0xD800];
        assert_eq!(bad.jumps(&mut []), Err(7));
        assert_eq!(course("ab", &[0, 1, 2]).jumps(&mut []), Err(22));
        assert_eq!(course("ab", &[0, 1]).jumps(&mut [9]), Err(14));
    }
}
