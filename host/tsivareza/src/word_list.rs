//! The lists that the word motions go by, of either grammar.

#![forbid(unsafe_code)]
#![warn(missing_docs)]

use crate::{Caret, Folds, KeywordList, Refusal, Text, Vim, Word, Words, vim_list, vim_write, word_rows, word_vim};
use std::str::FromStr;

/// A list that says what a word character is: a [`KeywordList`] or a [`VimList`]. The word motions of [`Caret`] take either.
pub trait WordList: sealed::Moves {}

impl WordList for KeywordList {}
impl WordList for VimList {}

pub(crate) mod sealed {
    use super::*;

    pub trait Moves {
        /// A word motion by the list.
        fn moved(&self, which: Word, k: Caret, text: &Text, folds: &Folds, big: bool, count: u32) -> Result<Caret, Refusal>;
    }

    impl Moves for KeywordList {
        fn moved(&self, which: Word, k: Caret, text: &Text, folds: &Folds, big: bool, count: u32) -> Result<Caret, Refusal> {
            let words = Words { folds: folds.numbers(), list: self.points(), big };
            word_rows(which, text.points(), text.table(), k, words, count).map_err(Refusal::plain)
        }
    }

    impl Moves for VimList {
        fn moved(&self, which: Word, k: Caret, text: &Text, folds: &Folds, big: bool, count: u32) -> Result<Caret, Refusal> {
            let words = Words { folds: folds.numbers(), list: &self.points, big };
            word_vim(which, text.points(), k, words, count).map_err(Refusal::placed)
        }
    }
}

/// A keyword list as Vim has it, `@,48-57,_,^a-z`, with exclusions: the last part that speaks of a character decides. It is read
/// when it is made, so that a motion can't refuse it.
///
/// ```
/// use tsivareza::{Caret, Folds, Text, VimList};
/// let (text, list): (Text, VimList) = ("tmp-A1 b".parse()?, "@,48-57,-,^a-z".parse()?);
/// assert!(list.matches('A') && list.matches('-') && !list.matches('a'));
/// assert_eq!(Caret::at(0, 0).move_word_fwd(&text, &Folds::new(), &list, false, 1)?, Caret::at(0, 3));
/// # Ok::<(), tsivareza::Refusal>(())
/// ```
#[derive(Clone, Debug, PartialEq, Eq)]
pub struct VimList {
    points: Vec<u32>,
    tokens: u32,
}

impl VimList {
    /// The list by the grammar of Vim's documentation: [`Refusal::List`], [`Refusal::VimList`] with the place where it goes wrong,
    /// [`Refusal::Tokens`].
    ///
    /// ```
    /// use tsivareza::{Refusal, VimList};
    /// assert_eq!(VimList::new("@,^a-z,_")?.tokens(), 3);
    /// assert_eq!(VimList::new("a,^,b"), Err(Refusal::VimList { at: 4 }));
    /// # Ok::<(), Refusal>(())
    /// ```
    pub fn new(list: &str) -> Result<VimList, Refusal> {
        let points: Vec<u32> = list.chars().map(u32::from).collect();
        let tokens = vim_list(Vim::Count, &points).map_err(Refusal::placed)?;
        Ok(VimList { points, tokens })
    }

    /// How many tokens it has.
    ///
    /// ```
    /// assert_eq!(tsivareza::VimList::new("")?.tokens(), 0);
    /// # Ok::<(), tsivareza::Refusal>(())
    /// ```
    pub fn tokens(&self) -> u32 {
        self.tokens
    }

    /// Whether it holds a character.
    ///
    /// ```
    /// assert!(!tsivareza::VimList::new("@,^@")?.matches('é'));
    /// # Ok::<(), tsivareza::Refusal>(())
    /// ```
    pub fn matches(&self, x: char) -> bool {
        vim_list(Vim::Matches(x.into()), &self.points) == Ok(1)
    }

    /// The list as the writer spells it: each end as it was, numbers without leading zeros. It holds the same characters.
    ///
    /// ```
    /// assert_eq!(tsivareza::VimList::new("048-57,_")?.plain().to_string(), "48-57,_");
    /// # Ok::<(), tsivareza::Refusal>(())
    /// ```
    pub fn plain(&self) -> VimList {
        let mut written = vec![0; self.points.len()];
        match vim_write(&self.points, &mut written) {
            Ok(count) => written.truncate(count as usize),
            // a list that was read is not refused, and it is no shorter than what is written of it
            Err(_) => written.clone_from(&self.points),
        }
        VimList { points: written, tokens: self.tokens }
    }
}

impl FromStr for VimList {
    type Err = Refusal;

    fn from_str(list: &str) -> Result<VimList, Refusal> {
        VimList::new(list)
    }
}

impl std::fmt::Display for VimList {
    fn fmt(&self, to: &mut std::fmt::Formatter) -> std::fmt::Result {
        self.points.iter().filter_map(|&x| char::from_u32(x)).try_for_each(|x| std::fmt::Write::write_char(to, x))
    }
}
