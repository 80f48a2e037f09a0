//! A keyword list that was read once.

#![forbid(unsafe_code)]
#![warn(missing_docs)]

use crate::{Enter, Keywords, Refusal, enter, keywords, without_plus};
use std::str::FromStr;

/// A keyword list, as `@,48-57,_`: what a word character is. It is read when it is made, so that a motion can't refuse it.
///
/// ```
/// use tsivareza::KeywordList;
/// let list: KeywordList = "@,48-57,_".parse()?;
/// assert!(list.matches('é') && list.matches('7') && !list.matches('-'));
/// assert_eq!(list.tokens(), 3);
/// # Ok::<(), tsivareza::Refusal>(())
/// ```
#[derive(Clone, Debug, PartialEq, Eq)]
pub struct KeywordList {
    points: Vec<u32>,
    tokens: u32,
}

fn points(list: &str) -> Vec<u32> {
    list.chars().map(u32::from).collect()
}

impl KeywordList {
    /// The list as the first reader reads it: [`Refusal::List`], [`Refusal::Tokens`].
    ///
    /// ```
    /// use tsivareza::{KeywordList, Refusal};
    /// assert_eq!(KeywordList::new("+48")?.tokens(), 1);
    /// assert_eq!(KeywordList::new(&"a,".repeat(129)), Err(Refusal::Tokens));
    /// assert_eq!(KeywordList::new(&"a".repeat(1_025)), Err(Refusal::List));
    /// # Ok::<(), Refusal>(())
    /// ```
    pub fn new(list: &str) -> Result<KeywordList, Refusal> {
        let points = points(list);
        let tokens = keywords(Keywords::Parse, &points).map_err(Refusal::plain)?;
        Ok(KeywordList { points, tokens })
    }

    /// The list as an editor's entry takes it, where plus signs are retired: [`Refusal::List`], [`Refusal::Plus`],
    /// [`Refusal::Tokens`].
    ///
    /// ```
    /// use tsivareza::{KeywordList, Refusal};
    /// assert_eq!(KeywordList::entered("5,+48"), Err(Refusal::Plus { at: 2 }));
    /// assert_eq!(KeywordList::entered("5,48")?.tokens(), 2);
    /// # Ok::<(), Refusal>(())
    /// ```
    pub fn entered(list: &str) -> Result<KeywordList, Refusal> {
        let points = points(list);
        let tokens = enter(Enter::Count, &points).map_err(Refusal::placed)?;
        Ok(KeywordList { points, tokens })
    }

    /// The list without its retired plus signs, everything else as it stood; it holds the same characters.
    ///
    /// ```
    /// use tsivareza::KeywordList;
    /// assert_eq!(KeywordList::new("+48-+57, ++4")?.without_plus().to_string(), "48-57, ++4");
    /// # Ok::<(), tsivareza::Refusal>(())
    /// ```
    pub fn without_plus(&self) -> KeywordList {
        let mut written = vec![0; self.points.len()];
        match without_plus(&self.points, &mut written) {
            Ok(count) => written.truncate(count as usize),
            // a list that was read is not refused, and it is no shorter than what is written of it
            Err(_) => written.clone_from(&self.points),
        }
        KeywordList { points: written, tokens: self.tokens }
    }

    /// How many tokens it keeps.
    ///
    /// ```
    /// assert_eq!(tsivareza::KeywordList::default().tokens(), 3);
    /// ```
    pub fn tokens(&self) -> u32 {
        self.tokens
    }

    /// Whether it holds a character.
    ///
    /// ```
    /// assert!(!tsivareza::KeywordList::default().matches('+'));
    /// ```
    pub fn matches(&self, x: char) -> bool {
        keywords(Keywords::Matches(x.into()), &self.points) == Ok(1)
    }

    /// Its code points.
    ///
    /// ```
    /// assert_eq!(tsivareza::KeywordList::new("@")?.points(), [0x40]);
    /// # Ok::<(), tsivareza::Refusal>(())
    /// ```
    pub fn points(&self) -> &[u32] {
        &self.points
    }
}

/// The session's list, `@,48-57,_`: letters, digits and the underscore.
impl Default for KeywordList {
    fn default() -> KeywordList {
        KeywordList { points: points("@,48-57,_"), tokens: 3 }
    }
}

impl FromStr for KeywordList {
    type Err = Refusal;

    fn from_str(list: &str) -> Result<KeywordList, Refusal> {
        KeywordList::new(list)
    }
}

impl std::fmt::Display for KeywordList {
    fn fmt(&self, to: &mut std::fmt::Formatter) -> std::fmt::Result {
        self.points.iter().filter_map(|&x| char::from_u32(x)).try_for_each(|x| std::fmt::Write::write_char(to, x))
    }
}
