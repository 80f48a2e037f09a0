//! How a screen counts cells.

#![forbid(unsafe_code)]
#![warn(missing_docs)]

use crate::Ambiguous;

/// How a screen counts cells: the tabstop, and how wide the characters of class A are, as arrows. By default 8 and narrow.
///
/// ```
/// use tsivareza::{Ambiguous, Cells};
/// assert_eq!(Cells::default(), Cells { tabstop: 8, ambiguous: Ambiguous::Narrow });
/// ```
#[derive(Clone, Copy, Debug, PartialEq, Eq)]
pub struct Cells {
    /// How far apart the stops are that a tab runs to; 0 acts as 1, above 1,000 is refused.
    pub tabstop: u32,
    /// Whether arrows and the other characters of class A take two cells.
    pub ambiguous: Ambiguous,
}

impl Default for Cells {
    fn default() -> Cells {
        Cells { tabstop: 8, ambiguous: Ambiguous::Narrow }
    }
}
