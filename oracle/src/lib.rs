//! What the given Rust answers, on plain values: the judge of the port's answers.
//!
//! `calls` has one function per public call, `refusals` the refusal table of document 01, written
//! apart from it, `pairs`, `plus`, `kept`, `edits`, `row_table`, `fold_file`, `classes`, `jumps` and `vim` what document 02 adds on pairs, on plus signs,
//! on screen moves that remember, on edits, on row starts that are kept, on fold files, on the classes of places, on jumps and on Vim's lists,
//! from its words, `case` a call with its inputs as one line of text, `generate` cases from a seed and small families,
//! `replay` the list that the program `replay` runs, `random_rows` such rows at random, `session` document 01's
//! session over the given motions, `utf8` RFC 3629's tables and `std::str`, `wide` the calls on widths under the setting
//! wide.

pub mod calls;
pub mod case;
pub mod classes;
pub mod edits;
pub mod fold_file;
pub mod generate;
pub mod jumps;
pub mod kept;
pub mod pairs;
pub mod plus;
pub mod random_rows;
pub mod refusals;
pub mod replay;
pub mod replay_buffers;
pub mod replay_jumps;
pub mod replay_tables;
pub mod row_table;
pub mod session;
pub mod utf8;
pub mod vim;
pub mod wide;

/// Row, column and sticky column.
#[derive(Clone, Copy, Debug, PartialEq, Eq, Default)]
pub struct Caret {
    pub row: u32,
    pub col: u32,
    pub sticky: Option<u32>,
}

impl Caret {
    pub fn at(row: u32, col: u32) -> Caret {
        Caret { row, col, sticky: None }
    }
}

pub use hjkl_buffer::Wrap;

/// Top row, height, text width and wrap mode.
#[derive(Clone, Copy, Debug, PartialEq, Eq, Default)]
pub struct Viewport {
    pub top: u32,
    pub height: u16,
    pub width: u16,
    pub wrap: Wrap,
}

/// What a call answers.
#[derive(Clone, Debug, PartialEq, Eq)]
pub enum Outcome {
    Refused(u32),
    /// A refusal that has a place, and the place.
    RefusedAt(u32, u32),
    Moved(Caret),
    /// The caret, and its offset within a segment.
    Kept(Caret, Option<u32>),
    /// The truth that the call tells, and the caret.
    Told(bool, Caret),
    Place(Option<(u32, u32)>),
    /// Rows and columns of four positions.
    Ranges(Option<[u32; 8]>),
    Number(u64),
    Truth(bool),
    /// The number of segments written, and the lent slice afterwards.
    Segments(u32, Vec<u32>),
    /// The number of code points written, and the lent slice afterwards.
    Written(u32, Vec<u32>),
    /// The number of classes written, and the lent slice afterwards.
    Classes(u32, Vec<u8>),
    /// The caret by the classes, and the lent slice afterwards.
    Classed(Caret, Vec<u8>),
    /// No answer to compare with: the u16 sum of `wrap_segments` passes 65,535.
    Outside,
}

impl Outcome {
    /// A refusal with its place: 0 where it has none, but for 17 and 21.
    pub fn refused_at(number: u32, place: u32) -> Outcome {
        if matches!(number, 17 | 21) || place > 0 { Outcome::RefusedAt(number, place) } else { Outcome::Refused(number) }
    }
}

/// Code points of a string.
pub fn points(text: &str) -> Vec<u32> {
    text.chars().map(|c| c as u32).collect()
}

/// The string of scalar values.
pub fn string(points: &[u32]) -> String {
    points.iter().map(|&x| char::from_u32(x).expect("a scalar value")).collect()
}
