//! The given files of hjkl-buffer, unchanged, with the plain types that they and the engine name.

#[path = "../../../given/crates/hjkl-buffer/src/geom.rs"]
mod geom;
#[path = "../../../given/crates/hjkl-buffer/src/motion.rs"]
mod motion;
#[path = "../../../given/crates/hjkl-buffer/src/wrap.rs"]
pub mod wrap;

mod fold {
    include!("../../../given/excerpts/fold.rs");
}

pub use fold::Fold;
pub use geom::{char_col_to_visual_col, cursor_visual_col, leading_visual_width, visual_col_to_char_col};
pub use motion::{KeywordSpec, is_keyword_char};
pub use wrap::Wrap;

#[derive(Clone, Copy, Debug, PartialEq, Eq)]
pub struct Position {
    pub row: usize,
    pub col: usize,
}

impl Position {
    pub fn new(row: usize, col: usize) -> Position {
        Position { row, col }
    }
}

/// What the motions read of a viewport.
#[derive(Clone, Copy, Debug)]
pub struct Viewport {
    pub top_row: usize,
    pub height: u16,
    pub text_width: u16,
    pub wrap: Wrap,
}

/// The nearest char boundary at or before `byte`.
pub fn floor_char_boundary(rope: &ropey::Rope, mut byte: usize) -> usize {
    while !rope.is_char_boundary(byte) {
        byte -= 1;
    }
    byte
}
