//! The given motions, unchanged, over a text and a fold list that follow document 01: `set_cursor`
//! stores what it is given, a row is hidden exactly if some fold hides it, visible rows are sought
//! among all rows, and rows are separated by U+000A alone.

#[path = "../../../given/crates/hjkl-engine/src/motions.rs"]
pub mod motions;

pub mod viewport_math {
    include!("../../../given/excerpts/row_text.rs");
}

pub mod types {
    #[derive(Clone, Copy, Debug, PartialEq, Eq)]
    pub struct Pos {
        pub line: u32,
        pub col: u32,
    }

    pub trait Cursor {
        fn cursor(&self) -> Pos;
        fn set_cursor(&mut self, pos: Pos);
    }

    pub trait Query {
        fn line_count(&self) -> u32;
        fn line(&self, idx: u32) -> String;
        fn line_bytes(&self, row: usize) -> usize;
        fn rope(&self) -> ropey::Rope;
    }

    pub trait FoldProvider {
        fn next_visible_row(&self, row: usize, row_count: usize) -> Option<usize>;
        fn prev_visible_row(&self, row: usize) -> Option<usize>;
        fn is_row_hidden(&self, row: usize) -> bool;
        fn fold_at_row(&self, row: usize) -> Option<(usize, usize, bool)>;
    }
}

mod folds {
    use crate::types::FoldProvider;
    use hjkl_buffer::Fold;

    pub struct SnapshotFoldProvider {
        folds: Vec<Fold>,
        row_count: usize,
    }

    impl SnapshotFoldProvider {
        /// Over all rows, the last empty one included.
        pub fn new(folds: Vec<Fold>, row_count: usize) -> SnapshotFoldProvider {
            SnapshotFoldProvider { folds, row_count }
        }

        fn snapshot_is_row_hidden(&self, row: usize) -> bool {
            self.folds.iter().any(|f| f.hides(row))
        }
    }

    include!("../../../given/excerpts/visible_rows.rs");
}

pub use folds::SnapshotFoldProvider;

use types::{Cursor, Pos, Query};

/// A text and its cursor. Every position is tested when it is written, however many there are.
pub struct View {
    rope: ropey::Rope,
    lengths: Vec<usize>,
    pub at: Pos,
    /// How many positions were written, and the first that was outside the text.
    pub writes: u64,
    pub outside: Option<Pos>,
}

impl View {
    pub fn new(text: &str, at: Pos) -> View {
        let lengths = text.split('\n').map(|row| row.chars().count()).collect();
        View { rope: ropey::Rope::from_text(text), lengths, at, writes: 0, outside: None }
    }

    /// In a row of the text, at most at its character count.
    pub fn is_inside(&self, pos: Pos) -> bool {
        self.lengths.get(pos.line as usize).is_some_and(|&n| pos.col as usize <= n)
    }
}

impl Cursor for View {
    fn cursor(&self) -> Pos {
        self.at
    }

    fn set_cursor(&mut self, pos: Pos) {
        self.at = pos;
        self.writes += 1;
        if self.outside.is_none() && !self.is_inside(pos) {
            self.outside = Some(pos);
        }
    }
}

impl Query for View {
    fn line_count(&self) -> u32 {
        self.rope.len_lines() as u32
    }

    fn line(&self, idx: u32) -> String {
        viewport_math::rope_line_slice(&self.rope, idx as usize).into_owned()
    }

    fn line_bytes(&self, row: usize) -> usize {
        if row >= self.rope.len_lines() {
            return 0;
        }
        viewport_math::rope_line_slice(&self.rope, row).len()
    }

    fn rope(&self) -> ropey::Rope {
        self.rope.clone()
    }
}
