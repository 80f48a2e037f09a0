//! The screen moves that remember, which the given Rust does not have: from the words of document 02, #110, step by step over
//! the segments that the given `wrap_segments` breaks each row into. Nothing here walks as the library does.

use crate::calls;
use crate::refusals::{Inputs, refusal};
use crate::{Caret, Viewport, Wrap, string};

/// A caret and its offset within a segment.
type Kept = (Caret, Option<u32>);

struct Screen<'a> {
    rows: Vec<&'a [u32]>,
    folds: &'a [u32],
    view: Viewport,
}

impl Screen<'_> {
    fn hidden(&self, row: usize) -> bool {
        self.folds.chunks(3).any(|f| f[2] == 1 && (f[0] as usize) < row && row <= f[1] as usize)
    }

    fn visible_below(&self, row: usize) -> Option<usize> {
        (row + 1..self.rows.len()).find(|&r| !self.hidden(r))
    }

    fn visible_above(&self, row: usize) -> Option<usize> {
        (0..row).rev().find(|&r| !self.hidden(r))
    }

    fn last_content_row(&self) -> usize {
        let last = self.rows.len() - 1;
        if last > 0 && self.rows[last].is_empty() { last - 1 } else { last }
    }

    fn segments(&self, row: usize) -> Vec<(usize, usize)> {
        hjkl_buffer::wrap::wrap_segments(&string(self.rows[row]), self.view.width, self.view.wrap)
    }

    /// The fold that is closed at a row: its first row and its last.
    fn closed(&self, row: usize) -> Option<(usize, usize)> {
        let first = if self.hidden(row) { self.visible_above(row)? } else { row };
        let below = self.visible_below(first);
        let last = below.map_or(self.last_content_row(), |r| r - 1);
        (first + 1 < self.rows.len() && self.hidden(first + 1)).then_some((first, last))
    }

    /// Out of a closed fold: downwards from its last row, upwards from its first, at the column or the row's last one.
    fn left(&self, (row, col): (usize, usize), down: bool) -> (usize, usize) {
        match self.closed(row).map(|(first, last)| if down { last } else { first }) {
            Some(to) if to != row => (to, col.min(self.rows[to].len().saturating_sub(1))),
            _ => (row, col),
        }
    }

    /// One step, to a segment further; none where nothing lies ahead.
    fn step(&self, (row, col): (usize, usize), offset: u32, down: bool) -> Option<(usize, usize)> {
        let here = self.segments(row);
        let own = seat(&here, col);
        let (to, (start, end)) = match (down, own) {
            (true, i) if i + 1 < here.len() => (row, here[i + 1]),
            (false, i) if i > 0 => (row, here[i - 1]),
            (true, _) => self.visible_below(row).map(|r| (r, self.segments(r)[0]))?,
            (false, _) => self.visible_above(row).map(|r| (r, *self.segments(r).last().expect("a segment")))?,
        };
        Some((to, start + (offset as usize).min((end - start).saturating_sub(1))))
    }
}

/// The segment of a column; behind the last character it is the last one.
fn seat(segments: &[(usize, usize)], col: usize) -> usize {
    segments.iter().position(|&(_, end)| col < end).unwrap_or(segments.len() - 1)
}

/// The move down or up, count 0 as 1.
pub fn screen_kept(
    text: &[u32],
    caret: Caret,
    offset: Option<u32>,
    folds: &[u32],
    view: Viewport,
    tabstop: u32,
    count: u32,
    down: bool,
) -> Result<Kept, u32> {
    if view.wrap == Wrap::None || view.width == 0 {
        let rows = if down { calls::move_down } else { calls::move_up };
        return rows(text, caret, folds, tabstop, count).map(|caret| (caret, None));
    }
    let at = Some((caret.row, caret.col));
    match refusal(&Inputs { text: Some(text), caret: at, folds: Some(folds), tabstop: Some(tabstop), ..Inputs::default() }) {
        0 => {}
        number => return Err(number),
    }
    let screen = Screen { rows: text.split(|&x| x == 10).collect(), folds, view };
    let (row, col) = (caret.row as usize, caret.col as usize);
    let drawn = || hjkl_buffer::cursor_visual_col(&string(screen.rows[row]), col, tabstop as usize) as u32;
    let sticky = Some(caret.sticky.unwrap_or_else(drawn));
    let (mut place, kept) = match offset {
        Some(x) => ((row, col), x),
        None => {
            let place = screen.left((row, col), down);
            let segments = screen.segments(place.0);
            (place, (place.1 - segments[seat(&segments, place.1)].0) as u32)
        }
    };
    for _ in 0..count.max(1) {
        match screen.step(place, kept, down) {
            Some(next) => place = next,
            None => break,
        }
    }
    Ok((Caret { row: place.0 as u32, col: place.1 as u32, sticky }, Some(kept)))
}
