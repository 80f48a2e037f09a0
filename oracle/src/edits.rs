//! Insert and delete, which the given Rust does not have: from the words of document 02, #102. The caret is a mark among
//! the characters, so that it goes with the character behind it; rows of folds are mapped in the document's words.

use crate::refusals::{Inputs, refusal};

const LIMIT: usize = 1_048_576;

/// A text and its folds in buffers, the caret as six numbers, and how many code points and folds the buffers hold.
#[derive(Clone, Debug, PartialEq, Eq)]
pub struct Page {
    pub text: Vec<u32>,
    pub folds: Vec<u32>,
    pub caret: [u32; 6],
    pub sizes: [u32; 2],
}

/// A character, or the caret before one.
#[derive(Clone, Copy, PartialEq)]
enum Cell {
    Char(u32),
    Caret,
}

/// Whether the position stands in the text: in one of its rows, at most behind the row's last character.
fn inside(text: &[u32], (row, col): (u32, u32)) -> bool {
    text.split(|&x| x == 0x0A).nth(row as usize).is_some_and(|row| col as usize <= row.len())
}

impl Page {
    fn lent(&self) -> &[u32] {
        &self.text[..self.sizes[0] as usize]
    }

    /// The number that an edit is refused with, in the document's order; `points` is none for a delete.
    fn refused(&self, from: (u32, u32), to: (u32, u32), points: Option<&[u32]>) -> u32 {
        let (len, count) = (self.sizes[0] as usize, self.sizes[1] as usize);
        let put = points.unwrap_or(&[]);
        if len > self.text.len() || len > LIMIT || put.len() > LIMIT {
            return 1;
        }
        let of = |text| refusal(&Inputs { text: Some(text), ..Inputs::default() });
        let (text, put_refused) = (of(self.lent()), of(put));
        if let Some(&number) = [text, put_refused].iter().filter(|&&f| f != 0).min() {
            return number;
        }
        if !inside(self.lent(), (self.caret[0], self.caret[1])) {
            return 4;
        }
        if count > self.folds.len() / 3 {
            return 5;
        }
        let folds = Some(&self.folds[..3 * count]);
        if refusal(&Inputs { text: Some(self.lent()), folds, ..Inputs::default() }) != 0 {
            return 5;
        }
        if !inside(self.lent(), from) || !inside(self.lent(), to) || from > to {
            return 11;
        }
        let new = len + put.len();
        if points.is_some() && (new > self.text.len() || new > LIMIT) { 12 } else { 0 }
    }

    /// The characters with the caret's mark before its own.
    fn cells(&self) -> Vec<Cell> {
        let mut cells: Vec<Cell> = self.lent().iter().map(|&x| Cell::Char(x)).collect();
        let at = place(&cells, (self.caret[0], self.caret[1]));
        cells.insert(at, Cell::Caret);
        cells
    }

    /// The new text into the buffer, with zeros in the places that it frees, and the caret where its mark is.
    fn store(&mut self, cells: &[Cell], folds: &[u32]) -> u32 {
        let mark = cells.iter().position(|&c| c == Cell::Caret).expect("the mark");
        let before = &cells[..mark];
        let row = before.iter().filter(|&&c| c == Cell::Char(0x0A)).count();
        let col = before.iter().rev().take_while(|&&c| c != Cell::Char(0x0A)).count();
        let text: Vec<u32> = cells.iter().filter_map(|c| if let Cell::Char(x) = c { Some(*x) } else { None }).collect();
        put(&mut self.text, self.sizes[0] as usize, &text);
        put(&mut self.folds, 3 * self.sizes[1] as usize, folds);
        self.caret = [row as u32, col as u32, 0, 0, 0, 0];
        self.sizes = [text.len() as u32, folds.len() as u32 / 3];
        0
    }

    /// The folds with both ends mapped; one whose differing ends become equal is dropped.
    fn mapped(&self, map: impl Fn(u32) -> u32) -> Vec<u32> {
        let folds = self.folds[..3 * self.sizes[1] as usize].chunks(3);
        let kept = folds.filter(|f| f[0] == f[1] || map(f[0]) != map(f[1]));
        kept.flat_map(|f| [map(f[0]), map(f[1]), f[2]]).collect()
    }

    pub fn insert(&mut self, points: &[u32], at: (u32, u32)) -> u32 {
        match self.refused(at, at, Some(points)) {
            0 => {}
            number => return number,
        }
        let mut cells = self.cells();
        let here = place(&cells, at);
        cells.splice(here..here, points.iter().map(|&x| Cell::Char(x)));
        let rows = points.iter().filter(|&&x| x == 0x0A).count() as u32;
        let folds = self.mapped(|row| if row > at.0 { row + rows } else { row });
        self.store(&cells, &folds)
    }

    pub fn delete(&mut self, from: (u32, u32), to: (u32, u32)) -> u32 {
        match self.refused(from, to, None) {
            0 => {}
            number => return number,
        }
        let cells = self.cells();
        let (first, last) = (place(&cells, from), place(&cells, to));
        let kept = |&(i, c): &(usize, &Cell)| i < first || i >= last || *c == Cell::Caret;
        let cells: Vec<Cell> = cells.iter().enumerate().filter(kept).map(|(_, &c)| c).collect();
        let map = |row: u32| match row {
            r if r < from.0 => r,
            r if r <= to.0 => from.0,
            r => r - (to.0 - from.0),
        };
        let folds = self.mapped(map);
        self.store(&cells, &folds)
    }
}

/// Where the character of a position stands among the cells; before the caret's mark where that is there too.
fn place(cells: &[Cell], (row, col): (u32, u32)) -> usize {
    let (mut r, mut c) = (0, 0);
    for (i, cell) in cells.iter().enumerate() {
        if (r, c) == (row, col) {
            return i;
        }
        match cell {
            Cell::Char(0x0A) => (r, c) = (r + 1, 0),
            Cell::Char(_) => c += 1,
            Cell::Caret => {}
        }
    }
    cells.len()
}

fn put(buffer: &mut [u32], held: usize, new: &[u32]) {
    buffer[..new.len()].copy_from_slice(new);
    if new.len() < held {
        buffer[new.len()..held].fill(0);
    }
}

#[cfg(test)]
mod tests {
    use super::*;

    fn page(text: &str, room: usize, folds: &[u32], caret: (u32, u32)) -> Page {
        let mut points: Vec<u32> = text.chars().map(u32::from).collect();
        let len = points.len() as u32;
        points.resize(room, 9);
        Page { text: points, folds: folds.to_vec(), caret: [caret.0, caret.1, 1, 7, 0, 0], sizes: [len, folds.len() as u32 / 3] }
    }

    fn points(text: &str) -> Vec<u32> {
        text.chars().map(u32::from).collect()
    }

    #[test]
    fn a_caret_at_the_insert_point_goes_behind() {
        for (caret, to) in [((0, 0), (0, 0)), ((0, 1), (1, 2)), ((0, 2), (1, 3)), ((1, 1), (2, 1))] {
            let mut p = page("ab\ncd", 9, &[], caret);
            assert_eq!(p.insert(&points("x\nyz"), (0, 1)), 0);
            assert_eq!(p.text, points("ax\nyzb\ncd"));
            assert_eq!(p.caret, [to.0, to.1, 0, 0, 0, 0]);
        }
    }

    #[test]
    fn a_caret_inside_a_deleted_stretch_goes_to_its_start() {
        for (caret, to) in [((0, 0), (0, 0)), ((0, 1), (0, 1)), ((0, 2), (0, 1)), ((1, 0), (0, 1)), ((1, 1), (0, 1)), ((1, 2), (0, 2))] {
            let mut p = page("ab\ncd", 6, &[0, 1, 1, 1, 1, 0], caret);
            assert_eq!(p.delete((0, 1), (1, 1)), 0);
            assert_eq!((&p.text[..], p.sizes), (&[97, 100, 0, 0, 0, 9][..], [2, 1]));
            assert_eq!(p.folds, [0, 0, 0, 0, 0, 0]);
            assert_eq!(p.caret, [to.0, to.1, 0, 0, 0, 0]);
        }
    }

    #[test]
    fn refusals_come_in_their_order() {
        let mut p = page("ab\ncd", 5, &[0, 2, 0], (0, 3));
        assert_eq!(p.clone().insert(&[0xD800], (9, 9)), 2);
        assert_eq!(p.insert(&points("x"), (9, 9)), 4);
        p.caret[1] = 2;
        assert_eq!(p.insert(&points("x"), (9, 9)), 5);
        p.folds[1] = 1;
        assert_eq!(p.insert(&points("x"), (9, 9)), 11);
        assert_eq!(p.insert(&points("x"), (0, 0)), 12);
        assert_eq!(p.insert(&[], (0, 0)), 0);
        assert_eq!(p.delete((1, 0), (0, 2)), 11);
        p.sizes[0] = 6;
        assert_eq!(p.delete((9, 9), (0, 2)), 1);
    }
}
