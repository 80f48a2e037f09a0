//! Row starts in a lent table, and edits that keep it, which the given Rust does not have: from the words of document 02, #106.
//! The table is counted anew from the text of each page; the edit itself is that of `edits`.

use crate::Outcome;
use crate::edits::Page;
use crate::refusals::{Inputs, refusal};

/// Where every row starts, the last empty one too, and how many rows have content.
pub fn counted(text: &[u32]) -> (Vec<u32>, u32) {
    let behind = text.iter().enumerate().filter(|&(_, &x)| x == 0x0A).map(|(i, _)| i as u32 + 1);
    let starts: Vec<u32> = std::iter::once(0).chain(behind).collect();
    let rows: Vec<&[u32]> = text.split(|&x| x == 0x0A).collect();
    let empty = rows.len() > 1 && rows.last().is_some_and(|row| row.is_empty());
    (starts, rows.len() as u32 - u32::from(empty))
}

/// Puts the row starts into the table and answers how many rows have content, or the number that it is refused with.
pub fn fill(text: &[u32], table: &mut [u32]) -> Result<u32, u32> {
    match refusal(&Inputs { text: Some(text), ..Inputs::default() }) {
        0 => {}
        number => return Err(number),
    }
    let (starts, content) = counted(text);
    let places = table.get_mut(..starts.len()).ok_or(15_u32)?;
    places.copy_from_slice(&starts);
    Ok(content)
}

/// What a table and a number of rows with content are refused with: 15 for fewer places than the text has rows, 16 for one that
/// is not the text's, and else 0.
pub fn refused(text: &[u32], table: &[u32], content: u32) -> u32 {
    let (starts, rows) = counted(text);
    match table.get(..starts.len()) {
        None => 15,
        Some(places) if places == starts && content == rows => 0,
        Some(_) => 16,
    }
}

/// What a motion answers beside a table and a number of rows with content: `first`, its answer without them, and then their
/// refusal.
pub fn second(first: Outcome, text: &[u32], table: &[u32], content: u32) -> Outcome {
    if let Outcome::Refused(_) = first {
        return first;
    }
    match refused(text, table, content) {
        0 => first,
        number => Outcome::Refused(number),
    }
}

/// A page with its table, and the number of rows with content beside it.
#[derive(Clone, Debug, PartialEq, Eq)]
pub struct Tabled {
    pub page: Page,
    pub table: Vec<u32>,
    pub content: u32,
}

impl Tabled {
    fn text(&self) -> &[u32] {
        &self.page.text[..self.page.sizes[0] as usize]
    }

    /// The edit without a table on a copy; then the table, by the texts before and after.
    fn edit(&mut self, edit: impl Fn(&mut Page) -> u32) -> u32 {
        let mut after = self.clone();
        match edit(&mut after.page) {
            0 => {}
            number => return number,
        }
        let (old, content) = counted(self.text());
        let (new, new_content) = counted(after.text());
        if self.table.len() < old.len() || self.table.len() < new.len() {
            return 15;
        }
        if self.table[..old.len()] != old[..] || self.content != content {
            return 16;
        }
        for (r, place) in after.table.iter_mut().enumerate() {
            match new.get(r) {
                Some(&start) => *place = start,
                None if r < old.len() => *place = 0,
                None => {}
            }
        }
        after.content = new_content;
        *self = after;
        0
    }

    pub fn insert(&mut self, points: &[u32], at: (u32, u32)) -> u32 {
        self.edit(|page| page.insert(points, at))
    }

    pub fn delete(&mut self, from: (u32, u32), to: (u32, u32)) -> u32 {
        self.edit(|page| page.delete(from, to))
    }
}

#[cfg(test)]
mod tests {
    use super::*;

    fn points(s: &str) -> Vec<u32> {
        s.chars().map(u32::from).collect()
    }

    #[test]
    fn every_row_has_a_start_and_the_last_empty_one_no_content() {
        for (text, starts, content) in [("", vec![0], 1), ("\n", vec![0, 1], 1), ("a\n\n", vec![0, 2, 3], 2), ("a\n\nb", vec![0, 2, 3], 3)] {
            assert_eq!(counted(&points(text)), (starts, content), "{text:?}");
        }
        let mut table = vec![9; 4];
        assert_eq!((fill(&points("a\n"), &mut table), &table[..]), (Ok(1), &[0, 2, 9, 9][..]));
        assert_eq!(fill(&points("a\n"), &mut [9]), Err(15));
    }

    #[test]
    fn a_table_is_kept_and_its_freed_places_are_0() {
        let text = points("a\nb\nc\nd");
        let page = Page { sizes: [text.len() as u32, 0], text, folds: vec![], caret: [0; 6] };
        let mut host = Tabled { page, table: vec![0, 2, 4, 6, 777], content: 4 };
        assert_eq!(host.delete((0, 1), (2, 0)), 0);
        assert_eq!((&host.table[..], host.content), (&[0, 3, 0, 0, 777][..], 2));
        assert_eq!(host.insert(&[0x0A], (0, 0)), 0);
        assert_eq!((&host.table[..], host.content), (&[0, 1, 4, 0, 777][..], 3));
    }

    #[test]
    fn a_motion_is_refused_before_its_table() {
        let (text, there) = (points("a\n"), Outcome::Place(None));
        assert_eq!(second(there.clone(), &text, &[0, 2, 9], 1), there);
        assert_eq!(second(there.clone(), &text, &[0], 5), Outcome::Refused(15));
        for (table, content) in [([0, 1], 1), ([1, 2], 1), ([0, 2], 2)] {
            assert_eq!(second(there.clone(), &text, &table, content), Outcome::Refused(16));
        }
        assert_eq!(second(Outcome::Refused(4), &text, &[0], 5), Outcome::Refused(4));
    }

    #[test]
    fn the_edit_is_refused_before_its_table() {
        let page = Page { text: points("a"), folds: vec![], caret: [0; 6], sizes: [1, 0] };
        let mut host = Tabled { page, table: vec![0], content: 1 };
        assert_eq!(host.clone().insert(&[0x0A], (0, 1)), 12);
        host.page.text.push(7);
        assert_eq!(host.clone().insert(&[0x0A], (0, 1)), 15);
        host.content = 2;
        assert_eq!(host.clone().insert(&[0x0A], (0, 1)), 15);
        assert_eq!(host.insert(&[0x62], (0, 1)), 16);
    }
}
