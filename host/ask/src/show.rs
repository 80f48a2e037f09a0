//! Rows with their numbers, and characters of them marked.

use tsivareza::{Cells, Text};

/// How rows are shown: marks in colour, or by a row of `^` below.
pub struct Show<'a> {
    pub text: &'a Text,
    /// What rows count from.
    pub first: u32,
    pub colour: bool,
}

impl Show<'_> {
    /// The rows from one to another, with the characters at these positions marked.
    pub fn rows(&self, from: u32, to: u32, marks: &[(u32, u32)]) -> String {
        let digits = (u64::from(to) + u64::from(self.first)).to_string().len().max(4);
        let mut shown = String::new();
        for row in from..=to {
            let number = u64::from(row) + u64::from(self.first);
            let marked: Vec<u32> = marks.iter().filter(|mark| mark.0 == row).map(|mark| mark.1).collect();
            let line = format!("{number:digits$}  {}", self.row(row, &marked));
            shown.push_str(line.trim_end_matches(' '));
            shown.push('\n');
            if !self.colour && !marked.is_empty() {
                shown.push_str(&" ".repeat(digits + 2));
                shown.push_str(&self.below(row, &marked));
                shown.push('\n');
            }
        }
        shown
    }

    /// The cell that a column starts in.
    fn cell(&self, row: u32, col: u32) -> u32 {
        self.text.visual_col(row, col, Cells::default()).unwrap_or(col)
    }

    /// A row, with tabs as blanks and other controls as U+FFFD, so that cells stand where they are counted.
    fn row(&self, row: u32, marked: &[u32]) -> String {
        let mut shown = String::new();
        let line = self.text.row(row).unwrap_or(&[]);
        for (col, x) in (0..).zip(line) {
            let piece = match char::from_u32(*x) {
                Some('\t') => " ".repeat((self.cell(row, col + 1) - self.cell(row, col)) as usize),
                Some(x) if !x.is_control() => x.to_string(),
                _ => '\u{FFFD}'.to_string(),
            };
            shown.push_str(&self.painted(piece, marked.contains(&col)));
        }
        if marked.contains(&(line.len() as u32)) && self.colour {
            shown.push_str(&self.painted(" ".to_string(), true));
        }
        shown
    }

    fn painted(&self, piece: String, marked: bool) -> String {
        if marked && self.colour { format!("\x1b[1;30;43m{piece}\x1b[0m") } else { piece }
    }

    /// A `^` below each marked column.
    fn below(&self, row: u32, marked: &[u32]) -> String {
        let mut cells: Vec<u32> = marked.iter().map(|&col| self.cell(row, col)).collect();
        cells.sort_unstable();
        cells.dedup();
        let mut line = String::new();
        let mut at = 0;
        for cell in cells {
            line.push_str(&" ".repeat((cell - at) as usize));
            line.push('^');
            at = cell + 1;
        }
        line
    }
}

#[cfg(test)]
mod tests {
    use super::*;

    #[test]
    fn marks_stand_below_their_cells() {
        let text: Text = "{\té\u{3042}→}\u{1B}".parse().unwrap();
        let plain = Show { text: &text, first: 0, colour: false };
        assert_eq!(plain.rows(0, 0, &[(0, 0), (0, 5)]), "   0  {       é\u{3042}→}\u{FFFD}\n      ^           ^\n");
        let one = Show { first: 1, ..plain };
        assert_eq!(one.rows(0, 0, &[(0, 7)]), "   1  {       é\u{3042}→}\u{FFFD}\n                    ^\n");
        let painted = Show { colour: true, ..one };
        assert_eq!(
            painted.rows(0, 0, &[(0, 0)]),
            "   1  \u{1B}[1;30;43m{\u{1B}[0m       é\u{3042}→}\u{FFFD}\n"
        );
    }
}
