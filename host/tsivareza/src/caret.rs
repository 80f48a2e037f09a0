//! Every motion as a method of the caret, by hjkl's names.

#![forbid(unsafe_code)]
#![warn(missing_docs)]

use crate::{
    Caret, Cells, Folds, Ground, Jump, Kept, KeywordList, Motion, Refusal, ScreenKept, Seek, Steps, Text, Vertical, Viewport,
    ViewportMove, Word, WordList, jumps, motion_rows, screen_kept_rows, seek_rows, vertical_rows, viewport_rows,
};

impl Caret {
    /// A caret at a row and a column, counted from 0, without a sticky column.
    ///
    /// ```
    /// use tsivareza::Caret;
    /// assert_eq!(Caret::at(3, 7), Caret { row: 3, col: 7, sticky: None });
    /// ```
    pub const fn at(row: u32, col: u32) -> Caret {
        Caret { row, col, sticky: None }
    }

    /// Its row and column.
    ///
    /// ```
    /// assert_eq!(tsivareza::Caret::at(3, 7).position(), (3, 7));
    /// ```
    pub const fn position(self) -> (u32, u32) {
        (self.row, self.col)
    }

    /// The same without its sticky column, as after a key that isn't up or down.
    ///
    /// ```
    /// use tsivareza::Caret;
    /// assert_eq!(Caret { row: 0, col: 1, sticky: Some(9) }.unstuck(), Caret::at(0, 1));
    /// ```
    pub const fn unstuck(self) -> Caret {
        Caret::at(self.row, self.col)
    }
}

macro_rules! motions {
    ($($name:ident $(by $count:ident)?: $says:literal, $text:literal, $row:literal $col:literal $(, $example:literal)? => $to_row:literal $to_col:literal;)*) => {
        impl Caret {
            $(
            #[doc = $says]
            /// [`Refusal::Caret`] where the text has no such caret.
            ///
            /// ```
            /// # use tsivareza::{Caret, Text};
            #[doc = concat!("let text: Text = ", stringify!($text), ".parse()?;")]
            #[doc = concat!("let caret = Caret::at(", $row, ", ", $col, ").", stringify!($name), "(&text", $(", ", $example,)? ")?;")]
            #[doc = concat!("assert_eq!(caret, Caret::at(", $to_row, ", ", $to_col, "));")]
            /// # Ok::<(), tsivareza::Refusal>(())
            /// ```
            pub fn $name(self, text: &Text $(, $count: u32)?) -> Result<Caret, Refusal> {
                motion_rows(Motion::$name, text.points(), text.table(), self, 0 $(+ $count)?).map_err(Refusal::plain)
            }
            )*
        }
    };
}

motions! {
    move_left by count: "`h`: columns to the left, at most to the row's start.", "ab cd", 0 3, 2 => 0 1;
    move_right_in_line by count: "`l`: columns to the right, at most to the row's last character.", "abc", 0 0, 9 => 0 2;
    move_right_to_end by count: "`l` for operators: at most behind the row's last character.", "abc", 0 0, 9 => 0 3;
    move_space_fwd by count: "Space: characters forward, from a row's last to the next row.", "ab\ncd", 0 1, 1 => 1 0;
    move_backspace_back by count: "Backspace: characters back, from a row's start to the last of the row above.", "ab\ncd", 1 0, 1 => 0 1;
    move_line_start: "`0`: to the row's start.", "ab cd", 0 3 => 0 0;
    move_first_non_blank: "`^`: to the first character that is no space or tab.", "  ab", 0 3 => 0 2;
    move_line_end: "`$`: to the row's last character. The sticky column stays; a session sets it to the ends.", "abc", 0 0 => 0 2;
    move_goto_column by count: "`|`: to a column, counted from 1; 0 is the first.", "abcdef", 0 5, 3 => 0 2;
    move_last_non_blank: "`g_`: to the row's last character that is no white space.", "ab  ", 0 0 => 0 1;
    move_paragraph_prev by count: "`{`: up to an empty row; a count that runs out before its last round moves nothing.", "a\n\nb", 2 0, 1 => 1 0;
    move_paragraph_next by count: "`}`: down to an empty row; a count that runs out before its last round moves nothing.", "a\n\nb", 0 0, 1 => 1 0;
    move_section_backward by count: "`[[`: up to a row that begins with `{`.", "{\n}\n{\n}", 3 0, 1 => 2 0;
    move_section_forward by count: "`]]`: down to a row that begins with `{`.", "{\n}\n{\n}", 0 0, 1 => 2 0;
    move_section_end_backward by count: "`[]`: up to a row that begins with `}`.", "{\n}\n{\n}", 3 0, 1 => 1 0;
    move_section_end_forward by count: "`][`: down to a row that begins with `}`.", "{\n}\n{\n}", 0 0, 1 => 1 0;
    move_first_non_blank_next_line by count: "`+`: rows down, to the first non-blank.", "a\n  b", 0 0, 1 => 1 2;
    move_first_non_blank_prev_line by count: "`-`: rows up, to the first non-blank.", "  a\nb", 1 0, 1 => 0 2;
    move_first_non_blank_line by count: "`_`: one row less than the count down, to the first non-blank.", "  a\nb", 0 0, 1 => 0 2;
    move_top: "`gg`: to the first row's first non-blank.", "  a\nb", 1 0 => 0 2;
    move_bottom by count: "`G`: to a row, counted from 1, and with 0 to the last that has content; to its first non-blank.", "a\n b\n", 0 0, 0 => 1 1;
}

impl Caret {
    fn vertically(self, which: Vertical, text: &Text, folds: &Folds, count: u32, cells: Cells) -> Result<Caret, Refusal> {
        let steps = Steps { folds: folds.numbers(), count, tabstop: cells.tabstop };
        vertical_rows(which, text.points(), text.table(), self, steps, cells.ambiguous).map_err(Refusal::plain)
    }

    /// `k`: visible rows up, in the sticky column, which is set from then on. [`Refusal::Caret`], [`Refusal::Folds`],
    /// [`Refusal::Tabstop`].
    ///
    /// ```
    /// # use tsivareza::{Caret, Cells, Folds, Text};
    /// let text: Text = "abc\n\nabc".parse()?;
    /// let caret = Caret::at(2, 2).move_up(&text, &Folds::new(), 1, Cells::default())?;
    /// assert_eq!(caret, Caret { row: 1, col: 0, sticky: Some(2) });
    /// assert_eq!(caret.move_up(&text, &Folds::new(), 1, Cells::default())?.position(), (0, 2));
    /// # Ok::<(), tsivareza::Refusal>(())
    /// ```
    pub fn move_up(self, text: &Text, folds: &Folds, count: u32, cells: Cells) -> Result<Caret, Refusal> {
        self.vertically(Vertical::Up, text, folds, count, cells)
    }

    /// `j`: visible rows down, as [`Caret::move_up`] goes up.
    ///
    /// ```
    /// # use tsivareza::{Ambiguous, Caret, Cells, Folds, Text};
    /// let text: Text = "→b\nabc".parse()?;
    /// let down = |ambiguous| Caret::at(0, 1).move_down(&text, &Folds::new(), 1, Cells { tabstop: 8, ambiguous });
    /// assert_eq!(down(Ambiguous::Narrow)?.position(), (1, 1));
    /// assert_eq!(down(Ambiguous::Wide)?.position(), (1, 2));
    /// # Ok::<(), tsivareza::Refusal>(())
    /// ```
    pub fn move_down(self, text: &Text, folds: &Folds, count: u32, cells: Cells) -> Result<Caret, Refusal> {
        self.vertically(Vertical::Down, text, folds, count, cells)
    }

    /// `gk`: segments up, under wrap. [`Refusal::Caret`], [`Refusal::Folds`], [`Refusal::Tabstop`].
    ///
    /// ```
    /// # use tsivareza::{Caret, Cells, Folds, Text, Viewport, Wrap};
    /// let text: Text = "abcdef".parse()?;
    /// let window = Viewport { top: 0, height: 9, width: 4, wrap: Wrap::Char };
    /// let caret = Caret::at(0, 5).move_screen_up(&text, &Folds::new(), &window, 1, Cells::default())?;
    /// assert_eq!(caret.position(), (0, 1));
    /// # Ok::<(), tsivareza::Refusal>(())
    /// ```
    pub fn move_screen_up(
        self,
        text: &Text,
        folds: &Folds,
        viewport: &Viewport,
        count: u32,
        cells: Cells,
    ) -> Result<Caret, Refusal> {
        let up = Vertical::ScreenUp { mode: viewport.wrap, width: viewport.width };
        self.vertically(up, text, folds, count, cells)
    }

    /// `gj`: segments down, under wrap, as [`Caret::move_screen_up`] goes up.
    ///
    /// ```
    /// # use tsivareza::{Caret, Cells, Folds, Text, Viewport, Wrap};
    /// let text: Text = "abcdef".parse()?;
    /// let window = Viewport { top: 0, height: 9, width: 4, wrap: Wrap::Char };
    /// let caret = Caret::at(0, 1).move_screen_down(&text, &Folds::new(), &window, 1, Cells::default())?;
    /// assert_eq!(caret.position(), (0, 5));
    /// # Ok::<(), tsivareza::Refusal>(())
    /// ```
    pub fn move_screen_down(
        self,
        text: &Text,
        folds: &Folds,
        viewport: &Viewport,
        count: u32,
        cells: Cells,
    ) -> Result<Caret, Refusal> {
        let down = Vertical::ScreenDown { mode: viewport.wrap, width: viewport.width };
        self.vertically(down, text, folds, count, cells)
    }

    fn seen(self, which: ViewportMove, text: &Text) -> Result<Caret, Refusal> {
        viewport_rows(which, text.points(), text.table(), self).map_err(Refusal::plain)
    }

    /// `H`: to the first non-blank of a row below the window's top. [`Refusal::Caret`].
    ///
    /// ```
    /// # use tsivareza::{Caret, Text, Viewport, Wrap};
    /// let text: Text = "a\nb\n c\nd".parse()?;
    /// let window = Viewport { top: 1, height: 3, width: 40, wrap: Wrap::None };
    /// assert_eq!(Caret::at(0, 0).move_viewport_top(&text, &window, 1)?, Caret::at(2, 1));
    /// # Ok::<(), tsivareza::Refusal>(())
    /// ```
    pub fn move_viewport_top(self, text: &Text, viewport: &Viewport, offset: u32) -> Result<Caret, Refusal> {
        self.seen(ViewportMove::Top { top: viewport.top, offset }, text)
    }

    /// `M`: to the window's middle row. [`Refusal::Caret`].
    ///
    /// ```
    /// # use tsivareza::{Caret, Text, Viewport, Wrap};
    /// let text: Text = "a\nb\nc\nd".parse()?;
    /// let window = Viewport { top: 1, height: 3, width: 40, wrap: Wrap::None };
    /// assert_eq!(Caret::at(0, 0).move_viewport_middle(&text, &window)?, Caret::at(2, 0));
    /// # Ok::<(), tsivareza::Refusal>(())
    /// ```
    pub fn move_viewport_middle(self, text: &Text, viewport: &Viewport) -> Result<Caret, Refusal> {
        self.seen(ViewportMove::Middle { top: viewport.top, height: viewport.height }, text)
    }

    /// `L`: to the first non-blank of a row above the window's bottom. [`Refusal::Caret`].
    ///
    /// ```
    /// # use tsivareza::{Caret, Text, Viewport, Wrap};
    /// let text: Text = "a\nb\nc\nd".parse()?;
    /// let window = Viewport { top: 0, height: 3, width: 40, wrap: Wrap::None };
    /// assert_eq!(Caret::at(0, 0).move_viewport_bottom(&text, &window, 1)?, Caret::at(1, 0));
    /// # Ok::<(), tsivareza::Refusal>(())
    /// ```
    pub fn move_viewport_bottom(self, text: &Text, viewport: &Viewport, offset: u32) -> Result<Caret, Refusal> {
        self.seen(ViewportMove::Bottom { top: viewport.top, height: viewport.height, offset }, text)
    }

    /// `w`, or `W` where `big`: words forward; a closed fold is jumped at each round. [`Refusal::Caret`], [`Refusal::Folds`].
    ///
    /// ```
    /// # use tsivareza::{Caret, Folds, KeywordList, Text};
    /// let text: Text = "if (n) {".parse()?;
    /// let (none, list) = (Folds::new(), KeywordList::default());
    /// assert_eq!(Caret::at(0, 0).move_word_fwd(&text, &none, &list, false, 2)?, Caret::at(0, 4));
    /// assert_eq!(Caret::at(0, 0).move_word_fwd(&text, &none, &list, true, 2)?, Caret::at(0, 7));
    /// # Ok::<(), tsivareza::Refusal>(())
    /// ```
    pub fn move_word_fwd(self, text: &Text, folds: &Folds, list: &impl WordList, big: bool, count: u32) -> Result<Caret, Refusal> {
        list.moved(Word::Fwd, self, text, folds, big, count)
    }

    /// `b`, or `B` where `big`: words back. [`Refusal::Caret`], [`Refusal::Folds`].
    ///
    /// ```
    /// # use tsivareza::{Caret, Folds, KeywordList, Text};
    /// let text: Text = "if (n) {".parse()?;
    /// let (none, list) = (Folds::new(), KeywordList::default());
    /// assert_eq!(Caret::at(0, 7).move_word_back(&text, &none, &list, true, 1)?, Caret::at(0, 3));
    /// # Ok::<(), tsivareza::Refusal>(())
    /// ```
    pub fn move_word_back(self, text: &Text, folds: &Folds, list: &impl WordList, big: bool, count: u32) -> Result<Caret, Refusal> {
        list.moved(Word::Back, self, text, folds, big, count)
    }

    /// `e`, or `E` where `big`: to the end of a word; with `stop` the first round may stay where it is on one, as `cw` does.
    /// [`Refusal::Caret`], [`Refusal::Folds`].
    ///
    /// ```
    /// # use tsivareza::{Caret, Folds, KeywordList, Text};
    /// let text: Text = "a bc".parse()?;
    /// let (none, list) = (Folds::new(), KeywordList::default());
    /// assert_eq!(Caret::at(0, 0).move_word_end(&text, &none, &list, false, 1, false)?, Caret::at(0, 3));
    /// assert_eq!(Caret::at(0, 0).move_word_end(&text, &none, &list, false, 1, true)?, Caret::at(0, 0));
    /// # Ok::<(), tsivareza::Refusal>(())
    /// ```
    pub fn move_word_end(
        self,
        text: &Text,
        folds: &Folds,
        list: &impl WordList,
        big: bool,
        count: u32,
        stop: bool,
    ) -> Result<Caret, Refusal> {
        list.moved(Word::End { stop }, self, text, folds, big, count)
    }

    /// `ge`, or `gE` where `big`: back to the end of a word; it takes no folds. [`Refusal::Caret`].
    ///
    /// ```
    /// # use tsivareza::{Caret, KeywordList, Text};
    /// let text: Text = "ab cd".parse()?;
    /// assert_eq!(Caret::at(0, 4).move_word_end_back(&text, &KeywordList::default(), false, 1)?, Caret::at(0, 1));
    /// # Ok::<(), tsivareza::Refusal>(())
    /// ```
    pub fn move_word_end_back(self, text: &Text, list: &impl WordList, big: bool, count: u32) -> Result<Caret, Refusal> {
        list.moved(Word::EndBack, self, text, &Folds::new(), big, count)
    }

    fn found(self, which: Seek, text: &Text) -> Result<Option<Caret>, Refusal> {
        let (found, caret) = seek_rows(which, text.points(), text.table(), self).map_err(Refusal::plain)?;
        Ok(found.then_some(caret))
    }

    /// `%`: to the partner of the first round, square or curly bracket at or after the caret in its row; none where there is none, or
    /// it has no partner. [`Refusal::Caret`].
    ///
    /// ```
    /// # use tsivareza::{Caret, Text};
    /// let text: Text = "<(>)".parse()?;
    /// assert_eq!(Caret::at(0, 0).match_bracket(&text)?, Some(Caret::at(0, 3)));
    /// assert_eq!(Caret::at(0, 4).match_bracket(&text)?, None);
    /// # Ok::<(), tsivareza::Refusal>(())
    /// ```
    pub fn match_bracket(self, text: &Text) -> Result<Option<Caret>, Refusal> {
        self.found(Seek::MatchBracket, text)
    }

    /// `f`, `F`, `t` and `T`: to a character in the caret's row, or with `till` up to it; `skip_adjacent` passes one that stands next
    /// to the caret. None where there is none. [`Refusal::Caret`].
    ///
    /// ```
    /// # use tsivareza::{Caret, Text};
    /// let text: Text = "axx".parse()?;
    /// assert_eq!(Caret::at(0, 0).find_char_on_line(&text, 'x', true, true, false)?, Some(Caret::at(0, 0)));
    /// assert_eq!(Caret::at(0, 0).find_char_on_line(&text, 'x', true, true, true)?, Some(Caret::at(0, 1)));
    /// assert_eq!(Caret::at(0, 0).find_char_on_line(&text, 'y', true, false, false)?, None);
    /// # Ok::<(), tsivareza::Refusal>(())
    /// ```
    pub fn find_char_on_line(
        self,
        text: &Text,
        x: char,
        forward: bool,
        till: bool,
        skip_adjacent: bool,
    ) -> Result<Option<Caret>, Refusal> {
        self.found(Seek::FindCharOnLine { x: x.into(), forward, till, skip_adjacent }, text)
    }
}

impl Kept {
    /// `gk` that remembers: segments up, at the offset within a segment that the caret keeps. [`Refusal::Caret`],
    /// [`Refusal::Folds`], [`Refusal::Tabstop`].
    ///
    /// ```
    /// # use tsivareza::{Caret, Cells, Folds, Kept, Text, Viewport, Wrap};
    /// let text: Text = "gusts a squall".parse()?;
    /// let window = Viewport { top: 0, height: 9, width: 6, wrap: Wrap::Word };
    /// let kept = Kept { caret: Caret::at(0, 11), offset: None };
    /// let up = kept.move_screen_up(&text, &Folds::new(), &window, 2, Cells::default())?;
    /// assert_eq!((up.caret.position(), up.offset), ((0, 3), Some(3)));
    /// # Ok::<(), tsivareza::Refusal>(())
    /// ```
    pub fn move_screen_up(self, text: &Text, folds: &Folds, viewport: &Viewport, count: u32, cells: Cells) -> Result<Kept, Refusal> {
        self.on_screen(ScreenKept::Up { mode: viewport.wrap, width: viewport.width }, text, folds, count, cells)
    }

    /// `gj` that remembers, as [`Kept::move_screen_up`] goes up.
    ///
    /// ```
    /// # use tsivareza::{Caret, Cells, Folds, Kept, Text, Viewport, Wrap};
    /// let text: Text = "gusts a squall".parse()?;
    /// let window = Viewport { top: 0, height: 9, width: 6, wrap: Wrap::Word };
    /// let kept = Kept { caret: Caret::at(0, 3), offset: None };
    /// let down = kept.move_screen_down(&text, &Folds::new(), &window, 2, Cells::default())?;
    /// assert_eq!((down.caret.position(), down.offset), ((0, 11), Some(3)));
    /// # Ok::<(), tsivareza::Refusal>(())
    /// ```
    pub fn move_screen_down(
        self,
        text: &Text,
        folds: &Folds,
        viewport: &Viewport,
        count: u32,
        cells: Cells,
    ) -> Result<Kept, Refusal> {
        self.on_screen(ScreenKept::Down { mode: viewport.wrap, width: viewport.width }, text, folds, count, cells)
    }

    fn on_screen(self, which: ScreenKept, text: &Text, folds: &Folds, count: u32, cells: Cells) -> Result<Kept, Refusal> {
        let steps = Steps { folds: folds.numbers(), count, tabstop: cells.tabstop };
        screen_kept_rows(which, text.points(), text.table(), self, steps, cells.ambiguous).map_err(Refusal::plain)
    }
}

impl Caret {
    /// Jumps over a text that is checked once, each from where the one before ended: row and column after each, and the caret
    /// at the end, with the sticky column that it had. They are those of [`Caret::move_word_fwd`], [`Caret::move_word_back`],
    /// [`Caret::move_word_end`] that does not stay and [`Caret::match_bracket`], made in turn; a `%` that finds nothing stays.
    /// [`Refusal::Caret`], [`Refusal::Folds`].
    ///
    /// ```
    /// # use tsivareza::{Caret, Folds, Jump, KeywordList, Text};
    /// let text: Text = "if (n) {\n  y\n}".parse()?;
    /// let (folds, list) = (Folds::new(), KeywordList::default());
    /// let all = [Jump::WordFwd(1), Jump::MatchBracket, Jump::WordBack(2)];
    /// let (places, end) = Caret::at(0, 0).jumps(&text, &folds, &list, &all)?;
    /// assert_eq!(places, [(0, 3), (0, 5), (0, 3)]);
    /// assert_eq!(end, Caret::at(0, 3));
    /// # Ok::<(), tsivareza::Refusal>(())
    /// ```
    pub fn jumps(
        self,
        text: &Text,
        folds: &Folds,
        list: &KeywordList,
        all: &[Jump],
    ) -> Result<(Vec<(u32, u32)>, Caret), Refusal> {
        let pairs: Vec<u32> = all.iter().flat_map(|jump| jump.pair()).collect();
        let mut answers = vec![0; pairs.len()];
        let table = text.table();
        let ground = Ground { starts: table.starts, content: table.content, folds: folds.numbers(), list: list.points() };
        let end = jumps(text.points(), Kept { caret: self, offset: None }, ground, &pairs, &mut answers).map_err(Refusal::plain)?;
        Ok((answers.chunks_exact(2).map(|at| (at[0], at[1])).collect(), end.caret))
    }
}
