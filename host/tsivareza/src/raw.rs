//! The exports as they are declared in `crates/exports`. A slice goes as its pointer and its length; in `lent` each has a
//! form that takes the slices themselves. No other module needs `unsafe`.

macro_rules! exports {
    ($($(#[$doc:meta])* pub fn $name:ident($($given:tt)*) -> $answer:ty;)*) => {
        #[link(name = "exports", kind = "static")]
        unsafe extern "C" {
            $($(#[$doc])* pub fn $name($($given)*) -> $answer;)*
        }

        /// The same on slices and places that are borrowed.
        pub mod lent {
            $(exports!(@ $name $answer [] [] $($given)*,);)*
        }
    };
    // the places for an answer
    (@ $name:ident $answer:ty [$($takes:tt)*] [$($hands:tt)*] $x:ident: *mut [$t:ident; $n:literal], $($rest:tt)*) => {
        exports!(@ $name $answer [$($takes)* $x: &mut [$t; $n],] [$($hands)* $x,] $($rest)*);
    };
    // a slice that is read, and one that is written to
    (@ $name:ident $answer:ty [$($takes:tt)*] [$($hands:tt)*] $x:ident: *const $t:ident, $len:ident: usize, $($rest:tt)*) => {
        exports!(@ $name $answer [$($takes)* $x: &[$t],] [$($hands)* $x.as_ptr(), $x.len(),] $($rest)*);
    };
    (@ $name:ident $answer:ty [$($takes:tt)*] [$($hands:tt)*] $x:ident: *mut $t:ident, $len:ident: usize, $($rest:tt)*) => {
        exports!(@ $name $answer [$($takes)* $x: &mut [$t],] [$($hands)* $x.as_mut_ptr(), $x.len(),] $($rest)*);
    };
    // a number
    (@ $name:ident $answer:ty [$($takes:tt)*] [$($hands:tt)*] $x:ident: $t:ident, $($rest:tt)*) => {
        exports!(@ $name $answer [$($takes)* $x: $t,] [$($hands)* $x,] $($rest)*);
    };
    (@ $name:ident $answer:ty [$($takes:tt)*] [$($hands:tt)*] $(,)?) => {
        #[inline]
        pub fn $name($($takes)*) -> $answer {
            // SAFETY: what is borrowed is live for the call, and what is borrowed to be written to overlaps nothing else. The
            // exports ask nothing more.
            unsafe { super::$name($($hands)*) }
        }
    };
}

exports! {
    pub fn tsivareza_character(op: u32, x: u32, out: *mut [u32; 1]) -> u32;

    pub fn tsivareza_content_row_count(
        text: *const u8,
        text_len: usize,
        room: *mut u32,
        room_len: usize,
        out: *mut [u32; 1],
    ) -> u32;
    pub fn tsivareza_content_row_count_u32(text: *const u32, text_len: usize, out: *mut [u32; 1]) -> u32;

    pub fn tsivareza_keywords(
        op: u32,
        list: *const u8,
        list_len: usize,
        room: *mut u32,
        room_len: usize,
        x: u32,
        out: *mut [u32; 1],
    ) -> u32;
    pub fn tsivareza_keywords_u32(op: u32, list: *const u32, list_len: usize, x: u32, out: *mut [u32; 1]) -> u32;

    pub fn tsivareza_enter(
        op: u32,
        list: *const u8,
        list_len: usize,
        room: *mut u32,
        room_len: usize,
        x: u32,
        out: *mut [u32; 1],
    ) -> u64;
    pub fn tsivareza_enter_u32(op: u32, list: *const u32, list_len: usize, x: u32, out: *mut [u32; 1]) -> u64;

    pub fn tsivareza_vim_list(
        op: u32,
        list: *const u8,
        list_len: usize,
        room: *mut u32,
        room_len: usize,
        x: u32,
        out: *mut [u32; 1],
    ) -> u64;
    pub fn tsivareza_vim_list_u32(op: u32, list: *const u32, list_len: usize, x: u32, out: *mut [u32; 1]) -> u64;
    pub fn tsivareza_vim_write(
        list: *const u8,
        list_len: usize,
        room: *mut u32,
        room_len: usize,
        written: *mut u32,
        written_len: usize,
        out: *mut [u32; 1],
    ) -> u64;
    pub fn tsivareza_vim_write_u32(
        list: *const u32,
        list_len: usize,
        written: *mut u32,
        written_len: usize,
        out: *mut [u32; 1],
    ) -> u64;
    pub fn tsivareza_without_plus(
        list: *const u8,
        list_len: usize,
        room: *mut u32,
        room_len: usize,
        written: *mut u32,
        written_len: usize,
        out: *mut [u32; 1],
    ) -> u32;
    pub fn tsivareza_without_plus_u32(
        list: *const u32,
        list_len: usize,
        written: *mut u32,
        written_len: usize,
        out: *mut [u32; 1],
    ) -> u32;

    pub fn tsivareza_columns(
        op: u32,
        row: *const u8,
        row_len: usize,
        room: *mut u32,
        room_len: usize,
        col: u32,
        tabstop: u32,
        out: *mut [u32; 1],
    ) -> u32;
    pub fn tsivareza_columns_u32(
        op: u32,
        row: *const u32,
        row_len: usize,
        col: u32,
        tabstop: u32,
        out: *mut [u32; 1],
    ) -> u32;

    pub fn tsivareza_offsets(
        op: u32,
        row: *const u8,
        row_len: usize,
        room: *mut u32,
        room_len: usize,
        start: u32,
        end: u32,
        at: u32,
        out: *mut [u32; 1],
    ) -> u32;
    pub fn tsivareza_offsets_u32(
        op: u32,
        row: *const u32,
        row_len: usize,
        start: u32,
        end: u32,
        at: u32,
        out: *mut [u32; 1],
    ) -> u32;

    pub fn tsivareza_segment_for_col(
        segments: *const u8,
        segments_len: usize,
        room: *mut u32,
        room_len: usize,
        col: u32,
        out: *mut [u32; 1],
    ) -> u32;
    pub fn tsivareza_segment_for_col_u32(
        segments: *const u32,
        segments_len: usize,
        col: u32,
        out: *mut [u32; 1],
    ) -> u32;

    pub fn tsivareza_wrap_segments(
        mode: u32,
        row: *const u8,
        row_len: usize,
        room: *mut u32,
        room_len: usize,
        width: u16,
        segments: *mut u32,
        segments_len: usize,
        out: *mut [u32; 1],
    ) -> u32;
    pub fn tsivareza_wrap_segments_u32(
        mode: u32,
        row: *const u32,
        row_len: usize,
        width: u16,
        segments: *mut u32,
        segments_len: usize,
        out: *mut [u32; 1],
    ) -> u32;

    pub fn tsivareza_motion(
        op: u32,
        text: *const u8,
        text_len: usize,
        room: *mut u32,
        room_len: usize,
        row: u32,
        col: u32,
        held: u32,
        sticky: u32,
        count: u32,
        out: *mut [u32; 4],
    ) -> u32;
    pub fn tsivareza_motion_u32(
        op: u32,
        text: *const u32,
        text_len: usize,
        row: u32,
        col: u32,
        held: u32,
        sticky: u32,
        count: u32,
        out: *mut [u32; 4],
    ) -> u32;

    pub fn tsivareza_seek(
        op: u32,
        text: *const u8,
        text_len: usize,
        room: *mut u32,
        room_len: usize,
        row: u32,
        col: u32,
        held: u32,
        sticky: u32,
        x: u32,
        out: *mut [u32; 5],
    ) -> u32;
    pub fn tsivareza_seek_u32(
        op: u32,
        text: *const u32,
        text_len: usize,
        row: u32,
        col: u32,
        held: u32,
        sticky: u32,
        x: u32,
        out: *mut [u32; 5],
    ) -> u32;

    pub fn tsivareza_matching_bracket_pos(
        text: *const u8,
        text_len: usize,
        room: *mut u32,
        room_len: usize,
        row: u32,
        col: u32,
        out: *mut [u32; 3],
    ) -> u32;
    pub fn tsivareza_matching_bracket_pos_u32(
        text: *const u32,
        text_len: usize,
        row: u32,
        col: u32,
        out: *mut [u32; 3],
    ) -> u32;

    pub fn tsivareza_insert(
        text: *mut u32,
        text_len: usize,
        folds: *mut u32,
        folds_len: usize,
        points: *const u8,
        points_len: usize,
        room: *mut u32,
        room_len: usize,
        row: u32,
        col: u32,
        caret: *mut [u32; 6],
        sizes: *mut [u32; 2],
    ) -> u32;
    pub fn tsivareza_insert_u32(
        text: *mut u32,
        text_len: usize,
        folds: *mut u32,
        folds_len: usize,
        points: *const u32,
        points_len: usize,
        row: u32,
        col: u32,
        caret: *mut [u32; 6],
        sizes: *mut [u32; 2],
    ) -> u32;
    pub fn tsivareza_delete(
        text: *mut u32,
        text_len: usize,
        folds: *mut u32,
        folds_len: usize,
        row: u32,
        col: u32,
        end_row: u32,
        end_col: u32,
        caret: *mut [u32; 6],
        sizes: *mut [u32; 2],
    ) -> u32;
    pub fn tsivareza_row_starts(
        text: *const u8,
        text_len: usize,
        room: *mut u32,
        room_len: usize,
        starts: *mut u32,
        starts_len: usize,
        out: *mut [u32; 1],
    ) -> u32;
    pub fn tsivareza_row_starts_u32(
        text: *const u32,
        text_len: usize,
        starts: *mut u32,
        starts_len: usize,
        out: *mut [u32; 1],
    ) -> u32;
    pub fn tsivareza_insert_rows(
        text: *mut u32,
        text_len: usize,
        folds: *mut u32,
        folds_len: usize,
        starts: *mut u32,
        starts_len: usize,
        points: *const u8,
        points_len: usize,
        room: *mut u32,
        room_len: usize,
        row: u32,
        col: u32,
        caret: *mut [u32; 6],
        sizes: *mut [u32; 3],
    ) -> u32;
    pub fn tsivareza_insert_rows_u32(
        text: *mut u32,
        text_len: usize,
        folds: *mut u32,
        folds_len: usize,
        starts: *mut u32,
        starts_len: usize,
        points: *const u32,
        points_len: usize,
        row: u32,
        col: u32,
        caret: *mut [u32; 6],
        sizes: *mut [u32; 3],
    ) -> u32;
    pub fn tsivareza_delete_rows(
        text: *mut u32,
        text_len: usize,
        folds: *mut u32,
        folds_len: usize,
        starts: *mut u32,
        starts_len: usize,
        row: u32,
        col: u32,
        end_row: u32,
        end_col: u32,
        caret: *mut [u32; 6],
        sizes: *mut [u32; 3],
    ) -> u32;
    pub fn tsivareza_inner_pair(
        kind: u32,
        text: *const u8,
        text_len: usize,
        room: *mut u32,
        room_len: usize,
        row: u32,
        col: u32,
        out: *mut [u32; 9],
    ) -> u32;
    pub fn tsivareza_inner_pair_u32(
        kind: u32,
        text: *const u32,
        text_len: usize,
        row: u32,
        col: u32,
        out: *mut [u32; 9],
    ) -> u32;

    pub fn tsivareza_word(
        op: u32,
        text: *const u8,
        text_len: usize,
        folds: *const u8,
        folds_len: usize,
        list: *const u8,
        list_len: usize,
        room: *mut u32,
        room_len: usize,
        row: u32,
        col: u32,
        held: u32,
        sticky: u32,
        big: u32,
        count: u32,
        out: *mut [u32; 4],
    ) -> u32;
    pub fn tsivareza_word_u32(
        op: u32,
        text: *const u32,
        text_len: usize,
        folds: *const u32,
        folds_len: usize,
        list: *const u32,
        list_len: usize,
        row: u32,
        col: u32,
        held: u32,
        sticky: u32,
        big: u32,
        count: u32,
        out: *mut [u32; 4],
    ) -> u32;

    pub fn tsivareza_word_classes(
        text: *const u8,
        text_len: usize,
        list: *const u8,
        list_len: usize,
        room: *mut u32,
        room_len: usize,
        classes: *mut u8,
        classes_len: usize,
        out: *mut [u32; 1],
    ) -> u32;
    pub fn tsivareza_word_classes_u32(
        text: *const u32,
        text_len: usize,
        list: *const u32,
        list_len: usize,
        classes: *mut u8,
        classes_len: usize,
        out: *mut [u32; 1],
    ) -> u32;
    pub fn tsivareza_word_by_class(
        op: u32,
        text: *const u8,
        text_len: usize,
        folds: *const u8,
        folds_len: usize,
        list: *const u8,
        list_len: usize,
        room: *mut u32,
        room_len: usize,
        row: u32,
        col: u32,
        held: u32,
        sticky: u32,
        big: u32,
        count: u32,
        classes: *mut u8,
        classes_len: usize,
        out: *mut [u32; 4],
    ) -> u32;
    pub fn tsivareza_word_by_class_u32(
        op: u32,
        text: *const u32,
        text_len: usize,
        folds: *const u32,
        folds_len: usize,
        list: *const u32,
        list_len: usize,
        row: u32,
        col: u32,
        held: u32,
        sticky: u32,
        big: u32,
        count: u32,
        classes: *mut u8,
        classes_len: usize,
        out: *mut [u32; 4],
    ) -> u32;

    pub fn tsivareza_word_vim(
        op: u32,
        text: *const u8,
        text_len: usize,
        folds: *const u8,
        folds_len: usize,
        list: *const u8,
        list_len: usize,
        room: *mut u32,
        room_len: usize,
        row: u32,
        col: u32,
        held: u32,
        sticky: u32,
        big: u32,
        count: u32,
        out: *mut [u32; 4],
    ) -> u64;
    pub fn tsivareza_word_vim_u32(
        op: u32,
        text: *const u32,
        text_len: usize,
        folds: *const u32,
        folds_len: usize,
        list: *const u32,
        list_len: usize,
        row: u32,
        col: u32,
        held: u32,
        sticky: u32,
        big: u32,
        count: u32,
        out: *mut [u32; 4],
    ) -> u64;

    pub fn tsivareza_vertical(
        op: u32,
        text: *const u8,
        text_len: usize,
        folds: *const u8,
        folds_len: usize,
        room: *mut u32,
        room_len: usize,
        row: u32,
        col: u32,
        held: u32,
        sticky: u32,
        mode: u32,
        width: u16,
        count: u32,
        tabstop: u32,
        out: *mut [u32; 4],
    ) -> u32;
    pub fn tsivareza_vertical_u32(
        op: u32,
        text: *const u32,
        text_len: usize,
        folds: *const u32,
        folds_len: usize,
        row: u32,
        col: u32,
        held: u32,
        sticky: u32,
        mode: u32,
        width: u16,
        count: u32,
        tabstop: u32,
        out: *mut [u32; 4],
    ) -> u32;

    pub fn tsivareza_jumps(
        text: *const u8,
        text_len: usize,
        folds: *const u8,
        folds_len: usize,
        list: *const u8,
        list_len: usize,
        room: *mut u32,
        room_len: usize,
        starts: *const u32,
        starts_len: usize,
        content: u32,
        row: u32,
        col: u32,
        held: u32,
        sticky: u32,
        kept: u32,
        offset: u32,
        pairs: *const u32,
        pairs_len: usize,
        answers: *mut u32,
        answers_len: usize,
        out: *mut [u32; 6],
    ) -> u32;
    pub fn tsivareza_jumps_u32(
        text: *const u32,
        text_len: usize,
        starts: *const u32,
        starts_len: usize,
        content: u32,
        folds: *const u32,
        folds_len: usize,
        list: *const u32,
        list_len: usize,
        row: u32,
        col: u32,
        held: u32,
        sticky: u32,
        kept: u32,
        offset: u32,
        pairs: *const u32,
        pairs_len: usize,
        answers: *mut u32,
        answers_len: usize,
        out: *mut [u32; 6],
    ) -> u32;
    pub fn tsivareza_screen_kept(
        op: u32,
        text: *const u8,
        text_len: usize,
        folds: *const u8,
        folds_len: usize,
        room: *mut u32,
        room_len: usize,
        row: u32,
        col: u32,
        held: u32,
        sticky: u32,
        kept: u32,
        offset: u32,
        mode: u32,
        width: u16,
        count: u32,
        tabstop: u32,
        out: *mut [u32; 6],
    ) -> u32;
    pub fn tsivareza_screen_kept_u32(
        op: u32,
        text: *const u32,
        text_len: usize,
        folds: *const u32,
        folds_len: usize,
        row: u32,
        col: u32,
        held: u32,
        sticky: u32,
        kept: u32,
        offset: u32,
        mode: u32,
        width: u16,
        count: u32,
        tabstop: u32,
        out: *mut [u32; 6],
    ) -> u32;

    pub fn tsivareza_viewport(
        op: u32,
        text: *const u8,
        text_len: usize,
        room: *mut u32,
        room_len: usize,
        row: u32,
        col: u32,
        held: u32,
        sticky: u32,
        top: u32,
        height: u16,
        offset: u32,
        out: *mut [u32; 4],
    ) -> u32;
    pub fn tsivareza_viewport_u32(
        op: u32,
        text: *const u32,
        text_len: usize,
        row: u32,
        col: u32,
        held: u32,
        sticky: u32,
        top: u32,
        height: u16,
        offset: u32,
        out: *mut [u32; 4],
    ) -> u32;

    pub fn tsivareza_motion_rows_u32(
        op: u32,
        text: *const u32,
        text_len: usize,
        starts: *const u32,
        starts_len: usize,
        content: u32,
        row: u32,
        col: u32,
        held: u32,
        sticky: u32,
        count: u32,
        out: *mut [u32; 4],
    ) -> u32;
    pub fn tsivareza_motion_rows(
        op: u32,
        text: *const u8,
        text_len: usize,
        starts: *const u32,
        starts_len: usize,
        content: u32,
        room: *mut u32,
        room_len: usize,
        row: u32,
        col: u32,
        held: u32,
        sticky: u32,
        count: u32,
        out: *mut [u32; 4],
    ) -> u32;
    pub fn tsivareza_word_rows_u32(
        op: u32,
        text: *const u32,
        text_len: usize,
        starts: *const u32,
        starts_len: usize,
        content: u32,
        folds: *const u32,
        folds_len: usize,
        list: *const u32,
        list_len: usize,
        row: u32,
        col: u32,
        held: u32,
        sticky: u32,
        big: u32,
        count: u32,
        out: *mut [u32; 4],
    ) -> u32;
    pub fn tsivareza_word_rows(
        op: u32,
        text: *const u8,
        text_len: usize,
        starts: *const u32,
        starts_len: usize,
        content: u32,
        folds: *const u8,
        folds_len: usize,
        list: *const u8,
        list_len: usize,
        room: *mut u32,
        room_len: usize,
        row: u32,
        col: u32,
        held: u32,
        sticky: u32,
        big: u32,
        count: u32,
        out: *mut [u32; 4],
    ) -> u32;
    pub fn tsivareza_vertical_rows_u32(
        op: u32,
        text: *const u32,
        text_len: usize,
        starts: *const u32,
        starts_len: usize,
        content: u32,
        folds: *const u32,
        folds_len: usize,
        row: u32,
        col: u32,
        held: u32,
        sticky: u32,
        mode: u32,
        width: u16,
        count: u32,
        tabstop: u32,
        out: *mut [u32; 4],
    ) -> u32;
    pub fn tsivareza_vertical_rows(
        op: u32,
        text: *const u8,
        text_len: usize,
        starts: *const u32,
        starts_len: usize,
        content: u32,
        folds: *const u8,
        folds_len: usize,
        room: *mut u32,
        room_len: usize,
        row: u32,
        col: u32,
        held: u32,
        sticky: u32,
        mode: u32,
        width: u16,
        count: u32,
        tabstop: u32,
        out: *mut [u32; 4],
    ) -> u32;
    pub fn tsivareza_screen_kept_rows_u32(
        op: u32,
        text: *const u32,
        text_len: usize,
        starts: *const u32,
        starts_len: usize,
        content: u32,
        folds: *const u32,
        folds_len: usize,
        row: u32,
        col: u32,
        held: u32,
        sticky: u32,
        kept: u32,
        offset: u32,
        mode: u32,
        width: u16,
        count: u32,
        tabstop: u32,
        out: *mut [u32; 6],
    ) -> u32;
    pub fn tsivareza_screen_kept_rows(
        op: u32,
        text: *const u8,
        text_len: usize,
        starts: *const u32,
        starts_len: usize,
        content: u32,
        folds: *const u8,
        folds_len: usize,
        room: *mut u32,
        room_len: usize,
        row: u32,
        col: u32,
        held: u32,
        sticky: u32,
        kept: u32,
        offset: u32,
        mode: u32,
        width: u16,
        count: u32,
        tabstop: u32,
        out: *mut [u32; 6],
    ) -> u32;
    pub fn tsivareza_viewport_rows_u32(
        op: u32,
        text: *const u32,
        text_len: usize,
        starts: *const u32,
        starts_len: usize,
        content: u32,
        row: u32,
        col: u32,
        held: u32,
        sticky: u32,
        top: u32,
        height: u16,
        offset: u32,
        out: *mut [u32; 4],
    ) -> u32;
    pub fn tsivareza_viewport_rows(
        op: u32,
        text: *const u8,
        text_len: usize,
        starts: *const u32,
        starts_len: usize,
        content: u32,
        room: *mut u32,
        room_len: usize,
        row: u32,
        col: u32,
        held: u32,
        sticky: u32,
        top: u32,
        height: u16,
        offset: u32,
        out: *mut [u32; 4],
    ) -> u32;
    pub fn tsivareza_seek_rows_u32(
        op: u32,
        text: *const u32,
        text_len: usize,
        starts: *const u32,
        starts_len: usize,
        content: u32,
        row: u32,
        col: u32,
        held: u32,
        sticky: u32,
        x: u32,
        out: *mut [u32; 5],
    ) -> u32;
    pub fn tsivareza_seek_rows(
        op: u32,
        text: *const u8,
        text_len: usize,
        starts: *const u32,
        starts_len: usize,
        content: u32,
        room: *mut u32,
        room_len: usize,
        row: u32,
        col: u32,
        held: u32,
        sticky: u32,
        x: u32,
        out: *mut [u32; 5],
    ) -> u32;

    pub fn tsivareza_utf8_decode(
        bytes: *const u8,
        bytes_len: usize,
        points: *mut u32,
        points_len: usize,
        out: *mut [u32; 1],
    ) -> u64;
    pub fn tsivareza_utf8_encode(
        points: *const u8,
        points_len: usize,
        room: *mut u32,
        room_len: usize,
        bytes: *mut u8,
        bytes_len: usize,
        out: *mut [u32; 1],
    ) -> u32;
    pub fn tsivareza_utf8_encode_u32(
        points: *const u32,
        points_len: usize,
        bytes: *mut u8,
        bytes_len: usize,
        out: *mut [u32; 1],
    ) -> u32;

    pub fn tsivareza_folds_write_u32(
        text: *const u32,
        text_len: usize,
        folds: *const u32,
        folds_len: usize,
        file: *mut u8,
        file_len: usize,
        out: *mut [u32; 1],
    ) -> u32;
    pub fn tsivareza_folds_write(
        text: *const u8,
        text_len: usize,
        folds: *const u8,
        folds_len: usize,
        room: *mut u32,
        room_len: usize,
        file: *mut u8,
        file_len: usize,
        out: *mut [u32; 1],
    ) -> u32;
    pub fn tsivareza_folds_read_u32(
        text: *const u32,
        text_len: usize,
        file: *const u8,
        file_len: usize,
        folds: *mut u32,
        folds_len: usize,
        out: *mut [u32; 1],
    ) -> u32;
    pub fn tsivareza_folds_read(
        text: *const u8,
        text_len: usize,
        file: *const u8,
        file_len: usize,
        room: *mut u32,
        room_len: usize,
        folds: *mut u32,
        folds_len: usize,
        out: *mut [u32; 1],
    ) -> u32;

    pub fn tsivareza_session(input: *const u8, input_len: usize, out: *mut [u8; 393240]) -> usize;
}
