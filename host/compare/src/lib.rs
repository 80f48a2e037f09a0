//! What the proved library answers to a case of the oracle's, in the oracle's terms.

pub mod differ;
pub mod options;

use oracle::Outcome;
use oracle::case::{Case, FILLER, FILLER_CLASS};
use tsivareza::{
    self as lib, Ambiguous, Columns, Enter, Kept, Keywords, Offsets, Room, Rows, ScreenKept, Seek, Steps, Vertical, ViewportMove, Vim, Word,
    Words, bytes,
};

/// The answer on code points, which the one on bytes must equal where it was asked for.
fn both<T: PartialEq + std::fmt::Debug>(case: &Case, on_points: T, on_bytes: Option<T>) -> T {
    if let Some(on_bytes) = on_bytes {
        assert_eq!(on_bytes, on_points, "the two forms of a call differ on: {case}");
    }
    on_points
}

fn fact(truth: Result<bool, u32>) -> Outcome {
    truth.map_or_else(Outcome::Refused, Outcome::Truth)
}

fn number(n: Result<u32, u32>) -> Outcome {
    n.map_or_else(Outcome::Refused, |n| Outcome::Number(n.into()))
}

fn truth(n: Result<u32, u32>) -> Outcome {
    n.map_or_else(Outcome::Refused, |n| Outcome::Truth(n == 1))
}

/// A number, or a refusal with its place.
fn placed(n: Result<u32, (u32, u32)>, of: fn(u32) -> Outcome) -> Outcome {
    n.map_or_else(|(number, place)| Outcome::refused_at(number, place), of)
}

fn caret(k: lib::Caret) -> oracle::Caret {
    oracle::Caret { row: k.row, col: k.col, sticky: k.sticky }
}

fn moved(k: Result<lib::Caret, u32>) -> Outcome {
    k.map_or_else(Outcome::Refused, |k| Outcome::Moved(caret(k)))
}

/// What the library answers: on code points, and with a room on bytes too.
pub fn port(case: &Case, mut room: Option<&mut Room>) -> Outcome {
    let (text, line, list, x, col) = (&case.text, &case.line, &case.list, case.character, case.column);
    let (name, ambiguous) = named(case);
    let k = lib::Caret { row: case.caret.row, col: case.caret.col, sticky: case.caret.sticky };
    if let Some(&(_, which)) = lib::MOTIONS.iter().find(|(name, _)| *name == case.call.name) {
        let on_bytes = room.map(|room| room.motion(which, &bytes(text), k, case.count));
        return moved(both(case, lib::motion(which, text, k, case.count), on_bytes));
    }
    if let Some(which) = vertical(case) {
        let (folds, count, tabstop) = (&case.folds[..], case.count, case.tabstop);
        let on_bytes =
            room.map(|room| room.vertical_as(which, &bytes(text), k, Steps { folds: &bytes(folds), count, tabstop }, ambiguous));
        return moved(both(case, lib::vertical_as(which, text, k, Steps { folds, count, tabstop }, ambiguous), on_bytes));
    }
    if let Some(which) = screen_kept(case) {
        let (folds, count, tabstop) = (&case.folds[..], case.count, case.tabstop);
        let k = Kept { caret: k, offset: case.offset };
        let on_bytes =
            room.map(|room| room.screen_kept_as(which, &bytes(text), k, Steps { folds: &bytes(folds), count, tabstop }, ambiguous));
        let moved = both(case, lib::screen_kept_as(which, text, k, Steps { folds, count, tabstop }, ambiguous), on_bytes);
        return moved.map_or_else(Outcome::Refused, |k| Outcome::Kept(caret(k.caret), k.offset));
    }
    if let Some(which) = viewport(case) {
        let on_bytes = room.map(|room| room.viewport(which, &bytes(text), k));
        return moved(both(case, lib::viewport(which, text, k), on_bytes));
    }
    if let Some(which) = word(case) {
        let (count, big, folds) = (case.count, case.big, &case.folds);
        let on_bytes = room.map(|room| {
            let words = Words { folds: &bytes(folds)[..], list: &bytes(list)[..], big };
            room.word(which, &bytes(text), k, words, count)
        });
        return moved(both(case, lib::word(which, text, k, Words { folds: &folds[..], list: &list[..], big }, count), on_bytes));
    }
    if let Some(which) = word_by_class(case) {
        return classed(case, which, k, room);
    }
    if let Some(which) = word_by_vim(case) {
        let (count, big, folds) = (case.count, case.big, &case.folds);
        let on_bytes = room.map(|room| {
            let words = Words { folds: &bytes(folds)[..], list: &bytes(list)[..], big };
            room.word_vim(which, &bytes(text), k, words, count)
        });
        let on_points = lib::word_vim(which, text, k, Words { folds: &folds[..], list: &list[..], big }, count);
        let moved = both(case, on_points, on_bytes);
        return moved.map_or_else(|(number, place)| Outcome::refused_at(number, place), |k| Outcome::Moved(caret(k)));
    }
    let mut keywords = |asked| {
        let on_bytes = room.as_mut().map(|room| room.keywords(asked, &bytes(list)));
        both(case, lib::keywords(asked, list), on_bytes)
    };
    match name {
        "is_scalar" => return Outcome::Truth(lib::is_scalar(x)),
        "is_white" => return fact(lib::is_white(x)),
        "is_letter" => return fact(lib::is_letter(x)),
        "width" => return number(lib::width_as(x, ambiguous)),
        "parse" => return number(keywords(Keywords::Parse)),
        "matches" => return truth(keywords(Keywords::Matches(x))),
        "is_keyword_char" => return truth(keywords(Keywords::IsKeywordChar(x))),
        _ => {}
    }
    let mut entered = |asked| {
        let on_bytes = room.as_mut().map(|room| room.enter(asked, &bytes(list)));
        both(case, lib::enter(asked, list), on_bytes)
    };
    match case.call.name {
        "enter" => return placed(entered(Enter::Count), |n| Outcome::Number(n.into())),
        "enter_matches" => return placed(entered(Enter::Matches(x)), |n| Outcome::Truth(n == 1)),
        _ => {}
    }
    let mut by_vim = |asked| {
        let on_bytes = room.as_mut().map(|room| room.vim_list(asked, &bytes(list)));
        both(case, lib::vim_list(asked, list), on_bytes)
    };
    match case.call.name {
        "vim_parse" => return placed(by_vim(Vim::Count), |n| Outcome::Number(n.into())),
        "vim_matches" => return placed(by_vim(Vim::Matches(x)), |n| Outcome::Truth(n == 1)),
        _ => {}
    }
    let mut columns = |asked| {
        let on_bytes = room.as_mut().map(|room| room.columns_as(asked, &bytes(line), case.tabstop, ambiguous));
        number(both(case, lib::columns_as(asked, line, case.tabstop, ambiguous), on_bytes))
    };
    match name {
        "visual_col_to_char_col" => return columns(Columns::VisualColToCharCol(col)),
        "char_col_to_visual_col" => return columns(Columns::CharColToVisualCol(col)),
        "cursor_visual_col" => return columns(Columns::CursorVisualCol(col)),
        "leading_visual_width" => return columns(Columns::LeadingVisualWidth),
        _ => {}
    }
    let mut offsets = |asked| {
        let on_bytes = room.as_mut().map(|room| room.offsets_as(asked, &bytes(line), ambiguous));
        number(both(case, lib::offsets_as(asked, line, ambiguous), on_bytes))
    };
    let (start, end) = (case.start, case.end);
    match name {
        "char_col_for_visual_offset" => return offsets(Offsets::CharColForVisualOffset { start, end, offset: col }),
        "visual_offset_for_char_col" => return offsets(Offsets::VisualOffsetForCharCol { start, col }),
        _ => {}
    }
    let mut seek = |which| {
        let on_bytes = room.as_mut().map(|room| room.seek(which, &bytes(text), k));
        let sought = both(case, lib::seek(which, text, k), on_bytes);
        sought.map_or_else(Outcome::Refused, |(found, k)| Outcome::Told(found, caret(k)))
    };
    match name {
        "match_bracket" => seek(Seek::MatchBracket),
        "find_char_on_line" => {
            seek(Seek::FindCharOnLine { x, forward: case.forward, till: case.till, skip_adjacent: case.skip })
        }
        "matching_bracket_pos" => {
            let on_bytes = room.map(|room| room.matching_bracket_pos(&bytes(text), k.row, k.col));
            let place = both(case, lib::matching_bracket_pos(text, k.row, k.col), on_bytes);
            place.map_or_else(Outcome::Refused, Outcome::Place)
        }
        "inner_pair" => {
            let kind = [lib::Kind::Round, lib::Kind::Square, lib::Kind::Curly, lib::Kind::Angle][case.kind];
            let on_bytes = room.map(|room| room.inner_pair(kind, &bytes(text), k.row, k.col));
            let pair = both(case, lib::inner_pair(kind, text, k.row, k.col), on_bytes);
            let places = |r: lib::Ranges| [r.between, r.whole].map(|r| [r.start.0, r.start.1, r.end.0, r.end.1]).concat();
            pair.map_or_else(Outcome::Refused, |r| Outcome::Ranges(r.map(|r| places(r).try_into().expect("four positions"))))
        }
        "segment_for_col" => {
            let on_bytes = room.map(|room| room.segment_for_col(&bytes(&case.segments), col));
            number(both(case, lib::segment_for_col(&case.segments, col), on_bytes))
        }
        "content_row_count" => {
            let on_bytes = room.map(|room| room.content_row_count(&bytes(text)));
            number(both(case, lib::content_row_count(text), on_bytes))
        }
        "word_classes" => classes(case, room),
        "wrap_segments" => wrapped(case, room),
        "without_plus" => plain(case, room),
        "vim_write" => vim_written(case, room),
        name => panic!("no call `{name}`"),
    }
}

/// What the library answers to a motion with a table of row starts, on code points, and with a room on bytes too; nothing for a
/// call that has no such form.
pub fn port_rows(case: &Case, rows: Rows, room: Option<&mut Room>) -> Option<Outcome> {
    let (text, (name, ambiguous), count) = (&case.text[..], named(case), case.count);
    let k = lib::Caret { row: case.caret.row, col: case.caret.col, sticky: case.caret.sticky };
    let steps = Steps { folds: &case.folds[..], count, tabstop: case.tabstop };
    let folds = bytes(&case.folds);
    let (in_bytes, in_folds) = (room.is_some().then(|| bytes(text)).unwrap_or_default(), Steps { folds: &folds[..], count, tabstop: case.tabstop });
    if let Some(&(_, which)) = lib::MOTIONS.iter().find(|(name, _)| *name == case.call.name) {
        let on_bytes = room.map(|room| room.motion_rows(which, &in_bytes, rows, k, count));
        return Some(moved(both(case, lib::motion_rows(which, text, rows, k, count), on_bytes)));
    }
    if let Some(which) = vertical(case) {
        let on_bytes = room.map(|room| room.vertical_rows(which, &in_bytes, rows, k, in_folds, ambiguous));
        return Some(moved(both(case, lib::vertical_rows(which, text, rows, k, steps, ambiguous), on_bytes)));
    }
    if let Some(which) = screen_kept(case) {
        let k = Kept { caret: k, offset: case.offset };
        let on_bytes = room.map(|room| room.screen_kept_rows(which, &in_bytes, rows, k, in_folds, ambiguous));
        let moved = both(case, lib::screen_kept_rows(which, text, rows, k, steps, ambiguous), on_bytes);
        return Some(moved.map_or_else(Outcome::Refused, |k| Outcome::Kept(caret(k.caret), k.offset)));
    }
    if let Some(which) = viewport(case) {
        let on_bytes = room.map(|room| room.viewport_rows(which, &in_bytes, rows, k));
        return Some(moved(both(case, lib::viewport_rows(which, text, rows, k), on_bytes)));
    }
    if let Some(which) = word(case) {
        let on_bytes = room.map(|room| {
            let words = Words { folds: &folds[..], list: &bytes(&case.list)[..], big: case.big };
            room.word_rows(which, &in_bytes, rows, k, words, count)
        });
        let words = Words { folds: &case.folds[..], list: &case.list[..], big: case.big };
        return Some(moved(both(case, lib::word_rows(which, text, rows, k, words, count), on_bytes)));
    }
    let which = match name {
        "match_bracket" => Seek::MatchBracket,
        "find_char_on_line" => {
            Seek::FindCharOnLine { x: case.character, forward: case.forward, till: case.till, skip_adjacent: case.skip }
        }
        _ => return None,
    };
    let on_bytes = room.map(|room| room.seek_rows(which, &in_bytes, rows, k));
    let sought = both(case, lib::seek_rows(which, text, rows, k), on_bytes);
    Some(sought.map_or_else(Outcome::Refused, |(found, k)| Outcome::Told(found, caret(k))))
}

/// The name of a call without the flag, and the setting.
fn named(case: &Case) -> (&'static str, Ambiguous) {
    let name = case.call.name;
    oracle::wide::stem(name).map_or((name, Ambiguous::Narrow), |stem| (stem, Ambiguous::Wide))
}

fn word(case: &Case) -> Option<Word> {
    match case.call.name {
        "move_word_fwd" => Some(Word::Fwd),
        "move_word_back" => Some(Word::Back),
        "move_word_end" => Some(Word::End { stop: case.stop }),
        "move_word_end_back" => Some(Word::EndBack),
        _ => None,
    }
}

fn word_by_class(case: &Case) -> Option<Word> {
    match case.call.name {
        "word_fwd_by_class" => Some(Word::Fwd),
        "word_back_by_class" => Some(Word::Back),
        "word_end_by_class" => Some(Word::End { stop: case.stop }),
        "word_end_back_by_class" => Some(Word::EndBack),
        _ => None,
    }
}

fn word_by_vim(case: &Case) -> Option<Word> {
    match case.call.name {
        "word_fwd_by_vim" => Some(Word::Fwd),
        "word_back_by_vim" => Some(Word::Back),
        "word_end_by_vim" => Some(Word::End { stop: case.stop }),
        "word_end_back_by_vim" => Some(Word::EndBack),
        _ => None,
    }
}

fn vertical(case: &Case) -> Option<Vertical> {
    let (mode, width) = (mode(case), case.view.width);
    match named(case).0 {
        "move_up" => Some(Vertical::Up),
        "move_down" => Some(Vertical::Down),
        "move_screen_up" => Some(Vertical::ScreenUp { mode, width }),
        "move_screen_down" => Some(Vertical::ScreenDown { mode, width }),
        _ => None,
    }
}

fn screen_kept(case: &Case) -> Option<ScreenKept> {
    let (mode, width) = (mode(case), case.view.width);
    match named(case).0 {
        "move_screen_up_kept" => Some(ScreenKept::Up { mode, width }),
        "move_screen_down_kept" => Some(ScreenKept::Down { mode, width }),
        _ => None,
    }
}

fn viewport(case: &Case) -> Option<ViewportMove> {
    let (top, height, offset) = (case.view.top, case.view.height, case.count);
    match case.call.name {
        "move_viewport_top" => Some(ViewportMove::Top { top, offset }),
        "move_viewport_middle" => Some(ViewportMove::Middle { top, height }),
        "move_viewport_bottom" => Some(ViewportMove::Bottom { top, height, offset }),
        _ => None,
    }
}

fn mode(case: &Case) -> lib::Wrap {
    match case.view.wrap {
        oracle::Wrap::None => lib::Wrap::None,
        oracle::Wrap::Char => lib::Wrap::Char,
        oracle::Wrap::Word => lib::Wrap::Word,
    }
}

/// `wrap_segments`, the places lent for segments watched.
fn wrapped(case: &Case, room: Option<&mut Room>) -> Outcome {
    let (mode, line, width, ambiguous) = (mode(case), &case.line, case.view.width, named(case).1);
    let mut segments = vec![FILLER; case.room as usize];
    let on_points = lib::wrap_segments_as(line, width, mode, &mut segments, ambiguous);
    if let Some(room) = room {
        let mut again = vec![FILLER; case.room as usize];
        let on_bytes = room.wrap_segments_as(&bytes(line), width, mode, &mut again, ambiguous);
        let _ = both(case, (on_points, &segments), Some((on_bytes, &again)));
    }
    if on_points.is_err() {
        assert!(segments.iter().all(|&x| x == FILLER), "a refusal wrote segments on: {case}");
    }
    on_points.map_or_else(Outcome::Refused, |count| Outcome::Segments(count, segments))
}

/// `without_plus`, the places lent for the list watched.
fn plain(case: &Case, room: Option<&mut Room>) -> Outcome {
    let mut written = vec![FILLER; case.room as usize];
    let on_points = lib::without_plus(&case.list, &mut written);
    if let Some(room) = room {
        let mut again = vec![FILLER; case.room as usize];
        let on_bytes = room.without_plus(&bytes(&case.list), &mut again);
        let _ = both(case, (on_points, &written), Some((on_bytes, &again)));
    }
    if on_points.is_err() {
        assert!(written.iter().all(|&x| x == FILLER), "a refusal wrote a list on: {case}");
    }
    on_points.map_or_else(Outcome::Refused, |count| Outcome::Written(count, written))
}

/// `vim_write`, the places lent for the list watched.
fn vim_written(case: &Case, room: Option<&mut Room>) -> Outcome {
    let mut written = vec![FILLER; case.room as usize];
    let on_points = lib::vim_write(&case.list, &mut written);
    if let Some(room) = room {
        let mut again = vec![FILLER; case.room as usize];
        let on_bytes = room.vim_write(&bytes(&case.list), &mut again);
        let _ = both(case, (on_points, &written), Some((on_bytes, &again)));
    }
    if on_points.is_err() {
        assert!(written.iter().all(|&x| x == FILLER), "a refusal wrote a list on: {case}");
    }
    on_points.map_or_else(|(number, place)| Outcome::refused_at(number, place), |count| Outcome::Written(count, written))
}

/// The slice for classes after a call, which a refusal leaves as it was.
fn watched(case: &Case, refused: bool, slice: &[u8]) {
    if refused {
        assert!(slice.iter().all(|&x| x == FILLER_CLASS), "a refusal wrote classes on: {case}");
    }
}

/// `word_classes`, the places lent for classes watched.
fn classes(case: &Case, room: Option<&mut Room>) -> Outcome {
    let mut slice = vec![FILLER_CLASS; case.room as usize];
    let on_points = lib::word_classes(&case.text, &case.list, &mut slice);
    if let Some(room) = room {
        let mut again = vec![FILLER_CLASS; case.room as usize];
        let on_bytes = room.word_classes(&bytes(&case.text), &bytes(&case.list), &mut again);
        let _ = both(case, (on_points, &slice), Some((on_bytes, &again)));
    }
    watched(case, on_points.is_err(), &slice);
    on_points.map_or_else(Outcome::Refused, |count| Outcome::Classes(count, slice))
}

/// A word motion by the classes, the places lent for classes watched; with a room, the first engine must answer the same but for 14.
fn classed(case: &Case, which: Word, k: lib::Caret, room: Option<&mut Room>) -> Outcome {
    let (text, count) = (&case.text, case.count);
    let words = Words { folds: &case.folds[..], list: &case.list[..], big: case.big };
    let mut slice = vec![FILLER_CLASS; case.room as usize];
    let on_points = lib::word_by_class(which, text, k, words, count, &mut slice);
    if let Some(room) = room {
        if on_points != Err(14) {
            assert_eq!(on_points, lib::word(which, text, k, words, count), "the two engines differ on: {case}");
        }
        let mut again = vec![FILLER_CLASS; case.room as usize];
        let words = Words { folds: &bytes(words.folds)[..], list: &bytes(words.list)[..], big: case.big };
        let on_bytes = room.word_by_class(which, &bytes(text), k, words, count, &mut again);
        let _ = both(case, (on_points, &slice), Some((on_bytes, &again)));
    }
    watched(case, on_points.is_err(), &slice);
    on_points.map_or_else(Outcome::Refused, |k| Outcome::Classed(caret(k), slice))
}
