//! What the boundary itself refuses, and what it leaves in the lent room.

use tsivareza::{
    Caret, Columns, Enter, Keywords, Kind, Motion, Offsets, Room, Seek, Steps, Vertical, ViewportMove, Vim, Word, Words, Wrap, bytes,
    content_row_count,
};

/// What a room holds that no text of these tests has.
const BEFORE: u32 = 0x77;

/// A room for that many code points, no place of which is 0. Segments may be of any length.
fn used(points: usize) -> Room {
    let mut room = Room::new(points);
    _ = room.segment_for_col(&bytes(&vec![BEFORE; points]), 0);
    assert_eq!(room.points(), vec![BEFORE; points]);
    room
}

const START: Caret = Caret { row: 0, col: 0, sticky: None };

#[test]
fn bytes_that_make_no_whole_code_points() {
    let mut room = used(4);
    for n in [1, 2, 3, 5, 7, 17] {
        assert_eq!(room.content_row_count(&vec![0; n]), Err(101));
    }
    assert_eq!(room.points(), [BEFORE; 4]);
}

#[test]
fn too_little_room() {
    let mut room = used(2);
    assert_eq!(room.content_row_count(&bytes(&[1, 2, 3])), Err(102));
    assert_eq!(room.content_row_count(&bytes(&[0xD800, 2, 3])), Err(102));
    assert_eq!(room.points(), [BEFORE; 2]);
    assert_eq!(room.content_row_count(&bytes(&[1, 2])), Ok(1));
    assert_eq!(room.points(), [1, 2]);
}

#[test]
fn code_points_are_little_endian() {
    let mut room = Room::new(3);
    assert_eq!(room.content_row_count(&[0x42, 0x30, 0, 0, 0x0A, 0, 0, 0]), Ok(1));
    assert_eq!(room.points(), [0x3042, 0x0A, 0]);
    assert_eq!(room.content_row_count(&[0, 0, 0, 0x0A]), Err(2));
    assert_eq!(room.points(), [0x0A00_0000, 0x0A, 0]);
}

#[test]
fn three_slices_share_the_room() {
    let (text, folds, list) = (bytes(&[0x61, 0x20, 0x62]), bytes(&[0, 0, 1]), bytes(&[0x40]));
    let word = |room: &mut Room, folds: &[u8], list: &[u8]| {
        room.word(Word::Fwd, &text, START, Words { folds, list, big: false }, 1)
    };
    let mut room = used(6);
    assert_eq!(word(&mut room, &folds, &list), Err(102));
    assert_eq!(word(&mut room, &folds[..11], &list[..1]), Err(101));
    assert_eq!(room.points(), [BEFORE; 6]);
    let mut room = used(8);
    assert_eq!(word(&mut room, &folds, &list), Ok(Caret { row: 0, col: 2, sticky: None }));
    assert_eq!(room.points(), [0x61, 0x20, 0x62, 0, 0, 1, 0x40, BEFORE]);
    assert_eq!(word(&mut room, &bytes(&[0, 1, 1]), &list), Err(5));
    assert_eq!(room.points(), [0x61, 0x20, 0x62, 0, 1, 1, 0x40, BEFORE]);
}

/// A refused call on bytes: the code points stand at the start of the room, the rest is as it was.
fn refused<T: std::fmt::Debug>(number: u32, parts: &[&[u32]], call: impl FnOnce(&mut Room) -> Result<T, u32>) {
    let mut points = parts.concat();
    let mut room = used(points.len() + 3);
    assert_eq!(call(&mut room).unwrap_err(), number);
    points.extend([BEFORE; 3]);
    assert!(room.points() == points, "the room after the refusal {number}");
}

#[test]
fn a_refused_call_leaves_the_code_points_in_the_room() {
    let long = vec![0x61; 1_048_577];
    refused(1, &[&long], |room| room.content_row_count(&bytes(&long)));
    refused(1, &[&long], |room| room.columns(Columns::LeadingVisualWidth, &bytes(&long), 8));
    let bad: &[u32] = &[0x61, 0xD800];
    refused(2, &[bad], |room| room.matching_bracket_pos(&bytes(bad), 0, 0));
    refused(2, &[bad], |room| room.offsets(Offsets::VisualOffsetForCharCol { start: 0, col: 0 }, &bytes(bad)));
    refused(2, &[&[0x40]], |room| room.keywords(Keywords::Matches(0xDFFF), &bytes(&[0x40])));
    let find = Seek::FindCharOnLine { x: 0x110000, forward: true, till: false, skip_adjacent: false };
    refused(2, &[&[0x61]], |room| room.seek(find, &bytes(&[0x61]), START));
    refused(3, &[&[0x0D]], |room| room.motion(Motion::move_left, &bytes(&[0x0D]), START, 1));
    let outside = Caret { row: 0, col: 2, sticky: Some(5) };
    refused(4, &[&[0x61]], |room| room.motion(Motion::move_top, &bytes(&[0x61]), outside, 1));
    refused(4, &[&[0x61]], |room| room.viewport(ViewportMove::Top { top: 0, offset: 0 }, &bytes(&[0x61]), outside));
    refused(4, &[&[0x28, 0x29]], |room| room.inner_pair(Kind::Round, &bytes(&[0x28, 0x29]), 0, 3));
    let down = |folds: &[u32], tabstop| {
        let folds = bytes(folds);
        move |room: &mut Room| room.vertical(Vertical::Down, &bytes(&[0x61]), START, Steps { folds: &folds, count: 1, tabstop })
    };
    refused(5, &[&[0x61], &[0, 1, 1]], down(&[0, 1, 1], 8));
    refused(6, &[&[0x61], &[0, 0, 1]], down(&[0, 0, 1], 1_001));
    refused(7, &[bad], |room| room.keywords(Keywords::IsKeywordChar(0x61), &bytes(bad)));
    let tokens = [0x61, 0x2C].repeat(129);
    refused(8, &[&tokens], |room| room.keywords(Keywords::Parse, &bytes(&tokens)));
    let mut segments = [BEFORE; 3];
    refused(9, &[&[0x61; 2]], |room| room.wrap_segments(&bytes(&[0x61; 2]), 1, Wrap::Char, &mut segments));
    assert_eq!(segments, [BEFORE; 3]);
    refused(10, &[&[0, 1, 1]], |room| room.segment_for_col(&bytes(&[0, 1, 1]), 0));
}

#[test]
fn refusals_of_a_text() {
    assert_eq!(content_row_count(&vec![0x61; 1_048_577]), Err(1));
    assert_eq!(content_row_count(&[0xD800, 0x0D]), Err(2));
    assert_eq!(content_row_count(&[0x2028]), Err(3));
    assert_eq!(content_row_count(&[]), Ok(1));
}

#[test]
fn a_character_tested_is_a_scalar_value() {
    for x in [0xD7FF, 0xE000, 0x10FFFF] {
        assert!(tsivareza::is_scalar(x));
        assert!(tsivareza::is_white(x).is_ok() && tsivareza::is_letter(x).is_ok() && tsivareza::width(x).is_ok());
    }
    for x in [0xD800, 0xDFFF, 0x110000, u32::MAX] {
        assert!(!tsivareza::is_scalar(x));
        assert_eq!((tsivareza::is_white(x), tsivareza::is_letter(x), tsivareza::width(x)), (Err(2), Err(2), Err(2)));
    }
}

#[test]
fn utf_8_refuses_before_it_writes() {
    let mut points = [7; 3];
    assert_eq!(tsivareza::utf8_decode(b"ab\xC3", &mut points), Err((13, 3)));
    assert_eq!(tsivareza::utf8_decode(b"a\xFF", &mut points[..0]), Err((13, 1)));
    assert_eq!(tsivareza::utf8_decode(b"abcd", &mut points), Err((14, 0)));
    assert_eq!(points, [7; 3]);
    assert_eq!(tsivareza::utf8_decode(b"ab", &mut points), Ok(2));
    assert_eq!(points, [0x61, 0x62, 7]);
    let mut bytes = [9; 4];
    assert_eq!(tsivareza::utf8_encode(&[0x61, 0xDFFF], &mut bytes), Err(2));
    assert_eq!(tsivareza::utf8_encode(&[0x61, 0x2192, 0x61], &mut bytes), Err(14));
    assert_eq!(Room::new(2).utf8_encode(&[0x61, 0, 0], &mut bytes), Err(101));
    assert_eq!(Room::new(1).utf8_encode(&tsivareza::bytes(&[0x61, 0x62]), &mut bytes), Err(102));
    assert_eq!(bytes, [9; 4]);
    assert_eq!(tsivareza::utf8_encode(&[0x2192], &mut bytes), Ok(3));
    assert_eq!(bytes, [0xE2, 0x86, 0x92, 9]);
}

#[test]
fn a_list_with_a_retired_sign_leaves_what_is_lent() {
    let (list, mut written) = ([0x35, 0x2C, 0x2B, 0x34], [BEFORE; 4]);
    let mut room = used(5);
    assert_eq!(room.enter(Enter::Count, &bytes(&list)), Err((21, 2)));
    assert_eq!(room.points(), [0x35, 0x2C, 0x2B, 0x34, BEFORE]);
    let mut room = used(3);
    assert_eq!(room.enter(Enter::Matches(0xD800), &bytes(&list)[..15]), Err((101, 0)));
    assert_eq!(room.enter(Enter::Matches(0xD800), &bytes(&list)), Err((102, 0)));
    assert_eq!(room.without_plus(&bytes(&list)[..15], &mut written), Err(101));
    assert_eq!(room.without_plus(&bytes(&list), &mut written), Err(102));
    assert_eq!(room.points(), [BEFORE; 3]);
    assert_eq!(tsivareza::enter(Enter::Matches(0xD800), &list), Err((2, 0)));
    assert_eq!(tsivareza::without_plus(&[0xD800, 0x2B, 0x34], &mut written), Err(7));
    assert_eq!(tsivareza::without_plus(&list, &mut written[..2]), Err(14));
    assert_eq!(written, [BEFORE; 4]);
    assert_eq!(tsivareza::without_plus(&list, &mut written), Ok(3));
    assert_eq!(written, [0x35, 0x2C, 0x34, BEFORE]);
    assert_eq!(tsivareza::enter(Enter::Matches(4), &written[..3]), Ok(1));
}

#[test]
fn a_vim_list_leaves_what_is_lent() {
    let (list, mut written) = ([0x61, 0x2C, 0x30, 0x39, 0x38], [BEFORE; 5]);
    let mut room = used(5);
    assert_eq!(room.vim_list(Vim::Count, &bytes(&list[..2])), Err((17, 2)));
    assert_eq!(room.points(), [0x61, 0x2C, BEFORE, BEFORE, BEFORE]);
    let mut room = used(3);
    assert_eq!(room.vim_list(Vim::Matches(0xD800), &bytes(&list)[..15]), Err((101, 0)));
    assert_eq!(room.vim_list(Vim::Matches(0xD800), &bytes(&list)), Err((102, 0)));
    assert_eq!(room.vim_write(&bytes(&list)[..15], &mut written), Err((101, 0)));
    assert_eq!(room.vim_write(&bytes(&list), &mut written), Err((102, 0)));
    assert_eq!(room.points(), [BEFORE; 3]);
    assert_eq!(tsivareza::vim_list(Vim::Matches(0xD800), &list[..2]), Err((2, 0)));
    assert_eq!(tsivareza::vim_write(&[0x2C, 0xD800], &mut written), Err((7, 0)));
    assert_eq!(tsivareza::vim_write(&list[..2], &mut written), Err((17, 2)));
    assert_eq!(tsivareza::vim_write(&list, &mut written[..3]), Err((14, 0)));
    assert_eq!(written, [BEFORE; 5]);
    assert_eq!(tsivareza::vim_write(&list, &mut written), Ok(4));
    assert_eq!(written, [0x61, 0x2C, 0x39, 0x38, BEFORE]);
    assert_eq!(tsivareza::vim_list(Vim::Matches(98), &written[..4]), Ok(1));
}

#[test]
fn fold_files_refuse_before_they_write() {
    let text = [0x61, 0x0A, 0x62];
    let mut file = [9; 513];
    assert_eq!(tsivareza::folds_write(&[0x0D], &[0, 1, 1], &mut file), Err(3));
    assert_eq!(tsivareza::folds_write(&text, &[0, 1], &mut file), Err(5));
    assert_eq!(tsivareza::folds_write(&text, &[0, 1, 1], &mut file[..511]), Err(14));
    assert_eq!(Room::new(9).folds_write(&[0x61, 0, 0], &[], &mut file), Err(101));
    assert_eq!(Room::new(5).folds_write(&tsivareza::bytes(&text), &tsivareza::bytes(&[0, 1, 1]), &mut file), Err(102));
    assert_eq!(file, [9; 513]);
    assert_eq!(Room::new(6).folds_write(&tsivareza::bytes(&text), &tsivareza::bytes(&[0, 1, 1]), &mut file), Ok(512));
    assert_eq!((file[4], file[8], file[12], file[512]), (0, 1, 1, 9));
    let file = &mut file[..512];
    let mut folds = [7; 3];
    assert_eq!(tsivareza::folds_read(&text, &file[..511], &mut folds), Err(18));
    assert_eq!(tsivareza::folds_read(&[0x61], file, &mut folds), Err(5));
    assert_eq!(tsivareza::folds_read(&text, file, &mut folds[..2]), Err(14));
    file[100] = 1;
    assert_eq!(tsivareza::folds_read(&text, file, &mut folds), Err(19));
    file[510] += 1;
    assert_eq!(tsivareza::folds_read(&text, file, &mut folds), Err(20));
    assert_eq!(Room::new(2).folds_read(&tsivareza::bytes(&text), file, &mut folds), Err(102));
    assert_eq!(folds, [7; 3]);
}

/// The stored files of 0, 1, 56, 57 and 256 folds: fold i is (i, i + i % 44, i % 2), over 300 rows.
#[test]
fn stored_fold_files_are_written_and_read() {
    let text = [10; 299];
    for n in [0_u32, 1, 56, 57, 256] {
        let list: Vec<u32> = (0..n).flat_map(|i| [i, i + i % 44, i % 2]).collect();
        let stored = std::fs::read(format!("{}/../folds/{n}.folds", env!("CARGO_MANIFEST_DIR"))).unwrap();
        let mut file = vec![0xA5; stored.len()];
        assert_eq!(tsivareza::folds_write(&text, &list, &mut file), Ok(stored.len() as u32), "{n}");
        assert_eq!(file, stored, "{n}");
        let mut folds = vec![7; list.len()];
        assert_eq!(tsivareza::folds_read(&text, &stored, &mut folds), Ok(n));
        assert_eq!(folds, list);
    }
}
