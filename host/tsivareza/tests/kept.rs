//! The screen moves that remember: what a call leaves in the lent room, a long row, and the corners of the offset.

use tsivareza::{Caret, Kept, Room, ScreenKept, Steps, Wrap, bytes, screen_kept};

fn at(row: u32, col: u32, sticky: Option<u32>, offset: Option<u32>) -> Kept {
    Kept { caret: Caret { row, col, sticky }, offset }
}

fn steps(count: u32) -> Steps<'static> {
    Steps { folds: &[], count, tabstop: 8 }
}

#[test]
fn text_and_folds_share_the_room() {
    let (text, folds) = (bytes(&[0x61, 0x0A, 0x62]), bytes(&[0, 1, 0]));
    let down = ScreenKept::Down { mode: Wrap::Char, width: 2 };
    let go = |room: &mut Room, folds: &[u8]| room.screen_kept(down, &text, at(0, 1, None, None), Steps { folds, count: 1, tabstop: 8 });
    assert_eq!(go(&mut Room::new(5), &folds), Err(102));
    assert_eq!(go(&mut Room::new(5), &folds[..11]), Err(101));
    let mut room = Room::new(7);
    assert_eq!(go(&mut room, &folds), Ok(at(1, 0, Some(1), Some(1))));
    assert_eq!(room.points(), [0x61, 0x0A, 0x62, 0, 1, 0, 0]);
    assert_eq!(go(&mut room, &bytes(&[0, 2])), Err(5));
}

#[test]
fn a_long_row_is_walked_once() {
    let text = vec![0x61; 1_048_576];
    let up = ScreenKept::Up { mode: Wrap::Char, width: 1 };
    assert_eq!(screen_kept(up, &text, at(0, 1_048_576, None, None), steps(u32::MAX)), Ok(at(0, 0, Some(1_048_576), Some(1))));
    assert_eq!(screen_kept(up, &text, at(0, 1_048_575, Some(3), Some(u32::MAX)), steps(5)), Ok(at(0, 1_048_570, Some(3), Some(u32::MAX))));
}

#[test]
fn the_offset_is_set_kept_and_cleared() {
    let text = [0x61, 0x62, 0x63, 0x64];
    let down = |mode, width| ScreenKept::Down { mode, width };
    assert_eq!(screen_kept(down(Wrap::Char, 4), &text, at(0, 4, None, None), steps(1)), Ok(at(0, 4, Some(4), Some(4))));
    assert_eq!(screen_kept(down(Wrap::Char, 2), &text, at(0, 0, None, Some(u32::MAX)), steps(1)), Ok(at(0, 3, Some(0), Some(u32::MAX))));
    assert_eq!(screen_kept(down(Wrap::None, 2), &text, at(0, 0, None, Some(1)), steps(1)), Ok(at(0, 0, Some(0), None)));
    assert_eq!(screen_kept(down(Wrap::Word, 0), &text, at(0, 0, None, Some(1)), steps(1)), Ok(at(0, 0, Some(0), None)));
    assert_eq!(screen_kept(down(Wrap::Char, 2), &text, at(0, 5, None, Some(1)), steps(1)), Err(4));
}
