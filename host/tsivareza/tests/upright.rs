//! What a call on a text and folds leaves in the lent room, and the corners of up, down, screen and viewport.

use tsivareza::{Caret, Room, Steps, Vertical, ViewportMove, Wrap, bytes, vertical, viewport};

fn at(row: u32, col: u32, sticky: Option<u32>) -> Caret {
    Caret { row, col, sticky }
}

#[test]
fn text_and_folds_share_the_room() {
    let (text, folds) = (bytes(&[0x61, 0x0A, 0x62]), bytes(&[0, 1, 0]));
    let down = |room: &mut Room, folds: &[u8]| {
        room.vertical(Vertical::Down, &text, at(0, 1, None), Steps { folds, count: 1, tabstop: 8 })
    };
    let mut room = Room::new(5);
    assert_eq!(room.content_row_count(&bytes(&[7; 5])), Ok(1));
    assert_eq!(down(&mut room, &folds), Err(102));
    assert_eq!(down(&mut room, &folds[..11]), Err(101));
    assert_eq!(room.points(), [7; 5]);
    let mut room = Room::new(7);
    assert_eq!(down(&mut room, &folds), Ok(at(1, 0, Some(1))));
    assert_eq!(room.points(), [0x61, 0x0A, 0x62, 0, 1, 0, 0]);
    assert_eq!(down(&mut room, &bytes(&[0, 2])), Err(5));
    assert_eq!(room.points(), [0x61, 0x0A, 0x62, 0, 2, 0, 0]);
}

#[test]
fn a_long_row_is_walked_once() {
    let text = vec![0x61; 1_048_576];
    let up = Vertical::ScreenUp { mode: Wrap::Char, width: 1 };
    let steps = |count| Steps { folds: &[], count, tabstop: 8 };
    assert_eq!(vertical(up, &text, at(0, 1_048_576, None), steps(u32::MAX)), Ok(at(0, 0, Some(1_048_576))));
    assert_eq!(vertical(up, &text, at(0, 1_048_575, Some(3)), steps(5)), Ok(at(0, 1_048_570, Some(3))));
}

#[test]
fn viewports_do_not_wrap_round() {
    let text = [0x61, 0x0A, 0x20, 0x62, 0x0A];
    let k = at(0, 1, Some(7));
    let (top, height, offset) = (u32::MAX, u16::MAX, u32::MAX);
    for which in [ViewportMove::Top { top, offset }, ViewportMove::Middle { top, height }, ViewportMove::Bottom { top, height, offset }] {
        assert_eq!(viewport(which, &text, k), Ok(at(1, 1, Some(7))));
    }
}
