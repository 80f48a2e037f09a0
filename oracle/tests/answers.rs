//! On accepted inputs the given Rust never stops but for the u16 sum, and writes only positions
//! inside the text (the library asserts that of each); and its corners, by their smallest inputs.

use oracle::case::{CALLS, Case};
use oracle::generate::{Dice, limits, random, small};
use oracle::{Outcome, Wrap};

#[test]
fn random_cases_answer() {
    for call in &CALLS {
        let (mut refused, mut answered) = (0, 0);
        for index in 0..4_000 {
            match random(call, &mut Dice::new(1, index)).answer() {
                Outcome::Refused(_) => refused += 1,
                _ => answered += 1,
            }
        }
        assert!(answered > 2_000, "{}: {answered} of 4,000 are answered", call.name);
        assert!(refused > 20 || call.name == "is_scalar", "{}: {refused} of 4,000 are refused", call.name);
    }
}

#[test]
fn limits_answer() {
    for call in &CALLS {
        for case in limits(call) {
            case.answer();
        }
    }
}

#[test]
fn small_rows_answer() {
    for name in ["content_row_count", "move_space_fwd", "matching_bracket_pos", "inner_pair", "segment_for_col", "cursor_visual_col"] {
        let mut cases = 0;
        small(oracle::case::call(name).unwrap(), 3, |case| {
            case.answer();
            cases += 1;
        });
        assert!(cases > 300, "{name}: {cases} cases");
    }
}

#[test]
fn lines_are_read_back() {
    for call in &CALLS {
        for index in 0..200 {
            let case = random(call, &mut Dice::new(2, index));
            let again: Case = case.to_string().parse().unwrap();
            assert_eq!(again.to_string(), case.to_string());
            assert_eq!(again.answer(), case.answer());
        }
    }
}

#[test]
fn malformed_lines_are_told() {
    for (line, why) in [
        ("", "empty"),
        ("move_lift text=", "no call `move_lift`"),
        ("content_row_count", "`text` is missing"),
        ("content_row_count text", "not name=value"),
        ("content_row_count text=6g", "no hexadecimal number"),
        ("content_row_count text=61*5000000", "4,194,304"),
        ("content_row_count text=61 text=61", "takes no `text` here"),
        ("content_row_count text=61 row=0", "takes no `row` here"),
        ("segment_for_col segments=1,-1 column=0", "`-1` is no number"),
        ("wrap_segments line=61 width=65536 wrap=char room=2", "`65536` is no number that fits"),
        ("wrap_segments line=61 width=1 wrap=soft room=2", "no wrap mode"),
        ("inner_pair text= kind=ronud row=0 col=0", "no kind"),
    ] {
        let told = line.parse::<Case>().unwrap_err();
        assert!(told.contains(why), "{line}: {told}");
    }
}

#[test]
fn the_sum_of_cells_wraps() {
    let line = |n: usize, width: u16| -> Outcome {
        let case = format!("wrap_segments line=61*{n} width={width} wrap=char room=8");
        case.parse::<Case>().unwrap().answer()
    };
    assert_eq!(line(65_536, 65_535), Outcome::Outside);
    assert!(matches!(line(65_535, 65_535), Outcome::Segments(1, _)));
    assert!(matches!(line(65_536, 65_534), Outcome::Segments(2, _)));
    assert!(oracle::calls::sum_wraps(&vec![0x61; 65_536], 65_535, Wrap::Char));
}

/// What running the given Rust showed, by the smallest inputs.
#[test]
fn corners() {
    for (line, answer) in [
        // the last empty row
        ("move_down text=61,a row=0 col=0 sticky=none folds= tabstop=8 count=1", "moved 1 0 0"),
        ("move_space_fwd text=61,a row=0 col=0 sticky=none count=1", "moved 1 0 none"),
        ("move_first_non_blank_line text=61,a row=1 col=0 sticky=none count=2", "moved 1 0 none"),
        ("move_paragraph_next text=61,a row=1 col=0 sticky=none count=1", "moved 1 0 none"),
        // folds and screen moves
        (
            "move_screen_down text=61,a,62,63,64,65 row=0 col=0 sticky=none folds=0,1,1 top=0 height=5 width=2 wrap=char tabstop=8 count=1",
            "moved 1 2 0",
        ),
        // words
        (
            "move_word_fwd text=61,20,61 row=0 col=0 sticky=none folds= list=30,2d,34,32,39,34,39,36,37,32,39,35 big=0 count=1",
            "moved 0 2 none",
        ),
        ("move_word_end_back text=61,62 row=0 col=1 sticky=none list=40 big=0 count=1", "moved 0 0 none"),
        ("move_word_fwd text=a,20,a,a,62 row=0 col=0 sticky=none folds= list=40 big=1 count=1", "moved 2 0 none"),
        ("move_word_fwd text=61,a,62 row=0 col=0 sticky=none folds=0,1,1 list=40 big=0 count=4294967295", "moved 1 1 none"),
        ("move_word_fwd text=61,a row=1 col=0 sticky=none folds=0,1,1 list=40 big=0 count=1", "moved 0 1 none"),
        ("move_word_fwd text=61,a row=0 col=0 sticky=none folds= list=40 big=0 count=1", "moved 0 1 none"),
        ("move_word_end text=61,a row=0 col=0 sticky=none folds= list=40 big=0 stop=0 count=1", "moved 0 0 none"),
        ("move_word_fwd text=a,a,a row=0 col=0 sticky=none folds= list=40 big=1 count=1", "moved 0 0 none"),
        ("move_word_fwd text=a,a,a row=0 col=0 sticky=none folds= list=40 big=0 count=1", "moved 1 0 none"),
        // blanks, wrap, columns
        ("move_last_non_blank text=61,a0 row=0 col=0 sticky=none", "moved 0 0 none"),
        ("move_first_non_blank text=a0,61 row=0 col=1 sticky=none", "moved 0 0 none"),
        ("move_last_non_blank text=20,20 row=0 col=0 sticky=none", "moved 0 0 none"),
        ("move_first_non_blank text=20,20 row=0 col=0 sticky=none", "moved 0 1 none"),
        ("wrap_segments line=61,62,20,63,64,20,65,66 width=5 wrap=word room=4", "segments 2 0,3,3,8"),
        ("visual_col_to_char_col line=301,61 column=0 tabstop=8", "number 0"),
        ("char_col_for_visual_offset line=61 start=0 end=9 column=9", "number 9"),
        ("segment_for_col segments=2,3,3,4 column=0", "number 1"),
        // small motions
        ("move_right_in_line text=61,62 row=0 col=2 sticky=none count=1", "moved 0 1 none"),
        ("move_first_non_blank_next_line text=20,61 row=0 col=0 sticky=none count=1", "moved 0 0 none"),
        ("match_bracket text=29,28,29 row=0 col=0 sticky=none", "told 0 0 0 none"),
        // the innermost pair: on its brackets, on a separator in it and behind it, alone, among other kinds
        ("inner_pair text=28,28,61,29,29 kind=round row=0 col=0", "between 0 1 to 0 4, with them 0 0 to 0 5"),
        ("inner_pair text=28,28,61,29,29 kind=round row=0 col=3", "between 0 2 to 0 3, with them 0 1 to 0 4"),
        ("inner_pair text=28,a,29 kind=round row=0 col=1", "between 0 1 to 1 0, with them 0 0 to 1 1"),
        ("inner_pair text=28,61,29,a,62 kind=round row=0 col=3", "none"),
        ("inner_pair text=28,28,61,29 kind=round row=0 col=0", "none"),
        ("inner_pair text=28,5b,29,5d kind=round row=0 col=1", "between 0 1 to 0 2, with them 0 0 to 0 3"),
        ("inner_pair text=28,5b,29,5d kind=square row=0 col=2", "between 0 2 to 0 3, with them 0 1 to 0 4"),
        ("inner_pair text=28,29 kind=round row=0 col=2", "none"),
        ("inner_pair text=28,29 kind=round row=0 col=3", "refused 4"),
        ("inner_pair text= kind=angle row=0 col=1", "refused 4"),
        // keyword lists
        ("matches list=2d char=2d", "truth 1"),
        ("matches list=2b char=2b", "truth 1"),
        ("parse list=35,2d,2c,2d,2d,2c,31,2d,32,2d,33", "number 0"),
        ("parse list=35,37,2d,34,38", "number 1"),
    ] {
        let case: Case = line.parse().unwrap();
        assert_eq!(case.answer().to_string(), answer, "{line}");
    }
}

/// The pairs of a long text are found in one pass: they are those by demand 3's words.
#[test]
fn pairs_in_one_pass() {
    use oracle::pairs::{KINDS, pairs, pairs_by_stack};
    for text in oracle::generate::texts(&oracle::points("()[a"), 7) {
        for kind in KINDS {
            let mut by_stack = pairs_by_stack(&text, kind);
            by_stack.sort_unstable();
            assert_eq!(by_stack, pairs(&text, kind), "{text:x?}");
        }
    }
}
