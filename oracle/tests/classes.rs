//! Document 02's #113: the classes of a text's places by the corners, and what the second engine's calls are refused with.

use oracle::case::{self, Case};
use oracle::classes::{classes, word_classes};
use oracle::generate::{Dice, random};
use oracle::{Outcome, points};

const LIST: &str = "@,48-57,_";

fn of(text: &str, list: &str) -> Vec<u8> {
    classes(&points(text), &points(list))
}

#[test]
fn the_corners() {
    assert_eq!(of("if (n) {", LIST), [0, 0, 2, 1, 0, 1, 2, 1, 4]);
    assert_eq!(of("", LIST), [3]);
    assert_eq!(of("a", LIST), [0, 4]);
    assert_eq!(of("a\n", LIST), [0, 4, 3]);
    assert_eq!(of("\n", LIST), [3, 3]);
    assert_eq!(of("a\n\nb", LIST), [0, 4, 3, 0, 4]);
    // white space comes before the list
    assert_eq!(of("a \u{A0}", "@,32,160"), [0, 2, 2, 4]);
    assert_eq!(of(".", "0-4294967295"), [0, 4]);
}

#[test]
fn refusals_in_their_order() {
    let told = |text: &[u32], list: &[u32], places| word_classes(text, list, places, 9).map(|(count, _)| count);
    let (a, at, bad) = (points("a"), points("@"), [0xD800]);
    assert_eq!(told(&[0x61; 1_048_577], &bad, 0), Err(1));
    assert_eq!(told(&bad, &bad, 0), Err(2));
    assert_eq!(told(&[0x0D], &bad, 0), Err(3));
    assert_eq!(told(&a, &bad, 0), Err(7));
    assert_eq!(told(&a, &points(&"a,".repeat(129)), 0), Err(8));
    assert_eq!(told(&a, &at, 1), Err(14));
    assert_eq!(word_classes(&a, &at, 3, 9), Ok((2, vec![0, 4, 9])));
}

/// A short slice is refused only where nothing else is.
#[test]
fn fourteen_comes_last() {
    for name in ["word_classes", "word_fwd_by_class", "word_back_by_class", "word_end_by_class", "word_end_back_by_class"] {
        let call = case::call(name).unwrap();
        let mut short = 0;
        for index in 0..4_000 {
            let k = random(call, &mut Dice::new(3, index));
            let few = Case { room: k.text.len() as u32, ..k.clone() };
            let enough = Case { room: k.text.len() as u32 + 1, ..k };
            match enough.answer() {
                Outcome::Refused(number) => assert_eq!(few.answer(), Outcome::Refused(number), "{few}"),
                _ => {
                    short += 1;
                    assert_eq!(few.answer(), Outcome::Refused(14), "{few}");
                }
            }
        }
        assert!(short > 2_000, "{name}: {short}");
    }
}
