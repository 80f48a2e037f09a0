//! The rows of the replay's list on jumps, group 24, by `jumps`.
//!
//! The numbers are the caret's six, how many places are lent for answers (at most 64), and how many rows have content. The list is
//! how many places the table has, how many numbers the jumps have, those of the table, those of the jumps, and the keyword list.
//! The answer is the number, the caret's six and the places.

use crate::case::FILLER;
use crate::generate::Dice;
use crate::jumps::Course;
use crate::replay::{Row, SEED};
use crate::replay_buffers::row;
use crate::{Caret, points, row_table};

const JUMPS: u64 = 90;

/// Jumps into so many places.
fn jumped(k: &Course, places: usize) -> Row {
    let mut answers = vec![FILLER; places];
    let (number, out) = match k.jumps(&mut answers) {
        Ok((caret, offset)) => (0, six(caret, offset).to_vec()),
        Err(number) => (number, vec![FILLER; 6]),
    };
    let head = [&[24, 0], &six(k.caret, k.offset)[..], &[places as u32, k.content]].concat();
    let counts = [k.starts.len() as u32, k.pairs.len() as u32];
    let list = [&counts, &k.starts[..], &k.pairs, &k.list].concat();
    let parts = [&k.text, &k.folds, &list].map(|part| part.len() as u32);
    let words = format!("jumps {:?} from {:?} over {} code points into {places} places", k.pairs, k.caret, k.text.len());
    row("jumps", number, k.pairs.len() as u64 / 2, &[&head, &parts, &k.text, &k.folds, &list, &[number], &out, &answers], words)
}

fn six(caret: Caret, offset: Option<u32>) -> [u32; 6] {
    let (held, kept) = (caret.sticky.is_some().into(), offset.is_some().into());
    [caret.row, caret.col, held, caret.sticky.unwrap_or(0), kept, offset.unwrap_or(0)]
}

/// A text with its own table, or a longer one, folds, a caret in it and a list of up to 8 jumps.
fn course(dice: &mut Dice) -> Course {
    let alphabet = points("aab_1 .,()[]{}\n\n \t\u{436}\u{4E2D}\u{E9}");
    let text: Vec<u32> = (0..dice.pick(&[0, 3, 12, 24])).map(|_| dice.pick(&alphabet)).collect();
    let rows: Vec<usize> = text.split(|&x| x == 10).map(<[u32]>::len).collect();
    let mut folds = Vec::new();
    for _ in 0..dice.below(3) {
        let first = dice.below(rows.len());
        let last = (first + dice.below(4)).min(rows.len() - 1);
        folds.extend([first as u32, last as u32, dice.below(2) as u32]);
    }
    let row = dice.below(rows.len());
    let (row, col) = (row as u32, dice.below(rows[row] + 1) as u32);
    let (sticky, offset) = if dice.once_in(2) { (Some(7), Some(3)) } else { (None, None) };
    let pairs = (0..dice.below(9)).flat_map(|_| [dice.below(4) as u32, dice.pick(&[0, 1, 1, 1, 2, 3, 9, u32::MAX])]).collect();
    let (mut starts, content) = row_table::counted(&text);
    starts.resize(starts.len() + dice.pick(&[0, 0, 1, 3]), 777);
    let list = points(dice.pick(&["@,48-57,_", "", "@", "^a", "a,b,(", "1078"]));
    Course { text, starts, content, folds, list, caret: Caret { row, col, sticky }, offset, pairs }
}

/// The refusals in their order.
const REFUSALS: [u32; 11] = [1, 2, 3, 4, 5, 7, 8, 15, 16, 22, 14];

/// Makes one input wrong. A text that is too long is as long as it can be in the list.
fn spoil(dice: &mut Dice, k: &mut Course, places: &mut usize, number: u32) {
    match number {
        1 => k.text = vec![0x61; 1_048_577],
        2 => k.text.push(dice.pick(&[0xD800, 0x11_0000])),
        3 => k.text.push(dice.pick(&[0x0D, 0x2028, 0x85])),
        4 => k.caret.row = dice.pick(&[99, u32::MAX]),
        5 => k.folds.extend(dice.pick(&[[99, 99, 1], [0, 0, 2], [1, 0, 1]])),
        7 => k.list = dice.pick(&[[0xD800], [0x11_0000]]).to_vec(),
        8 => k.list = [0x61, 0x2C].repeat(129),
        15 => k.starts.clear(),
        16 => k.content = k.content.wrapping_add(dice.pick(&[1, u32::MAX])),
        22 if dice.once_in(2) => k.pairs.push(0),
        22 => k.pairs.splice(0..0, [0, 1, dice.pick(&[4, u32::MAX]), 1]).for_each(drop),
        _ => {
            k.pairs.extend([0, 1]);
            *places = k.pairs.len() - 1;
        }
    }
}

/// One that is refused with this number, and by those that come after it in half of the cases.
fn refused(dice: &mut Dice, first: usize) -> Row {
    let (mut k, mut places) = (course(dice), 20);
    spoil(dice, &mut k, &mut places, REFUSALS[first]);
    for &number in REFUSALS[first + 1..].iter().filter(|&&number| number > 3) {
        if dice.once_in(2) && k.text.len() < 100 && number != 8 {
            spoil(dice, &mut k, &mut places, number);
        }
    }
    jumped(&k, places)
}

/// A random list of jumps, refused once in four times.
pub(crate) fn random(dice: &mut Dice) -> Row {
    if dice.once_in(4) {
        let first = 1 + dice.below(REFUSALS.len() - 1);
        return refused(dice, first);
    }
    let k = course(dice);
    let places = k.pairs.len() + dice.pick(&[0, 0, 1, 3]);
    jumped(&k, places)
}

/// Random lists of jumps, and each refusal.
pub fn jumps() -> Vec<Row> {
    let random = (0..JUMPS).map(|index| random(&mut Dice::new(SEED, index)));
    let one = (0..REFUSALS.len()).flat_map(|first| (0..3).map(move |i| (first, i))).filter(|&(first, i)| first != 0 || i == 0);
    let each = one.map(|(first, i)| refused(&mut Dice::new(SEED, JUMPS + 3 * first as u64 + i), first));
    random.chain(each).collect()
}
