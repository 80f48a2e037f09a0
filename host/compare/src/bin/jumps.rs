//! Jumps over one text, against the single calls in turn: those of the proved library, and the given Rust.
//! `./compare --jumps --help` says how.

use compare::options::{self, Runs};
use oracle::calls;
use oracle::generate::{self, Dice};
use oracle::row_table::counted;
use std::collections::HashMap;
use std::process::ExitCode;
use tsivareza::{Caret, Ground, Kept, Room, Seek, Word, Words, bytes, jumps, seek, word};

const HELP: &str = "\
./compare --jumps [--runs N] [--seed S] [--small MOST]
    every text of up to MOST code points (3) with folds none and some, every caret, and every list of up to
    3 jumps of each kind with counts 0, 1 and 2; N random lists from the seed S (2000 from 1) over longer
    texts with folds, counts 0, 1, small and the largest; and each refusal, alone and before those that
    come after it";

/// What a call is lent.
#[derive(Clone, Debug)]
struct Lent {
    text: Vec<u32>,
    starts: Vec<u32>,
    content: u32,
    folds: Vec<u32>,
    list: Vec<u32>,
    caret: Kept,
    pairs: Vec<u32>,
    answers: Vec<u32>,
}

type Moves = HashMap<(u32, u32, u32, u32), (u32, u32)>;

struct Count {
    room: Room,
    calls: u64,
    jumps: u64,
    differ: u64,
}

/// One jump by the proved single call, and by the given Rust: they agree, or the difference is told.
fn single(lent: &Lent, k: Caret, kind: u32, count: u32) -> Result<Caret, u32> {
    let words = Words { folds: &lent.folds, list: &lent.list, big: false };
    let ours = match kind {
        0 => word(Word::Fwd, &lent.text, k, words, count),
        1 => word(Word::Back, &lent.text, k, words, count),
        2 => word(Word::End { stop: false }, &lent.text, k, words, count),
        _ => seek(Seek::MatchBracket, &lent.text, k).map(|(_, k)| k),
    };
    let (text, at) = (&lent.text, oracle::Caret { row: k.row, col: k.col, sticky: k.sticky });
    let words = calls::Words { folds: &lent.folds, list: &lent.list, big: false };
    let given = match kind {
        0 => calls::move_word_fwd(text, at, words, count),
        1 => calls::move_word_back(text, at, words, count),
        2 => calls::move_word_end(text, at, words, count, false),
        _ => calls::match_bracket(text, at).map(|(_, k)| k),
    };
    let given = given.map(|k| Caret { row: k.row, col: k.col, sticky: k.sticky });
    assert_eq!(ours, given, "a single call and the given Rust: {lent:?}");
    ours
}

/// What the call is to answer, and to leave in the answers: document 02's order of refusals, then the single calls in turn.
fn wanted(lent: &Lent, known: &mut Moves) -> (Result<Kept, u32>, Vec<u32>) {
    let refused = |number| (Err(number), lent.answers.clone());
    let k = lent.caret.caret;
    if let Err(number) = single(lent, k, 0, 1) {
        return refused(number);
    }
    let (starts, content) = counted(&lent.text);
    if lent.starts.len() < starts.len() {
        return refused(15);
    }
    if lent.starts[..starts.len()] != starts || lent.content != content {
        return refused(16);
    }
    if lent.pairs.len() % 2 == 1 || lent.pairs.iter().step_by(2).any(|&kind| kind > 3) {
        return refused(22);
    }
    if lent.answers.len() < lent.pairs.len() {
        return refused(14);
    }
    let (mut caret, mut answers) = (lent.caret, lent.answers.clone());
    for (i, pair) in lent.pairs.chunks(2).enumerate() {
        let Caret { row, col, sticky } = caret.caret;
        let to = *known.entry((row, col, pair[0], pair[1])).or_insert_with(|| {
            let to = single(lent, caret.caret, pair[0], pair[1]).expect("an accepted call");
            assert_eq!(to.sticky, sticky, "a sticky column that moved");
            (to.row, to.col)
        });
        caret = Kept { caret: Caret { row: to.0, col: to.1, sticky }, offset: None };
        (answers[2 * i], answers[2 * i + 1]) = to;
    }
    (Ok(caret), answers)
}

impl Count {
    /// One call in each form, against what is wanted: the number, the caret and every place of the answers. True where it is accepted.
    fn call(&mut self, lent: &Lent, known: &mut Moves) -> bool {
        self.calls += 1;
        self.jumps += lent.pairs.len() as u64 / 2;
        let (answer, answers) = wanted(lent, known);
        let Lent { text, starts, content, folds, list, caret, pairs, .. } = lent;
        let (mut first, mut second) = (lent.answers.clone(), lent.answers.clone());
        let ground = Ground { starts, content: *content, folds, list };
        let on_points = jumps(text, *caret, ground, pairs, &mut first);
        let (folds, list) = (bytes(folds), bytes(list));
        let ground = Ground { starts, content: *content, folds: &folds, list: &list };
        let on_bytes = self.room.jumps(&bytes(text), *caret, ground, pairs, &mut second);
        if (on_points, &first) != (answer, &answers) || (on_bytes, &second) != (answer, &answers) {
            self.differ += 1;
            if self.differ == 1 {
                println!("differs: {lent:?}: {on_points:?} {first:?}, {on_bytes:?} {second:?}, and not {answer:?} {answers:?}");
            }
        }
        answer.is_ok()
    }
}

fn points(text: &str) -> Vec<u32> {
    text.chars().map(u32::from).collect()
}

/// A text with its own table, and a caret that keeps a sticky column and an offset.
fn lent(text: Vec<u32>, folds: Vec<u32>, (row, col): (u32, u32), pairs: Vec<u32>) -> Lent {
    let (mut starts, content) = counted(&text);
    starts.push(777);
    let answers = vec![9; pairs.len() + 1];
    let caret = Kept { caret: Caret { row, col, sticky: Some(3) }, offset: Some(2) };
    Lent { text, starts, content, folds, list: points("@,48-57,_"), caret, pairs, answers }
}

fn lists() -> Vec<Vec<u32>> {
    let one: Vec<[u32; 2]> = (0..4).flat_map(|kind| [0, 1, 2].map(|count| [kind, count])).collect();
    let mut all = vec![vec![]];
    let mut last = vec![vec![]];
    for _ in 0..3 {
        last = last.iter().flat_map(|l: &Vec<u32>| one.iter().map(move |p| [&l[..], p].concat())).collect();
        all.extend(last.iter().cloned());
    }
    all
}

fn small(count: &mut Count, most: usize) {
    let lists = lists();
    for text in generate::texts(&points("a( )\n"), most) {
        let rows: Vec<usize> = text.split(|&x| x == 10).map(<[u32]>::len).collect();
        let last = rows.len() as u32 - 1;
        let mut folds = vec![vec![], vec![0, last, 1]];
        if last > 0 {
            folds.extend([vec![0, 0, 1, 1, 1, 0], vec![1, last, 1], vec![0, 1, 0]]);
        }
        for folds in folds {
            let mut known = Moves::new();
            for (row, &n) in rows.iter().enumerate() {
                for col in 0..=n {
                    for pairs in &lists {
                        count.call(&lent(text.clone(), folds.clone(), (row as u32, col as u32), pairs.clone()), &mut known);
                    }
                }
            }
        }
    }
}

/// A random text with folds, a caret in it, and a list of jumps.
fn random(dice: &mut Dice) -> Lent {
    let length = dice.pick(&[0, 3, 12, 60, 300]);
    let text: Vec<u32> = (0..length).map(|_| dice.pick(&points("aab_1 .,()[]{}\n\n \tжж中é"))).collect();
    let rows: Vec<usize> = text.split(|&x| x == 10).map(<[u32]>::len).collect();
    let mut folds = Vec::new();
    for _ in 0..dice.below(5) {
        let first = dice.below(rows.len());
        let last = (first + dice.below(4)).min(rows.len() - 1);
        folds.extend([first as u32, last as u32, dice.below(2) as u32]);
    }
    let row = dice.below(rows.len());
    let at = (row as u32, dice.below(rows[row] + 1) as u32);
    let pairs = (0..dice.below(30)).flat_map(|_| [dice.below(4) as u32, dice.pick(&[0, 1, 1, 1, 2, 3, 9, u32::MAX])]).collect();
    let mut lent = lent(text, folds, at, pairs);
    lent.list = points(dice.pick(&["@,48-57,_", "", "@", "^a", "a,b,(", "1078"]));
    if dice.once_in(2) {
        lent.caret.caret.sticky = None;
        lent.caret.offset = None;
    }
    lent
}

/// Makes one input wrong: the numbers of document 02's order, from the first to the last.
const WRONG: [u32; 11] = [1, 2, 3, 4, 5, 7, 8, 15, 16, 22, 14];

fn spoil(lent: &mut Lent, number: u32, dice: &mut Dice) {
    match number {
        1 => lent.text.resize(1_048_577, 0x61),
        2 => lent.text.push(dice.pick(&[0xD800, 0x11_0000])),
        3 => lent.text.push(dice.pick(&[0x0D, 0x2028, 0x85])),
        4 => lent.caret.caret.row = 4_000_000_000,
        5 => lent.folds.extend(dice.pick(&[[4_000_000_000, 4_000_000_000, 1], [0, 0, 2], [1, 0, 1]])),
        7 => lent.list = dice.pick(&[[0xD800], [0x11_0000]]).to_vec(),
        8 => lent.list = [0x61, 0x2C].repeat(129),
        15 => lent.starts.clear(),
        16 => lent.content = lent.content.wrapping_add(1),
        22 => {
            if dice.once_in(2) {
                lent.pairs.push(0);
            } else {
                lent.pairs.splice(0..0, [0, 1, dice.pick(&[4, u32::MAX]), 1]);
            }
        }
        _ => {
            lent.pairs.extend([0, 1]);
            lent.answers.truncate(lent.pairs.len() - 1);
        }
    }
}

fn asked(words: &[String]) -> Result<Count, String> {
    let Runs { runs, seed, small: most } = Runs { runs: 2000, seed: 1, small: 3 }.read(words, HELP)?;
    let mut count = Count { room: Room::new(1_100_000), calls: 0, jumps: 0, differ: 0 };
    small(&mut count, most);
    for i in 0..runs {
        let dice = &mut Dice::new(seed, i);
        let good = random(dice);
        if !count.call(&good, &mut Moves::new()) {
            return Err(format!("what was to be accepted is not: {good:?}"));
        }
        let first = dice.below(WRONG.len());
        let mut bad = good.clone();
        // the text's own refusals exclude each other
        for &number in WRONG[first..].iter().filter(|&&n| n == WRONG[first] || n > 3) {
            if number == WRONG[first] || dice.once_in(2) {
                spoil(&mut bad, number, dice);
            }
        }
        if bad.text.len() < 2_000 || i % 50 == 0 {
            if count.call(&bad, &mut Moves::new()) {
                return Err(format!("what was to be refused with {} is not: {bad:?}", WRONG[first]));
            }
        }
    }
    Ok(count)
}

fn main() -> ExitCode {
    options::program("jumps", HELP, |words| {
        let Count { calls, jumps, differ, .. } = asked(words)?;
        println!("jumps: {calls} calls, {jumps} jumps, {differ} differ");
        Ok(differ == 0)
    })
}
