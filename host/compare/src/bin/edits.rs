//! Insert and delete against the naive ones of the oracle, and runs of edits with motions between, which the given Rust
//! answers on the text after each. `./compare --edits --help` says how.

use compare::differ::Differ;
use compare::options::{self, Runs};
use compare::port;
use oracle::edits;
use oracle::generate::{self, Dice};
use oracle::{Caret, Outcome};
use std::process::ExitCode;
use tsivareza::{Page, Room, bytes};

const HELP: &str = "\
./compare --edits [--runs N] [--seed S] [--small MOST]
    every text of up to MOST code points (3) with every stretch, caret and small fold list, inserts of
    up to 2, buffers exact, one short and longer; N random runs of edits from the seed S (300 from 1)
    with a motion of each kind after each; damaged inputs; the limits";

struct Count {
    room: Room,
    edits: u64,
    motions: u64,
    differ: Differ,
}

#[derive(Clone, Copy, Debug)]
enum Edit<'a> {
    Insert(&'a [u32], (u32, u32)),
    Delete((u32, u32), (u32, u32)),
}

fn ours(p: &edits::Page) -> Page {
    Page { text: p.text.clone(), folds: p.folds.clone(), caret: p.caret, sizes: p.sizes }
}

impl Count {
    /// One edit, in each form: the number, and every place of all that is lent.
    fn edit(&mut self, page: &mut edits::Page, edit: Edit) -> u32 {
        self.edits += 1;
        let (mut first, mut second) = (ours(page), ours(page));
        let before = page.clone();
        let (wanted, on_points, on_bytes) = match edit {
            Edit::Insert(points, at) => {
                let wanted = page.insert(points, at);
                (wanted, first.insert(points, at), self.room.insert(&mut second, &bytes(points), at))
            }
            Edit::Delete(from, to) => (page.delete(from, to), first.delete(from, to), second.delete(from, to)),
        };
        let number = |r: Result<(), u32>| r.err().unwrap_or(0);
        let same = (number(on_points), &first) == (wanted, &ours(page)) && (number(on_bytes), &second) == (wanted, &ours(page));
        self.differ.unless(same, || format!("{edit:?} of {before:?}: {on_points:?} {first:?}, and not {wanted} {page:?}"));
        wanted
    }

    /// Every stretch, and inserts at every position, one row and column too far among them.
    fn all(&mut self, page: &edits::Page, put: &[Vec<u32>], places: &[(u32, u32)]) {
        for &from in places {
            for points in put {
                self.edit(&mut page.clone(), Edit::Insert(points, from));
            }
            for &to in places {
                self.edit(&mut page.clone(), Edit::Delete(from, to));
            }
        }
    }
}

/// The positions of a text, and some that lie outside it.
fn places(text: &[u32]) -> Vec<(u32, u32)> {
    let rows: Vec<usize> = text.split(|&x| x == 10).map(<[u32]>::len).collect();
    let in_rows = rows.iter().enumerate().flat_map(|(r, &n)| (0..=n + 1).map(move |c| (r as u32, c as u32)));
    in_rows.chain([(rows.len() as u32, 0)]).collect()
}

/// No fold, each fold over the rows, and two at once.
fn fold_lists(rows: u32) -> Vec<Vec<u32>> {
    let mut all = vec![vec![]];
    for start in 0..rows {
        for end in start..rows {
            all.push(vec![start, end, (start + end) % 2]);
        }
    }
    all.push(vec![0, rows - 1, 1, rows - 1, rows - 1, 0]);
    all.push(vec![0, rows, 0]);
    all
}

fn small(count: &mut Count, most: usize) {
    let put = generate::texts(&[0x62, 0x0A], 2);
    for text in generate::texts(&[0x61, 0x0A], most) {
        let rows = text.iter().filter(|&&x| x == 10).count() as u32 + 1;
        let places = places(&text);
        for more in [0, 1, 3] {
            let mut buffer = text.clone();
            buffer.resize(text.len() + more, 7);
            for mut folds in fold_lists(rows) {
                let held = folds.len() as u32 / 3;
                folds.extend([9, 8]);
                for &(row, col) in &places {
                    let caret = [row, col, 1, 5, 0, 0];
                    let page = edits::Page { text: buffer.clone(), folds: folds.clone(), caret, sizes: [text.len() as u32, held] };
                    count.all(&page, &put, &places);
                }
            }
        }
        let wrong = edits::Page { text: text.clone(), folds: vec![], caret: [0; 6], sizes: [text.len() as u32 + 1, 0] };
        count.edit(&mut wrong.clone(), Edit::Insert(&[0x62], (0, 0)));
        let wrong = edits::Page { sizes: [text.len() as u32, 1], ..wrong };
        count.edit(&mut wrong.clone(), Edit::Delete((0, 0), (0, 0)));
    }
}

/// A motion of every call that takes a text, on the text and with the caret and folds that the edits left.
fn motions(count: &mut Count, page: &edits::Page, dice: &mut Dice) {
    for call in generate::calls(&[]).expect("calls") {
        let mut case = generate::random(call, dice);
        if !case.takes(oracle::case::Input::Text) {
            continue;
        }
        count.motions += 1;
        case.text = page.text[..page.sizes[0] as usize].to_vec();
        case.folds = page.folds[..3 * page.sizes[1] as usize].to_vec();
        case.caret = Caret::at(page.caret[0], page.caret[1]);
        let (wanted, answer) = (case.answer(), port(&case, None));
        count.differ.unless(wanted == Outcome::Outside || answer == wanted, || format!("{case} after edits: {answer}, and not {wanted}"));
    }
}

/// A run of edits on one page, refused ones among them.
fn run(count: &mut Count, dice: &mut Dice) {
    let room = dice.pick(&[4, 12, 40, 200]);
    let mut page = edits::Page { text: vec![3; room], folds: vec![6; dice.pick(&[0, 3, 8, 30])], caret: [0; 6], sizes: [0, 0] };
    for _ in 0..30 {
        let places = places(&page.text[..page.sizes[0] as usize]);
        let at = dice.pick(&places);
        if dice.once_in(3) {
            let to = dice.pick(&places);
            let (from, to) = if dice.once_in(8) { (at, to) } else { (at.min(to), at.max(to)) };
            count.edit(&mut page, Edit::Delete(from, to));
        } else {
            let mut points: Vec<u32> = (0..dice.below(9)).map(|_| dice.pick(&[0x61, 0x62, 0x20, 0x0A, 0x28, 0x29, 0xE9])).collect();
            if dice.once_in(12) {
                points.push(dice.pick(&[0x0D, 0x2028, 0xD800, 0x11_0000]));
            }
            count.edit(&mut page, Edit::Insert(&points, at));
        }
        let rows = page.text[..page.sizes[0] as usize].iter().filter(|&&x| x == 10).count() as u32 + 1;
        let held = page.sizes[1] as usize;
        if 3 * held + 3 <= page.folds.len() && dice.once_in(3) {
            let (a, b) = (dice.below(rows as usize) as u32, dice.below(rows as usize) as u32);
            page.folds[3 * held..3 * held + 3].copy_from_slice(&[a.min(b), a.max(b), dice.below(2) as u32]);
            page.sizes[1] += 1;
        }
        let places = self::places(&page.text[..page.sizes[0] as usize]);
        let (row, col) = dice.pick(&places);
        if dice.once_in(4) {
            page.caret = [row, col, 1, 3, 0, 0];
        }
        motions(count, &page, dice);
    }
}

fn limits(count: &mut Count) {
    const LIMIT: usize = 1_048_576;
    for (held, put) in [(LIMIT - 1, 1), (LIMIT - 1, 2), (LIMIT, 0), (LIMIT, 1), (LIMIT + 1, 0), (3, LIMIT), (3, LIMIT + 1), (0, LIMIT)] {
        let text = vec![0x61; LIMIT + 9];
        let page = edits::Page { text, folds: vec![], caret: [0; 6], sizes: [held as u32, 0] };
        count.edit(&mut page.clone(), Edit::Insert(&vec![0x62; put], (0, 2)));
        count.edit(&mut page.clone(), Edit::Delete((0, 1), (0, held as u32)));
    }
    for (places, held) in [(769, 256), (769, 257), (771, 257), (768, 256)] {
        let page = edits::Page { text: vec![0x61, 0x0A, 0x62], folds: vec![0; places], caret: [0; 6], sizes: [3, held] };
        count.edit(&mut page.clone(), Edit::Delete((0, 1), (1, 0)));
    }
}

fn asked(words: &[String]) -> Result<Count, String> {
    let Runs { runs, seed, small: most } = Runs { runs: 300, seed: 1, small: 3 }.read(words, HELP)?;
    let mut count = Count { room: Room::new(1_100_000), edits: 0, motions: 0, differ: Differ::default() };
    small(&mut count, most);
    limits(&mut count);
    for i in 0..runs {
        run(&mut count, &mut Dice::new(seed, i));
    }
    Ok(count)
}

fn main() -> ExitCode {
    options::program("edits", HELP, |words| {
        let Count { edits, motions, differ: Differ(differ), .. } = asked(words)?;
        println!("edits {edits} made, {motions} motions after them, {differ} differ");
        Ok(differ == 0)
    })
}
