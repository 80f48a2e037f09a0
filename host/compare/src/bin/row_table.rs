//! The table of row starts, filled and kept, against the naive one of the oracle, which counts anew after each edit; and every
//! motion that takes it against the same motion of the given Rust, and the table against a count anew.
//! `./compare --row-table --help` says how.

use compare::differ::Differ;
use compare::options::{self, Runs};
use compare::{port, port_rows};
use oracle::case::{self, CALLS, Call, Case};
use oracle::generate::{self, Dice};
use oracle::row_table::{Tabled, counted, fill, second};
use oracle::{Outcome, edits};
use std::process::ExitCode;
use tsivareza::{Page, Room, Rows, TabledPage, bytes, row_starts};

const HELP: &str = "\
./compare --row-table [--runs N] [--seed S] [--small MOST]
    every text of up to MOST code points (4) with tables exact, one short and longer; with every stretch,
    inserts of up to 2, and tables and counts that are right, damaged at each place and beside another
    count; N random runs of edits from the seed S (300 from 1) with a count anew after each; damaged texts;
    the limits; texts about 4,096 code points and some of their multiples, plain, with an arrow and damaged; of each
    motion with a table every case with a text of up to MOST - 1 code points, 2 at most, and
    N random ones and its limits, each with the text's table and with damaged ones";

struct Count {
    room: Room,
    fills: u64,
    edits: u64,
    motions: u64,
    /// Which of the damaged tables comes next.
    turn: usize,
    differ: Differ,
}

#[derive(Clone, Copy, Debug)]
enum Edit<'a> {
    Insert(&'a [u32], (u32, u32)),
    Delete((u32, u32), (u32, u32)),
}

fn ours(h: &Tabled) -> TabledPage {
    let p = &h.page;
    let page = Page { text: p.text.clone(), folds: p.folds.clone(), caret: p.caret, sizes: p.sizes };
    TabledPage { page, table: h.table.clone(), content: h.content }
}

impl Count {
    /// A fill in each form: the answer, and every place of the table.
    fn fill(&mut self, text: &[u32], table: &[u32]) {
        self.fills += 1;
        let (mut wanted, mut first, mut second) = (table.to_vec(), table.to_vec(), table.to_vec());
        let answer = fill(text, &mut wanted);
        let (on_points, on_bytes) = (row_starts(text, &mut first), self.room.row_starts(&bytes(text), &mut second));
        let same = (on_points, &first) == (answer, &wanted) && (on_bytes, &second) == (answer, &wanted);
        self.differ.unless(same, || format!("the rows of {text:?} into {table:?}: {on_points:?} {first:?}, and not {answer:?} {wanted:?}"));
    }

    /// One edit, in each form: the number, and every place of all that is lent.
    fn edit(&mut self, host: &mut Tabled, edit: Edit) -> u32 {
        self.edits += 1;
        let (mut first, mut second) = (ours(host), ours(host));
        let before = host.clone();
        let (wanted, on_points, on_bytes) = match edit {
            Edit::Insert(points, at) => {
                let wanted = host.insert(points, at);
                (wanted, first.insert(points, at), self.room.insert_rows(&mut second, &bytes(points), at))
            }
            Edit::Delete(from, to) => (host.delete(from, to), first.delete(from, to), second.delete(from, to)),
        };
        let number = |r: Result<(), u32>| r.err().unwrap_or(0);
        let same = (number(on_points), &first) == (wanted, &ours(host)) && (number(on_bytes), &second) == (wanted, &ours(host));
        self.differ.unless(same, || format!("{edit:?} of {before:?}: {on_points:?} {first:?}, and not {wanted} {host:?}"));
        wanted
    }
}

impl Count {
    /// A motion with a table, in each form: what it answers without one, then 15 and 16.
    fn motion(&mut self, case: &Case, first: &Outcome, table: &[u32], content: u32) {
        self.motions += 1;
        let answer = port_rows(case, Rows { starts: table, content }, Some(&mut self.room));
        let wanted = Some(second(first.clone(), &case.text, table, content));
        self.differ.unless(answer == wanted, || format!("{case} with {table:?}, {content}: {answer:?}, and not {wanted:?}"));
    }

    /// The same with the text's own table, and with as many of the others as are asked for, in turn.
    fn motions(&mut self, case: &Case, most: usize) {
        let first = match case.answer() {
            Outcome::Outside => port(case, None),
            told => told,
        };
        let all = tables(&case.text);
        let (own, others) = all.split_first().expect("a table");
        self.motion(case, &first, &own.0, own.1);
        for i in 0..most.min(others.len()) {
            let (table, content) = &others[(self.turn + i) % others.len()];
            self.motion(case, &first, table, *content);
        }
        self.turn += most.min(others.len());
    }
}

/// The positions of a text, and some that lie outside it.
fn places(text: &[u32]) -> Vec<(u32, u32)> {
    let rows: Vec<usize> = text.split(|&x| x == 10).map(<[u32]>::len).collect();
    let in_rows = rows.iter().enumerate().flat_map(|(r, &n)| (0..=n + 1).map(move |c| (r as u32, c as u32)));
    in_rows.chain([(rows.len() as u32, 0)]).collect()
}

/// Tables and counts for a text: its own in tables of several lengths, and damaged ones, of a long text at some places.
fn tables(text: &[u32]) -> Vec<(Vec<u32>, u32)> {
    let (starts, content) = counted(text);
    let mut all = Vec::new();
    for more in [0, 1, 3] {
        let mut table = starts.clone();
        table.resize(starts.len() + more, 777);
        all.push((table, content));
    }
    all.push((starts[..starts.len() - 1].to_vec(), content));
    all.extend([(starts.clone(), content + 1), (starts.clone(), content.wrapping_sub(1))]);
    let last = starts.len() - 1;
    let places: Vec<usize> = if last < 50 { (0..=last).collect() } else { vec![0, 1, last / 2, last] };
    for &place in &places {
        for wrong in [0, 1, starts[place].wrapping_sub(1), starts[place] + 1, text.len() as u32, u32::MAX] {
            let mut table = starts.clone();
            table[place] = wrong;
            table.push(5);
            all.push((table, content));
        }
        if place < last {
            let mut table = starts.clone();
            table.swap(place, place + 1);
            all.push((table, content));
        }
    }
    all
}

fn small(count: &mut Count, most: usize) {
    let put = generate::texts(&[0x62, 0x0A], 2);
    for text in generate::texts(&[0x61, 0x0A], most) {
        for length in 0..text.len() + 3 {
            count.fill(&text, &vec![9; length]);
        }
        let places = places(&text);
        for (table, content) in tables(&text) {
            let mut buffer = text.clone();
            buffer.resize(text.len() + 1, 7);
            let page = edits::Page { text: buffer, folds: vec![0, 0, 1, 9], caret: [0; 6], sizes: [text.len() as u32, 1] };
            let host = Tabled { page, table, content };
            for &from in &places {
                for points in &put {
                    count.edit(&mut host.clone(), Edit::Insert(points, from));
                }
                for &to in &places {
                    count.edit(&mut host.clone(), Edit::Delete(from, to));
                }
            }
        }
    }
}

/// A run of edits from a fresh fill, refused ones among them; now and then the table is damaged, and filled again.
fn run(count: &mut Count, dice: &mut Dice) {
    let (room, places_held) = (dice.pick(&[4, 12, 40, 200]), dice.pick(&[1, 2, 6, 60]));
    let page = edits::Page { text: vec![3; room], folds: vec![6; 9], caret: [0; 6], sizes: [0, 0] };
    let mut host = Tabled { page, table: vec![8; places_held], content: 0 };
    host.content = fill(&[], &mut host.table).expect("a fill");
    for _ in 0..40 {
        let text = host.page.text[..host.page.sizes[0] as usize].to_vec();
        let places = places(&text);
        let at = dice.pick(&places);
        if dice.once_in(9) {
            let place = dice.below(host.table.len());
            host.table[place] = dice.pick(&[0, 1, 2, 5, u32::MAX]);
        }
        if dice.once_in(3) {
            let to = dice.pick(&places);
            let (from, to) = if dice.once_in(8) { (at, to) } else { (at.min(to), at.max(to)) };
            count.edit(&mut host, Edit::Delete(from, to));
        } else {
            let mut points: Vec<u32> = (0..dice.below(9)).map(|_| dice.pick(&[0x61, 0x62, 0x0A, 0x0A, 0xE9])).collect();
            if dice.once_in(12) {
                points.push(dice.pick(&[0x0D, 0x2028, 0xD800, 0x11_0000]));
            }
            count.edit(&mut host, Edit::Insert(&points, at));
        }
        let text = host.page.text[..host.page.sizes[0] as usize].to_vec();
        count.fill(&text, &host.table);
        if let Ok(content) = fill(&text, &mut host.table) {
            host.content = content;
        }
    }
}

/// Texts that are refused, and the longest.
fn limits(count: &mut Count) {
    const LIMIT: usize = 1_048_576;
    for wrong in [0x0D, 0x2028, 0xD800, 0x11_0000] {
        count.fill(&[0x61, wrong], &[9; 3]);
        count.fill(&[0x61, wrong], &[]);
    }
    for (text, places) in [(vec![0x0A; LIMIT], LIMIT + 1), (vec![0x0A; LIMIT], LIMIT), (vec![0x61; LIMIT + 1], 1), (vec![0x61; LIMIT], 1)] {
        count.fill(&text, &vec![9; places]);
    }
    let (table, content) = counted(&vec![0x0A; LIMIT]);
    let page = edits::Page { text: vec![0x0A; LIMIT], folds: vec![], caret: [0; 6], sizes: [LIMIT as u32, 0] };
    let mut host = Tabled { page, table, content };
    count.edit(&mut host, Edit::Insert(&[0x0A], (3, 0)));
    count.edit(&mut host, Edit::Delete((3, 0), (1_000_000, 0)));
    count.edit(&mut host, Edit::Insert(&[0x61; 7], (2, 0)));
    count.edit(&mut host, Edit::Insert(&vec![0x0A; 999_990], (0, 0)));
}

/// Every motion that takes a table.
fn with_a_table() -> impl Iterator<Item = &'static Call> {
    let rows = Rows { starts: &[0], content: 1 };
    CALLS.iter().filter(move |&call| port_rows(&Case::new(call), rows, None).is_some())
}

/// Each of them on small texts, on random ones with all tables, and at the limits.
fn motions(count: &mut Count, most: usize, runs: u64, seed: u64) {
    for call in with_a_table() {
        generate::small(call, most.clamp(1, 3) - 1, |case| count.motions(case, 3));
        for index in 0..runs {
            count.motions(&generate::random(call, &mut Dice::new(seed, index)), usize::MAX);
        }
        for case in generate::limits(call) {
            count.motions(&case, 2);
        }
    }
}

/// Texts whose length and whose code points stand at the ends of a stretch of the pass over text and table, plain, with an
/// arrow, and with what a text may not hold, with all tables.
fn stretches(count: &mut Count) -> Result<(), String> {
    const STRETCH: usize = 4096;
    for call in [case::call("move_top")?, case::call("move_down")?] {
        for len in [STRETCH - 1, STRETCH, STRETCH + 1, 2 * STRETCH - 1, 2 * STRETCH, 2 * STRETCH + 1, 3 * STRETCH + 1] {
            let plain: Vec<u32> = (1..=len).map(|i| if i % 61 == 0 || i % STRETCH < 2 { 0x0A } else { 0x61 }).collect();
            for at in [0, STRETCH - 2, STRETCH - 1, STRETCH, len / 2, len - 1] {
                for x in [0x0A, 0x62, 0x2191, 0x0B, 0x85, 0x2028, 0xD800, 0x11_0000] {
                    let mut text = plain.clone();
                    if let Some(place) = text.get_mut(at) {
                        *place = x;
                    }
                    count.motions(&Case { text, ..Case::new(call) }, usize::MAX);
                }
            }
        }
    }
    Ok(())
}

fn asked(words: &[String]) -> Result<Count, String> {
    let Runs { runs, seed, small: most } = Runs { runs: 300, seed: 1, small: 4 }.read(words, HELP)?;
    let mut count = Count { room: Room::new(1_100_000), fills: 0, edits: 0, motions: 0, turn: 0, differ: Differ::default() };
    small(&mut count, most);
    limits(&mut count);
    stretches(&mut count)?;
    motions(&mut count, most, runs, seed);
    for i in 0..runs {
        run(&mut count, &mut Dice::new(seed, i));
    }
    Ok(count)
}

fn main() -> ExitCode {
    options::program("row_table", HELP, |words| {
        let Count { fills, edits, motions, differ: Differ(differ), .. } = asked(words)?;
        println!("row table: {fills} fills, {edits} edits, {motions} motions of {}, {differ} differ", with_a_table().count());
        Ok(differ == 0)
    })
}
