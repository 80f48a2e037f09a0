//! Fold files against document 02's words. `./compare --folds --help` says how.

use compare::differ::Differ;
use compare::options::{self, Cases};
use oracle::fold_file;
use oracle::generate::Dice;
use std::process::ExitCode;
use tsivareza::{Room, bytes, folds_read, folds_write};

const HELP: &str = "\
./compare --folds [--cases N] [--seed S] [--short]
    files of 0 to 257 folds written and read again, with rooms exact, one short and one over; files of
    0, 1, 2, 56 and 57 folds with every byte changed to every other value; each of their bytes changed
    and the sums put right; lengths around each block; folds that the open text refuses; texts that are
    refused; and N random files from the seed S (4000 from 1), damaged, with their sums put right.
    --short: every byte changed to 3 other values, and files of each 16th number of folds";

/// What lent places hold before a call.
const POINT: u32 = 0xA5A5_A5A5;
const BYTE: u8 = 0xA5;

struct Count {
    room: Room,
    written: u64,
    read: u64,
    differ: Differ,
}

impl Count {
    /// Writes with so many bytes lent; those past the answer are watched.
    fn write(&mut self, text: &[u32], folds: &[u32], room: usize) {
        self.written += 1;
        let expected = fold_file::write(text, folds, room);
        let mut left = expected.clone().unwrap_or_default();
        left.resize(room, BYTE);
        let wanted = expected.map(|file| file.len() as u32);
        let (mut once, mut again) = (vec![BYTE; room], vec![BYTE; room]);
        let on_points = folds_write(text, folds, &mut once);
        let on_bytes = self.room.folds_write(&bytes(text), &bytes(folds), &mut again);
        let same = (on_points, &once) == (wanted, &left) && (on_bytes, &again) == (wanted, &left);
        self.differ.unless(same, || format!("writing {folds:?} into {room}: {on_points:?} and {on_bytes:?}, and not {wanted:?}"));
    }

    /// Reads with so many places lent, on code points; on bytes too where `both`.
    fn read_with(&mut self, text: &[u32], file: &[u8], room: usize, both: bool) {
        self.read += 1;
        let expected = fold_file::read(text, file, room);
        let mut left = expected.clone().unwrap_or_default();
        left.resize(room, POINT);
        let wanted = expected.map(|folds| folds.len() as u32 / 3);
        let mut once = vec![POINT; room];
        let on_points = folds_read(text, file, &mut once);
        self.differ.unless((on_points, &once) == (wanted, &left), || format!("reading {file:02x?} into {room}: {on_points:?}, and not {wanted:?}"));
        if both {
            let mut again = vec![POINT; room];
            let on_bytes = self.room.folds_read(&bytes(text), file, &mut again);
            self.differ.unless((on_bytes, &again) == (wanted, &left), || format!("the same on bytes: {on_bytes:?}, and not {wanted:?}"));
        }
    }

    fn read(&mut self, text: &[u32], file: &[u8], room: usize) {
        self.read_with(text, file, room, true);
    }
}

/// A text of so many rows.
fn rows(n: usize) -> Vec<u32> {
    vec![10; n - 1]
}

/// So many folds over 300 rows.
fn folds(n: usize, dice: &mut Dice) -> Vec<u32> {
    (0..n)
        .flat_map(|_| {
            let (a, b) = (dice.below(300) as u32, dice.below(300) as u32);
            [a.min(b), a.max(b), dice.below(2) as u32]
        })
        .collect()
}

fn file_of(folds: &[u32]) -> Vec<u8> {
    let list: Vec<fold_file::Fold> = folds.chunks(3).map(|f| [f[0], f[1], f[2]]).collect();
    fold_file::written(&list)
}

/// Every number of folds, written and read again.
fn numbers(count: &mut Count, step: usize) {
    let text = rows(300);
    for n in (0..=257).step_by(step).chain([1, 55, 56, 57, 112, 113, 168, 169, 224, 225, 256, 257]) {
        let list = folds(n, &mut Dice::new(7, n as u64));
        let file = file_of(&list);
        for room in [file.len(), file.len() + 1, file.len() - 1, 0] {
            count.write(&text, &list, room);
        }
        for room in [3 * n, 3 * n + 1, (3 * n).saturating_sub(1), 0] {
            count.read(&text, &file, room);
        }
        for length in [0, 1, 511, 513, file.len() - 1, file.len() + 1, file.len() - 512, file.len() + 512, 3072] {
            let mut cut = file.clone();
            cut.resize(length, 0);
            count.read(&text, &cut, 3 * n);
        }
        for more in 1..3 {
            count.write(&text, &[&list[..], &[0][..]].concat()[..list.len() + more - 1], 4096);
        }
    }
}

/// Every byte changed to other values, with the sum as it was and put right.
fn changed(count: &mut Count, short: bool) {
    let text = rows(300);
    for n in [0, 1, 2, 56, 57] {
        let file = file_of(&folds(n, &mut Dice::new(11, n as u64)));
        for at in 0..file.len() {
            for to in 0..=255_u8 {
                if to == file[at] || short && ![file[at] ^ 1, file[at].wrapping_add(1), file[at] ^ 0x80].contains(&to) {
                    continue;
                }
                let mut other = file.clone();
                other[at] = to;
                count.read_with(&text, &other, 3 * n, false);
                if at % 512 < 510 && (to.wrapping_sub(file[at]) < 3 || to == 255) {
                    count.read_with(&text, &fold_file::summed(other), 3 * n, false);
                }
            }
        }
    }
}

/// Folds that the open text refuses, and texts that are refused.
fn refused(count: &mut Count) {
    let good = folds(60, &mut Dice::new(13, 1));
    let most = (0..20).map(|i| good[3 * i + 1]).max().unwrap() as usize;
    for text in [rows(1), rows(most + 1), rows(299), rows(300), vec![0x0D], vec![0xD800], vec![0x61, 0x2028], vec![]] {
        count.write(&text, &good, 2048);
        count.read(&text, &file_of(&good), 200);
        count.read(&text, &[], 0);
        count.read(&text, &[1; 512], 0);
    }
    for long in [1_048_576, 1_048_577] {
        count.write(&vec![10; long], &[5, 1_048_576, 1], 512);
        count.read(&vec![10; long], &file_of(&[5, 1_048_576, 1]), 3);
        count.read(&vec![0x61; long], &file_of(&[0, 0, 1]), 3);
    }
    for fold in [[1, 0, 0], [0, 300, 0], [0, 299, 2], [0, 299, 255], [0, u32::MAX, 1], [u32::MAX, u32::MAX, 1]] {
        count.write(&rows(300), &fold, 512);
        count.read(&rows(300), &file_of(&fold), 3);
    }
}

/// A random file with some bytes that matter changed, its sums put right or one of them left.
fn random(count: &mut Count, dice: &mut Dice) {
    let n = dice.pick(&[0, 1, 2, 55, 56, 57, 60, 111, 112, 113, 169, 225, 256, 257, 280]);
    let mut file = file_of(&folds(n, dice));
    for _ in 0..dice.pick(&[0, 1, 1, 2, 3]) {
        let block = 512 * dice.below(file.len() / 512);
        let held = usize::from(file[block + 2]);
        let at = match dice.below(6) {
            0 => dice.pick(&[0, 1]),
            1 => dice.pick(&[2, 3]),
            2 => dice.pick(&[508, 509]),
            3 => 4 + dice.below(9 * held + 1).min(503),
            4 => (4 + 9 * held + dice.below(3)).min(507),
            _ => dice.below(510),
        };
        file[block + at] = if dice.once_in(2) { dice.below(6) as u8 } else { dice.pick(&[55, 56, 57, 255, 0, 1]) };
    }
    if dice.once_in(6) {
        let blocks = file.len() / 512;
        let (a, b) = (dice.below(blocks), dice.below(blocks));
        (0..512).for_each(|i| file.swap(512 * a + i, 512 * b + i));
    }
    if !dice.once_in(5) {
        file = fold_file::summed(file);
    }
    if dice.once_in(8) {
        let at = dice.below(file.len());
        file[at] = file[at].wrapping_add(1);
    }
    let rows_here = dice.pick(&[300, 300, 300, 299, 150, 1]);
    count.read(&rows(rows_here), &file, dice.pick(&[3 * n, 3 * n, 3 * n + 2, (3 * n).saturating_sub(1), 900]));
}

fn asked(words: &[String]) -> Result<Count, String> {
    let Cases { cases, seed, short } = Cases { cases: 4_000, seed: 1, short: false }.read(words, HELP)?;
    let mut count = Count { room: Room::new(1_060_000), written: 0, read: 0, differ: Differ::default() };
    numbers(&mut count, if short { 16 } else { 1 });
    changed(&mut count, short);
    refused(&mut count);
    (0..cases).for_each(|index| random(&mut count, &mut Dice::new(seed, index)));
    Ok(count)
}

fn main() -> ExitCode {
    options::program("folds", HELP, |words| {
        let Count { written, read, differ: Differ(differ), .. } = asked(words)?;
        println!("folds {written} written, {read} read, {differ} differ");
        Ok(differ == 0)
    })
}
