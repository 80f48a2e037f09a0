//! 20,000 jumps over one template: one call of the proved library, beside the given Rust with its text made ready once and made
//! ready at each jump, and beside the library's own single calls. `./speed jumps` builds it for this machine's processor.
//! Times are for one jump, the best of several runs. What takes long for each jump is timed over the first jumps alone.

use hjkl_buffer::Fold;
use hjkl_engine::types::Pos;
use hjkl_engine::{SnapshotFoldProvider, View, motions};
use oracle::row_table::counted;
use std::hint::black_box;
use std::time::Instant;
use tsivareza::{Caret, Ground, Kept, Seek, Word, Words, jumps, seek, word};

const LIST: &str = "@,48-57,_";
const JUMPS: usize = 20_000;

/// Branches in short rows, up to a length.
fn template(n: usize) -> String {
    let branch = "if (n > 1) {\n  call(site, [one, two]);\n  say \"done\";\n}\n\n";
    branch.chars().cycle().take(n).collect()
}

/// A closed fold of three rows in each hundred, and at most 256 of them.
fn folded(rows: usize) -> Vec<[u32; 3]> {
    (0..rows / 100).take(256).map(|i| [100 * i as u32 + 50, 100 * i as u32 + 52, 1]).collect()
}

/// The best time for one of `n` jumps, in nanoseconds.
fn best(n: usize, mut call: impl FnMut()) -> f64 {
    let (begun, mut least) = (Instant::now(), f64::MAX);
    for _ in 0..7 {
        let start = Instant::now();
        call();
        least = least.min(start.elapsed().as_nanos() as f64 / n as f64);
        if begun.elapsed().as_secs() >= 2 {
            break;
        }
    }
    least
}

fn shown(ns: f64) -> String {
    if ns < 1_000.0 { format!("{ns:.0} ns") } else { format!("{:.2} µs", ns / 1_000.0) }
}

/// A jump by the given Rust, from where its view stands.
fn leap(view: &mut View, folds: &SnapshotFoldProvider, kind: u32, count: usize) {
    match kind {
        0 => motions::move_word_fwd(view, folds, false, count, LIST),
        1 => motions::move_word_back(view, folds, false, count, LIST),
        2 => motions::move_word_end(view, folds, false, count, false, LIST),
        _ => {
            motions::match_bracket(view);
        }
    }
}

/// A jump by the library's own single call.
fn single(text: &[u32], k: Caret, words: Words, kind: u32, count: u32) -> Caret {
    match kind {
        0 => word(Word::Fwd, text, k, words, count),
        1 => word(Word::Back, text, k, words, count),
        2 => word(Word::End { stop: false }, text, k, words, count),
        _ => seek(Seek::MatchBracket, text, k).map(|(_, k)| k),
    }
    .expect("an accepted call")
}

fn main() {
    println!("\n## 20,000 jumps over one template, the time for one jump\n");
    println!("| Code points | Jumps | Folds | One call | Rust, text ready | Rust, made ready each time | Own single calls |\n|---|---|---|---|---|---|---|");
    for n in [2_000, 100_000, 1_000_000] {
        let written = template(n);
        let text: Vec<u32> = written.chars().map(u32::from).collect();
        let list: Vec<u32> = LIST.chars().map(u32::from).collect();
        let (starts, content) = counted(&text);
        let rows = written.matches('\n').count() + 1;
        for (what, cycle) in [("`w`", vec![[0, 1]]), ("`w b e %`", vec![[0, 1], [1, 1], [2, 1], [3, 1]]), ("`3w %`", vec![[0, 3], [3, 1]])] {
            let pairs: Vec<u32> = cycle.iter().cycle().take(JUMPS).flatten().copied().collect();
            for some in [false, true] {
                let spans = if some { folded(rows) } else { vec![] };
                let flat = spans.concat();
                let ground = Ground { starts: &starts, content, folds: &flat, list: &list };
                let from = Kept { caret: Caret { row: 0, col: 0, sticky: None }, offset: None };
                let mut answers = vec![0; pairs.len()];
                let ours = best(JUMPS, || {
                    black_box(jumps(black_box(&text), from, ground, &pairs, &mut answers)).expect("accepted");
                });
                let folds = || {
                    let all = spans.iter().map(|f| Fold {
                        start_row: f[0] as usize,
                        end_row: f[1] as usize,
                        closed: f[2] == 1,
                        auto_generated: false,
                    });
                    SnapshotFoldProvider::new(all.collect(), rows)
                };
                let ready = best(JUMPS, || {
                    let (mut view, folds) = (View::new(black_box(&written), Pos { line: 0, col: 0 }), folds());
                    for (pair, told) in pairs.chunks(2).zip(answers.chunks(2)) {
                        leap(&mut view, &folds, pair[0], pair[1] as usize);
                        assert_eq!([view.at.line, view.at.col], told, "the answers differ");
                    }
                });
                let few = (20_000_000 / n).min(JUMPS);
                let each = best(few, || {
                    let mut at = Pos { line: 0, col: 0 };
                    for pair in pairs.chunks(2).take(few) {
                        let (mut view, folds) = (View::new(black_box(&written), at), folds());
                        leap(&mut view, &folds, pair[0], pair[1] as usize);
                        at = view.at;
                    }
                    assert_eq!([at.line, at.col], answers[2 * few - 2..2 * few], "the answers differ");
                });
                let own = best(few, || {
                    let mut k = from.caret;
                    for pair in pairs.chunks(2).take(few) {
                        k = single(black_box(&text), k, Words { folds: &flat, list: &list, big: false }, pair[0], pair[1]);
                    }
                    assert_eq!([k.row, k.col], answers[2 * few - 2..2 * few], "the answers differ");
                });
                println!(
                    "| {n} | {what} | {} | {} | {} ({:.1}) | {} ({:.0}) | {} ({:.0}) |",
                    spans.len(),
                    shown(ours),
                    shown(ready),
                    ready / ours,
                    shown(each),
                    each / ours,
                    shown(own),
                    own / ours
                );
            }
        }
    }
    println!("\nIn brackets how many times the one call's.");
}
