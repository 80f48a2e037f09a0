//! Random cases with their answers as rows of numbers, for a host that runs the library elsewhere than in the program `replay`:
//! the groups of `replay`, `replay_buffers`, `replay_tables` and `replay_jumps`, and sessions. A session, group 102, has its bytes
//! as the text; the answer is the bytes that it prints.

use crate::case::CALLS;
use crate::generate::Dice;
use crate::replay::{self, written};
use crate::replay_buffers::{random_edit, random_file};
use crate::{replay_jumps, replay_tables, session};

fn printed(dice: &mut Dice) -> String {
    let numbers = |bytes: &[u8]| bytes.iter().map(|&b| b.into()).collect::<Vec<u32>>();
    let input = session::random(dice);
    let head = [102, 0, 0, 0, 0, 0, 0, 0, 0, 0, input.len() as u32, 0, 0];
    written(&[&head, &numbers(&input), &numbers(&session::session(&input))])
}

/// So many random rows of each call, of each motion with a table, and of the others that a host has; a fold file is written once
/// and read twice.
pub fn each(n: usize, seed: u64, mut visit: impl FnMut(&str)) {
    CALLS.iter().for_each(|call| replay::random(call, seed, n).for_each(|row| visit(&row.numbers)));
    let (there, back) = replay::codings(seed, n);
    there.iter().chain(&back).for_each(|row| visit(&row.numbers));
    replay_tables::random_motions(seed, n).for_each(|row| visit(&row.numbers));
    for index in 0..n as u64 {
        let dice = &mut Dice::new(seed, index);
        visit(&random_edit(dice).numbers);
        let mut files = Vec::new();
        random_file(dice, &mut files);
        files.iter().for_each(|row| visit(&row.numbers));
        visit(&replay_tables::random_fill(dice).numbers);
        visit(&replay_tables::random_edit(dice).numbers);
        visit(&replay_jumps::random(dice).numbers);
        visit(&printed(dice));
    }
}
