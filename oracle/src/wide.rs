//! The calls on widths under the setting wide, document 02's #107, which the given Rust does not have. It goes by a
//! character's cells alone, and by whether it is a tab, white space or a separator. No character of class A is one of
//! these: so the answer for a text is what the given Rust answers for it with U+3042, which has two cells, in place of
//! each character of class A that has one.

use crate::calls::width_of;
use crate::case::{Call, Case, call};
use std::ops::RangeInclusive;
use std::sync::LazyLock;

/// The ranges of class A, ascending.
pub static CLASS_A: LazyLock<Vec<RangeInclusive<u32>>> = LazyLock::new(|| {
    let lines = include_str!("../data/east-asian-ambiguous-17.0.0.txt").lines().filter(|line| !line.starts_with('#'));
    let number = |word| u32::from_str_radix(word, 16).expect("a hexadecimal number");
    lines.map(|line| line.split_once("..").map(|(first, last)| number(first)..=number(last)).expect("START..END")).collect()
});

pub fn is_ambiguous(x: u32) -> bool {
    let at = CLASS_A.partition_point(|range| *range.end() < x);
    CLASS_A.get(at).is_some_and(|range| range.contains(&x))
}

/// Wide makes each character of class A whose width is 1 take 2.
pub fn width(c: char) -> u32 {
    match width_of(c) {
        1 if is_ambiguous(c.into()) => 2,
        n => n,
    }
}

/// A character of two cells for each that takes two under wide and one else.
fn widened(x: u32) -> u32 {
    match char::from_u32(x) {
        Some(c) if width(c) != width_of(c) => 0x3042,
        _ => x,
    }
}

fn all(row: &[u32]) -> Vec<u32> {
    row.iter().map(|&x| widened(x)).collect()
}

/// The name of a call without the flag, where the name has it.
pub fn stem(name: &str) -> Option<&str> {
    name.strip_suffix("_wide")
}

/// The case for the given Rust.
pub fn plain(k: &Case) -> Case {
    let name = stem(k.call.name).expect("a call with the flag");
    let plain: &'static Call = call(name).expect("the call without it");
    Case { call: plain, text: all(&k.text), line: all(&k.line), character: widened(k.character), ..k.clone() }
}
