//! What this Rust and its unicode-width say of every scalar value: letters, white space, widths, and widths under wide by class A.
//!
//! Prints each fact's ranges of scalar values, both ends in, one to a line, and how many they are in
//! total, as the program `scalars` does. A width of 1 is left out, and `None` (a control character)
//! is read as 1, as document 01 says. With the argument `versions` it prints the Unicode versions
//! first. Uses std, unicode_width and the class alone.

use unicode_width::UnicodeWidthChar;

/// Every scalar value, ascending.
fn scalars() -> impl Iterator<Item = char> {
    '\0'..=char::MAX
}

/// Prints the ranges of scalar values with `holds`. Surrogates are no scalar values, so they end a
/// range.
fn show(fact: &str, holds: impl Fn(char) -> bool) {
    let mut ranges: Vec<(u32, u32)> = Vec::new();
    for x in scalars().filter(|&c| holds(c)).map(u32::from) {
        match ranges.last_mut() {
            Some((_, last)) if *last + 1 == x => *last = x,
            _ => ranges.push((x, x)),
        }
    }
    for (first, last) in &ranges {
        println!("{fact} {first} {last}");
    }
    let total: u32 = ranges.iter().map(|(first, last)| last - first + 1).sum();
    println!("{fact} total {total}");
}

/// The width, None read as 1.
fn width(c: char) -> usize {
    c.width().unwrap_or(1)
}

fn main() {
    if std::env::args().nth(1).as_deref() == Some("versions") {
        let (major, minor, update) = char::UNICODE_VERSION;
        println!("rust-unicode {major}.{minor}.{update}");
        let (major, minor, update) = unicode_width::UNICODE_VERSION;
        println!("width-unicode {major}.{minor}.{update}");
    }
    show("scalar", |_| true);
    show("letter", char::is_alphabetic);
    show("white", char::is_whitespace);
    let mut widths: Vec<usize> = scalars().map(width).filter(|&w| w != 1).collect();
    widths.sort_unstable();
    widths.dedup();
    for &w in &widths {
        show(&format!("width {w}"), |c| width(c) == w);
    }
    for w in widths {
        show(&format!("wide {w}"), |c| oracle::wide::width(c) as usize == w);
    }
}
