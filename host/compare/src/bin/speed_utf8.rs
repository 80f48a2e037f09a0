//! UTF-8 by the proved library and by Rust's own `std::str` on the same texts, in one run. `./speed --utf8` builds it for
//! this machine's processor. Times are the best of many runs; read the ratios.

use std::hint::black_box;
use std::time::{Duration, Instant};

/// A kind of text, and a code point of it by its index.
type Kind = (&'static str, fn(usize) -> u32);

const SIZES: [usize; 3] = [2_000, 100_000, 1_048_576];
const KINDS: [Kind; 5] = [
    ("ASCII", |i| if i % 60 == 59 { 0x0A } else { 0x61 + (i % 26) as u32 }),
    ("an accent in 20", |i| if i % 20 == 19 { 0xE9 } else { 0x61 + (i % 26) as u32 }),
    ("every second accented", |i| if i % 2 == 1 { 0xE0 + (i % 20) as u32 } else { 0x61 + (i % 26) as u32 }),
    ("arrows", |i| 0x2190 + (i % 100) as u32),
    ("of four bytes", |i| 0x1_F600 + (i % 64) as u32),
];

/// The best time of a call, in nanoseconds, of as many runs as a fifth of a second allows.
fn best(mut call: impl FnMut()) -> f64 {
    let (begun, mut least) = (Instant::now(), f64::MAX);
    while begun.elapsed() < Duration::from_millis(200) {
        let start = Instant::now();
        call();
        least = least.min(start.elapsed().as_nanos() as f64);
    }
    least
}

/// `from_utf8`, and each character into its place.
fn std_decode(bytes: &[u8], points: &mut [u32]) -> usize {
    let text = std::str::from_utf8(bytes).expect("UTF-8");
    let mut n = 0;
    for (place, c) in points.iter_mut().zip(text.chars()) {
        *place = c.into();
        n += 1;
    }
    n
}

/// `from_utf8`, and each byte into its place: right of ASCII alone.
fn std_widen(bytes: &[u8], points: &mut [u32]) -> usize {
    let text = std::str::from_utf8(bytes).expect("UTF-8");
    for (place, &b) in points.iter_mut().zip(text.as_bytes()) {
        *place = b.into();
    }
    text.len()
}

/// Each code point made a `char`, and its bytes into their places.
fn std_encode(points: &[u32], bytes: &mut [u8]) -> usize {
    let mut n = 0;
    for &x in points {
        n += char::from_u32(x).expect("a scalar value").encode_utf8(&mut bytes[n..]).len();
    }
    n
}

fn main() {
    println!("| Code points | Text | Decoding, ns each | `std::str` | ratio | Encoding, ns each | `std::str` | ratio |");
    println!("|---|---|---|---|---|---|---|---|");
    for n in SIZES {
        for (name, of) in KINDS {
            let points: Vec<u32> = (0..n).map(of).collect();
            let bytes: Vec<u8> = points.iter().map(|&x| char::from_u32(x).expect("a scalar value")).collect::<String>().into();
            let (mut room, mut out) = (vec![0; n], vec![0; bytes.len()]);
            let ours = best(|| assert_eq!(tsivareza::utf8_decode(black_box(&bytes), black_box(&mut room)), Ok(n as u32)));
            assert_eq!(room, points);
            if bytes.len() == n {
                let plain = best(|| assert_eq!(std_widen(black_box(&bytes), black_box(&mut room)), n));
                println!("| {n} | {name}, against bytes widened | {:.2} | {:.2} | {:.2} | | | |", ours / n as f64, plain / n as f64, ours / plain);
            }
            let theirs = best(|| assert_eq!(std_decode(black_box(&bytes), black_box(&mut room)), n));
            let back = best(|| assert_eq!(tsivareza::utf8_encode(black_box(&points), black_box(&mut out)), Ok(bytes.len() as u32)));
            assert_eq!(out, bytes);
            let back_std = best(|| assert_eq!(std_encode(black_box(&points), black_box(&mut out)), bytes.len()));
            let each = |t: f64| t / n as f64;
            println!(
                "| {n} | {name} | {:.2} | {:.2} | {:.2} | {:.2} | {:.2} | {:.2} |",
                each(ours),
                each(theirs),
                ours / theirs,
                each(back),
                each(back_std),
                back / back_std
            );
        }
    }
}
