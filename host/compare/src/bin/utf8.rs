//! UTF-8 from and to code points against RFC 3629's tables and Rust's own `std::str`. `./compare --utf8 --help` says how.

use compare::differ::Differ;
use compare::options::{self, Cases};
use oracle::generate::Dice;
use oracle::utf8;
use std::process::ExitCode;
use tsivareza::{Room, bytes, utf8_decode, utf8_encode};

const HELP: &str = "\
./compare --utf8 [--cases N] [--seed S] [--short]
    every string of 1 to 3 bytes, every one of 4 over the edges of the ranges, every code point both
    ways, N random texts from the seed S (20000 from 1), each also with a byte changed, taken out, put
    in and cut off, and the limits; rooms exact, one short and one over; --short: of 3 and 4 bytes
    those over the edges alone, and each 97th code point";

/// What lent places hold before a call.
const POINT: u32 = 0xA5A5_A5A5;
const BYTE: u8 = 0xA5;

/// The bytes at the edges of the ranges of RFC 3629's syntax, and their neighbours.
const EDGES: [u8; 29] = [
    0x00, 0x7F, 0x80, 0x8F, 0x90, 0x9F, 0xA0, 0xBF, 0xC0, 0xC1, 0xC2, 0xDF, 0xE0, 0xE1, 0xEC, 0xED, 0xEE, 0xEF, 0xF0, 0xF1, 0xF3,
    0xF4, 0xF5, 0xF7, 0xF8, 0xFB, 0xFC, 0xFE, 0xFF,
];

struct Count {
    room: Room,
    decoded: u64,
    encoded: u64,
    differ: Differ,
}

impl Count {
    /// Decodes with room for so many code points; the places past the answer are watched.
    fn decode(&mut self, input: &[u8], room: usize) {
        self.decoded += 1;
        let expected = utf8::decode(input, room);
        let mut points = vec![POINT; room];
        let answer = utf8_decode(input, &mut points);
        let mut left = expected.clone().unwrap_or_default();
        left.resize(room, POINT);
        let wanted = expected.map(|t| t.len() as u32);
        self.differ.unless((answer, &points) == (wanted, &left), || format!("decoding {input:02x?} into {room}: {answer:?}, and not {wanted:?}"));
    }

    /// Decodes into enough room, exactly enough and one place too few.
    fn decode_all(&mut self, input: &[u8]) {
        let read = utf8::decoded(input);
        let std = utf8::by_std(input);
        self.differ.unless(read == std, || format!("the tables on {input:02x?}: {read:?}, and std::str {std:?}"));
        let most = read.as_ref().map_or(input.len(), Vec::len);
        self.decode(input, most);
        self.decode(input, most + 1);
        if most > 0 {
            self.decode(input, most - 1);
        }
        if read.is_err() {
            self.decode(input, 0);
        }
    }

    fn encode(&mut self, points: &[u32], room: usize) {
        self.encoded += 1;
        let expected = utf8::encode(points, room);
        let mut left = expected.clone().unwrap_or_default();
        left.resize(room, BYTE);
        let wanted = expected.map(|b| b.len() as u32);
        let (mut once, mut again) = (vec![BYTE; room], vec![BYTE; room]);
        let on_points = utf8_encode(points, &mut once);
        let on_bytes = self.room.utf8_encode(&bytes(points), &mut again);
        let same = (on_points, &once) == (wanted, &left) && (on_bytes, &again) == (wanted, &left);
        self.differ.unless(same, || format!("encoding {points:x?} into {room}: {on_points:?} and {on_bytes:?}, and not {wanted:?}"));
    }

    fn encode_all(&mut self, points: &[u32]) {
        let most = utf8::encode(points, usize::MAX).map_or(4 * points.len(), |b| b.len());
        self.encode(points, most);
        self.encode(points, most + 1);
        if most > 0 {
            self.encode(points, most - 1);
        }
    }
}

/// Every string of so many bytes.
fn strings(length: usize, over: &[u8], visit: &mut impl FnMut(&[u8])) {
    fn go(input: &mut Vec<u8>, left: usize, over: &[u8], visit: &mut impl FnMut(&[u8])) {
        if left == 0 {
            return visit(input);
        }
        for &b in over {
            input.push(b);
            go(input, left - 1, over, visit);
            input.pop();
        }
    }
    go(&mut Vec::new(), length, over, visit);
}

fn scalars(count: &mut Count, step: usize) {
    for x in (0..=0x11_0000).step_by(step) {
        count.encode_all(&[x]);
        if let Some(c) = char::from_u32(x) {
            let text = c.to_string();
            count.differ.unless(utf8::encoded(x) == text.as_bytes(), || format!("the table on {x:x}"));
            count.decode_all(text.as_bytes());
        }
    }
}

const POINTS: [u32; 24] = [
    0, 0x0A, 0x20, 0x61, 0x61, 0x7A, 0x7F, 0x80, 0x85, 0xE9, 0xE9, 0x7FF, 0x800, 0x2028, 0x2192, 0x2192, 0xD7FF, 0xE000, 0xFEFF, 0xFFFD,
    0xFFFF, 0x1_0000, 0x1_F600, 0x10_FFFF,
];
const NO_POINTS: [u32; 4] = [0xD800, 0xDFFF, 0x11_0000, 0xFFFF_FFFF];

/// A random text, its encoding, and that with damage; long stretches of ASCII among them.
fn random(count: &mut Count, dice: &mut Dice) {
    let mut points = Vec::new();
    for _ in 0..dice.pick(&[0, 1, 2, 3, 5, 9, 17]) {
        let x = dice.pick(&POINTS);
        let times = if x < 0x80 { dice.pick(&[1, 1, 2, 7, 63, 64, 65, 200]) } else { dice.pick(&[1, 1, 2, 20]) };
        points.extend(std::iter::repeat_n(x, times));
    }
    count.encode_all(&points);
    let good: Vec<u8> = points.iter().flat_map(|&x| utf8::encoded(x)).collect();
    count.decode_all(&good);
    let at = dice.below(good.len() + 1);
    let odd = if dice.once_in(2) { dice.pick(&EDGES) } else { dice.below(256) as u8 };
    count.decode_all(&good[..at]);
    count.decode_all(&[&good[..at], &[odd], &good[at..]].concat());
    if at < good.len() {
        count.decode_all(&[&good[..at], &[odd], &good[at + 1..]].concat());
        count.decode_all(&[&good[..at], &good[at + 1..]].concat());
    }
    if !points.is_empty() {
        let at = dice.below(points.len());
        points[at] = dice.pick(&NO_POINTS);
        count.encode_all(&points);
    }
}

fn limits(count: &mut Count) {
    for x in [0x61, 0xE9, 0x2192, 0x1_F600, 0xD800] {
        count.encode_all(&vec![x; 1_048_576]);
        count.encode_all(&vec![x; 1_048_577]);
    }
    let many = "é".repeat(1_048_577);
    count.decode_all(many.as_bytes());
    count.decode_all(&many.as_bytes()[..many.len() - 1]);
    count.decode_all(&vec![0x61; 3_000_001]);
}

fn asked(words: &[String]) -> Result<Count, String> {
    let Cases { cases, seed, short } = Cases { cases: 20_000, seed: 1, short: false }.read(words, HELP)?;
    let mut count = Count { room: Room::new(1_060_000), decoded: 0, encoded: 0, differ: Differ::default() };
    let bytes: Vec<u8> = (0..=255).collect();
    for length in 0..=4 {
        let all = length < 3 || length == 3 && !short;
        strings(length, if all { &bytes } else { &EDGES }, &mut |input| count.decode_all(input));
    }
    scalars(&mut count, if short { 97 } else { 1 });
    limits(&mut count);
    (0..cases).for_each(|index| random(&mut count, &mut Dice::new(seed, index)));
    Ok(count)
}

fn main() -> ExitCode {
    options::program("utf8", HELP, |words| {
        let Count { decoded, encoded, differ: Differ(differ), .. } = asked(words)?;
        println!("utf8 {decoded} decoded, {encoded} encoded, {differ} differ");
        Ok(differ == 0)
    })
}
