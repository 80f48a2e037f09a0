//! UTF-8 in a reader's words: RFC 3629's table of section 3, and its syntax of section 4 row by row;
//! and the same from Rust's own `std::str`. Document 02, #105.

/// The bytes of a code point, by the table of section 3.
pub fn encoded(x: u32) -> Vec<u8> {
    let tail = |n: u32| 0b1000_0000 | ((x >> (6 * n)) & 0b11_1111) as u8;
    match x {
        0..=0x7F => vec![x as u8],
        0x80..=0x7FF => vec![0b1100_0000 | (x >> 6) as u8, tail(0)],
        0x800..=0xFFFF => vec![0b1110_0000 | (x >> 12) as u8, tail(1), tail(0)],
        _ => vec![0b1111_0000 | (x >> 18) as u8, tail(2), tail(1), tail(0)],
    }
}

/// The rows of section 4: from and to of each byte of a sequence.
const SEQUENCES: [&[(u8, u8)]; 9] = [
    &[(0x00, 0x7F)],
    &[(0xC2, 0xDF), (0x80, 0xBF)],
    &[(0xE0, 0xE0), (0xA0, 0xBF), (0x80, 0xBF)],
    &[(0xE1, 0xEC), (0x80, 0xBF), (0x80, 0xBF)],
    &[(0xED, 0xED), (0x80, 0x9F), (0x80, 0xBF)],
    &[(0xEE, 0xEF), (0x80, 0xBF), (0x80, 0xBF)],
    &[(0xF0, 0xF0), (0x90, 0xBF), (0x80, 0xBF), (0x80, 0xBF)],
    &[(0xF1, 0xF3), (0x80, 0xBF), (0x80, 0xBF), (0x80, 0xBF)],
    &[(0xF4, 0xF4), (0x80, 0x8F), (0x80, 0xBF), (0x80, 0xBF)],
];

/// How many bytes of the row stand at the start of `bytes`.
fn matched(row: &[(u8, u8)], bytes: &[u8]) -> usize {
    row.iter().zip(bytes).take_while(|&(&(from, to), &b)| from <= b && b <= to).count()
}

/// The code points, or the place of the first byte that the syntax can't have there, the length where
/// the bytes are cut off.
pub fn decoded(bytes: &[u8]) -> Result<Vec<u32>, usize> {
    let (mut points, mut at) = (Vec::new(), 0);
    while at < bytes.len() {
        let rest = &bytes[at..];
        let row = SEQUENCES.iter().max_by_key(|row| matched(row, rest)).expect("nine rows");
        let most = matched(row, rest);
        if most < row.len() {
            return Err(at + most);
        }
        // The bits behind the lead's first ones and zero, and six of each tail.
        let lead = [0x7F, 0x1F, 0x0F, 0x07][most - 1];
        points.push(rest[1..most].iter().fold(u32::from(rest[0] & lead), |x, b| x << 6 | u32::from(b & 0x3F)));
        at += most;
    }
    Ok(points)
}

/// The same by `std::str`, whose error says where the bad sequence begins and how long it is.
pub fn by_std(bytes: &[u8]) -> Result<Vec<u32>, usize> {
    match std::str::from_utf8(bytes) {
        Ok(text) => Ok(text.chars().map(u32::from).collect()),
        Err(why) => Err(match (why.valid_up_to(), why.error_len()) {
            (_, None) => bytes.len(),
            (at, Some(_)) if matches!(bytes[at], 0x80..=0xC1 | 0xF5..) => at,
            (at, Some(length)) => at + length,
        }),
    }
}

/// The answer of the decoder with so many places lent: 13 with its place, then 14.
pub fn decode(bytes: &[u8], room: usize) -> Result<Vec<u32>, (u32, u32)> {
    let points = decoded(bytes).map_err(|place| (13, place as u32))?;
    if points.len() > room { Err((14, 0)) } else { Ok(points) }
}

/// The answer of the encoder: 1, 2, then 14.
pub fn encode(points: &[u32], room: usize) -> Result<Vec<u8>, u32> {
    if points.len() > 1_048_576 {
        return Err(1);
    }
    if points.iter().any(|&x| char::from_u32(x).is_none()) {
        return Err(2);
    }
    let bytes: Vec<u8> = points.iter().flat_map(|&x| encoded(x)).collect();
    if bytes.len() > room { Err(14) } else { Ok(bytes) }
}
