//! Folds on disk in a reader's words: document 02's #111, sentence by sentence. A file is cut into
//! blocks and each is looked at; nothing of it is written anew to be compared.

/// Start, end, closed.
pub type Fold = [u32; 3];

const BLOCK: usize = 512;
const FULL: usize = 56;

/// The sum of the first 510 bytes modulo 65,536.
pub fn sum(block: &[u8]) -> u16 {
    block[..510].iter().fold(0u16, |sum, &b| sum.wrapping_add(u16::from(b)))
}

/// Puts right the sums of a file of whole blocks.
pub fn summed(mut file: Vec<u8>) -> Vec<u8> {
    for block in file.chunks_exact_mut(BLOCK) {
        let sum = sum(block);
        block[510..].copy_from_slice(&sum.to_le_bytes());
    }
    file
}

/// The file of folds: all blocks but the last are full, and no folds are one empty block.
pub fn written(folds: &[Fold]) -> Vec<u8> {
    let blocks: Vec<&[Fold]> = if folds.is_empty() { vec![&[]] } else { folds.chunks(FULL).collect() };
    let mut file = Vec::new();
    for (number, held) in blocks.iter().enumerate() {
        let mut block = Vec::new();
        block.extend((number as u16).to_le_bytes());
        block.extend((held.len() as u16).to_le_bytes());
        for [start, end, closed] in *held {
            block.extend(start.to_le_bytes());
            block.extend(end.to_le_bytes());
            block.push(*closed as u8);
        }
        block.resize(508, 0);
        block.extend((folds.len() as u16).to_le_bytes());
        block.resize(BLOCK, 0);
        file.extend(block);
    }
    summed(file)
}

fn two(bytes: &[u8]) -> usize {
    usize::from(u16::from_le_bytes([bytes[0], bytes[1]]))
}

fn four(bytes: &[u8]) -> u32 {
    u32::from_le_bytes([bytes[0], bytes[1], bytes[2], bytes[3]])
}

/// The folds of a file, or 18, 19 or 20.
pub fn listed(file: &[u8]) -> Result<Vec<Fold>, u32> {
    if file.is_empty() || file.len() % BLOCK != 0 || file.len() > 5 * BLOCK {
        return Err(18);
    }
    let blocks: Vec<&[u8]> = file.chunks(BLOCK).collect();
    if blocks.iter().any(|block| two(&block[510..]) != usize::from(sum(block))) {
        return Err(19);
    }
    let all: usize = blocks.iter().map(|block| two(&block[2..])).sum();
    let mut folds = Vec::new();
    for (number, block) in blocks.iter().enumerate() {
        let held = two(&block[2..]);
        let last = number + 1 == blocks.len();
        let right = two(block) == number
            && held <= FULL
            && (last || held == FULL)
            && (blocks.len() == 1 || held > 0)
            && two(&block[508..]) == all;
        if !right || block[4 + 9 * held..508].iter().any(|&b| b != 0) {
            return Err(20);
        }
        folds.extend(block[4..].chunks(9).take(held).map(|entry| [four(entry), four(&entry[4..]), u32::from(entry[8])]));
    }
    Ok(folds)
}

/// 1 to 3 of a text.
fn text_refusal(text: &[u32]) -> Result<(), u32> {
    if text.len() > 1_048_576 {
        return Err(1);
    }
    if text.iter().any(|&x| char::from_u32(x).is_none()) {
        return Err(2);
    }
    if text.iter().any(|x| matches!(x, 0x0B..=0x0D | 0x85 | 0x2028 | 0x2029)) {
        return Err(3);
    }
    Ok(())
}

/// 5 of a fold slice over a text.
fn fold_refusal(text: &[u32], folds: &[u32]) -> Result<(), u32> {
    let rows = text.iter().filter(|&&x| x == 10).count() + 1;
    let bad = |fold: &[u32]| fold[0] > fold[1] || fold[1] as usize >= rows || fold[2] > 1;
    let unfit = folds.len() % 3 != 0 || folds.len() / 3 > 256 || folds.chunks_exact(3).any(bad);
    if unfit { Err(5) } else { Ok(()) }
}

/// The answer of the writer with so many bytes lent: 1 to 3, 5, 14.
pub fn write(text: &[u32], folds: &[u32], room: usize) -> Result<Vec<u8>, u32> {
    text_refusal(text)?;
    fold_refusal(text, folds)?;
    let list: Vec<Fold> = folds.chunks(3).map(|f| [f[0], f[1], f[2]]).collect();
    let file = written(&list);
    if file.len() > room { Err(14) } else { Ok(file) }
}

/// The answer of the reader with so many places lent: 1 to 3, 18, 19, 20, 5, 14.
pub fn read(text: &[u32], file: &[u8], room: usize) -> Result<Vec<u32>, u32> {
    text_refusal(text)?;
    let folds = listed(file)?.concat();
    fold_refusal(text, &folds)?;
    if folds.len() > room { Err(14) } else { Ok(folds) }
}
