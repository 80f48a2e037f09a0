//! The retired plus signs of keyword lists, which the given Rust does not have: from the words of document 02, #112. A list
//! is split at commas, and a part trimmed and read as document 01 has it.

/// What a part is kept as.
enum Token {
    Letters,
    Codes(u32, u32),
}

/// The number that a text is to the first reader: one optional `+`, digits, below 2^32.
fn number(text: &str) -> Option<u32> {
    text.parse().ok()
}

/// What a trimmed part is kept as, and the places in it of the plus signs that it takes as part of a number.
fn read(part: &str) -> Option<(Token, Vec<usize>)> {
    let plus = |text: &str, at: usize| text.starts_with('+').then_some(at);
    if part == "@" {
        return Some((Token::Letters, vec![]));
    }
    if let Some((first, second)) = part.split_once('-')
        && let (Some(low), Some(high)) = (number(first), number(second))
    {
        let signs = [plus(first, 0), plus(second, first.len() + 1)];
        return Some((Token::Codes(low, high), signs.into_iter().flatten().collect()));
    }
    if let Some(code) = number(part) {
        return Some((Token::Codes(code, code), plus(part, 0).into_iter().collect()));
    }
    let mut all = part.chars();
    match (all.next(), all.next()) {
        (Some(c), None) => Some((Token::Codes(c.into(), c.into()), vec![])),
        _ => None,
    }
}

/// The tokens that the list keeps, and the places of its retired signs.
fn tokens(list: &str) -> (Vec<Token>, Vec<usize>) {
    let (mut kept, mut signs, mut at) = (vec![], vec![], 0);
    for part in list.split(',') {
        let before = part.chars().count() - part.trim_start().chars().count();
        if let Some((token, places)) = read(part.trim()) {
            kept.push(token);
            signs.extend(places.iter().map(|place| at + before + place));
        }
        at += part.chars().count() + 1;
    }
    (kept, signs)
}

/// 7: over 1,024 code points, or one that is no scalar value.
fn accepted(list: &[u32]) -> Option<String> {
    let list = (list.len() <= 1024).then_some(list)?;
    list.iter().map(|&x| char::from_u32(x)).collect()
}

/// The tokens of a list that is entered, or a refusal and its place.
fn entered(list: &[u32]) -> Result<Vec<Token>, (u32, u32)> {
    let (kept, signs) = tokens(&accepted(list).ok_or((7, 0))?);
    match signs.first() {
        Some(&place) => Err((21, place as u32)),
        None if kept.len() > 128 => Err((8, 0)),
        None => Ok(kept),
    }
}

/// How many tokens are kept.
pub fn enter(list: &[u32]) -> Result<u32, (u32, u32)> {
    entered(list).map(|kept| kept.len() as u32)
}

/// Whether they hold a character.
pub fn enter_matches(list: &[u32], x: u32) -> Result<bool, (u32, u32)> {
    let c = char::from_u32(x).ok_or((2, 0))?;
    let holds = |token: &Token| match *token {
        Token::Letters => c.is_alphabetic(),
        Token::Codes(low, high) => low <= x && x <= high,
    };
    entered(list).map(|kept| kept.iter().any(holds))
}

/// The list without its retired signs, into so many places.
pub fn without_plus(list: &[u32], places: usize) -> Result<Vec<u32>, u32> {
    let (_, signs) = tokens(&accepted(list).ok_or(7u32)?);
    let left: Vec<u32> = (0..list.len()).filter(|at| !signs.contains(at)).map(|at| list[at]).collect();
    if left.len() > places { Err(14) } else { Ok(left) }
}
