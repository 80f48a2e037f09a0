//! Vim's own keyword lists, which the given Rust does not have: from document 02, #108, and the grammar of Vim's `options.txt`
//! (For Vim version 9.0. Last change: 2023 Feb 17, 'isfname'), each line of it a function. A list is cut at its commas in every
//! way that leaves parts of the grammar; the beginnings of lists are found by trying tails. The word motions by such a list are the
//! given Rust's, on the text with a letter for each character that the list holds and a mark for every other one.

use crate::refusals::{Inputs, refusal};
use crate::Caret;

/// An end of a range or a single: its code, and how it is spelt.
#[derive(Clone, Copy, Debug, PartialEq, Eq)]
enum End {
    Number(u32),
    Character(u32),
}

impl End {
    fn code(self) -> u32 {
        match self {
            End::Number(code) | End::Character(code) => code,
        }
    }

    fn written(self) -> Vec<u32> {
        match self {
            End::Number(code) => crate::points(&code.to_string()),
            End::Character(code) => vec![code],
        }
    }
}

#[derive(Clone, Copy, Debug, PartialEq, Eq)]
enum Item {
    Letters,
    Single(End),
    Range(End, End),
}

#[derive(Clone, Copy, Debug, PartialEq, Eq)]
struct Token {
    excludes: bool,
    item: Item,
}

const CARET: u32 = '^' as u32;
const COMMA: u32 = ',' as u32;
const MINUS: u32 = '-' as u32;
const AT: u32 = '@' as u32;

/// number = 1*DIGIT, at most 255; char = U+0000..U+007F but a digit.
fn end(text: &[u32]) -> Option<End> {
    let digit = |x: u32| char::from_u32(x).and_then(|c| c.to_digit(10));
    match *text {
        [x] if x < 0x80 && digit(x).is_none() => Some(End::Character(x)),
        [] => None,
        _ => {
            let add = |value: u32, &x: &u32| digit(x).map(|d| (10 * value + d).min(256));
            text.iter().try_fold(0, add).filter(|&value| value <= 255).map(End::Number)
        }
    }
}

/// item = "@" / single / end "-" end, the first not above the second: every way to read it so.
fn items(text: &[u32]) -> Vec<Item> {
    if text == [AT] {
        return vec![Item::Letters];
    }
    let single = end(text).map(Item::Single);
    let minuses = (0..text.len()).filter(|&at| text[at] == MINUS);
    let ranges = minuses.filter_map(|at| Some((end(&text[..at])?, end(&text[at + 1..])?)));
    let rising = ranges.filter(|(low, high)| low.code() <= high.code());
    single.into_iter().chain(rising.map(|(low, high)| Item::Range(low, high))).collect()
}

/// part = "^" item / item that doesn't begin with "^" / "^" as the list's last code point.
fn parts(text: &[u32], last: bool) -> Vec<Token> {
    let tokens = |text, excludes| items(text).into_iter().map(move |item| Token { excludes, item });
    match text {
        [CARET] if last => tokens(text, false).collect(),
        [CARET, rest @ ..] => tokens(rest, true).collect(),
        _ => tokens(text, false).collect(),
    }
}

/// list = [ part *( "," part ) ]. Nothing where the grammar has no such list; a list with two readings would be told.
fn reading(list: &[u32]) -> Option<Vec<Token>> {
    if list.is_empty() {
        return Some(vec![]);
    }
    // for each place where a part may begin, from behind: the part's token and where the next one begins
    let begins = |at: usize| at == 0 || list[at - 1] == COMMA;
    let mut found: Vec<Option<(Token, usize)>> = vec![None; list.len() + 1];
    for at in (0..=list.len()).rev().filter(|&at| begins(at)) {
        let ends = (at..=list.len()).filter(|&to| to == list.len() || list[to] == COMMA && found[to + 1].is_some());
        // a part has two commas at most, the ends of a range
        let ends = ends.take_while(|&to| list[at..to].iter().filter(|&&x| x == COMMA).count() < 3);
        let ways = ends.flat_map(|to| parts(&list[at..to], to == list.len()).into_iter().map(move |token| (token, to + 1)));
        let ways: Vec<_> = ways.collect();
        assert!(ways.len() < 2, "a Vim list with two readings: {list:x?} from {at}");
        found[at] = ways.first().copied();
    }
    let mut tokens = Vec::new();
    let mut at = 0;
    while at <= list.len() {
        let (token, next) = found[at]?;
        tokens.push(token);
        at = next;
    }
    Some(tokens)
}

/// Whether the grammar has the list.
pub fn in_grammar(list: &[u32]) -> bool {
    reading(list).is_some()
}

/// Whether some list of the grammar begins so: a character, a number, or one or two digits more make it one.
fn begins(list: &[u32]) -> bool {
    let tails = ["", "a", "255"].map(String::from).into_iter();
    let digits = (0..10).map(|n| n.to_string()).chain((0..100).map(|n| format!("{n:02}")));
    tails.chain(digits).any(|tail| in_grammar(&[list, &crate::points(&tail)].concat()))
}

/// The length of the longest beginning that some list has.
fn place(list: &[u32]) -> usize {
    let lengths: Vec<usize> = (1..=list.len()).collect();
    lengths.partition_point(|&length| begins(&list[..length]))
}

/// The tokens of a list, or a refusal and its place: 7, then 17, then 8.
fn read(list: &[u32]) -> Result<Vec<Token>, (u32, u32)> {
    if list.len() > 1_024 || list.iter().any(|&x| char::from_u32(x).is_none()) {
        return Err((7, 0));
    }
    match reading(list) {
        None => Err((17, place(list) as u32)),
        Some(tokens) if tokens.len() > 128 => Err((8, 0)),
        Some(tokens) => Ok(tokens),
    }
}

/// How many tokens a list has.
pub fn vim_parse(list: &[u32]) -> Result<u32, (u32, u32)> {
    read(list).map(|tokens| tokens.len() as u32)
}

/// Whether tokens hold a character: the last one that speaks of it decides.
fn holds(tokens: &[Token], c: char) -> bool {
    let x = u32::from(c);
    let speaks = |token: &&Token| match token.item {
        Item::Letters => c.is_alphabetic(),
        Item::Single(end) => end.code() == x,
        Item::Range(low, high) => (low.code()..=high.code()).contains(&x),
    };
    tokens.iter().rev().find(speaks).is_some_and(|token| !token.excludes)
}

/// Whether the list holds a character.
pub fn vim_matches(list: &[u32], x: u32) -> Result<bool, (u32, u32)> {
    let c = char::from_u32(x).ok_or((2, 0))?;
    read(list).map(|tokens| holds(&tokens, c))
}

/// A word motion by a list, as `given` makes it by the list `@` on the text of letters and marks: text, caret and the folds that
/// it takes are refused first, then the list with 7, 17, 8.
pub fn word_by_vim(
    text: &[u32],
    caret: Caret,
    folds: Option<&[u32]>,
    list: &[u32],
    given: impl FnOnce(&[u32], &[u32]) -> Result<Caret, u32>,
) -> Result<Caret, (u32, u32)> {
    match refusal(&Inputs { text: Some(text), caret: Some((caret.row, caret.col)), folds, ..Inputs::default() }) {
        0 => {}
        number => return Err((number, 0)),
    }
    let tokens = read(list)?;
    let shown = |&x: &u32| match char::from_u32(x).expect("a scalar value") {
        c if c.is_whitespace() => x,
        c if holds(&tokens, c) => 'a' as u32,
        _ => '!' as u32,
    };
    let shown: Vec<u32> = text.iter().map(shown).collect();
    given(&shown, &[AT]).map_err(|number| (number, 0))
}

/// The list written again into so many places, each end as it was spelt.
pub fn vim_write(list: &[u32], places: usize) -> Result<Vec<u32>, (u32, u32)> {
    let token = |token: Token| {
        let item = match token.item {
            Item::Letters => vec![AT],
            Item::Single(end) => end.written(),
            Item::Range(low, high) => [low.written(), vec![MINUS], high.written()].concat(),
        };
        if token.excludes { [vec![CARET], item].concat() } else { item }
    };
    let written = read(list)?.into_iter().map(token).collect::<Vec<_>>().join(&COMMA);
    if written.len() > places { Err((14, 0)) } else { Ok(written) }
}
