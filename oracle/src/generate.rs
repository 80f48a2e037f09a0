//! Cases from a seed, small families in full, and the limits of document 01.

use crate::case::{CALLS, Call, Case, Input};
use crate::pairs::KINDS;
use crate::{Caret, Viewport, Wrap, points, wide};

/// SplitMix64: one stream per seed and index.
pub struct Dice(u64);

impl Dice {
    pub fn new(seed: u64, index: u64) -> Dice {
        let mut dice = Dice(seed ^ index.wrapping_mul(0x9E37_79B9_7F4A_7C15));
        dice.roll();
        dice
    }

    fn roll(&mut self) -> u64 {
        self.0 = self.0.wrapping_add(0x9E37_79B9_7F4A_7C15);
        let mut z = self.0;
        z = (z ^ (z >> 30)).wrapping_mul(0xBF58_476D_1CE4_E5B9);
        z = (z ^ (z >> 27)).wrapping_mul(0x94D0_49BB_1331_11EB);
        z ^ (z >> 31)
    }

    /// A number below n.
    pub fn below(&mut self, n: usize) -> usize {
        (self.roll() % n as u64) as usize
    }

    /// True once in n times.
    pub fn once_in(&mut self, n: usize) -> bool {
        self.below(n) == 0
    }

    fn coin(&mut self) -> bool {
        self.once_in(2)
    }

    pub fn pick<T: Copy>(&mut self, from: &[T]) -> T {
        from[self.below(from.len())]
    }
}

const MOST: u32 = u32::MAX;

/// Alphabets that reach the corners: words and marks, blanks and other white space, tabs, wide and
/// zero-width characters, letters beyond ASCII, brackets, sections and empty rows.
const ALPHABETS: [&str; 10] = [
    "ab .\n",
    "a \t\n",
    "a._ \u{A0}\u{3000}\n",
    "(){}[]<>a\n",
    "(<>)[\n",
    "{}a\n \n",
    "a\t\u{3042}e\u{301}\n ",
    "\u{3042}\u{200B}\u{1}x\t\n",
    "\u{E9}\u{3B1}\u{1D400}_9-\u{2019} \n",
    "\n\n\na {}",
];

const BAD_POINTS: [u32; 8] = [0xD800, 0xDFFF, 0x110000, MOST, 0x0B, 0x0D, 0x85, 0x2028];

/// The same for widths under wide: arrows, the degree sign, the soft hyphen, accented letters in and out of class A, a mark of
/// the class.
const WIDE_ALPHABETS: [&str; 4] = [
    "\u{2192}a\n",
    "a \t\u{2191}\u{B0}\u{301}\n",
    "\u{2192}\u{3042}\u{E9}\u{E2} \t\n",
    "\u{A1}\u{AD}\u{FFFD}\u{E000}\u{2E3A}b \n",
];

fn text(dice: &mut Dice, alphabets: &[&'static str]) -> Vec<u32> {
    let alphabet = points(dice.pick(alphabets));
    let most = dice.pick(&[3, 8, 20, 60, 200]);
    let length = dice.below(most + 1);
    let mut text: Vec<u32> = (0..length).map(|_| dice.pick(&alphabet)).collect();
    if dice.once_in(4) {
        text.push(10);
    }
    if dice.once_in(8) {
        text.push(10);
    }
    if dice.once_in(40) {
        let at = dice.below(text.len() + 1);
        text.insert(at, dice.pick(&BAD_POINTS));
    }
    text
}

/// A text of a few long rows.
fn long(dice: &mut Dice) -> Vec<u32> {
    let alphabet = points("abc d\t\u{3042}\u{301}\u{A0}");
    let length = dice.pick(&[500, 1_500]);
    (0..length).map(|_| if dice.once_in(400) { 10 } else { dice.pick(&alphabet) }).collect()
}

/// Near the values that a text, row or column has, sometimes past them, sometimes the largest.
fn near(dice: &mut Dice, most: usize) -> u32 {
    match dice.below(16) {
        0 => most as u32 + 1,
        1 => pick_large(dice),
        2 => most as u32,
        _ => dice.below(most + 1) as u32,
    }
}

fn pick_large(dice: &mut Dice) -> u32 {
    dice.pick(&[MOST, MOST - 1, 1 << 31, 65_535, 65_536, 1_000])
}

fn caret(dice: &mut Dice, text: &[u32]) -> Caret {
    let lengths: Vec<usize> = text.split(|&x| x == 10).map(<[u32]>::len).collect();
    let row = dice.below(lengths.len());
    let mut caret = Caret::at(row as u32, dice.below(lengths[row] + 1) as u32);
    if dice.once_in(4) {
        caret.col = lengths[row] as u32;
    }
    if dice.once_in(40) {
        caret.col = dice.pick(&[lengths[row] as u32 + 1, MOST]);
    }
    if dice.once_in(40) {
        caret.row = dice.pick(&[lengths.len() as u32, MOST]);
    }
    if dice.coin() {
        caret.sticky = Some(near(dice, 12));
    }
    caret
}

/// Nested, overlapping and unordered folds, open ones among them; now and then a wrong one.
fn folds(dice: &mut Dice, text: &[u32]) -> Vec<u32> {
    let rows = text.iter().filter(|&&x| x == 10).count() + 1;
    let mut folds = Vec::new();
    let most = dice.pick(&[0, 1, 2, 4]);
    for _ in 0..dice.below(most + 1) {
        let (a, b) = (dice.below(rows) as u32, dice.below(rows) as u32);
        folds.extend([a.min(b), a.max(b), u32::from(!dice.once_in(5))]);
    }
    if dice.once_in(40) {
        let wrong: [&[u32]; 6] = [&[0], &[0, 0], &[1, 0, 1], &[0, rows as u32, 1], &[0, 0, 2], &[0, MOST, 0]];
        folds.extend(dice.pick(&wrong));
    }
    if dice.once_in(400) {
        folds = [0, 0, 0].repeat(dice.pick(&[256, 257]));
    }
    folds
}

const LISTS: [&str; 12] = [
    "@,48-57,_",
    "@,48-57,_,192-255",
    "",
    "0-4294967295",
    "32-126",
    ".",
    "+48-57, @ ,5,-,+",
    "a-z,57-48,4294967296",
    "97,+0000000098,\u{E9},\u{A0}x\u{A0}",
    "--,5-,1-2-3,@-@,^a,,",
    "0046,\t_\u{3000},\u{3042}",
    "12289-12300,9",
];

fn list(dice: &mut Dice) -> Vec<u32> {
    let mut list = points(dice.pick(&LISTS));
    if dice.once_in(3) {
        let alphabet = points("0123456789-+,, @_az\u{A0}");
        list = (0..dice.below(14)).map(|_| dice.pick(&alphabet)).collect();
    }
    if dice.once_in(60) {
        list.push(dice.pick(&[0xD800, 0x110000, 0x85, 0x0D]));
    }
    if dice.once_in(200) {
        list = points(&"a,".repeat(dice.pick(&[128, 129])));
    }
    if dice.once_in(400) {
        list = vec![0x20; dice.pick(&[1024, 1025])];
    }
    list
}

/// Calls that write the classes of a text.
fn classes(call: &Call) -> bool {
    call.name == "word_classes" || call.name.ends_with("_by_class")
}

/// Calls for which plus signs are retired.
fn retires(call: &Call) -> bool {
    matches!(call.name, "enter" | "enter_matches" | "without_plus")
}

/// Calls on Vim's own lists, and the word motions by them.
fn by_vim(call: &Call) -> bool {
    call.name.starts_with("vim_") || words_by_vim(call)
}

/// The word motions by a Vim list.
fn words_by_vim(call: &Call) -> bool {
    call.name.ends_with("_by_vim")
}

/// Parts of Vim's lists; behind them what no part is.
const VIM_PARTS: [&str; 32] = [
    "@", "48-57", "_", "192-255", "^a-z", "^,", ",", "@-@", "^@", "a-z", "A-90", "94", "^^", "^^-z", "-", "---", "+--", ",-,", " ", " -~",
    "00097", "255", "64", "0", "128-255", "^255", "\t", "\u{0}", "~-128", "0-0255", "^@-@", "Z-^",
];
const VIM_SCRAPS: [&str; 14] = ["256", "z-a", "a-", "--", "", "aa", "200-19", "\u{E9}", "a-\u{E9}", "1-2-3", "4294967393", "^a^", "57-48", "+48"];

/// A list as Vim has them, now and then damaged at a place or in a part, with code points above 127 and values that are none among them.
fn vim_list(dice: &mut Dice) -> Vec<u32> {
    let most = dice.pick(&[1, 2, 3, 5, 9]);
    let mut parts: Vec<&str> = (0..dice.below(most + 1)).map(|_| dice.pick(&VIM_PARTS)).collect();
    if dice.once_in(5) {
        let at = dice.below(parts.len() + 1);
        parts.insert(at, dice.pick(&VIM_SCRAPS));
    }
    if dice.once_in(8) {
        parts.push("^");
    }
    let mut list = points(&parts.join(","));
    if dice.once_in(6) {
        let at = dice.below(list.len() + 1);
        let odd = dice.pick(&points("^@-,az0259 \u{7F}\u{80}\u{3042}"));
        match dice.below(3) {
            0 => list.truncate(at),
            1 => list.insert(at, odd),
            _ => _ = list.splice(at..list.len().min(at + 1), [odd]).count(),
        }
    }
    if dice.once_in(20) {
        list = (0..dice.below(14)).map(|_| dice.pick(&points("^@-,,az0259 "))).collect();
    }
    if dice.once_in(40) {
        let at = dice.below(list.len() + 1);
        list.insert(at, dice.pick(&[0xD800, 0x110000, MOST]));
    }
    if dice.once_in(60) {
        list = points(&vec![dice.pick(&["a", "^d-z", "@", ",", "^^"]); dice.pick(&[127, 128, 129])].join(","));
    }
    list
}

/// Now and then a plus sign where a number may begin, and anywhere; and a token more.
fn signed(dice: &mut Dice, list: &[u32]) -> Vec<u32> {
    let mut all = Vec::new();
    for (at, &x) in list.iter().enumerate() {
        let begins = at == 0 || matches!(list[at - 1], 0x2C | 0x2D | 0x20);
        if dice.once_in(if begins { 6 } else { 40 }) {
            all.push(0x2B);
        }
        all.push(x);
    }
    if dice.once_in(3) {
        all.extend(points(dice.pick(&[",+5", ", +48-+57 ", ",5-+4294967295", ",+4294967296-5", ",++4", ",+-5", ",5-+", ",+"])));
    }
    all
}

fn viewport(dice: &mut Dice, text: &[u32]) -> Viewport {
    let rows = text.iter().filter(|&&x| x == 10).count() + 1;
    Viewport {
        top: near(dice, rows),
        height: dice.pick(&[0, 1, 2, 3, 5, 24, 65_535]),
        width: dice.pick(&[0, 1, 2, 3, 4, 5, 7, 10, 40, 65_534, 65_535]),
        wrap: dice.pick(&[Wrap::None, Wrap::Char, Wrap::Word, Wrap::Word]),
    }
}

/// The characters of the case, so that a search finds something; sometimes any at all.
fn character(dice: &mut Dice, text: &[u32]) -> u32 {
    match dice.below(20) {
        0 => dice.pick(&BAD_POINTS),
        1..3 => dice.below(0x110000) as u32,
        3..6 => dice.below(128) as u32,
        _ if text.is_empty() => dice.pick(&points("a(_5\u{E9}\u{3042}")),
        _ => dice.pick(text),
    }
}

/// A random case of a call.
pub fn random(call: &'static Call, dice: &mut Dice) -> Case {
    let mut case = Case::new(call);
    let alphabets: &[&str] = if wide::stem(call.name).is_some() { &WIDE_ALPHABETS } else { &ALPHABETS };
    if case.takes(Input::Text) {
        case.text = if case.takes(Input::Viewport) && dice.once_in(30) { long(dice) } else { text(dice, alphabets) };
        case.caret = caret(dice, &case.text);
        case.folds = folds(dice, &case.text);
    }
    if case.takes(Input::Line) {
        case.line = text(dice, alphabets);
        if dice.once_in(30) {
            let widest = if wide::stem(call.name).is_some() { 0x2192 } else { 0x3042 };
            case.line = vec![dice.pick(&[0x61, widest, 9]); 40_000];
        }
    }
    if case.takes(Input::Place) {
        case.caret.row = if dice.once_in(20) { near(dice, 3) } else { case.caret.row };
        case.caret.col = if dice.once_in(20) { near(dice, 3) } else { case.caret.col };
        case.caret.sticky = None;
    }
    let size = case.text.len().max(case.line.len());
    case.tabstop = dice.pick(&[0, 1, 2, 4, 8, 8, 1000]);
    if dice.once_in(60) {
        case.tabstop = dice.pick(&[1001, MOST]);
    }
    case.list = list(dice);
    case.count = match dice.below(12) {
        0 => MOST,
        1 => near(dice, size),
        2..6 => dice.below(2) as u32,
        _ => dice.below(6) as u32,
    };
    case.big = dice.coin();
    case.stop = dice.once_in(3);
    if by_vim(call) {
        case.list = vim_list(dice);
        case.room = (case.list.len() as u32 + 1).saturating_sub(dice.pick(&[0, 0, 1, 1, 2, 3]));
    }
    let all = if case.takes(Input::List) && dice.coin() { &case.list } else { &case.text };
    case.character = character(dice, all);
    (case.forward, case.till, case.skip) = (dice.coin(), dice.coin(), dice.coin());
    case.view = viewport(dice, &case.text);
    case.start = near(dice, size);
    case.end = near(dice, size);
    case.column = near(dice, 2 * size);
    if !by_vim(call) {
        case.room = 2 * dice.below(size + 2) as u32 + dice.below(2) as u32;
    }
    if case.takes(Input::Segments) {
        case.segments = (0..dice.below(9)).map(|_| near(dice, 8)).collect();
        if dice.coin() {
            case.segments.sort_unstable();
        }
    }
    if case.takes(Input::Room) && dice.coin() && !by_vim(call) {
        case.room = 2 * size as u32 + 2;
    }
    if case.takes(Input::Offset) && dice.coin() {
        case.offset = Some(near(dice, 6));
    }
    if case.takes(Input::Kind) {
        case.kind = dice.below(KINDS.len());
        // mostly nests of the kind, others among them
        if !case.text.is_empty() && !dice.once_in(3) {
            let (open, close) = KINDS[case.kind];
            for x in &mut case.text {
                *x = if *x == 10 || dice.coin() { *x } else { dice.pick(&[open, close]) };
            }
        }
    }
    if classes(call) {
        // one past the places of the classes, now and then exactly enough or too few
        case.room = case.text.len() as u32 + dice.pick(&[2, 2, 2, 1, 1, 4, 0]);
        if dice.once_in(20) {
            case.room = dice.below(case.text.len() + 1) as u32;
        }
    }
    if retires(call) {
        case.list = signed(dice, &case.list);
        case.room = (case.list.len() as u32 + 1).saturating_sub(dice.pick(&[0, 0, 1, 1, 2, 3]));
    }
    case
}

/// Every text of up to `most` code points over an alphabet, shortest first.
pub fn texts(alphabet: &[u32], most: usize) -> Vec<Vec<u32>> {
    let mut all = vec![Vec::new()];
    let mut from = 0;
    for _ in 0..most {
        let to = all.len();
        for i in from..to {
            for &x in alphabet {
                let mut longer = all[i].clone();
                longer.push(x);
                all.push(longer);
            }
        }
        from = to;
    }
    all
}

fn places(text: &[u32]) -> Vec<(u32, u32)> {
    let rows = text.split(|&x| x == 10).enumerate();
    rows.flat_map(|(row, line)| (0..=line.len()).map(move |col| (row as u32, col as u32))).collect()
}

/// No fold, every fold, open or closed, and every pair of closed ones that hide a row.
fn fold_lists(rows: u32) -> Vec<Vec<u32>> {
    let every = (0..rows).flat_map(|a| (a..rows).flat_map(move |b| [[a, b, 0], [a, b, 1]]));
    let hiding: Vec<[u32; 3]> = every.clone().filter(|&[a, b, closed]| a < b && closed == 1).collect();
    let pairs = hiding.iter().flat_map(|a| hiding.iter().map(move |b| [*a, *b].concat()));
    std::iter::once(vec![]).chain(every.map(|f| f.to_vec())).chain(pairs).collect()
}

/// Every set of hidden rows, by a fold for each row that is hidden.
fn hidden_sets(rows: u32) -> Vec<Vec<u32>> {
    let folds = |set: u32| (1..rows).filter(move |row| set >> (row - 1) & 1 == 1).flat_map(|row| [row - 1, row, 1]);
    (0..1 << (rows - 1)).map(|set| folds(set).collect()).collect()
}

/// Puts each value into each case.
fn each<T: Clone>(cases: Vec<Case>, values: &[T], put: impl Fn(&mut Case, T)) -> Vec<Case> {
    let mut all = Vec::with_capacity(cases.len() * values.len());
    for case in cases {
        for value in values {
            let mut case = case.clone();
            put(&mut case, value.clone());
            all.push(case);
        }
    }
    all
}

/// A family of small texts: an alphabet, how long they are, and whether folds are tried on them.
type Family = (&'static str, usize, bool);

/// The families of a call.
fn families(call: &Call) -> Vec<Family> {
    let takes = |input| call.takes.contains(&input);
    if wide::stem(call.name).is_some() {
        return match () {
            _ if takes(Input::End) => vec![(WIDE_ROW, 4, false)],
            _ if takes(Input::Line) => vec![(WIDE_ROW, 5, false)],
            _ if takes(Input::Folds) => vec![("a\t\u{2192}\n", 5, false), ("a\t\u{2192}\n", 4, true)],
            _ => vec![("", 0, false)],
        };
    }
    match call.name {
        "matching_bracket_pos" | "match_bracket" => vec![("()<>\n", 6, false), ("()[]a", 6, false)],
        "inner_pair" => ["()[]a\n", "[]{}a\n", "{}<>a\n", "<>()a\n"].map(|alphabet| (alphabet, 6, false)).to_vec(),
        "find_char_on_line" => vec![("axb\n", 5, false)],
        _ if takes(Input::Offset) => vec![("a \u{3042}\n", 5, true)],
        _ if takes(Input::End) => vec![(ROW, 4, false)],
        _ if takes(Input::Line) => vec![(ROW, 5, false)],
        _ if words_by_vim(call) && takes(Input::Folds) => vec![("ab. \n\u{E9}", 4, false), ("ab \n\u{3B1}", 3, true)],
        _ if words_by_vim(call) => vec![("ab. \n\u{E9}", 4, false)],
        _ if takes(Input::Big) && takes(Input::Folds) => vec![("a. \n\u{A0}", 5, false), ("a. \n\u{A0}", 4, true)],
        _ if takes(Input::Big) || classes(call) => vec![("a. \n\u{A0}", 5, false)],
        _ if takes(Input::Folds) => vec![("a\t\u{3042}\n", 5, false), ("a\t\u{3042}\n", 4, true)],
        _ if takes(Input::Viewport) => vec![("a \n", 5, false)],
        _ if takes(Input::Text) => vec![("a \t{}\n\u{A0}", 5, false)],
        _ => vec![("", 0, false)],
    }
}

const ROW: &str = "a \t\u{3000}\u{3042}\u{301}\u{1}";
const WIDE_ROW: &str = "a \t\u{2192}\u{B0}\u{301}\u{3042}";

/// Every list of up to six code points over these, and where plus signs are retired of up to seven over those; Vim's of up to seven.
const LIST: &str = "@,-+049a_ \u{3000}";
const SIGNED: &str = "+-,4@ ";
const VIM: &str = "^@-,z025 ";

/// The lists of the word motions by Vim lists on small texts; the last two are none of the grammar.
const VIM_LISTS: [&str; 9] = ["@", "@,^a-z", "a-c,^b", "^@,48-57", ",", "", "@,^@,.,233", "a,", "b-a"];

/// Every case of a call with a small text and small numbers; `most` caps the length of texts and lists.
pub fn small(call: &'static Call, most: usize, mut visit: impl FnMut(&Case)) {
    let takes = |input| call.takes.contains(&input);
    if takes(Input::List) && !takes(Input::Text) {
        let tested: &[u32] = &[0, 3, 4, 5, 8, 9, 10, 0x20, 0x2B, 0x2C, 0x2D, 0x30, 0x34, 0x39, 0x40, 0x5F, 0x61, 0x3000];
        let (alphabet, longest) = if retires(call) { (SIGNED, 7) } else if by_vim(call) { (VIM, 7) } else { (LIST, 6) };
        for list in texts(&points(alphabet), most.min(longest)) {
            let case = Case { list, ..Case::new(call) };
            let cases = if takes(Input::Character) { each(vec![case], tested, |k, x| k.character = x) } else { vec![case] };
            let cases = if takes(Input::Room) { cases.into_iter().flat_map(with_places).collect() } else { cases };
            cases.iter().for_each(&mut visit);
        }
        return;
    }
    for (alphabet, longest, folded) in families(call) {
        for text in texts(&points(alphabet), most.min(longest)) {
            let rows = text.iter().filter(|&&x| x == 10).count() as u32 + 1;
            let lists = match folded {
                true if takes(Input::Offset) => hidden_sets(rows),
                true => fold_lists(rows).split_off(1),
                false => vec![vec![]],
            };
            for folds in &lists {
                small_on(call, &text, folds).iter().for_each(&mut visit);
            }
        }
    }
}

/// The cases of a call on one small text or row, with these folds.
fn small_on(call: &'static Call, text: &[u32], folds: &[u32]) -> Vec<Case> {
    let takes = |input| call.takes.contains(&input);
    let rows = text.iter().filter(|&&x| x == 10).count() as u32 + 1;
    let size = text.len() as u32;
    let past: Vec<u32> = (0..=size + 1).chain([MOST]).collect();
    let mut case = Case { folds: folds.to_vec(), ..Case::new(call) };
    if takes(Input::Line) { case.line = text.to_vec() } else { case.text = text.to_vec() }
    let mut cases = vec![case];
    if takes(Input::Caret) || takes(Input::Place) {
        let inside = places(text).into_iter().map(|(row, col)| Caret::at(row, col));
        let outside = [Caret::at(0, size + 1), Caret::at(rows - 1, size + 1), Caret::at(rows, 0), Caret::at(MOST, MOST)];
        let at: Vec<Caret> = inside.chain(outside).collect();
        cases = each(cases, &at, |k, at| k.caret = at);
    }
    if takes(Input::Kind) {
        cases = each(cases, &[0, 1, 2, 3], |k, kind| k.kind = kind);
    }
    if takes(Input::Offset) {
        cases = each(cases, &[None, Some(0), Some(1), Some(2), Some(MOST)], |k, x| k.offset = x);
        cases = each(cases, &[None, Some(3)], |k, s| k.caret.sticky = s);
    } else if takes(Input::Tabstop) && takes(Input::Caret) {
        cases = each(cases, &[None, Some(0), Some(3), Some(MOST)], |k, s| k.caret.sticky = s);
        cases = each(cases, &[0, 1, 8], |k, n| k.tabstop = n);
    } else if takes(Input::Tabstop) {
        cases = each(cases, &[0, 1, 2, 3, 4, 5, 6, 7, 8, 9], |k, n| k.tabstop = n);
    }
    if takes(Input::Viewport) && takes(Input::Tabstop) {
        cases = each(cases, &[Wrap::Char, Wrap::Word, Wrap::None], |k, wrap| k.view.wrap = wrap);
        cases = each(cases, &[0, 1, 2, 3, 4], |k, n| k.view.width = n);
        cases.retain(|k| k.view.wrap != Wrap::None || k.view.width < 2);
    } else if takes(Input::Viewport) {
        cases = each(cases, &past, |k, top| k.view.top = top);
        cases = each(cases, &[0, 1, 2, 3, 4, 5, 6, 7, 65_535], |k, height| k.view.height = height);
    }
    if takes(Input::Count) {
        let counts: &[u32] = if takes(Input::Offset) { &[0, 2, MOST] } else if takes(Input::Tabstop) { &[0, 1, 2, 3, MOST] } else { &[0, 1, 2, 3, 4, MOST] };
        cases = each(cases, counts, |k, n| k.count = n);
    }
    if takes(Input::Big) {
        cases = each(cases, &[false, true], |k, big| k.big = big);
    }
    if takes(Input::Stop) {
        cases = each(cases, &[false, true], |k, stop| k.stop = stop);
    }
    if takes(Input::Character) {
        cases = each(cases, &points("ax"), |k, x| k.character = x);
    }
    if takes(Input::Forward) {
        let flags: Vec<u32> = (0..8).collect();
        cases = each(cases, &flags, |k, f| (k.forward, k.till, k.skip) = (f & 1 > 0, f & 2 > 0, f & 4 > 0));
    }
    if takes(Input::Wrap) {
        cases = each(cases, &[0, 1, 2, 3, 4, 5, 6], |k, n| k.view.width = n);
        cases = each(cases, &[Wrap::None, Wrap::Char, Wrap::Word], |k, wrap| k.view.wrap = wrap);
    }
    if words_by_vim(call) {
        cases = each(cases, &VIM_LISTS, |k, list| k.list = points(list));
    }
    if classes(call) {
        if takes(Input::List) && !takes(Input::Caret) {
            cases = each(cases, &["@,48-57,_", "", "@,32,.", "0-4294967295"], |k, list| k.list = points(list));
        }
        cases = cases.into_iter().flat_map(|k| with_classes(k, size)).collect();
    } else if takes(Input::Room) {
        // exactly enough, one short, one over, and none
        cases = cases.into_iter().flat_map(with_rooms).collect();
    }
    if takes(Input::Start) {
        cases = each(cases, &past, |k, n| k.start = n);
    }
    if takes(Input::End) {
        cases = each(cases, &past, |k, n| k.end = n);
    }
    if takes(Input::Segments) {
        cases = each(cases, &self::texts(&[0, 1, 2, 4, 6], 5), |k, s| k.segments = s);
    }
    if takes(Input::Column) {
        let columns: Vec<u32> = (0..=2 * size + 10).chain([MOST]).collect();
        cases = each(cases, &columns, |k, n| k.column = n);
    }
    cases
}

fn with_rooms(case: Case) -> Vec<Case> {
    let ample = Case { room: 2 * case.line.len() as u32 + 2, ..case };
    let crate::Outcome::Segments(count, _) = ample.answer() else { return vec![ample] };
    let exact = 2 * count;
    let mut rooms = vec![0, exact - 1, exact, exact + 1, ample.room + 1];
    rooms.dedup();
    rooms.into_iter().map(|room| Case { room, ..ample.clone() }).collect()
}

/// Places for classes: one over; of the smallest count also exactly enough, one short, and none.
fn with_classes(case: Case, size: u32) -> Vec<Case> {
    let rooms = if case.count == 0 { vec![size + 2, size + 1, size, 0] } else { vec![size + 2] };
    rooms.into_iter().map(|room| Case { room, ..case.clone() }).collect()
}

/// Places for a list that is written: none, one short, exactly enough, one over.
fn with_places(case: Case) -> Vec<Case> {
    let ample = Case { room: case.list.len() as u32, ..case };
    let crate::Outcome::Written(exact, _) = ample.answer() else { return vec![ample] };
    let mut rooms = vec![0, exact.saturating_sub(1), exact, exact + 1];
    rooms.dedup();
    rooms.into_iter().map(|room| Case { room, ..ample.clone() }).collect()
}

/// The limits of document 01, at each and one past it, for a call that takes the input.
pub fn limits(call: &'static Call) -> Vec<Case> {
    let mut all = Vec::new();
    let takes = |input| call.takes.contains(&input);
    let mut add = |put: &dyn Fn(&mut Case)| {
        let mut case = Case::new(call);
        case.text = points("a b\nc");
        case.line = points("a b");
        case.count = 1;
        case.room = if retires(call) || by_vim(call) { 64 } else { 0 };
        put(&mut case);
        if classes(call) {
            // no place, and one too few
            let few = [0, case.text.len() as u32].map(|room| Case { room, ..case.clone() });
            all.extend(few);
            case.room = case.text.len() as u32 + 2;
        }
        all.push(case);
    };
    for n in [1_048_576, 1_048_577] {
        if takes(Input::Text) {
            add(&|k| k.text = vec![0x61; n]);
            // The given `move_space_fwd` reads its row at each step.
            if call.name != "move_space_fwd" {
                add(&|k| (k.text, k.count) = (vec![0x28; n], MOST));
            }
        }
        if takes(Input::Line) {
            add(&|k| (k.line, k.room, k.view.width, k.view.wrap) = (vec![0x61; n], 64, 32_768, Wrap::Char));
        }
    }
    for bad in BAD_POINTS {
        if takes(Input::Text) {
            add(&|k| k.text.push(bad));
        }
        if takes(Input::Line) {
            add(&|k| k.line.push(bad));
        }
        if takes(Input::List) {
            add(&|k| k.list.push(bad));
        }
        if takes(Input::Character) {
            add(&|k| k.character = bad);
        }
    }
    if takes(Input::Caret) || takes(Input::Place) {
        for at in [(0, 3), (0, 4), (1, 1), (1, 2), (2, 0), (MOST, MOST)] {
            add(&|k| (k.caret.row, k.caret.col) = at);
        }
    }
    // each refusal with each lower one
    if takes(Input::Caret) {
        for text in [vec![0xD800, 0x0D], vec![0x0D, 0x61], vec![0x61; 1_048_577]] {
            add(&|k| (k.text, k.caret.row, k.character) = (text.clone(), 7, 0xD800));
            add(&|k| (k.text, k.folds, k.tabstop, k.character) = (text.clone(), vec![1], 1_001, 0x61));
        }
        add(&|k| (k.caret.row, k.folds, k.tabstop, k.character) = (7, vec![1], 1_001, 0xD800));
        add(&|k| (k.folds, k.tabstop, k.list) = (vec![1], 1_001, vec![0xD800]));
        add(&|k| (k.folds, k.list) = (vec![1], points(&"a,".repeat(129))));
    }
    if takes(Input::Kind) {
        for text in [vec![0xD800, 0x0D], vec![0x0D, 0x61], vec![0x61; 1_048_577]] {
            add(&|k| (k.text, k.caret.row) = (text.clone(), 7));
        }
    }
    // deep nests, in one row and over many
    if matches!(call.name, "matching_bracket_pos" | "match_bracket" | "inner_pair") {
        for (pair, n) in [("()", 524_288), ("<>", 524_288), ("(\n)\n", 262_144)] {
            let kind = KINDS.iter().position(|(open, _)| pair.starts_with(char::from_u32(*open).expect("a bracket"))).unwrap_or(0);
            let half = |s: &str| points(&s.repeat(n));
            let (open, close) = pair.split_at(pair.len() / 2);
            let nest = [half(open), half(close)].concat();
            for row in [0, 1, (n - 1) as u32, n as u32, (2 * n - 1) as u32] {
                for col in [0, 1, (n - 1) as u32, (2 * n - 1) as u32] {
                    add(&|k| (k.text, k.kind, k.caret.row, k.caret.col) = (nest.clone(), kind, row, col));
                }
            }
        }
    }
    if takes(Input::Folds) {
        for n in [256, 257] {
            add(&|k| k.folds = [0, 1, 1].repeat(n));
        }
        for bad in [vec![0], vec![0, 0], vec![1, 0, 0], vec![0, 2, 1], vec![0, 0, 2]] {
            add(&|k| k.folds = bad.clone());
        }
    }
    if takes(Input::Tabstop) {
        for n in [1_000, 1_001, MOST] {
            add(&|k| k.tabstop = n);
        }
    }
    // A row of many segments, from both ends by the largest count. The given moves break the row at each step.
    if takes(Input::Tabstop) && takes(Input::Viewport) {
        for (at, width, wrap) in [(0, 1, Wrap::Char), (4_096, 1, Wrap::Char), (0, 3, Wrap::Word), (4_096, 3, Wrap::Word)] {
            let view = Viewport { width, wrap, ..Viewport::default() };
            add(&|k| (k.text, k.caret.col, k.count, k.view) = (points(&"ab d".repeat(1_024)), at, MOST, view));
        }
    }
    if takes(Input::List) {
        for n in [128, 129] {
            add(&|k| k.list = points(&"a,".repeat(n)));
        }
        for n in [1024, 1025] {
            add(&|k| k.list = vec![0x20; n]);
        }
    }
    if retires(call) {
        let tokens = |token: &str, n: usize| vec![token; n].join(",");
        let lists = [
            tokens("4", 128),
            tokens("4", 129),
            tokens("4", 128) + ",+4",
            tokens("4", 129) + ",+4",
            tokens("+4", 130),
            tokens("++4", 130),
            " ".repeat(1_022) + "+4",
            " ".repeat(1_023) + "+4",
            "+".repeat(1_024),
            "0".repeat(1_023) + "4",
            "+".to_string() + &"0".repeat(1_022) + "4",
        ];
        let numbers = ["4294967295", "4294967296", "04294967295", "42949672950"];
        let around = numbers.iter().flat_map(|n| [format!("+{n}"), format!("1-+{n}"), format!("+{n}-+1"), format!("++{n}")]);
        for list in lists.into_iter().chain(around).map(|list| points(&list)) {
            for less in 0..4 {
                add(&|k| (k.list, k.room) = (list.clone(), (list.len() as u32 + 1).saturating_sub(less)));
            }
        }
        add(&|k| (k.list, k.character) = (vec![0xD800, 0x2B, 0x34], 0xD800));
        add(&|k| (k.list, k.character) = (points("+4"), 0xD800));
    }
    if by_vim(call) {
        let tokens = |token: &str, n: usize| vec![token; n].join(",");
        let zeros = |n: usize, rest: &str| "0".repeat(n) + rest;
        let lists = [
            tokens("a", 128),
            tokens("a", 129),
            tokens("a", 129) + ",",
            tokens("^d-z", 128),
            tokens("^d-z", 128) + ",^",
            tokens(",", 128),
            tokens("^^", 127) + ",^",
            tokens("100-255", 128),
            zeros(1_021, "255"),
            zeros(1_021, "25-"),
            zeros(1_021, "256"),
            zeros(1_022, "255"),
            zeros(1_020, "25-a"),
            "a-".to_string() + &zeros(1_019, "255"),
            "a-".to_string() + &zeros(1_022, ""),
            ",".repeat(1_023),
            ",".repeat(1_024),
        ];
        for list in lists.into_iter().map(|list| points(&list)) {
            add(&|k| k.list = list.clone());
            for less in (0..3).filter(|_| takes(Input::Room)) {
                add(&|k| (k.list, k.room) = (list.clone(), (list.len() as u32 + 1).saturating_sub(less)));
            }
        }
        add(&|k| (k.list, k.character) = (vec![0xD800, 0x2C], 0xD800));
        add(&|k| (k.list, k.character) = (points("a,"), 0xD800));
    }
    // 17 beside each lower refusal
    if words_by_vim(call) {
        for put in [|k: &mut Case| k.text.push(0x0D), |k: &mut Case| k.caret.row = 7, |k: &mut Case| k.folds = vec![1]] {
            add(&|k| {
                k.list = points("a,");
                put(k);
            });
        }
    }
    if takes(Input::Segments) {
        for n in 0..4 {
            add(&|k| k.segments = vec![0; n]);
        }
    }
    all
}

/// The calls of these names, or all.
pub fn calls(names: &[String]) -> Result<Vec<&'static Call>, String> {
    if names.is_empty() {
        return Ok(CALLS.iter().collect());
    }
    names.iter().map(|name| crate::case::call(name)).collect()
}
