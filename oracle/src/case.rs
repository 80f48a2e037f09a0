//! A call with its inputs, as a value and as one line of text, and what the given Rust answers, or `pairs`, `plus`, `kept`,
//! `classes`, `vim` and `wide` for calls that it does not have.
//!
//! A line is the call's name and its inputs, each `name=value` and each once:
//! `move_word_fwd text=61,20,62 row=0 col=0 sticky=none folds= list=40,2c,5f big=0 count=1`.
//! A list of code points is hexadecimal with commas, `61*1000` for a value a thousand times; other
//! numbers are decimal, and a list of them has commas.

use crate::calls::{self, Words};
use crate::{Outcome, classes, kept, pairs, plus, vim, wide};
use std::fmt;

/// An input that a call takes.
#[derive(Clone, Copy, Debug, PartialEq, Eq)]
pub enum Input {
    Text,
    /// One row of code points.
    Line,
    Caret,
    /// The caret's offset within a segment.
    Offset,
    /// A row and a column, anywhere.
    Place,
    /// A kind of bracket.
    Kind,
    Folds,
    Tabstop,
    List,
    Count,
    Big,
    Stop,
    Character,
    Forward,
    Till,
    Skip,
    Viewport,
    /// A text width and a wrap mode.
    Wrap,
    /// How many places are lent for segments, for code points or for classes.
    Room,
    Segments,
    Start,
    End,
    /// A column or an offset.
    Column,
}

/// All inputs; a call reads those that it takes.
#[derive(Clone, Debug, PartialEq, Eq)]
pub struct Case {
    pub call: &'static Call,
    pub text: Vec<u32>,
    pub line: Vec<u32>,
    pub caret: crate::Caret,
    pub offset: Option<u32>,
    /// Its place in `KINDS`.
    pub kind: usize,
    pub folds: Vec<u32>,
    pub tabstop: u32,
    pub list: Vec<u32>,
    pub count: u32,
    pub big: bool,
    pub stop: bool,
    pub character: u32,
    pub forward: bool,
    pub till: bool,
    pub skip: bool,
    pub view: crate::Viewport,
    pub room: u32,
    pub segments: Vec<u32>,
    pub start: u32,
    pub end: u32,
    pub column: u32,
}

pub struct Call {
    pub name: &'static str,
    pub takes: &'static [Input],
    answer: fn(&Case) -> Outcome,
}

impl PartialEq for Call {
    fn eq(&self, other: &Call) -> bool {
        self.name == other.name
    }
}

impl Eq for Call {}

impl fmt::Debug for Call {
    fn fmt(&self, f: &mut fmt::Formatter) -> fmt::Result {
        f.write_str(self.name)
    }
}

/// What lent places hold before a call, and places lent for classes.
pub const FILLER: u32 = 0xA5A5_A5A5;
pub const FILLER_CLASS: u8 = 0xA5;

fn outcome<T>(answer: Result<T, u32>, of: impl FnOnce(T) -> Outcome) -> Outcome {
    answer.map_or_else(Outcome::Refused, of)
}

fn told(answer: Result<(bool, crate::Caret), u32>) -> Outcome {
    outcome(answer, |(truth, caret)| Outcome::Told(truth, caret))
}

fn wrapped(k: &Case) -> Outcome {
    let mut room = vec![FILLER; k.room as usize];
    let answer = calls::wrap_segments(&k.line, k.view.width, k.view.wrap, &mut room);
    outcome(answer, |count| Outcome::Segments(count, room))
}

/// The answer of a call whose refusal may have a place.
fn placed<T>(answer: Result<T, (u32, u32)>, of: impl FnOnce(T) -> Outcome) -> Outcome {
    answer.map_or_else(|(number, place)| Outcome::refused_at(number, place), of)
}

fn plain(k: &Case) -> Outcome {
    outcome(plus::without_plus(&k.list, k.room as usize), |left| {
        let (count, rest) = (left.len(), vec![FILLER; k.room as usize - left.len()]);
        Outcome::Written(count as u32, [left, rest].concat())
    })
}

fn vim_written(k: &Case) -> Outcome {
    placed(vim::vim_write(&k.list, k.room as usize), |left| {
        let (count, rest) = (left.len(), vec![FILLER; k.room as usize - left.len()]);
        Outcome::Written(count as u32, [left, rest].concat())
    })
}

fn remembered(k: &Case, down: bool) -> Outcome {
    let answer = kept::screen_kept(&k.text, k.caret, k.offset, &k.folds, k.view, k.tabstop, k.count, down);
    outcome(answer, |(caret, offset)| Outcome::Kept(caret, offset))
}

fn classes_of(k: &Case) -> Outcome {
    let answer = classes::word_classes(&k.text, &k.list, k.room as usize, FILLER_CLASS);
    outcome(answer, |(count, slice)| Outcome::Classes(count, slice))
}

/// By the classes what the given Rust answers.
fn classed(k: &Case, first: Result<crate::Caret, u32>) -> Outcome {
    let answer = classes::word_by_class(first, &k.text, &k.list, k.room as usize, FILLER_CLASS);
    outcome(answer, |(caret, slice)| Outcome::Classed(caret, slice))
}

/// By a Vim list what the given Rust answers on the text of letters and marks.
fn by_vim(k: &Case, folds: bool, given: impl Fn(&[u32], Words) -> Result<crate::Caret, u32>) -> Outcome {
    let taken = folds.then_some(&k.folds[..]);
    placed(vim::word_by_vim(&k.text, k.caret, taken, &k.list, |text, list| given(text, Words { list, ..words(k) })), Outcome::Moved)
}

fn words(k: &Case) -> Words<'_> {
    Words { folds: &k.folds, list: &k.list, big: k.big }
}

use Input::*;

macro_rules! call {
    ($name:ident [$($takes:expr),*] $answer:expr) => {
        Call { name: stringify!($name), takes: &[$($takes),*], answer: $answer }
    };
}

macro_rules! plain {
    ($name:ident) => {
        call!($name [Text, Caret] |k| outcome(calls::$name(&k.text, k.caret), Outcome::Moved))
    };
}

macro_rules! counted {
    ($name:ident) => {
        call!($name [Text, Caret, Count] |k| outcome(calls::$name(&k.text, k.caret, k.count), Outcome::Moved))
    };
}

macro_rules! columns {
    ($name:ident) => {
        call!($name [Line, Column, Tabstop] |k| outcome(calls::$name(&k.line, k.column, k.tabstop), Outcome::Number))
    };
}

/// A call on widths with the flag for wide.
macro_rules! wide {
    ($name:ident [$($takes:expr),*]) => {
        call!($name [$($takes),*] |k| wide::plain(k).answer())
    };
}

/// Every public call, those on widths also with the flag.
pub static CALLS: [Call; 83] = [
    call!(content_row_count [Text] |k| outcome(calls::content_row_count(&k.text), |n| Outcome::Number(n.into()))),
    counted!(move_left),
    counted!(move_right_in_line),
    counted!(move_right_to_end),
    counted!(move_space_fwd),
    counted!(move_backspace_back),
    plain!(move_line_start),
    plain!(move_first_non_blank),
    plain!(move_line_end),
    counted!(move_goto_column),
    plain!(move_last_non_blank),
    counted!(move_paragraph_prev),
    counted!(move_paragraph_next),
    counted!(move_section_backward),
    counted!(move_section_forward),
    counted!(move_section_end_backward),
    counted!(move_section_end_forward),
    counted!(move_first_non_blank_next_line),
    counted!(move_first_non_blank_prev_line),
    counted!(move_first_non_blank_line),
    plain!(move_top),
    counted!(move_bottom),
    call!(move_up [Text, Caret, Folds, Tabstop, Count]
        |k| outcome(calls::move_up(&k.text, k.caret, &k.folds, k.tabstop, k.count), Outcome::Moved)),
    call!(move_down [Text, Caret, Folds, Tabstop, Count]
        |k| outcome(calls::move_down(&k.text, k.caret, &k.folds, k.tabstop, k.count), Outcome::Moved)),
    call!(move_screen_up [Text, Caret, Folds, Viewport, Tabstop, Count]
        |k| outcome(calls::move_screen_up(&k.text, k.caret, &k.folds, k.view, k.tabstop, k.count), Outcome::Moved)),
    call!(move_screen_down [Text, Caret, Folds, Viewport, Tabstop, Count]
        |k| outcome(calls::move_screen_down(&k.text, k.caret, &k.folds, k.view, k.tabstop, k.count), Outcome::Moved)),
    call!(move_viewport_top [Text, Caret, Viewport, Count]
        |k| outcome(calls::move_viewport_top(&k.text, k.caret, k.view, k.count), Outcome::Moved)),
    call!(move_viewport_middle [Text, Caret, Viewport]
        |k| outcome(calls::move_viewport_middle(&k.text, k.caret, k.view), Outcome::Moved)),
    call!(move_viewport_bottom [Text, Caret, Viewport, Count]
        |k| outcome(calls::move_viewport_bottom(&k.text, k.caret, k.view, k.count), Outcome::Moved)),
    call!(move_word_fwd [Text, Caret, Folds, List, Big, Count]
        |k| outcome(calls::move_word_fwd(&k.text, k.caret, words(k), k.count), Outcome::Moved)),
    call!(move_word_back [Text, Caret, Folds, List, Big, Count]
        |k| outcome(calls::move_word_back(&k.text, k.caret, words(k), k.count), Outcome::Moved)),
    call!(move_word_end [Text, Caret, Folds, List, Big, Stop, Count]
        |k| outcome(calls::move_word_end(&k.text, k.caret, words(k), k.count, k.stop), Outcome::Moved)),
    call!(move_word_end_back [Text, Caret, List, Big, Count]
        |k| outcome(calls::move_word_end_back(&k.text, k.caret, words(k), k.count), Outcome::Moved)),
    call!(matching_bracket_pos [Text, Place]
        |k| outcome(calls::matching_bracket_pos(&k.text, k.caret.row, k.caret.col), Outcome::Place)),
    call!(match_bracket [Text, Caret] |k| told(calls::match_bracket(&k.text, k.caret))),
    call!(find_char_on_line [Text, Caret, Character, Forward, Till, Skip]
        |k| told(calls::find_char_on_line(&k.text, k.caret, k.character, k.forward, k.till, k.skip))),
    columns!(visual_col_to_char_col),
    columns!(char_col_to_visual_col),
    columns!(cursor_visual_col),
    call!(leading_visual_width [Line, Tabstop]
        |k| outcome(calls::leading_visual_width(&k.line, k.tabstop), Outcome::Number)),
    call!(wrap_segments [Line, Wrap, Room] wrapped),
    call!(char_col_for_visual_offset [Line, Start, End, Column]
        |k| outcome(calls::char_col_for_visual_offset(&k.line, k.start, k.end, k.column), Outcome::Number)),
    call!(visual_offset_for_char_col [Line, Start, Column]
        |k| outcome(calls::visual_offset_for_char_col(&k.line, k.start, k.column), Outcome::Number)),
    call!(segment_for_col [Segments, Column]
        |k| outcome(calls::segment_for_col(&k.segments, k.column), Outcome::Number)),
    call!(parse [List] |k| outcome(calls::parse(&k.list), |n| Outcome::Number(n.into()))),
    call!(matches [List, Character] |k| outcome(calls::matches(&k.list, k.character), Outcome::Truth)),
    call!(is_keyword_char [List, Character] |k| outcome(calls::is_keyword_char(k.character, &k.list), Outcome::Truth)),
    call!(is_scalar [Character] |k| Outcome::Truth(calls::is_scalar(k.character))),
    call!(is_letter [Character] |k| outcome(calls::is_letter(k.character), Outcome::Truth)),
    call!(is_white [Character] |k| outcome(calls::is_white(k.character), Outcome::Truth)),
    call!(width [Character] |k| outcome(calls::width(k.character), |n| Outcome::Number(n.into()))),
    call!(inner_pair [Text, Kind, Place]
        |k| outcome(pairs::inner_pair(&k.text, k.kind, k.caret.row, k.caret.col), Outcome::Ranges)),
    call!(enter [List] |k| placed(plus::enter(&k.list), |n| Outcome::Number(n.into()))),
    call!(enter_matches [List, Character] |k| placed(plus::enter_matches(&k.list, k.character), Outcome::Truth)),
    call!(without_plus [List, Room] plain),
    call!(vim_parse [List] |k| placed(vim::vim_parse(&k.list), |n| Outcome::Number(n.into()))),
    call!(vim_matches [List, Character] |k| placed(vim::vim_matches(&k.list, k.character), Outcome::Truth)),
    call!(vim_write [List, Room] vim_written),
    call!(move_screen_up_kept [Text, Caret, Offset, Folds, Viewport, Tabstop, Count] |k| remembered(k, false)),
    call!(move_screen_down_kept [Text, Caret, Offset, Folds, Viewport, Tabstop, Count] |k| remembered(k, true)),
    call!(word_classes [Text, List, Room] classes_of),
    call!(word_fwd_by_class [Text, Caret, Folds, List, Big, Count, Room]
        |k| classed(k, calls::move_word_fwd(&k.text, k.caret, words(k), k.count))),
    call!(word_back_by_class [Text, Caret, Folds, List, Big, Count, Room]
        |k| classed(k, calls::move_word_back(&k.text, k.caret, words(k), k.count))),
    call!(word_end_by_class [Text, Caret, Folds, List, Big, Stop, Count, Room]
        |k| classed(k, calls::move_word_end(&k.text, k.caret, words(k), k.count, k.stop))),
    call!(word_end_back_by_class [Text, Caret, List, Big, Count, Room]
        |k| classed(k, calls::move_word_end_back(&k.text, k.caret, words(k), k.count))),
    call!(word_fwd_by_vim [Text, Caret, Folds, List, Big, Count]
        |k| by_vim(k, true, |text, words| calls::move_word_fwd(text, k.caret, words, k.count))),
    call!(word_back_by_vim [Text, Caret, Folds, List, Big, Count]
        |k| by_vim(k, true, |text, words| calls::move_word_back(text, k.caret, words, k.count))),
    call!(word_end_by_vim [Text, Caret, Folds, List, Big, Stop, Count]
        |k| by_vim(k, true, |text, words| calls::move_word_end(text, k.caret, words, k.count, k.stop))),
    call!(word_end_back_by_vim [Text, Caret, List, Big, Count]
        |k| by_vim(k, false, |text, words| calls::move_word_end_back(text, k.caret, words, k.count))),
    wide!(width_wide [Character]),
    wide!(visual_col_to_char_col_wide [Line, Column, Tabstop]),
    wide!(char_col_to_visual_col_wide [Line, Column, Tabstop]),
    wide!(cursor_visual_col_wide [Line, Column, Tabstop]),
    wide!(leading_visual_width_wide [Line, Tabstop]),
    wide!(wrap_segments_wide [Line, Wrap, Room]),
    wide!(char_col_for_visual_offset_wide [Line, Start, End, Column]),
    wide!(visual_offset_for_char_col_wide [Line, Start, Column]),
    wide!(move_up_wide [Text, Caret, Folds, Tabstop, Count]),
    wide!(move_down_wide [Text, Caret, Folds, Tabstop, Count]),
    wide!(move_screen_up_wide [Text, Caret, Folds, Viewport, Tabstop, Count]),
    wide!(move_screen_down_wide [Text, Caret, Folds, Viewport, Tabstop, Count]),
    wide!(move_screen_up_kept_wide [Text, Caret, Offset, Folds, Viewport, Tabstop, Count]),
    wide!(move_screen_down_kept_wide [Text, Caret, Offset, Folds, Viewport, Tabstop, Count]),
];

pub fn call(name: &str) -> Result<&'static Call, String> {
    CALLS.iter().find(|c| c.name == name).ok_or_else(|| format!("there is no call `{name}`"))
}

impl Case {
    pub fn new(call: &'static Call) -> Case {
        Case {
            call,
            text: Vec::new(),
            line: Vec::new(),
            caret: crate::Caret::at(0, 0),
            offset: None,
            kind: 0,
            folds: Vec::new(),
            tabstop: 8,
            list: crate::points("@,48-57,_"),
            count: 0,
            big: false,
            stop: false,
            character: 0,
            forward: false,
            till: false,
            skip: false,
            view: crate::Viewport::default(),
            room: 0,
            segments: Vec::new(),
            start: 0,
            end: 0,
            column: 0,
        }
    }

    pub fn takes(&self, input: Input) -> bool {
        self.call.takes.contains(&input)
    }

    /// What the given Rust answers, or the refusal. A panic is an answer for nobody, but for the sum
    /// that passes 65,535.
    pub fn answer(&self) -> Outcome {
        let answer = std::panic::catch_unwind(|| (self.call.answer)(self));
        answer.unwrap_or_else(|cause| {
            let rows = if self.takes(Line) { &self.line } else { &self.text };
            let wraps = self.takes(Wrap) || self.takes(Viewport);
            if !(wraps && calls::sum_wraps(rows, self.view.width, self.view.wrap)) {
                eprintln!("the given Rust stopped on: {self}");
                std::panic::resume_unwind(cause);
            }
            Outcome::Outside
        })
    }

    fn set(&mut self, name: &str, value: &str) -> Result<(), String> {
        match name {
            "text" => self.text = hexes(value)?,
            "line" => self.line = hexes(value)?,
            "row" => self.caret.row = number(value)?,
            "col" => self.caret.col = number(value)?,
            "kind" => {
                let at = KIND_NAMES.iter().position(|name| *name == value);
                self.kind = at.ok_or_else(|| format!("`{value}` is no kind: {}", KIND_NAMES.join(", ")))?;
            }
            "sticky" => self.caret.sticky = if value == "none" { None } else { Some(number(value)?) },
            "offset" => self.offset = if value == "none" { None } else { Some(number(value)?) },
            "folds" => self.folds = numbers(value)?,
            "tabstop" => self.tabstop = number(value)?,
            "list" => self.list = hexes(value)?,
            "count" => self.count = number(value)?,
            "big" => self.big = truth(value)?,
            "stop" => self.stop = truth(value)?,
            "char" => self.character = hex(value)?,
            "forward" => self.forward = truth(value)?,
            "till" => self.till = truth(value)?,
            "skip" => self.skip = truth(value)?,
            "top" => self.view.top = number(value)?,
            "height" => self.view.height = number(value)?,
            "width" => self.view.width = number(value)?,
            "wrap" => {
                self.view.wrap = match value {
                    "none" => crate::Wrap::None,
                    "char" => crate::Wrap::Char,
                    "word" => crate::Wrap::Word,
                    _ => return Err(format!("`{value}` is no wrap mode: none, char or word")),
                }
            }
            "room" => self.room = number(value)?,
            "segments" => self.segments = numbers(value)?,
            "start" => self.start = number(value)?,
            "end" => self.end = number(value)?,
            "column" => self.column = number(value)?,
            _ => return Err(format!("`{name}` is no input")),
        }
        Ok(())
    }

    fn get(&self, name: &str) -> String {
        let truth = |b: bool| u8::from(b).to_string();
        match name {
            "text" => write_hexes(&self.text),
            "line" => write_hexes(&self.line),
            "row" => self.caret.row.to_string(),
            "col" => self.caret.col.to_string(),
            "kind" => KIND_NAMES[self.kind].into(),
            "sticky" => self.caret.sticky.map_or("none".into(), |s| s.to_string()),
            "offset" => self.offset.map_or("none".into(), |x| x.to_string()),
            "folds" => write_numbers(&self.folds),
            "tabstop" => self.tabstop.to_string(),
            "list" => write_hexes(&self.list),
            "count" => self.count.to_string(),
            "big" => truth(self.big),
            "stop" => truth(self.stop),
            "char" => format!("{:x}", self.character),
            "forward" => truth(self.forward),
            "till" => truth(self.till),
            "skip" => truth(self.skip),
            "top" => self.view.top.to_string(),
            "height" => self.view.height.to_string(),
            "width" => self.view.width.to_string(),
            "wrap" => format!("{:?}", self.view.wrap).to_lowercase(),
            "room" => self.room.to_string(),
            "segments" => write_numbers(&self.segments),
            "start" => self.start.to_string(),
            "end" => self.end.to_string(),
            "column" => self.column.to_string(),
            _ => unreachable!("an input's name"),
        }
    }
}

/// The kinds of bracket, as a line has them.
const KIND_NAMES: [&str; 4] = ["round", "square", "curly", "angle"];

/// The names under which a line has an input.
fn names(input: Input) -> &'static [&'static str] {
    match input {
        Text => &["text"],
        Line => &["line"],
        Caret => &["row", "col", "sticky"],
        Offset => &["offset"],
        Place => &["row", "col"],
        Kind => &["kind"],
        Folds => &["folds"],
        Tabstop => &["tabstop"],
        List => &["list"],
        Count => &["count"],
        Big => &["big"],
        Stop => &["stop"],
        Character => &["char"],
        Forward => &["forward"],
        Till => &["till"],
        Skip => &["skip"],
        Viewport => &["top", "height", "width", "wrap"],
        Wrap => &["width", "wrap"],
        Room => &["room"],
        Segments => &["segments"],
        Start => &["start"],
        End => &["end"],
        Column => &["column"],
    }
}

impl fmt::Display for Case {
    fn fmt(&self, f: &mut fmt::Formatter) -> fmt::Result {
        f.write_str(self.call.name)?;
        for name in self.call.takes.iter().flat_map(|&input| names(input)) {
            write!(f, " {name}={}", self.get(name))?;
        }
        Ok(())
    }
}

impl std::str::FromStr for Case {
    type Err = String;

    fn from_str(line: &str) -> Result<Case, String> {
        let mut words = line.split_whitespace();
        let name = words.next().ok_or("the line is empty")?;
        let mut case = Case::new(call(name)?);
        let mut wanted: Vec<&str> = case.call.takes.iter().flat_map(|&input| names(input)).copied().collect();
        for word in words {
            let (name, value) = word.split_once('=').ok_or_else(|| format!("`{word}` is not name=value"))?;
            let at = wanted.iter().position(|w| *w == name);
            wanted.remove(at.ok_or_else(|| format!("`{}` takes no `{name}` here", case.call.name))?);
            case.set(name, value).map_err(|why| format!("{name}: {why}"))?;
        }
        match wanted[..] {
            [] => Ok(case),
            [first, ..] => Err(format!("`{first}` is missing")),
        }
    }
}

fn number<T: std::str::FromStr>(word: &str) -> Result<T, String> {
    let digits = !word.is_empty() && word.bytes().all(|b| b.is_ascii_digit());
    word.parse().ok().filter(|_| digits).ok_or_else(|| format!("`{word}` is no number that fits"))
}

fn truth(word: &str) -> Result<bool, String> {
    match word {
        "0" => Ok(false),
        "1" => Ok(true),
        _ => Err(format!("`{word}` is neither 0 nor 1")),
    }
}

fn hex(word: &str) -> Result<u32, String> {
    u32::from_str_radix(word, 16).map_err(|_| format!("`{word}` is no hexadecimal number that fits"))
}

fn hexes(words: &str) -> Result<Vec<u32>, String> {
    let mut all = Vec::new();
    for word in words.split(',').filter(|_| !words.is_empty()) {
        let (value, times) = word.split_once('*').unwrap_or((word, "1"));
        let times: usize = number(times)?;
        if all.len() + times > 1 << 22 {
            return Err("more than 4,194,304 values".into());
        }
        all.resize(all.len() + times, hex(value)?);
    }
    Ok(all)
}

fn numbers(words: &str) -> Result<Vec<u32>, String> {
    words.split(',').filter(|_| !words.is_empty()).map(number).collect()
}

fn write_hexes(values: &[u32]) -> String {
    let runs = values.chunk_by(|a, b| a == b).map(|run| match run.len() {
        n @ 1..4 => vec![format!("{:x}", run[0]); n].join(","),
        n => format!("{:x}*{n}", run[0]),
    });
    runs.collect::<Vec<_>>().join(",")
}

fn write_classes(values: &[u8]) -> String {
    write_hexes(&values.iter().map(|&x| x.into()).collect::<Vec<_>>())
}

fn write_numbers(values: &[u32]) -> String {
    values.iter().map(u32::to_string).collect::<Vec<_>>().join(",")
}

impl fmt::Display for Outcome {
    fn fmt(&self, f: &mut fmt::Formatter) -> fmt::Result {
        let caret = |k: &crate::Caret| {
            let sticky = k.sticky.map_or("none".into(), |s| s.to_string());
            format!("{} {} {sticky}", k.row, k.col)
        };
        match self {
            Outcome::Refused(number) => write!(f, "refused {number}"),
            Outcome::RefusedAt(number, place) => write!(f, "refused {number} at {place}"),
            Outcome::Moved(k) => write!(f, "moved {}", caret(k)),
            Outcome::Kept(k, offset) => {
                write!(f, "moved {}, offset {}", caret(k), offset.map_or("none".into(), |x| x.to_string()))
            }
            Outcome::Told(truth, k) => write!(f, "told {} {}", u8::from(*truth), caret(k)),
            Outcome::Place(None) => f.write_str("none"),
            Outcome::Place(Some((row, col))) => write!(f, "place {row} {col}"),
            Outcome::Ranges(None) => f.write_str("none"),
            Outcome::Ranges(Some([a, b, c, d, e, g, h, i])) => write!(f, "between {a} {b} to {c} {d}, with them {e} {g} to {h} {i}"),
            Outcome::Number(n) => write!(f, "number {n}"),
            Outcome::Truth(truth) => write!(f, "truth {}", u8::from(*truth)),
            Outcome::Segments(count, room) => write!(f, "segments {count} {}", write_hexes(room)),
            Outcome::Written(count, room) => write!(f, "written {count} {}", write_hexes(room)),
            Outcome::Classes(count, slice) => write!(f, "classes {count} {}", write_classes(slice)),
            Outcome::Classed(k, slice) => write!(f, "moved {}, classes {}", caret(k), write_classes(slice)),
            Outcome::Outside => f.write_str("outside"),
        }
    }
}
