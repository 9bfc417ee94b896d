//! A case: lines that are carried out one after the other on one image and one name list. As text, a line to a line:
//!
//!     front 1                    the memory lent has its untouchable page in front; and null stands for none
//!     length N                   the image has N words from here on: cut, or with zeros added
//!     words W..                  the image is these words
//!     set I W                    word I of the image is W
//!     save, restore              keeps the image's words; brings them back
//!     list B..                   the name list is these bytes
//!     NAME ARG.. [: W..]         a call; after the colon the field list, or the bytes to be found

use crate::call::{Call, Which, CALLS};
use std::fmt;

#[derive(Clone, Debug)]
pub enum Line {
    Front(bool),
    Length(usize),
    Words(Vec<u32>),
    Set(usize, u32),
    Save,
    Restore,
    List(Vec<u8>),
    Call(Call),
}

impl fmt::Display for Line {
    fn fmt(&self, f: &mut fmt::Formatter) -> fmt::Result {
        match self {
            Line::Front(front) => write!(f, "front {}", u8::from(*front)),
            Line::Length(n) => write!(f, "length {n}"),
            Line::Words(words) => {
                write!(f, "words")?;
                words.iter().try_for_each(|word| write!(f, " {word}"))
            }
            Line::Set(i, word) => write!(f, "set {i} {word}"),
            Line::Save => write!(f, "save"),
            Line::Restore => write!(f, "restore"),
            Line::List(bytes) => {
                write!(f, "list")?;
                bytes.iter().try_for_each(|byte| write!(f, " {byte}"))
            }
            Line::Call(call) => write!(f, "{call}"),
        }
    }
}

/// The line that a text tells, or None.
pub fn parse(text: &str) -> Option<Line> {
    let (head, extra) = text.split_once(':').unwrap_or((text, ""));
    let mut parts = head.split_whitespace();
    let verb = parts.next()?;
    let numbers = parts.map(|part| part.parse().ok()).collect::<Option<Vec<u32>>>()?;
    let line = match (verb, numbers.as_slice()) {
        ("front", [front]) => Line::Front(*front != 0),
        ("length", [n]) => Line::Length(*n as usize),
        ("words", words) => Line::Words(words.to_vec()),
        ("set", [i, word]) => Line::Set(*i as usize, *word),
        ("save", []) => Line::Save,
        ("restore", []) => Line::Restore,
        ("list", bytes) => Line::List(bytes.iter().map(|&byte| byte as u8).collect()),
        (name, args) => {
            let (which, _, arguments) = CALLS.iter().find(|(_, other, _)| *other == name)?;
            if arguments.len() != args.len() {
                return None;
            }
            let mut call = Call::with(*which, args);
            call.extra = extra.split_whitespace().map(|part| part.parse().ok()).collect::<Option<Vec<u32>>>()?;
            Line::Call(call)
        }
    };
    Some(line)
}

impl Line {
    /// Lines that are simpler by one thing: a number set to 0, or a number fewer at the end.
    pub fn simpler(&self) -> Vec<Line> {
        match self {
            Line::Words(words) => fewer_or_zero(words).into_iter().map(Line::Words).collect(),
            Line::List(bytes) => fewer_or_zero(bytes).into_iter().map(Line::List).collect(),
            Line::Set(i, word) if *word > 1 => vec![Line::Set(*i, 0), Line::Set(*i, 1)],
            Line::Call(call) if call.which != Which::Start => simpler_calls(call).into_iter().map(Line::Call).collect(),
            _ => Vec::new(),
        }
    }
}

fn simpler_calls(call: &Call) -> Vec<Call> {
    let mut calls = Vec::new();
    for i in (0..call.which.arguments().len()).filter(|&i| call.args[i] != 0) {
        let mut simpler = call.clone();
        simpler.args[i] = if call.args[i] > 1 { 1 } else { 0 };
        calls.push(simpler);
    }
    for extra in fewer_or_zero(&call.extra) {
        calls.push(Call { extra, ..call.clone() });
    }
    calls
}

fn fewer_or_zero<T: Copy + Default + PartialEq>(numbers: &[T]) -> Vec<Vec<T>> {
    let mut all = Vec::new();
    for len in [numbers.len() / 2, numbers.len().saturating_sub(1)] {
        if len < numbers.len() {
            all.push(numbers[..len].to_vec());
        }
    }
    for i in (0..numbers.len()).filter(|&i| numbers[i] != T::default()) {
        let mut zeroed = numbers.to_vec();
        zeroed[i] = T::default();
        all.push(zeroed);
    }
    all
}
