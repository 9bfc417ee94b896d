//! What the name calls and the operators must answer, by document 01.

use crate::answer::Answer;
use crate::call::{Call, Which};
use crate::refusal;
use shared::layout::{FLOAT, INT, NAMES_MOST, NUMBER, PATH, STRING};
use std::cmp::Ordering;

const LONGEST: usize = 255;

/// Where each name stands in the list, or None where the bytes are no name list.
fn places(list: &[u8]) -> Option<Vec<(usize, usize)>> {
    let number = |at: usize| Some(usize::from(u16::from_le_bytes([*list.get(at)?, *list.get(at + 1)?])));
    let count = number(0)?;
    if count > NAMES_MOST as usize {
        return None;
    }
    let offsets = (0..=count).map(|i| number(2 + 2 * i)).collect::<Option<Vec<usize>>>()?;
    let start = 4 + 2 * count;
    if offsets[0] != 0 || start + offsets[count] != list.len() {
        return None;
    }
    let mut places: Vec<(usize, usize)> = Vec::with_capacity(count);
    for pair in offsets.windows(2) {
        let name = (start + pair[0], start + pair[1]);
        if pair[1] < pair[0] || pair[1] - pair[0] > LONGEST || name.1 > list.len() {
            return None;
        }
        if places.last().is_some_and(|last| list[last.0..last.1] >= list[name.0..name.1]) {
            return None;
        }
        places.push(name);
    }
    Some(places)
}

pub fn names_due(call: &Call, list: &[u8]) -> Answer {
    let Some(places) = places(list) else { return Answer::refused(refusal::BAD_NAMES) };
    let [a, b, ..] = call.args;
    if call.which.arguments().iter().zip([a, b]).any(|(_, n)| n as usize >= places.len()) {
        return Answer::refused(refusal::BAD_NUMBER);
    }
    let bytes = |(from, to): (usize, usize)| &list[from..to];
    match call.which {
        Which::CheckNames | Which::CheckName => Answer::done(&[]),
        Which::CountNames => Answer::done(&[places.len() as u32]),
        Which::ShowName => {
            let (from, to) = places[a as usize];
            Answer::done(&[from as u32, (to - from) as u32])
        }
        Which::CompareNames => Answer::done(&[match bytes(places[a as usize]).cmp(bytes(places[b as usize])) {
            Ordering::Less => 0,
            Ordering::Equal => 1,
            Ordering::Greater => 2,
        }]),
        _ => {
            let found = places.iter().position(|&place| bytes(place).iter().map(|&b| u32::from(b)).eq(call.extra.iter().copied()));
            Answer::done(found.map(|n| n as u32).as_slice())
        }
    }
}

const ADD: u32 = 0;
const DIV: u32 = 3;

pub fn operator_due(call: &Call) -> Answer {
    let [op, left, right, ..] = call.args;
    let primitives = &call.args[1..call.which.arguments().len()];
    if op > DIV || primitives.iter().any(|&p| p > NUMBER) {
        return Answer::refused(refusal::BAD_NUMBER);
    }
    let number = |p| matches!(p, INT | FLOAT | NUMBER);
    let text = |p| matches!(p, STRING | PATH);
    let known = match call.which {
        Which::Resolve if number(left) && number(right) => [FLOAT, NUMBER, INT].into_iter().find(|&p| left == p || right == p),
        Which::Resolve if op == ADD && text(left) && text(right) => Some(left),
        Which::FromLeft if op == ADD && text(left) => Some(left),
        Which::AtOnce if op != ADD => Some(NUMBER),
        _ => None,
    };
    Answer::done(known.as_slice())
}
