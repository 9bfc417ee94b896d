//! Name lists and operators at random.

use crate::call::{Call, Which, CALLS};
use crate::case::Line;
use crate::play::{Play, Played};
use shared::layout::NAMES_MOST;
use std::collections::BTreeSet;

/// A name list, right or damaged, and calls on it.
pub fn names(play: &mut Play) -> Played {
    let mut list = if play.random.chance(85) { name_list(play) } else { any_bytes(play) };
    if play.random.chance(35) {
        damage(play, &mut list);
    }
    play.line(Line::List(list))?;
    for _ in 0..2 + play.random.below(8) {
        let first = Which::CheckNames as usize;
        let which = CALLS[first + play.random.below(Which::FindName as usize + 1 - first)].0;
        let mut call = Call::plain(which);
        for (i, &argument) in which.arguments().iter().enumerate() {
            call.args[i] = play.argument(argument);
        }
        if which == Which::FindName {
            call.extra = looked_for(play);
        }
        play.line(Line::Call(call))?;
    }
    Ok(())
}

pub fn operators(play: &mut Play) -> Played {
    for _ in 0..20 {
        let which = play.random.of_these(&[Which::Resolve, Which::FromLeft, Which::AtOnce]);
        let mut call = Call::plain(which);
        for (i, &argument) in which.arguments().iter().enumerate() {
            call.args[i] = play.argument(argument);
        }
        play.line(Line::Call(call))?;
    }
    Ok(())
}

fn name_list(play: &mut Play) -> Vec<u8> {
    let mut names = BTreeSet::new();
    for _ in 0..play.random.below(9) {
        let length = play.random.of_these(&[0, 1, 1, 2, 2, 3, 4]);
        names.insert((0..length).map(|_| play.random.of_these(b"abA\x00\x80\xff")).collect::<Vec<u8>>());
    }
    // the longest name, and one that is longer
    if play.random.chance(4) {
        names.insert(vec![b'l'; 255 + play.random.below(2)]);
    }
    encoded(&names.into_iter().collect::<Vec<_>>())
}

fn encoded(names: &[Vec<u8>]) -> Vec<u8> {
    let mut list = (names.len() as u16).to_le_bytes().to_vec();
    let mut offset = 0u16;
    list.extend(offset.to_le_bytes());
    for name in names {
        offset += name.len() as u16;
        list.extend(offset.to_le_bytes());
    }
    list.extend(names.concat());
    list
}

fn any_bytes(play: &mut Play) -> Vec<u8> {
    match play.random.below(800) {
        // as many names as there may be, or one more
        0..=1 => {
            let names: Vec<Vec<u8>> =
                (0..NAMES_MOST as u16 + play.random.below(2) as u16).map(|n| n.to_be_bytes().to_vec()).collect();
            return encoded(&names);
        }
        // no name, and as many bytes as 16 bits tell from none
        2 => return vec![0; 4 + 65536],
        _ => (),
    }
    let length = play.random.of_these(&[0, 1, 2, 3, 4, 5, 6, 12, 40]);
    (0..length).map(|_| if play.random.chance(70) { play.random.below(4) as u8 } else { play.random.word() as u8 }).collect()
}

fn damage(play: &mut Play, list: &mut Vec<u8>) {
    for _ in 0..1 + play.random.below(2) {
        match play.random.below(8) {
            0 => list.truncate(list.len().saturating_sub(1 + play.random.below(3))),
            1 => list.push(play.random.word() as u8),
            _ if list.is_empty() => (),
            _ => {
                let head = 2 + 2 * (usize::from(list[0]) + 1);
                let end = if play.random.chance(70) { head.min(list.len()) } else { list.len() };
                let i = play.random.below(end);
                list[i] = match play.random.below(4) {
                    0 => list[i].wrapping_add(1),
                    1 => list[i].wrapping_sub(1),
                    2 => list[i] ^ (1 << play.random.below(8)),
                    _ => play.random.of_these(&[0, 1, 127, 128, 255]),
                };
            }
        }
    }
}

/// Bytes of the list, as one of its names may be, or others.
fn looked_for(play: &mut Play) -> Vec<u32> {
    let list = play.judge.list();
    if list.is_empty() || play.random.chance(20) {
        let length = play.random.below(4);
        return (0..length).map(|_| u32::from(play.random.of_these(b"abA\x00\x80\xff"))).collect();
    }
    let head = (4 + 2 * usize::from(list[0])).min(list.len());
    let from = head + play.random.below(list.len() - head + 1);
    let length = play.random.below(list.len() - from + 1).min(4);
    list[from..from + length].iter().map(|&byte| u32::from(byte)).collect()
}
