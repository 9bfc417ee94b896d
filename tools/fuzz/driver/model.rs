//! What each call on an image must answer, and leave in the words, by document 01: written from 01 and the header, not from our code.
//! What a question that is worked comes to stands in rules.rs.

use crate::answer::Answer;
use crate::call::{Call, Which};
use crate::image::{all_entries, lacks, mark, push, put_entries, take_off_pending};
use crate::refusal;
use crate::rules::{worked, Hits};
use crate::shapes::{disjoint, listed, negate};
use shared::image::{count, entry, entry_at, record, Entry};
use shared::layout::*;
use shared::raw;

type Outcome = Result<Answer, Answer>;

fn refuse(number: u32) -> Outcome {
    Err(Answer::refused(number))
}

/// What the call answers; `image` becomes what it leaves. `formed`: whether the words are well formed. `hits` counts
/// the rules by which a question is worked.
pub fn due(call: &Call, image: &mut [u32], formed: bool, hits: &mut Hits) -> Answer {
    let outcome = match call.which {
        Which::Check => Ok(Answer::done(&[formed as u32])),
        Which::Start => start(image, &call.args),
        Which::Open | Which::OpenEqual => open(call, image, formed, hits),
        _ if !formed => refuse(refusal::BAD_TABLE),
        Which::Work if image[STATE_AT] == IDLE => refuse(refusal::IDLE),
        Which::Work => Ok(worked(image, call.args[0], hits)),
        Which::Abandon => abandon(image),
        Which::Entry | Which::Record | Which::Disjoint => read(call, image),
        _ if image[STATE_AT] == ASKED => refuse(refusal::BUSY),
        _ => change(call, image),
    };
    outcome.unwrap_or_else(|refused| refused)
}

fn start(image: &mut [u32], args: &[u32; 8]) -> Outcome {
    let (names, functor, capacities) = (args[0], args[1], &args[2..]);
    let over = capacities.iter().zip(MOST).any(|(&capacity, most)| capacity > most);
    if over || words_for(capacities) != image.len() as u64 || names > NAMES_MOST || functor > names {
        return refuse(refusal::BAD_CAPACITY);
    }
    image.fill(0);
    image[FORMAT_AT] = FORMAT;
    image[NAMES_AT] = names;
    image[FUNCTOR_AT] = functor;
    for region in ENTRIES..=EQUALS {
        image[offset_at(region)] = words_for(&capacities[..region - 1]) as u32;
        image[capacity_at(region)] = capacities[region - 1];
    }
    Ok(Answer::done(&[]))
}

fn abandon(image: &mut [u32]) -> Outcome {
    if image[STATE_AT] == IDLE {
        return refuse(refusal::IDLE);
    }
    take_off_pending(image, count(image, PENDING));
    image[STATE_AT] = IDLE;
    Ok(Answer::done(&[]))
}

fn change(call: &Call, image: &mut [u32]) -> Outcome {
    let [a, b, c, ..] = call.args;
    match call.which {
        Which::MakeVariable => new_entry(image, Entry { kind: VARIABLE, x: image[LEVEL_AT], spread: 1, ..Entry::default() }),
        Which::MakePrimitive => {
            if a > NUMBER {
                return refuse(refusal::BAD_NUMBER);
            }
            new_entry(image, Entry { kind: PRIMITIVE, x: a, spread: 1, ..Entry::default() })
        }
        Which::MakeList => {
            entries_there(image, &[a])?;
            new_entry(image, Entry { kind: LIST, x: a, spread: 1, ..Entry::default() })
        }
        Which::MakeLambda => {
            entries_there(image, &[a, b])?;
            new_entry(image, Entry { kind: LAMBDA, x: a, y: b, spread: 1, ..Entry::default() })
        }
        Which::MakeAttrset => attrset(image, &call.extra, a != 0, (b != 0).then_some(c)),
        Which::MakeNamed => {
            entries_there(image, &[a])?;
            new_entry(image, Entry { kind: NAMED, x: a, y: b, spread: 1 + spread(image, a), ..Entry::default() })
        }
        Which::MakeNeg => {
            entries_there(image, &[a])?;
            negation(image, a)
        }
        Which::MakeInter | Which::MakeUnion => {
            entries_there(image, &[a, b])?;
            let kind = if call.which == Which::MakeInter { INTER } else { UNION };
            let spread = 1 + spread(image, a) + spread(image, b);
            new_entry(image, Entry { kind, x: a, y: b, spread, ..Entry::default() })
        }
        Which::Mark => {
            entries_there(image, &[a])?;
            mark(image, a);
            Ok(Answer::done(&[]))
        }
        Which::PutBound => put_bound(image, a, b, c),
        Which::Enter if image[LEVEL_AT] == u32::MAX => refuse(refusal::LEVEL),
        Which::Exit if image[LEVEL_AT] == 0 => refuse(refusal::LEVEL),
        Which::Enter => {
            image[LEVEL_AT] += 1;
            Ok(Answer::done(&[]))
        }
        Which::Exit => {
            image[LEVEL_AT] -= 1;
            Ok(Answer::done(&[]))
        }
        Which::SetLevel => {
            entries_there(image, &[a])?;
            variable_there(image, a)?;
            image[entry_at(image, a, X_WORD)] = b;
            Ok(Answer::done(&[]))
        }
        other => unreachable!("{} changes nothing", other.name()),
    }
}

fn entries_there(image: &[u32], numbers: &[u32]) -> Result<(), Answer> {
    let entries = count(image, ENTRIES) as u32;
    if numbers.iter().all(|&n| n < entries) {
        Ok(())
    } else {
        Err(Answer::refused(refusal::BAD_NUMBER))
    }
}

fn variable_there(image: &[u32], n: u32) -> Result<(), Answer> {
    if entry(image, n).kind == VARIABLE {
        Ok(())
    } else {
        Err(Answer::refused(refusal::NOT_A_VARIABLE))
    }
}

fn spread(image: &[u32], n: u32) -> u32 {
    entry(image, n).spread
}

fn new_entry(image: &mut [u32], entry: Entry) -> Outcome {
    if lacks(image, ENTRIES, 1) {
        return Err(Answer::no_room(ENTRIES));
    }
    if entry.spread > SPREAD_MOST {
        return refuse(refusal::TOO_DEEP);
    }
    let number = count(image, ENTRIES) as u32;
    push(image, ENTRIES, &entry.words());
    Ok(Answer::done(&[number]))
}

fn attrset(image: &mut [u32], list: &[u32], open: bool, dynamic: Option<u32>) -> Outcome {
    let (fields, rest) = list.as_chunks::<FIELD_WIDTH>();
    let ascending = fields.windows(2).all(|pair| pair[0][NAME_WORD] < pair[1][NAME_WORD]);
    let known = |f: &[u32; FIELD_WIDTH]| f[NAME_WORD] < image[NAMES_AT] && f[OPTIONAL_WORD] <= OPTIONAL;
    if !rest.is_empty() || !ascending || !fields.iter().all(known) {
        return refuse(refusal::BAD_FIELDS);
    }
    for f in fields {
        entries_there(image, &[f[ENTRY_WORD]])?;
    }
    entries_there(image, dynamic.as_slice())?;
    for (region, wanted) in [(ENTRIES, 1), (FIELDS, fields.len())] {
        if lacks(image, region, wanted) {
            return Err(Answer::no_room(region));
        }
    }
    let first = if list.is_empty() { 0 } else { count(image, FIELDS) as u32 };
    let flags = if open { OPEN_FLAG } else { 0 } + if dynamic.is_some() { DYNAMIC_FLAG } else { 0 };
    for f in fields {
        push(image, FIELDS, f);
    }
    let (y, z) = (fields.len() as u32, dynamic.unwrap_or(0));
    new_entry(image, Entry { kind: ATTRSET, x: first, y, z, flags, spread: 1, negation: 0 })
}

/// Negation on a list of entries without a limit, which then must fit: room first, then depth.
fn negation(image: &mut [u32], n: u32) -> Outcome {
    let old = count(image, ENTRIES);
    let mut entries = all_entries(image);
    let number = negate(&mut entries, n);
    if lacks(image, ENTRIES, entries.len() - old) {
        return Err(Answer::no_room(ENTRIES));
    }
    if entries.iter().any(|entry| entry.spread > SPREAD_MOST) {
        return refuse(refusal::TOO_DEEP);
    }
    put_entries(image, &entries);
    Ok(Answer::done(&[number]))
}

fn put_bound(image: &mut [u32], variable: u32, side: u32, bound: u32) -> Outcome {
    entries_there(image, &[variable, bound])?;
    if side > UPPER {
        return refuse(refusal::BAD_NUMBER);
    }
    variable_there(image, variable)?;
    if listed(image, variable, side, bound) {
        return Ok(Answer::done(&[]));
    }
    if lacks(image, BOUNDS, 1) {
        return Err(Answer::no_room(BOUNDS));
    }
    push(image, BOUNDS, &[variable, side, bound]);
    Ok(Answer::done(&[]))
}

/// An opening: refused as such, with no step; else the first instalment, as work gives it.
fn open(call: &Call, image: &mut [u32], formed: bool, hits: &mut Hits) -> Outcome {
    let [held, left, right, budget, ..] = call.args;
    let asked = ask(image, formed, held != 0, (left, right), call.which == Which::OpenEqual);
    asked.map_err(Answer::unopened)?;
    Ok(worked(image, budget, hits))
}

fn ask(image: &mut [u32], formed: bool, held: bool, (left, right): (u32, u32), both_ways: bool) -> Result<(), Answer> {
    if !formed {
        return Err(Answer::refused(refusal::BAD_TABLE));
    }
    if image[STATE_AT] == ASKED {
        return Err(Answer::refused(refusal::BUSY));
    }
    if held && image[BREAK_KIND_AT] != UNBROKEN {
        return Err(Answer::of(raw::REFUSED, refusal::BROKEN, 0, &image[BREAK_KIND_AT..=BREAK_NAME_AT]));
    }
    entries_there(image, &[left, right])?;
    // the end of pending is worked first
    let pairs: &[[u32; 2]] = if both_ways { &[[right, left], [left, right]] } else { &[[left, right]] };
    let equals = usize::from(both_ways && left != right);
    for (region, wanted) in [(PENDING, pairs.len()), (EQUALS, equals)] {
        if lacks(image, region, wanted) {
            return Err(Answer::no_room(region));
        }
    }
    for pair in pairs {
        push(image, PENDING, pair);
    }
    if equals == 1 {
        push(image, EQUALS, &[left, right]);
    }
    image[STATE_AT] = ASKED;
    Ok(())
}

fn read(call: &Call, image: &[u32]) -> Outcome {
    let [a, b, ..] = call.args;
    match call.which {
        Which::Entry => {
            entries_there(image, &[a])?;
            Ok(Answer::done(&shown(entry(image, a))))
        }
        Which::Record => {
            let region = a as usize;
            if !(ENTRIES..=EQUALS).contains(&region) || b as usize >= count(image, region) {
                return refuse(refusal::BAD_NUMBER);
            }
            Ok(Answer::done(&[&[a], record(image, region, b as usize)].concat()))
        }
        _ => {
            entries_there(image, &[a, b])?;
            Ok(Answer::done(&[disjoint(image, entry(image, a), entry(image, b)) as u32]))
        }
    }
}

fn shown(entry: Entry) -> Vec<u32> {
    let Entry { kind, x, y, z, .. } = entry;
    match kind {
        VARIABLE | PRIMITIVE | LIST | NEG => vec![kind, x],
        ATTRSET => vec![kind, x, y, u32::from(entry.open()), u32::from(entry.dynamic().is_some()), z],
        _ => vec![kind, x, y],
    }
}
