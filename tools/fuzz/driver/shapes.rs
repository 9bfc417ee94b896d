//! What the calls and the rules both ask of shapes, by document 01: negation, disjointness, own fields, a bound that stands there.

use shared::image::{bounds, fields, Entry};
use shared::layout::*;

/// The number of an entry's negation, which is made where it is not there.
pub fn negate(entries: &mut Vec<Entry>, n: u32) -> u32 {
    let Entry { kind, x, y, spread, negation, .. } = entries[n as usize];
    if negation != 0 {
        return negation - 1;
    }
    let made = match kind {
        NEG => return x,
        INTER | UNION => {
            let (left, right) = (negate(entries, x), negate(entries, y));
            let spread = 1 + entries[left as usize].spread + entries[right as usize].spread;
            Entry { kind: if kind == INTER { UNION } else { INTER }, x: left, y: right, spread, ..Entry::default() }
        }
        _ => Entry { kind: NEG, x: n, spread: 1 + spread, ..Entry::default() },
    };
    entries.push(made);
    entries[n as usize].negation = entries.len() as u32;
    entries.len() as u32 - 1
}

/// A variable's bounds on a side, in their order.
pub fn bounds_of(image: &[u32], variable: u32, side: u32) -> impl Iterator<Item = u32> + Clone + '_ {
    let own = move |b: &&[u32; BOUND_WIDTH]| (b[VARIABLE_WORD], b[SIDE_WORD]) == (variable, side);
    bounds(image).iter().filter(own).map(|b| b[BOUND_WORD])
}

/// Whether the bound stands there already, and is looked for: only while those that stand there are so many or fewer.
pub fn listed(image: &[u32], variable: u32, side: u32, bound: u32) -> bool {
    let mut own = bounds_of(image, variable, side);
    own.clone().count() <= SCAN_MOST as usize && own.any(|b| b == bound)
}

pub fn disjoint(image: &[u32], l: Entry, r: Entry) -> bool {
    match (l.kind, r.kind) {
        (PRIMITIVE, PRIMITIVE) => l.x != r.x && !under_number(l.x, r.x) && !under_number(r.x, l.x),
        (ATTRSET, ATTRSET) => surely_lacks(image, l, r) || surely_lacks(image, r, l),
        (ATTRSET, LAMBDA) => !has_functor(image, l),
        (LAMBDA, ATTRSET) => !has_functor(image, r),
        (PRIMITIVE..=ATTRSET, PRIMITIVE..=ATTRSET) => l.kind != r.kind,
        _ => false,
    }
}

pub fn own_fields(image: &[u32], attrset: Entry) -> &[[u32; FIELD_WIDTH]] {
    &fields(image)[attrset.x as usize..][..attrset.y as usize]
}

/// The field of an attrset that is its functor.
pub fn functor_of(image: &[u32], attrset: Entry) -> Option<&[u32; FIELD_WIDTH]> {
    own_fields(image, attrset).iter().find(|f| f[NAME_WORD] + 1 == image[FUNCTOR_AT])
}

pub fn has_functor(image: &[u32], attrset: Entry) -> bool {
    functor_of(image, attrset).is_some()
}

/// Whether the first is closed and lacks a field of the other that is not optional.
fn surely_lacks(image: &[u32], closed: Entry, other: Entry) -> bool {
    let lacks = |f: &[u32; FIELD_WIDTH]| own_fields(image, closed).iter().all(|g| g[NAME_WORD] != f[NAME_WORD]);
    !closed.open() && own_fields(image, other).iter().any(|f| f[OPTIONAL_WORD] != OPTIONAL && lacks(f))
}

/// Int or Float under Number.
pub fn under_number(left: u32, right: u32) -> bool {
    matches!(left, INT | FLOAT) && right == NUMBER
}
