//! What a question comes to when it is worked, by document 01: its steps taken one by one, on the words of the image. "Of the same kind"
//! is of the same kind of entry, as the Rust of tix has it.

use crate::answer::Answer;
use crate::image::{all_entries, lacks, mark, push, put_entries, take_off_pending};
use crate::refusal;
use crate::shapes::{bounds_of, disjoint, functor_of, has_functor, listed, negate, own_fields, under_number};
use shared::image::{count, entry, pending, visited, Entry};
use shared::layout::*;
use shared::raw;

/// The rules by which a pair is worked, as they are counted.
#[derive(Clone, Copy)]
pub enum Rule {
    EqualOrVisited,
    VariableLeft,
    VariableRight,
    NamedLeft,
    NamedRight,
    Lambdas,
    Lists,
    Attrsets,
    MissingField,
    Primitives,
    Negations,
    UnderNegation,
    NotUnderNegation,
    InterRight,
    UnionLeft,
    InterLeftBoth,
    InterLeftDisjoint,
    InterLeftMember,
    InterLeftUnion,
    UnionRightVariables,
    UnionRightConcrete,
    UnionRightVariable,
    UnionRightDisjoint,
    UnionRightOneDisjoint,
    UnionRightSameKind,
    UnionRightBoth,
    Functor,
    Mismatch,
}

pub const RULES: usize = Rule::Mismatch as usize + 1;

/// The rules' names, in their order.
pub const RULE_NAMES: [&str; RULES] = [
    "equal or visited",
    "variable on the left",
    "variable on the right",
    "named on the left",
    "named on the right",
    "lambdas",
    "lists",
    "attrsets",
    "attrsets, missing field",
    "primitives",
    "negations",
    "under a negation",
    "under a negation, mismatch",
    "inter on the right",
    "union on the left",
    "inter on the left, both",
    "inter on the left, disjoint",
    "inter on the left, a member",
    "inter on the left, new union",
    "union on the right, variables",
    "union on the right, the concrete side",
    "union on the right, the variable",
    "union on the right, both disjoint",
    "union on the right, one disjoint",
    "union on the right, same kind",
    "union on the right, both",
    "functor",
    "mismatch",
];

pub type Hits = [u64; RULES];

type Pair = [u32; 2];

/// What a pair comes to: a failure with its number and name, or what is put into the image.
enum Next {
    Fail(u32, Option<u32>),
    Put(Put),
}

#[derive(Default)]
struct Put {
    bound: Option<[u32; 3]>,
    mark: Option<u32>,
    /// All entries, where the rule makes some.
    entries: Option<Vec<Entry>>,
    pairs: Vec<Pair>,
}

fn go(rule: Rule, pairs: Vec<Pair>) -> (Rule, Next) {
    (rule, Next::Put(Put { pairs, ..Put::default() }))
}

fn mismatch(rule: Rule) -> (Rule, Next) {
    (rule, Next::Fail(MISMATCHED, None))
}

/// What an instalment of so many steps answers on a well formed image with a question asked; `image` becomes what it leaves.
pub fn worked(image: &mut [u32], budget: u32, hits: &mut Hits) -> Answer {
    let mut steps = 0;
    loop {
        if count(image, PENDING) == 0 {
            image[STATE_AT] = IDLE;
            return Answer::of(raw::YES, 0, steps, &[]);
        }
        if steps == budget {
            return Answer::of(raw::MORE, 0, steps, &[]);
        }
        match step(image, hits) {
            Ok(None) => steps += 1,
            Ok(Some(failure)) => return Answer { steps: steps + 1, ..failure },
            Err(refusal) => return Answer { steps, ..refusal },
        }
    }
}

/// One step: None where the question goes on, or how it failed; or the refusal, with nothing changed.
fn step(image: &mut [u32], hits: &mut Hits) -> Result<Option<Answer>, Answer> {
    let &[sub, sup] = pending(image).last().expect("a pending pair");
    if sub == sup || visited(image).contains(&[sub, sup]) {
        hits[Rule::EqualOrVisited as usize] += 1;
        take_off_pending(image, 1);
        return Ok(None);
    }
    let (rule, next) = next(image, sub, sup);
    hits[rule as usize] += 1;
    match next {
        Next::Fail(number, name) => {
            if lacks(image, VISITED, 1) {
                return Err(Answer::no_room(VISITED));
            }
            push(image, VISITED, &[sub, sup]);
            take_off_pending(image, count(image, PENDING));
            image[STATE_AT] = IDLE;
            if image[BREAK_KIND_AT] == UNBROKEN {
                image[BREAK_KIND_AT..=BREAK_NAME_AT].copy_from_slice(&[number, sub, sup, name.unwrap_or(0)]);
            }
            Ok(Some(Answer::of(raw::FAILED, number, 0, &[&[sub, sup], name.as_slice()].concat())))
        }
        Next::Put(put) => {
            fits(image, &put)?;
            push(image, VISITED, &[sub, sup]);
            take_off_pending(image, 1);
            apply(image, put);
            Ok(None)
        }
    }
}

fn fits(image: &[u32], put: &Put) -> Result<(), Answer> {
    let entries = put.entries.as_deref().unwrap_or(&[]);
    let new = entries.len().saturating_sub(count(image, ENTRIES));
    // the pair that is taken off leaves its record
    let pairs = put.pairs.len().saturating_sub(1);
    for (region, wanted) in [(ENTRIES, new), (BOUNDS, put.bound.iter().len()), (VISITED, 1), (PENDING, pairs)] {
        if lacks(image, region, wanted) {
            return Err(Answer::no_room(region));
        }
    }
    if entries.iter().any(|entry| entry.spread > SPREAD_MOST) {
        return Err(Answer::refused(refusal::TOO_DEEP));
    }
    Ok(())
}

fn apply(image: &mut [u32], put: Put) {
    if let Some(entries) = put.entries {
        put_entries(image, &entries);
    }
    if let Some(bound) = put.bound {
        push(image, BOUNDS, &bound);
    }
    if let Some(n) = put.mark {
        mark(image, n);
    }
    // the first is worked first: it goes to the end
    for pair in put.pairs.iter().rev() {
        push(image, PENDING, pair);
    }
}

fn is_variable(image: &[u32], n: u32) -> bool {
    entry(image, n).kind == VARIABLE
}

fn next(image: &[u32], sub: u32, sup: u32) -> (Rule, Next) {
    match (is_variable(image, sub), is_variable(image, sup)) {
        (false, false) => concrete(image, sub, sup),
        (true, sup_too) => {
            let put = Put {
                bound: (!listed(image, sub, UPPER, sup)).then_some([sub, UPPER, sup]),
                mark: (sup_too && entry(image, sub).marked()).then_some(sup),
                entries: None,
                pairs: bounds_of(image, sub, LOWER).map(|lower| [lower, sup]).collect(),
            };
            (Rule::VariableLeft, Next::Put(put))
        }
        (false, true) => {
            let put = Put {
                bound: (!listed(image, sup, LOWER, sub)).then_some([sup, LOWER, sub]),
                mark: None,
                entries: None,
                pairs: bounds_of(image, sup, UPPER).map(|upper| [sub, upper]).collect(),
            };
            (Rule::VariableRight, Next::Put(put))
        }
    }
}

/// Both concrete: the first that fits.
fn concrete(image: &[u32], sub: u32, sup: u32) -> (Rule, Next) {
    let (l, r) = (entry(image, sub), entry(image, sup));
    match (l.kind, r.kind) {
        (NAMED, _) => go(Rule::NamedLeft, vec![[l.x, sup]]),
        (_, NAMED) => go(Rule::NamedRight, vec![[sub, r.x]]),
        (LAMBDA, LAMBDA) => go(Rule::Lambdas, vec![[r.x, l.x], [l.y, r.y]]),
        (LIST, LIST) => go(Rule::Lists, vec![[l.x, r.x]]),
        (ATTRSET, ATTRSET) => attrsets(image, l, r),
        (PRIMITIVE, PRIMITIVE) if l.x == r.x || under_number(l.x, r.x) => go(Rule::Primitives, vec![]),
        (NEG, NEG) => go(Rule::Negations, vec![[r.x, l.x]]),
        (PRIMITIVE..=NEG, NEG) if disjoint(image, l, entry(image, r.x)) => go(Rule::UnderNegation, vec![]),
        (PRIMITIVE..=NEG, NEG) => mismatch(Rule::NotUnderNegation),
        (_, INTER) => go(Rule::InterRight, vec![[sub, r.x], [sub, r.y]]),
        (UNION, _) => go(Rule::UnionLeft, vec![[l.x, sup], [l.y, sup]]),
        (INTER, _) => inter_on_the_left(image, l, sup),
        (_, UNION) => union_on_the_right(image, sub, r),
        (ATTRSET, LAMBDA) if has_functor(image, l) => functor(image, sub, l, r),
        _ => mismatch(Rule::Mismatch),
    }
}

fn attrsets(image: &[u32], l: Entry, r: Entry) -> (Rule, Next) {
    let mut pairs = Vec::new();
    for &[name, entry, optional] in own_fields(image, r) {
        let same = own_fields(image, l).iter().find(|own| own[NAME_WORD] == name).map(|own| own[ENTRY_WORD]);
        match same.or(l.dynamic()) {
            Some(own) => pairs.push([own, entry]),
            None if !l.open() && optional != OPTIONAL => return (Rule::MissingField, Next::Fail(FIELD_MISSING, Some(name))),
            None => (),
        }
    }
    pairs.extend(l.dynamic().zip(r.dynamic()).map(|(left, right)| [left, right]));
    go(Rule::Attrsets, pairs)
}

fn inter_on_the_left(image: &[u32], l: Entry, sup: u32) -> (Rule, Next) {
    let (a, b) = (l.x, l.y);
    let chosen = |this, other| is_variable(image, this) || (holds_variable(image, this) && !holds_variable(image, other));
    let (c, d) = match (chosen(a, b), chosen(b, a)) {
        (true, false) => (a, b),
        (false, true) => (b, a),
        _ => return go(Rule::InterLeftBoth, vec![[a, sup], [b, sup]]),
    };
    if member_disjoint(image, d, sup) {
        return mismatch(Rule::InterLeftDisjoint);
    }
    let mut entries = all_entries(image);
    let negation = negate(&mut entries, d);
    let (mut rule, mut target) = (Rule::InterLeftMember, sup);
    if !is_member(&entries, sup, negation) {
        (rule, target) = (Rule::InterLeftUnion, entries.len() as u32);
        let spread = 1 + entries[sup as usize].spread + entries[negation as usize].spread;
        entries.push(Entry { kind: UNION, x: sup, y: negation, spread, ..Entry::default() });
    }
    (rule, Next::Put(Put { entries: Some(entries), pairs: vec![[c, target]], ..Put::default() }))
}

fn holds_variable(image: &[u32], n: u32) -> bool {
    let e = entry(image, n);
    match e.kind {
        VARIABLE => true,
        NAMED => holds_variable(image, e.x),
        INTER => holds_variable(image, e.x) || holds_variable(image, e.y),
        _ => false,
    }
}

/// Whether the entry, or any member of it through inter, is concrete and disjoint from sup.
fn member_disjoint(image: &[u32], n: u32, sup: u32) -> bool {
    let e = entry(image, n);
    match e.kind {
        INTER => member_disjoint(image, e.x, sup) || member_disjoint(image, e.y, sup),
        _ => disjoint(image, e, entry(image, sup)),
    }
}

fn is_member(entries: &[Entry], of: u32, n: u32) -> bool {
    let e = entries[of as usize];
    of == n
        || match e.kind {
            NAMED => is_member(entries, e.x, n),
            UNION => is_member(entries, e.x, n) || is_member(entries, e.y, n),
            _ => false,
        }
}

fn union_on_the_right(image: &[u32], sub: u32, r: Entry) -> (Rule, Next) {
    let (a, b) = (r.x, r.y);
    let both = vec![[sub, a], [sub, b]];
    let one = |rule, n| go(rule, vec![[sub, n]]);
    let of_two = |concrete, variable| {
        if compatible(image, sub, concrete) {
            one(Rule::UnionRightConcrete, concrete)
        } else {
            one(Rule::UnionRightVariable, variable)
        }
    };
    match (is_variable(image, a), is_variable(image, b)) {
        (true, true) => go(Rule::UnionRightVariables, both),
        (true, false) => of_two(b, a),
        (false, true) => of_two(a, b),
        (false, false) => {
            let apart = |n| disjoint(image, entry(image, sub), entry(image, n));
            let alike = |n| entry(image, n).kind == entry(image, sub).kind;
            match (apart(a), apart(b)) {
                (true, true) => mismatch(Rule::UnionRightDisjoint),
                (true, false) => one(Rule::UnionRightOneDisjoint, b),
                (false, true) => one(Rule::UnionRightOneDisjoint, a),
                (false, false) if alike(a) && !alike(b) => one(Rule::UnionRightSameKind, a),
                (false, false) if alike(b) && !alike(a) => one(Rule::UnionRightSameKind, b),
                (false, false) => go(Rule::UnionRightBoth, both),
            }
        }
    }
}

/// Same kind (so Int or Float under Number too), or an attrset with a functor and a lambda, or it is named.
fn compatible(image: &[u32], sub: u32, side: u32) -> bool {
    let (l, r) = (entry(image, sub), entry(image, side));
    l.kind == r.kind || r.kind == NAMED || (l.kind == ATTRSET && r.kind == LAMBDA && has_functor(image, l))
}

fn functor(image: &[u32], sub: u32, l: Entry, r: Entry) -> (Rule, Next) {
    let field = functor_of(image, l).expect("a functor's field")[ENTRY_WORD];
    let mut entries = all_entries(image);
    let inner = entries.len() as u32;
    entries.push(Entry { kind: LAMBDA, x: r.x, y: r.y, spread: 1, ..Entry::default() });
    entries.push(Entry { kind: LAMBDA, x: sub, y: inner, spread: 1, ..Entry::default() });
    (Rule::Functor, Next::Put(Put { entries: Some(entries), pairs: vec![[field, inner + 1]], ..Put::default() }))
}
