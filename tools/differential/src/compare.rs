//! Whether the records of both sides are the same.

use crate::image::Image;
use crate::script::Names;
use lang_check::table::{Entry, Table as Oracle};
use shared::{image, layout};
use sheafwinch::Table;
use std::fmt::Debug;

/// What differs, and what each side says of it.
pub struct Difference {
    pub what: String,
    pub ours: String,
    pub oracles: String,
}

pub type Compared = Result<(), Box<Difference>>;

/// That two things are the same.
pub fn same<T: Debug + PartialEq>(what: &str, ours: T, oracles: T) -> Compared {
    if ours == oracles {
        return Ok(());
    }
    Err(Box::new(Difference { what: what.into(), ours: format!("{ours:?}"), oracles: format!("{oracles:?}") }))
}

/// Compares the level, entries with marks and cached negations, bounds by variable and side, visited pairs in order, and equals.
pub fn records(table: &Table, oracle: &Oracle, names: Names) -> Compared {
    let image = Image::of(table);
    same("level", table.level(), oracle.level())?;
    same("entries", image.len(), oracle.len())?;
    for n in 0..image.len() {
        entry(image, oracle, names, n)?;
    }
    bounds(image, oracle)?;
    pairs("visited", image.visited(), oracle.visited())?;
    pairs("equals", image.equals(), oracle.equals())
}

fn entry(image: Image, oracle: &Oracle, names: Names, n: u32) -> Compared {
    let ours = image.entry(n);
    if !same_content(image, ours, &oracle.entry(n), names) {
        return Err(Box::new(Difference {
            what: format!("entry {n}"),
            ours: show_ours(image, ours, names),
            oracles: show_oracles(&oracle.entry(n)),
        }));
    }
    if ours.marked() != oracle.marked(n) {
        return same(&format!("mark of {n}"), ours.marked(), oracle.marked(n));
    }
    if ours.cached_negation() != oracle.negation(n) {
        return same(&format!("cached negation of {n}"), ours.cached_negation(), oracle.negation(n));
    }
    Ok(())
}

fn same_content(image: Image, ours: image::Entry, oracles: &Entry, names: Names) -> bool {
    let parts = (ours.kind, ours.x, ours.y);
    match oracles {
        Entry::Variable { level } => parts == (layout::VARIABLE, *level, 0),
        Entry::Primitive(which) => parts == (layout::PRIMITIVE, *which, 0),
        Entry::List(element) => parts == (layout::LIST, *element, 0),
        Entry::Lambda(param, body) => parts == (layout::LAMBDA, *param, *body),
        Entry::Named(inner, label) => (ours.kind, ours.x) == (layout::NAMED, *inner) && label.parse() == Ok(ours.y),
        Entry::Neg(inner) => parts == (layout::NEG, *inner, 0),
        Entry::Inter(left, right) => parts == (layout::INTER, *left, *right),
        Entry::Union(left, right) => parts == (layout::UNION, *left, *right),
        Entry::Attrset(set) => {
            ours.kind == layout::ATTRSET
                && ours.open() == set.open()
                && ours.dynamic() == set.dynamic()
                && image
                    .fields(ours)
                    .iter()
                    .map(|&[name, entry, optional]| (names[name as usize], entry, optional != 0))
                    .eq(set.fields())
        }
    }
}

/// An entry as the oracle's `dump` shows it.
fn show_ours(image: Image, entry: image::Entry, names: Names) -> String {
    let image::Entry { kind, x, y, .. } = entry;
    match kind {
        layout::ATTRSET => {
            let fields = image.fields(entry).iter().map(|&[name, e, optional]| (names[name as usize], e, optional != 0));
            show_attrset(entry.open(), entry.dynamic(), fields)
        }
        layout::LAMBDA | layout::NAMED | layout::INTER | layout::UNION => format!("{kind} {x} {y}"),
        _ => format!("{kind} {x}"),
    }
}

fn show_oracles(entry: &Entry) -> String {
    match entry {
        Entry::Variable { level } => format!("{} {level}", layout::VARIABLE),
        Entry::Primitive(which) => format!("{} {which}", layout::PRIMITIVE),
        Entry::List(element) => format!("{} {element}", layout::LIST),
        Entry::Lambda(param, body) => format!("{} {param} {body}", layout::LAMBDA),
        Entry::Attrset(set) => show_attrset(set.open(), set.dynamic(), set.fields()),
        Entry::Named(inner, label) => format!("{} {inner} {label}", layout::NAMED),
        Entry::Neg(inner) => format!("{} {inner}", layout::NEG),
        Entry::Inter(left, right) => format!("{} {left} {right}", layout::INTER),
        Entry::Union(left, right) => format!("{} {left} {right}", layout::UNION),
    }
}

fn show_attrset<'a>(open: bool, dynamic: Option<u32>, fields: impl ExactSizeIterator<Item = (&'a str, u32, bool)>) -> String {
    let mut shown = format!("{} {} {} {}", layout::ATTRSET, u8::from(open), dynamic.map_or(-1, i64::from), fields.len());
    for (name, entry, optional) in fields {
        shown += &format!(" {name} {entry} {}", u8::from(optional));
    }
    shown
}

fn bounds(image: Image, oracle: &Oracle) -> Compared {
    for n in (0..image.len()).filter(|&n| image.kind(n) == layout::VARIABLE) {
        bounds_of(image, n, 0, "lower", oracle.lower(n))?;
        bounds_of(image, n, 1, "upper", oracle.upper(n))?;
    }
    Ok(())
}

fn bounds_of(image: Image, n: u32, side: u32, which: &str, oracles: impl Iterator<Item = u32> + Clone) -> Compared {
    let ours = image.bounds().iter().filter(|b| (b[0], b[1]) == (n, side)).map(|b| b[2]);
    same_lists(|| format!("{which} bounds of {n}"), ours, oracles)
}

fn pairs(what: &str, ours: &[[u32; 2]], oracles: impl Iterator<Item = (u32, u32)> + Clone) -> Compared {
    same_lists(|| what.into(), ours.iter().map(|&[a, b]| (a, b)), oracles)
}

fn same_lists<T: Debug + PartialEq>(
    what: impl Fn() -> String,
    ours: impl Iterator<Item = T> + Clone,
    oracles: impl Iterator<Item = T> + Clone,
) -> Compared {
    if ours.clone().eq(oracles.clone()) {
        return Ok(());
    }
    same(&what(), ours.collect::<Vec<_>>(), oracles.collect())
}
