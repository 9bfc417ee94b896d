//! Which refusal a call deserves, told from the records that the oracle has after it.

use crate::image::Image;
use crate::sides::count_bounds;
use lang_check::table::{Entry, Table as Oracle};
use shared::layout::SPREAD_MOST;
use sheafwinch::{Refusal, Region, Table};

/// How many records a call would leave in each region, and whether an entry that it makes is too deep.
pub struct Needs {
    pub entries: u32,
    pub fields: u32,
    pub bounds: u32,
    pub visited: u32,
    pub pending: u32,
    pub equals: u32,
    pub deep: bool,
}

impl Needs {
    /// Those of a call that brings the oracle to where it is now, and leaves our fields and pending pairs as they are.
    pub fn of(table: &Table, oracle: &Oracle) -> Needs {
        let image = Image::of(table);
        Needs {
            entries: oracle.len(),
            fields: table.count(Region::Fields),
            bounds: count_bounds(oracle),
            visited: oracle.visited().len() as u32,
            pending: table.count(Region::Pending),
            equals: oracle.equals().len() as u32,
            deep: (image.len()..oracle.len()).any(|n| spread(image, oracle, n) > SPREAD_MOST),
        }
    }

    /// The first region, in order, that lacks a record; then depth.
    pub fn refusal(&self, table: &Table) -> Option<Refusal> {
        let regions = [
            (Region::Entries, self.entries),
            (Region::Fields, self.fields),
            (Region::Bounds, self.bounds),
            (Region::Visited, self.visited),
            (Region::Pending, self.pending),
            (Region::Equals, self.equals),
        ];
        match regions.into_iter().find(|&(region, count)| count > table.capacity(region)) {
            Some((region, _)) => Some(Refusal::NoRoom(region)),
            None => self.deep.then_some(Refusal::TooDeep),
        }
    }
}

/// The spread of an entry that the oracle has, and we may not have.
fn spread(image: Image, oracle: &Oracle, n: u32) -> u32 {
    if n < image.len() {
        return image.entry(n).spread;
    }
    match oracle.entry(n) {
        Entry::Named(inner, _) | Entry::Neg(inner) => 1 + spread(image, oracle, inner),
        Entry::Inter(left, right) | Entry::Union(left, right) => 1 + spread(image, oracle, left) + spread(image, oracle, right),
        _ => 1,
    }
}
