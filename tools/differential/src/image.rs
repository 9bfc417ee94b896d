//! Our side's records, read from the image's words as document 01 lays them out.

use shared::image::{self, Entry};
use shared::layout::{ATTRSET, FUNCTOR_AT};
use sheafwinch::Table;

#[derive(Clone, Copy)]
pub struct Image<'a>(&'a [u32]);

impl<'a> Image<'a> {
    pub fn of(table: &'a Table) -> Image<'a> {
        Image(table.words())
    }

    /// How many entries there are.
    pub fn len(self) -> u32 {
        image::entries(self.0).len() as u32
    }

    pub fn entry(self, n: u32) -> Entry {
        image::entry(self.0, n)
    }

    pub fn kind(self, n: u32) -> u32 {
        self.entry(n).kind
    }

    /// How many entries are marked.
    pub fn marks(self) -> u32 {
        (0..self.len()).filter(|&n| self.entry(n).marked()).count() as u32
    }

    /// An attrset's fields: name, entry, optional.
    pub fn fields(self, attrset: Entry) -> &'a [[u32; 3]] {
        &image::fields(self.0)[attrset.x as usize..][..attrset.y as usize]
    }

    pub fn field(self, attrset: Entry, name: u32) -> Option<&'a [u32; 3]> {
        self.fields(attrset).iter().find(|field| field[0] == name)
    }

    /// Variable, side, bound.
    pub fn bounds(self) -> &'a [[u32; 3]] {
        image::bounds(self.0)
    }

    pub fn visited(self) -> &'a [[u32; 2]] {
        image::visited(self.0)
    }

    pub fn pending(self) -> &'a [[u32; 2]] {
        image::pending(self.0)
    }

    pub fn equals(self) -> &'a [[u32; 2]] {
        image::equals(self.0)
    }

    /// Whether an entry is an attrset with a functor.
    pub fn has_functor(self, entry: Entry) -> bool {
        let functor = self.0[FUNCTOR_AT].checked_sub(1);
        entry.kind == ATTRSET && functor.is_some_and(|name| self.field(entry, name).is_some())
    }
}
