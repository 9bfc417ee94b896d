//! A table's reads, over the words of an image; and an image with no records.

use crate::layout::*;

#[inline]
pub fn offset(image: &[u32], region: usize) -> usize {
    image[offset_at(region)] as usize
}

#[inline]
pub fn capacity(image: &[u32], region: usize) -> usize {
    image[capacity_at(region)] as usize
}

#[inline]
pub fn count(image: &[u32], region: usize) -> usize {
    image[count_at(region)] as usize
}

/// Where a word of entry n stands.
#[inline]
pub fn entry_at(image: &[u32], n: u32, word: usize) -> usize {
    offset(image, ENTRIES) + ENTRY_WIDTH * n as usize + word
}

/// An entry's record.
#[derive(Clone, Copy, Default)]
pub struct Entry {
    pub kind: u32,
    pub x: u32,
    pub y: u32,
    pub z: u32,
    pub flags: u32,
    pub spread: u32,
    /// The number of its negation plus 1, or 0.
    pub negation: u32,
}

impl Entry {
    #[inline]
    pub fn of(words: &[u32; ENTRY_WIDTH]) -> Entry {
        Entry {
            kind: words[KIND_WORD],
            x: words[X_WORD],
            y: words[Y_WORD],
            z: words[Z_WORD],
            flags: words[FLAGS_WORD],
            spread: words[SPREAD_WORD],
            negation: words[NEGATION_WORD],
        }
    }

    #[inline]
    pub fn words(self) -> [u32; ENTRY_WIDTH] {
        let mut words = [0; ENTRY_WIDTH];
        words[KIND_WORD] = self.kind;
        words[X_WORD] = self.x;
        words[Y_WORD] = self.y;
        words[Z_WORD] = self.z;
        words[FLAGS_WORD] = self.flags;
        words[SPREAD_WORD] = self.spread;
        words[NEGATION_WORD] = self.negation;
        words
    }

    pub fn marked(self) -> bool {
        self.flags & MARK_FLAG != 0
    }

    pub fn open(self) -> bool {
        self.flags & OPEN_FLAG != 0
    }

    pub fn dynamic(self) -> Option<u32> {
        (self.flags & DYNAMIC_FLAG != 0).then_some(self.z)
    }

    pub fn cached_negation(self) -> Option<u32> {
        self.negation.checked_sub(1)
    }
}

#[inline]
pub fn entry(image: &[u32], n: u32) -> Entry {
    Entry::of(&entries(image)[n as usize])
}

/// The words of a region's record.
#[inline]
pub fn record(image: &[u32], region: usize, n: usize) -> &[u32] {
    let width = WIDTHS[region - 1];
    let at = offset(image, region) + n * width;
    &image[at..at + width]
}

/// The records that are there, in as many words as the region's records have.
#[inline]
fn records<const WIDTH: usize>(image: &[u32], region: usize) -> &[[u32; WIDTH]] {
    let at = offset(image, region);
    image[at..at + WIDTH * count(image, region)].as_chunks().0
}

#[inline]
pub fn entries(image: &[u32]) -> &[[u32; ENTRY_WIDTH]] {
    records(image, ENTRIES)
}

#[inline]
pub fn fields(image: &[u32]) -> &[[u32; FIELD_WIDTH]] {
    records(image, FIELDS)
}

#[inline]
pub fn bounds(image: &[u32]) -> &[[u32; BOUND_WIDTH]] {
    records(image, BOUNDS)
}

#[inline]
pub fn visited(image: &[u32]) -> &[[u32; VISITED_WIDTH]] {
    records(image, VISITED)
}

#[inline]
pub fn pending(image: &[u32]) -> &[[u32; PENDING_WIDTH]] {
    records(image, PENDING)
}

#[inline]
pub fn equals(image: &[u32]) -> &[[u32; EQUALS_WIDTH]] {
    records(image, EQUALS)
}

/// An image with no records: idle, level 0.
pub fn laid(capacities: [u32; REGIONS], names: u32, functor: u32) -> Vec<u32> {
    let mut image = vec![0; words_for(&capacities) as usize];
    image[FORMAT_AT] = FORMAT;
    image[NAMES_AT] = names;
    image[FUNCTOR_AT] = functor;
    for region in ENTRIES..=EQUALS {
        image[offset_at(region)] = words_for(&capacities[..region - 1]) as u32;
        image[capacity_at(region)] = capacities[region - 1];
    }
    image
}
