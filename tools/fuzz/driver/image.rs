//! What the model asks and changes in an image besides the shared reads: room, and records put and taken off.

use shared::image::{capacity, count, entry_at, offset, Entry};
use shared::layout::*;

pub fn lacks(image: &[u32], region: usize, wanted: usize) -> bool {
    capacity(image, region) - count(image, region) < wanted
}

pub fn push(image: &mut [u32], region: usize, words: &[u32]) {
    let at = offset(image, region) + count(image, region) * WIDTHS[region - 1];
    image[at..at + words.len()].copy_from_slice(words);
    image[count_at(region)] += 1;
}

/// Takes off the last `n` of the pending pairs.
pub fn take_off_pending(image: &mut [u32], n: usize) {
    let left = count(image, PENDING) - n;
    let at = offset(image, PENDING) + PENDING_WIDTH * left;
    image[at..at + PENDING_WIDTH * n].fill(0);
    image[count_at(PENDING)] = left as u32;
}

pub fn mark(image: &mut [u32], n: u32) {
    image[entry_at(image, n, FLAGS_WORD)] |= MARK_FLAG;
}

pub fn all_entries(image: &[u32]) -> Vec<Entry> {
    shared::image::entries(image).iter().map(Entry::of).collect()
}

/// Puts all entries: those that stand there, perhaps changed, and further ones.
pub fn put_entries(image: &mut [u32], entries: &[Entry]) {
    let at = offset(image, ENTRIES);
    for (place, entry) in image[at..].chunks_exact_mut(ENTRY_WIDTH).zip(entries) {
        place.copy_from_slice(&entry.words());
    }
    image[count_at(ENTRIES)] = entries.len() as u32;
}
