//! Document 01's test of an image, in ordinary safe Rust: slices and iterators, and it stops at the first fault.

use crate::layout::*;

/// Whether the words are a well formed image.
pub fn well_formed(image: &[u32]) -> bool {
    if image.len() < HEADER_WORDS || !header_right(image) {
        return false;
    }
    let mut records: [&[u32]; REGIONS] = [&[]; REGIONS];
    let mut at = HEADER_WORDS;
    for region in ENTRIES..=EQUALS {
        let (width, most) = (WIDTHS[region - 1], MOST[region - 1]);
        let (offset, capacity, count) = (image[offset_at(region)], image[capacity_at(region)], image[count_at(region)]);
        if offset as usize != at || capacity > most || count > capacity {
            return false;
        }
        let end = at + width * capacity as usize;
        let Some(words) = image.get(at..end) else { return false };
        let (used, rest) = words.split_at(width * count as usize);
        if !rest.iter().all(|&w| w == 0) {
            return false;
        }
        records[region - 1] = used;
        at = end;
    }
    let [entries, fields, bounds, visited, pending, equals] = records;
    let count = (entries.len() / ENTRY_WIDTH) as u32;
    at == image.len()
        && break_right(image, count)
        && entries_right(entries, fields, image[NAMES_AT])
        && fields_right(fields, count)
        && bounds_right(bounds, entries)
        && pairs_right(visited, count)
        && pairs_right(pending, count)
        && pairs_right(equals, count)
}

fn header_right(image: &[u32]) -> bool {
    let (state, names, functor, pending) = (image[STATE_AT], image[NAMES_AT], image[FUNCTOR_AT], image[count_at(PENDING)]);
    image[FORMAT_AT] == FORMAT && state <= ASKED && (state == IDLE) == (pending == 0) && names <= NAMES_MOST && functor <= names
}

fn break_right(image: &[u32], entries: u32) -> bool {
    let (kind, sub, sup, name) = (image[BREAK_KIND_AT], image[BREAK_SUB_AT], image[BREAK_SUP_AT], image[BREAK_NAME_AT]);
    match kind {
        UNBROKEN => sub == 0 && sup == 0 && name == 0,
        MISMATCHED => sub < entries && sup < entries && name == 0,
        FIELD_MISSING => sub < entries && sup < entries && name < image[NAMES_AT],
        _ => false,
    }
}

fn entries_right(entries: &[u32], fields: &[u32], names: u32) -> bool {
    let count = (entries.len() / ENTRY_WIDTH) as u32;
    let spread_of = |n: u32| entries[ENTRY_WIDTH * n as usize + SPREAD_WORD];
    entries.chunks_exact(ENTRY_WIDTH).zip(0u32..).all(|(e, i)| {
        let (kind, x, y, z) = (e[KIND_WORD], e[X_WORD], e[Y_WORD], e[Z_WORD]);
        let (flags, spread, negation) = (e[FLAGS_WORD], e[SPREAD_WORD], e[NEGATION_WORD]);
        let shape = match kind {
            VARIABLE => y == 0,
            PRIMITIVE => x <= NUMBER && y == 0,
            LIST | NEG => x < i && y == 0,
            LAMBDA | INTER | UNION => x < i && y < i,
            ATTRSET => attrset_right(fields, names, i, x, y),
            NAMED => x < i,
            _ => false,
        };
        if !shape {
            return false;
        }
        let most_flags = if kind == ATTRSET { MARK_FLAG + OPEN_FLAG + DYNAMIC_FLAG } else { MARK_FLAG };
        let z_right = if kind == ATTRSET && flags & DYNAMIC_FLAG != 0 { z < i } else { z == 0 };
        // what is below entry i is tested, so no sum wraps
        let due = match kind {
            NAMED | NEG => 1 + spread_of(x),
            INTER | UNION => 1 + spread_of(x) + spread_of(y),
            _ => 1,
        };
        flags <= most_flags && z_right && spread == due && due <= SPREAD_MOST && negation <= count
    })
}

/// Whether attrset i's field records are there, with strictly ascending names and entries below i.
fn attrset_right(fields: &[u32], names: u32, i: u32, x: u32, y: u32) -> bool {
    if y == 0 {
        return x == 0;
    }
    let (first, end) = (x as usize, x as usize + y as usize);
    let Some(own) = fields.get(FIELD_WIDTH * first..FIELD_WIDTH * end) else { return false };
    let mut least = 0;
    for f in own.chunks_exact(FIELD_WIDTH) {
        if f[NAME_WORD] < least || f[NAME_WORD] >= names || f[ENTRY_WORD] >= i {
            return false;
        }
        least = f[NAME_WORD] + 1;
    }
    true
}

fn fields_right(fields: &[u32], entries: u32) -> bool {
    fields.chunks_exact(FIELD_WIDTH).all(|f| f[ENTRY_WORD] < entries && f[OPTIONAL_WORD] <= OPTIONAL)
}

fn bounds_right(bounds: &[u32], entries: &[u32]) -> bool {
    let count = (entries.len() / ENTRY_WIDTH) as u32;
    let is_variable = |n: u32| n < count && entries[ENTRY_WIDTH * n as usize + KIND_WORD] == VARIABLE;
    bounds.chunks_exact(BOUND_WIDTH).all(|b| is_variable(b[VARIABLE_WORD]) && b[SIDE_WORD] <= UPPER && b[BOUND_WORD] < count)
}

fn pairs_right(pairs: &[u32], entries: u32) -> bool {
    pairs.iter().all(|&n| n < entries)
}
