//! Images filled with legal records of every kind, or deep.
use shared::image::{laid, Entry};
use shared::layout::*;
use shared::random::XorShift;

pub type Counts = [u32; REGIONS];

/// Where a region starts, with such capacities; the region after the last one starts at the end.
pub fn start_of(capacities: Counts, region: usize) -> usize {
    words_for(&capacities[..region - 1]) as usize
}

/// So many records in each region: asked, broken by a missing field, entries of all nine kinds.
pub fn filled(capacities: Counts, counts: Counts, names: u32, random: &mut XorShift) -> Vec<u32> {
    let mut image = laid(capacities, names, 1);
    let entries = counts[ENTRIES - 1] as usize;
    for region in ENTRIES..=EQUALS {
        image[count_at(region)] = counts[region - 1];
    }
    image[STATE_AT] = ASKED;
    image[BREAK_KIND_AT] = FIELD_MISSING;
    image[BREAK_SUB_AT] = random.below(entries);
    image[BREAK_SUP_AT] = random.below(entries);
    image[BREAK_NAME_AT] = random.below(names as usize);
    image[LEVEL_AT] = random.next();
    let variables = put_entries(&mut image, capacities, counts, random);
    let part = |region: usize| {
        let start = start_of(capacities, region);
        start..start + WIDTHS[region - 1] * counts[region - 1] as usize
    };
    for bound in image[part(BOUNDS)].chunks_exact_mut(BOUND_WIDTH) {
        bound[VARIABLE_WORD] = variables[random.below(variables.len()) as usize];
        bound[SIDE_WORD] = random.below(2);
        bound[BOUND_WORD] = random.below(entries);
    }
    for region in [VISITED, PENDING, EQUALS] {
        for number in &mut image[part(region)] {
            *number = random.below(entries);
        }
    }
    image
}

/// The entries, with the fields that their attrsets own; answers the variables. Each field record is owned.
fn put_entries(image: &mut [u32], capacities: Counts, counts: Counts, random: &mut XorShift) -> Vec<u32> {
    let (entries, all_fields) = (counts[ENTRIES - 1] as usize, counts[FIELDS - 1] as usize);
    let names = image[NAMES_AT] as usize;
    let mut variables = Vec::new();
    let mut spreads: Vec<u32> = Vec::new();
    let mut fields = 0;
    for i in 0..entries {
        let kind = match i {
            0 => VARIABLE,
            _ if i + 1 == entries => ATTRSET,
            _ => random.below(UNION as usize + 1),
        };
        // the components, anew until their spreads fit
        let (x, y, spread) = loop {
            let (a, b) = (random.below(i.max(1)), random.below(i.max(1)));
            let (x, y, spread) = match kind {
                VARIABLE => (random.next(), 0, 1),
                PRIMITIVE => (random.below(NUMBER as usize + 1), 0, 1),
                LIST => (a, 0, 1),
                LAMBDA => (a, b, 1),
                ATTRSET => (0, 0, 1),
                NAMED => (a, random.next(), 1 + spreads[a as usize]),
                NEG => (a, 0, 1 + spreads[a as usize]),
                _ => (a, b, 1 + spreads[a as usize] + spreads[b as usize]),
            };
            if spread <= SPREAD_MOST {
                break (x, y, spread);
            }
        };
        let mut entry = Entry { kind, x, y, z: 0, flags: random.below(2), spread, negation: random.below(entries + 1) };
        if kind == VARIABLE {
            variables.push(i as u32);
        }
        if kind == ATTRSET {
            let left = all_fields - fields;
            // about as many that all are used up at the end, the last one owning the rest; some have none
            let own = if i + 1 == entries { left } else { left.min(random.below(1 + 18 * all_fields / entries) as usize) };
            entry.flags = random.below(8);
            if entry.flags & DYNAMIC_FLAG != 0 {
                entry.z = random.below(i);
            }
            if own > 0 {
                entry.x = fields as u32;
                entry.y = own as u32;
                let start = start_of(capacities, FIELDS) + FIELD_WIDTH * fields;
                put_fields(&mut image[start..][..FIELD_WIDTH * own], names, i, random);
            }
            fields += own;
        }
        spreads.push(spread);
        image[HEADER_WORDS + ENTRY_WIDTH * i..][..ENTRY_WIDTH].copy_from_slice(&entry.words());
    }
    variables
}

/// An attrset's fields: names ascend by random strides, entries are below i.
fn put_fields(words: &mut [u32], names: usize, i: usize, random: &mut XorShift) {
    let stride = names / (words.len() / FIELD_WIDTH);
    for (k, field) in words.chunks_exact_mut(FIELD_WIDTH).enumerate() {
        field[NAME_WORD] = (k * stride) as u32 + random.below(stride);
        field[ENTRY_WORD] = random.below(i);
        field[OPTIONAL_WORD] = random.below(2);
    }
}

/// A variable, unions of the entry before with itself, and so many negations: spreads 1, 3, 7, .. 1023, 1024, 1025.
pub fn deep(negations: u32) -> Vec<u32> {
    let mut image = laid([10 + negations, 0, 0, 0, 0, 0], 1, 1);
    image[count_at(ENTRIES)] = 10 + negations;
    let mut spread = 1;
    for i in 0..10 + negations {
        let entry = match i {
            0 => Entry { kind: VARIABLE, spread, ..Entry::default() },
            1..10 => Entry { kind: UNION, x: i - 1, y: i - 1, spread, ..Entry::default() },
            _ => Entry { kind: NEG, x: i - 1, spread, ..Entry::default() },
        };
        image[HEADER_WORDS + ENTRY_WIDTH * i as usize..][..ENTRY_WIDTH].copy_from_slice(&entry.words());
        spread = if i < 9 { 2 * spread + 1 } else { spread + 1 };
    }
    image
}
