//! The numbers of an image's layout and its limits, under the names of crates/image. tools/layout holds each to the model.

/// Where the header has each word, and how many there are.
pub const FORMAT_AT: usize = 0;
pub const STATE_AT: usize = 1;
pub const BREAK_KIND_AT: usize = 2;
pub const BREAK_SUB_AT: usize = 3;
pub const BREAK_SUP_AT: usize = 4;
pub const BREAK_NAME_AT: usize = 5;
pub const LEVEL_AT: usize = 6;
pub const NAMES_AT: usize = 7;
pub const FUNCTOR_AT: usize = 8;
pub const HEADER_WORDS: usize = 27;

/// A region has its offset, capacity and count so far on: REGION_STEP for each region up to it, which counts from 1.
pub const OFFSET_AT: usize = 6;
pub const CAPACITY_AT: usize = 7;
pub const COUNT_AT: usize = 8;
pub const REGION_STEP: usize = 3;

pub const FORMAT: u32 = 1;

/// States.
pub const IDLE: u32 = 0;
pub const ASKED: u32 = 1;

/// Break kinds, which are the numbers of failures too.
pub const UNBROKEN: u32 = 0;
pub const MISMATCHED: u32 = 1;
pub const FIELD_MISSING: u32 = 2;

/// Regions.
pub const ENTRIES: usize = 1;
pub const FIELDS: usize = 2;
pub const BOUNDS: usize = 3;
pub const VISITED: usize = 4;
pub const PENDING: usize = 5;
pub const EQUALS: usize = 6;

/// Words of a region's record.
pub const ENTRY_WIDTH: usize = 7;
pub const FIELD_WIDTH: usize = 3;
pub const BOUND_WIDTH: usize = 3;
pub const VISITED_WIDTH: usize = 2;
pub const PENDING_WIDTH: usize = 2;
pub const EQUALS_WIDTH: usize = 2;

/// Most records that a region may have room for.
pub const ENTRIES_MOST: u32 = 4096;
pub const FIELDS_MOST: u32 = 16384;
pub const BOUNDS_MOST: u32 = 65536;
pub const VISITED_MOST: u32 = 65536;
pub const PENDING_MOST: u32 = 65536;
pub const EQUALS_MOST: u32 = 65536;

pub const NAMES_MOST: u32 = 4096;
pub const SPREAD_MOST: u32 = 1024;
/// A repeated bound is looked for only while there are so many or fewer.
pub const SCAN_MOST: u32 = 32;

/// The words of an entry.
pub const KIND_WORD: usize = 0;
pub const X_WORD: usize = 1;
pub const Y_WORD: usize = 2;
pub const Z_WORD: usize = 3;
pub const FLAGS_WORD: usize = 4;
pub const SPREAD_WORD: usize = 5;
pub const NEGATION_WORD: usize = 6;

/// Kinds of an entry.
pub const VARIABLE: u32 = 0;
pub const PRIMITIVE: u32 = 1;
pub const LIST: u32 = 2;
pub const LAMBDA: u32 = 3;
pub const ATTRSET: u32 = 4;
pub const NAMED: u32 = 5;
pub const NEG: u32 = 6;
pub const INTER: u32 = 7;
pub const UNION: u32 = 8;

/// Primitives.
pub const NULL: u32 = 0;
pub const BOOL: u32 = 1;
pub const INT: u32 = 2;
pub const FLOAT: u32 = 3;
pub const STRING: u32 = 4;
pub const PATH: u32 = 5;
pub const URI: u32 = 6;
pub const NUMBER: u32 = 7;

/// Flags of an entry.
pub const MARK_FLAG: u32 = 1;
pub const OPEN_FLAG: u32 = 2;
pub const DYNAMIC_FLAG: u32 = 4;

/// The words of a field, and its flag.
pub const NAME_WORD: usize = 0;
pub const ENTRY_WORD: usize = 1;
pub const OPTIONAL_WORD: usize = 2;
pub const OPTIONAL: u32 = 1;

/// The words of a bound, and its sides.
pub const VARIABLE_WORD: usize = 0;
pub const SIDE_WORD: usize = 1;
pub const BOUND_WORD: usize = 2;
pub const LOWER: u32 = 0;
pub const UPPER: u32 = 1;

/// The regions' widths and mosts, from region 1 on.
pub const REGIONS: usize = EQUALS;
pub const WIDTHS: [usize; REGIONS] = [ENTRY_WIDTH, FIELD_WIDTH, BOUND_WIDTH, VISITED_WIDTH, PENDING_WIDTH, EQUALS_WIDTH];
pub const MOST: [u32; REGIONS] = [ENTRIES_MOST, FIELDS_MOST, BOUNDS_MOST, VISITED_MOST, PENDING_MOST, EQUALS_MOST];

/// Where the header has a region's words.
pub const fn offset_at(region: usize) -> usize {
    OFFSET_AT + REGION_STEP * region
}

pub const fn capacity_at(region: usize) -> usize {
    CAPACITY_AT + REGION_STEP * region
}

pub const fn count_at(region: usize) -> usize {
    COUNT_AT + REGION_STEP * region
}

/// The words of an image with room for so many records in its first regions; with six, the whole image. More than any image has
/// where a capacity is over its most.
pub fn words_for(capacities: &[u32]) -> u64 {
    HEADER_WORDS as u64 + WIDTHS.iter().zip(capacities).map(|(&width, &capacity)| width as u64 * u64::from(capacity)).sum::<u64>()
}
