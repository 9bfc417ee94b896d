//! The families of scripts, and what a script starts with.

use crate::numbers::Numbers;
use crate::script::Names;
use sheafwinch::Capacities;

/// Lists of names: with `__functor` first, or not first, or not there.
const NAME_LISTS: [Names; 5] = [
    &["__functor", "a", "x", "y", "z"],
    &["A", "__functor", "x", "xy", "y"],
    &["__functor", "x", "y"],
    &["a", "x", "y"],
    &["A", "B", "__functor", "a", "aa", "b", "x", "xy", "y", "z"],
];

/// Primitives: some that fit under each other, and all.
const PALETTES: [&[u32]; 4] = [&[2, 7], &[2, 3, 4, 7], &[2, 2, 3, 3, 4, 7, 7], &[0, 1, 2, 3, 4, 5, 6, 7]];

/// Room enough for most scripts.
pub const ROOMY: Capacities = Capacities { entries: 72, fields: 64, bounds: 96, visited: 200, pending: 64, equals: 8 };

/// Room for long questions.
const LARGE: Capacities = Capacities { entries: 160, fields: 64, bounds: 1500, visited: 4000, pending: 400, equals: 8 };

#[derive(Clone, Copy, PartialEq, Eq)]
pub enum Family {
    Mixed,
    Chains,
    Lattices,
    Attrsets,
    Functors,
    Named,
    Marks,
    Bounds,
    Deep,
    Long,
}

pub const FAMILIES: [Family; 10] = [
    Family::Mixed,
    Family::Chains,
    Family::Lattices,
    Family::Attrsets,
    Family::Functors,
    Family::Named,
    Family::Marks,
    Family::Bounds,
    Family::Deep,
    Family::Long,
];

/// Of a thousand scripts, how many are of each family.
const SHARES: [u32; FAMILIES.len()] = [218, 160, 180, 140, 120, 60, 60, 20, 40, 2];

impl Family {
    pub fn draw(numbers: &mut Numbers) -> Family {
        FAMILIES[numbers.weighted(&SHARES)]
    }

    pub fn name(self) -> &'static str {
        match self {
            Family::Mixed => "mixed",
            Family::Chains => "chains",
            Family::Lattices => "lattices",
            Family::Attrsets => "attrsets",
            Family::Functors => "functors",
            Family::Named => "named",
            Family::Marks => "marks",
            Family::Bounds => "bounds",
            Family::Deep => "deep",
            Family::Long => "long",
        }
    }

    /// How often each kind is made, from variables on.
    pub fn kinds(self) -> [u32; 9] {
        match self {
            Family::Mixed | Family::Bounds => [5, 3, 3, 5, 8, 3, 4, 6, 6],
            Family::Chains | Family::Long => [9, 6, 3, 3, 1, 0, 1, 1, 1],
            Family::Lattices => [5, 5, 2, 2, 2, 2, 6, 9, 9],
            Family::Attrsets => [4, 4, 1, 1, 14, 1, 1, 1, 1],
            Family::Functors => [5, 2, 0, 7, 9, 1, 1, 2, 5],
            Family::Named => [4, 4, 2, 2, 3, 9, 2, 4, 4],
            Family::Marks => [12, 3, 1, 2, 2, 1, 1, 2, 2],
            Family::Deep => [2, 2, 1, 1, 1, 2, 4, 5, 5],
        }
    }
}

pub fn names(numbers: &mut Numbers) -> Names {
    numbers.choice(&NAME_LISTS)
}

pub fn palette(numbers: &mut Numbers) -> &'static [u32] {
    numbers.choice(&PALETTES)
}

/// Room enough; or little in one region; or in all.
pub fn room(family: Family, numbers: &mut Numbers) -> Capacities {
    if family == Family::Long {
        return LARGE;
    }
    let little = Capacities {
        entries: numbers.between(2, 20),
        fields: numbers.below(7),
        bounds: numbers.below(9),
        visited: numbers.below(12),
        pending: numbers.below(5),
        equals: numbers.below(3),
    };
    match numbers.below(20) {
        0 => Capacities { entries: little.entries, ..ROOMY },
        1 => Capacities { fields: little.fields, ..ROOMY },
        2 => Capacities { bounds: little.bounds, ..ROOMY },
        3 => Capacities { visited: little.visited, ..ROOMY },
        4 => Capacities { pending: little.pending, ..ROOMY },
        5 => Capacities { equals: little.equals, ..ROOMY },
        6 => little,
        _ => ROOMY,
    }
}
