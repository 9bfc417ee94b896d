//! The same call on both sides.

use crate::script::{Make, Names};
use lang_check::table::Table as Oracle;
use sheafwinch::{Primitive, Refusal, Side, Table};

pub fn make_ours(table: &mut Table, make: &Make) -> Result<u32, Refusal> {
    match make {
        Make::Variable => table.make_variable(),
        Make::Primitive(which) => table.make_primitive(Primitive::from_number(*which).ok_or(Refusal::BadNumber)?),
        Make::List(element) => table.make_list(*element),
        Make::Lambda(param, body) => table.make_lambda(*param, *body),
        Make::Attrset { open, dynamic, fields } => table.make_attrset(fields, *open, *dynamic),
        Make::Named { inner, label } => table.make_named(*inner, *label),
        Make::Neg(n) => table.make_neg(*n),
        Make::Inter(left, right) => table.make_inter(*left, *right),
        Make::Union(left, right) => table.make_union(*left, *right),
    }
}

pub fn make_oracles(oracle: &mut Oracle, make: &Make, names: Names) -> u32 {
    match make {
        Make::Variable => oracle.make_variable(),
        Make::Primitive(which) => oracle.make_primitive(*which),
        Make::List(element) => oracle.make_list(*element),
        Make::Lambda(param, body) => oracle.make_lambda(*param, *body),
        Make::Attrset { open, dynamic, fields } => {
            oracle.make_attrset(*open, *dynamic, fields.iter().map(|f| (names[f.name as usize], f.entry, f.optional)))
        }
        Make::Named { inner, label } => oracle.make_named(*inner, &label.to_string()),
        Make::Neg(n) => oracle.make_neg(*n),
        Make::Inter(left, right) => oracle.make_inter(*left, *right),
        Make::Union(left, right) => oracle.make_union(*left, *right),
    }
}

pub fn put_bound_oracles(oracle: &mut Oracle, variable: u32, side: Side, bound: u32) {
    match side {
        Side::Lower => oracle.put_lower(variable, bound),
        Side::Upper => oracle.put_upper(variable, bound),
    }
}

/// How many bounds the oracle has in all.
pub fn count_bounds(oracle: &Oracle) -> u32 {
    (0..oracle.len()).map(|n| (oracle.lower(n).len() + oracle.upper(n).len()) as u32).sum()
}
