//! What the programs under tools/ share: how an image is laid out, a table's reads over its words, document 01's test of an image,
//! random numbers, and the declarations of include/sheafwinch.h. No rule by which a question is worked stands here: tools/fuzz has its
//! own, from 01, and tools/differential has tix's.

pub mod formed;
pub mod image;
pub mod layout;
pub mod random;
#[path = "../../../bindings/rust/src/raw.rs"]
pub mod raw;

/// How many records each region has room for, as the header has it.
#[repr(C)]
#[derive(Clone, Copy)]
pub struct Capacities {
    pub entries: u32,
    pub fields: u32,
    pub bounds: u32,
    pub visited: u32,
    pub pending: u32,
    pub equals: u32,
}
