//! The numbers of document 01's refusals.

pub const BAD_TABLE: u32 = 1;
pub const BAD_NUMBER: u32 = 2;
pub const BUSY: u32 = 3;
pub const IDLE: u32 = 4;
pub const NO_ROOM: u32 = 5;
pub const TOO_DEEP: u32 = 6;
pub const BAD_FIELDS: u32 = 7;
pub const BROKEN: u32 = 8;
pub const BAD_CAPACITY: u32 = 9;
pub const LEVEL: u32 = 10;
pub const NOT_A_VARIABLE: u32 = 11;
pub const BAD_NAMES: u32 = 12;
