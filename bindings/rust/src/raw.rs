//! The declarations of include/sheafwinch.h.

#[repr(C)]
#[derive(Clone, Copy)]
pub struct Raw {
    pub kind: u32,
    pub number: u32,
    pub steps: u32,
    pub count: u32,
    pub values: [u32; 8],
}

pub const DONE: u32 = 0;
pub const YES: u32 = 1;
pub const MORE: u32 = 2;
pub const FAILED: u32 = 3;
pub const REFUSED: u32 = 4;
pub const UNOPENED: u32 = 5;

extern "C" {
    pub fn sheafwinch_check(image: *const u32, words: usize) -> bool;
    pub fn sheafwinch_start(image: *mut u32, words: usize, names: u32, functor: u32, capacities: crate::Capacities) -> Raw;
    pub fn sheafwinch_make_variable(image: *mut u32, words: usize) -> Raw;
    pub fn sheafwinch_make_primitive(image: *mut u32, words: usize, which: u32) -> Raw;
    pub fn sheafwinch_make_list(image: *mut u32, words: usize, element: u32) -> Raw;
    pub fn sheafwinch_make_lambda(image: *mut u32, words: usize, param: u32, body: u32) -> Raw;
    pub fn sheafwinch_make_attrset(
        image: *mut u32,
        words: usize,
        fields: *const u32,
        field_words: usize,
        is_open: u32,
        has_dynamic: u32,
        dynamic: u32,
    ) -> Raw;
    pub fn sheafwinch_make_named(image: *mut u32, words: usize, inner: u32, label: u32) -> Raw;
    pub fn sheafwinch_make_neg(image: *mut u32, words: usize, n: u32) -> Raw;
    pub fn sheafwinch_make_inter(image: *mut u32, words: usize, left: u32, right: u32) -> Raw;
    pub fn sheafwinch_make_union(image: *mut u32, words: usize, left: u32, right: u32) -> Raw;
    pub fn sheafwinch_mark(image: *mut u32, words: usize, n: u32) -> Raw;
    pub fn sheafwinch_put_bound(image: *mut u32, words: usize, variable: u32, side: u32, bound: u32) -> Raw;
    pub fn sheafwinch_enter(image: *mut u32, words: usize) -> Raw;
    pub fn sheafwinch_exit(image: *mut u32, words: usize) -> Raw;
    pub fn sheafwinch_set_level(image: *mut u32, words: usize, variable: u32, level: u32) -> Raw;
    pub fn sheafwinch_open(image: *mut u32, words: usize, held: u32, sub: u32, sup: u32, budget: u32) -> Raw;
    pub fn sheafwinch_open_equal(image: *mut u32, words: usize, held: u32, left: u32, right: u32, budget: u32) -> Raw;
    pub fn sheafwinch_work(image: *mut u32, words: usize, budget: u32) -> Raw;
    pub fn sheafwinch_abandon(image: *mut u32, words: usize) -> Raw;
    pub fn sheafwinch_entry(image: *const u32, words: usize, n: u32) -> Raw;
    pub fn sheafwinch_record(image: *const u32, words: usize, region: u32, n: u32) -> Raw;
    pub fn sheafwinch_disjoint(image: *const u32, words: usize, left: u32, right: u32) -> Raw;
    pub fn sheafwinch_check_names(list: *const u8, bytes: usize) -> Raw;
    pub fn sheafwinch_check_name(list: *const u8, bytes: usize, n: u32) -> Raw;
    pub fn sheafwinch_count_names(list: *const u8, bytes: usize) -> Raw;
    pub fn sheafwinch_show_name(list: *const u8, bytes: usize, n: u32) -> Raw;
    pub fn sheafwinch_compare_names(list: *const u8, bytes: usize, left: u32, right: u32) -> Raw;
    pub fn sheafwinch_find_name(list: *const u8, bytes: usize, name: *const u8, name_bytes: usize) -> Raw;
    pub fn sheafwinch_resolve(op: u32, left: u32, right: u32) -> Raw;
    pub fn sheafwinch_from_left(op: u32, left: u32) -> Raw;
    pub fn sheafwinch_at_once(op: u32) -> Raw;
}
