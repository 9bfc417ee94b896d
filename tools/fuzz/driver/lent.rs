//! What is lent to a call: exactly so many elements, and beyond them nothing that may be touched. `Exact` leaves that to the address
//! sanitizer's malloc; `Guarded` puts a page that cannot be touched right before the first element or right after the last.

use std::collections::HashMap;
use std::ffi::{c_char, c_int, c_long, c_void};

extern "C" {
    fn malloc(size: usize) -> *mut c_void;
    fn mmap(at: *mut c_void, size: usize, rights: c_int, flags: c_int, file: c_int, offset: c_long) -> *mut c_void;
    fn mprotect(at: *mut c_void, size: usize, rights: c_int) -> c_int;
}

/// What the address sanitizer asks when it starts: wide red zones, and nothing said of memory that is never given back.
#[no_mangle]
pub extern "C" fn __asan_default_options() -> *const c_char {
    c"redzone=512:detect_leaks=0".as_ptr()
}

// Linux on x86-64, and on Arm with pages of this size; where they are larger, mprotect fails.
const PAGE: usize = 4096;
const NONE: c_int = 0;
const READ_WRITE: c_int = 3;
const PRIVATE_ANONYMOUS: c_int = 0x22;

#[derive(Clone, Copy, PartialEq, Eq)]
pub enum Memory {
    Exact,
    Guarded,
}

/// Elements that are never given back.
#[derive(Clone, Copy)]
pub struct Lent<T> {
    pub at: *mut T,
    pub len: usize,
}

impl<T: Copy> Lent<T> {
    pub fn empty() -> Self {
        Lent { at: std::ptr::null_mut(), len: 0 }
    }

    pub fn elements(&self) -> &[T] {
        if self.len == 0 {
            return &[];
        }
        // SAFETY: `Pool::lend` made room for so many, filled them, and never takes them back.
        unsafe { std::slice::from_raw_parts(self.at, self.len) }
    }

    pub fn elements_mut(&mut self) -> &mut [T] {
        if self.len == 0 {
            return &mut [];
        }
        // SAFETY: as above; each pool is used for one thing at a time.
        unsafe { std::slice::from_raw_parts_mut(self.at, self.len) }
    }
}

/// One piece of memory for each length and side, used again and again.
pub struct Pool<T> {
    memory: Memory,
    pieces: HashMap<(usize, bool), Lent<T>>,
}

impl<T: Copy> Pool<T> {
    pub fn new(memory: Memory) -> Self {
        Pool { memory, pieces: HashMap::new() }
    }

    /// Room for so many, filled with `fill`. `front`: the untouchable page is before the first; and with none, the pointer is null.
    pub fn lend(&mut self, len: usize, front: bool, fill: T) -> Lent<T> {
        let memory = self.memory;
        let mut piece =
            *self.pieces.entry((len, front)).or_insert_with(|| Lent { at: room(memory, len * size_of::<T>(), front).cast(), len });
        if len != 0 {
            // SAFETY: the room is for `len` elements and aligned: a page's start, or its end less whole elements, or malloc's.
            unsafe { (0..len).for_each(|i| piece.at.add(i).write(fill)) };
        } else if front {
            piece.at = std::ptr::null_mut();
        }
        piece
    }
}

fn room(memory: Memory, bytes: usize, front: bool) -> *mut c_void {
    // SAFETY: plain requests for memory, tested for failure.
    unsafe {
        match memory {
            Memory::Exact => {
                let at = malloc(bytes);
                assert!(!at.is_null(), "no memory");
                at
            }
            Memory::Guarded => {
                let middle = bytes.div_ceil(PAGE) * PAGE;
                let at = mmap(std::ptr::null_mut(), middle + 2 * PAGE, NONE, PRIVATE_ANONYMOUS, -1, 0);
                assert!(at as isize != -1, "no memory");
                let first = at.add(PAGE);
                assert!(middle == 0 || mprotect(first, middle, READ_WRITE) == 0, "no memory");
                if front {
                    first
                } else {
                    first.add(middle - bytes)
                }
            }
        }
    }
}
