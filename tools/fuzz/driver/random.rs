//! Numbers at random, the same in each run, and how they are drawn: recorded seeds depend on it.

use shared::random::SplitMix;

pub struct Random(SplitMix);

impl Random {
    /// The numbers of one case of a seed.
    pub fn of(seed: u64, case: u64) -> Random {
        let state = seed.wrapping_mul(0x9e37_79b9_7f4a_7c15) ^ case.wrapping_mul(0xd1b5_4a32_d192_ed03);
        let mut random = Random(SplitMix(state));
        random.0.next();
        random
    }

    pub fn word(&mut self) -> u32 {
        (self.0.next() >> 32) as u32
    }

    pub fn below(&mut self, end: usize) -> usize {
        (self.0.next() >> 33) as usize % end.max(1)
    }

    /// True in so many of 100.
    pub fn chance(&mut self, percent: usize) -> bool {
        self.below(100) < percent
    }

    pub fn of_these<T: Copy>(&mut self, these: &[T]) -> T {
        these[self.below(these.len())]
    }
}
