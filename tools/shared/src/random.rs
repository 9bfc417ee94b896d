//! Numbers at random, the same in each run. Runs are recorded by their seeds, so what a state gives does not change.

/// SplitMix64, for tools/fuzz and tools/differential.
pub struct SplitMix(pub u64);

impl SplitMix {
    #[inline]
    pub fn next(&mut self) -> u64 {
        self.0 = self.0.wrapping_add(0x9e37_79b9_7f4a_7c15);
        let z = (self.0 ^ (self.0 >> 30)).wrapping_mul(0xbf58_476d_1ce4_e5b9);
        let z = (z ^ (z >> 27)).wrapping_mul(0x94d0_49bb_1331_11eb);
        z ^ (z >> 31)
    }
}

/// Xorshift, for tools/bench.
pub struct XorShift(pub u64);

impl XorShift {
    #[inline]
    pub fn next(&mut self) -> u32 {
        self.0 ^= self.0 << 13;
        self.0 ^= self.0 >> 7;
        self.0 ^= self.0 << 17;
        (self.0 >> 24) as u32
    }

    #[inline]
    pub fn below(&mut self, end: usize) -> u32 {
        self.next() % end as u32
    }
}
