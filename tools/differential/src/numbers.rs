//! Numbers at random, the same ones for the same seed, and how they are drawn: recorded seeds depend on it.

use shared::random::SplitMix;

pub struct Numbers(SplitMix);

impl Numbers {
    /// Those of a seed's script.
    pub fn new(seed: u64, script: u64) -> Numbers {
        Numbers(SplitMix(SplitMix(seed).next() ^ script))
    }

    /// A number below n, which is not 0.
    pub fn below(&mut self, n: u32) -> u32 {
        (((self.0.next() >> 32) * u64::from(n)) >> 32) as u32
    }

    pub fn between(&mut self, low: u32, high: u32) -> u32 {
        low + self.below(high - low + 1)
    }

    pub fn chance(&mut self, percent: u32) -> bool {
        self.below(100) < percent
    }

    pub fn choice<T: Copy>(&mut self, items: &[T]) -> T {
        items[self.below(items.len() as u32) as usize]
    }

    /// A place in the weights, as often as its weight says.
    pub fn weighted(&mut self, weights: &[u32]) -> usize {
        let mut at = self.below(weights.iter().sum());
        for (i, &weight) in weights.iter().enumerate() {
            if at < weight {
                return i;
            }
            at -= weight;
        }
        unreachable!("below the sum of the weights")
    }
}
