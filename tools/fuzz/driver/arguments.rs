//! Arguments at random, made with the image and the name list in view: most are right, some are next to what is right, some at an edge.

use crate::call::Argument;
use crate::play::Play;
use shared::image::count;
use shared::layout::{ENTRIES, ENTRIES_MOST};

/// Words at the edges of what a word may be.
pub const EDGES: [u32; 8] = [0, 1, 2, 0x7fff_ffff, 0x8000_0000, 0xffff_fffe, u32::MAX, ENTRIES_MOST];

impl Play<'_> {
    pub fn argument(&mut self, argument: Argument) -> u32 {
        let random = &mut self.random;
        match argument {
            Argument::Entry => return self.entry_number(),
            Argument::Name => return self.name_number(),
            Argument::Record => {
                let n = random.below(12) as u32;
                return if random.chance(90) { n } else { self.near(n) };
            }
            _ => (),
        }
        if random.chance(5) {
            return random.of_these(&EDGES);
        }
        let end = match argument {
            Argument::Primitive => 9,
            Argument::Operator => 5,
            Argument::Flag if random.chance(10) => return random.word(),
            Argument::Flag | Argument::Side => 3,
            Argument::Region => 8,
            Argument::Functor | Argument::NameCount | Argument::Capacity => 6,
            Argument::Level => 4,
            Argument::Budget => return random.of_these(&[0, 1, 1, 2, 3, 5, 10, 100, u32::MAX]),
            _ => return random.word(),
        };
        // the last of each list is one too many, and rarer
        random.below(end).min(random.below(end)) as u32
    }

    pub fn entry_number(&mut self) -> u32 {
        let entries = if self.judge.formed() { count(self.judge.image(), ENTRIES) } else { 4 };
        match self.random.below(100) {
            0..=1 => entries as u32,
            2..=3 => self.near(entries as u32),
            4..=25 => entries.saturating_sub(1) as u32,
            _ => self.random.below(entries) as u32,
        }
    }

    fn name_number(&mut self) -> u32 {
        let count = self.judge.list().first().copied().unwrap_or(0);
        match self.random.below(10) {
            0 => self.near(u32::from(count)),
            _ => self.random.below(usize::from(count) + 1) as u32,
        }
    }

    /// A number next to this one, or at an edge.
    pub fn near(&mut self, n: u32) -> u32 {
        match self.random.below(4) {
            0 => n.wrapping_add(1),
            1 => n.wrapping_sub(1),
            2 => n ^ (1 << self.random.below(32)),
            _ => self.random.of_these(&EDGES),
        }
    }
}
