//! Words that no call left: a copy of an image with a few words changed, or words at random.

use crate::arguments::EDGES;
use crate::case::Line;
use crate::play::{Play, Played};
use shared::image::{count, offset};
use shared::layout::*;

impl Play<'_> {
    /// Calls on a copy with a few words changed, or cut short, or made longer.
    pub fn damaged(&mut self) -> Played {
        self.line(Line::Save)?;
        for _ in 0..1 + self.random.below(3) {
            match self.random.below(20) {
                0 => {
                    let length = self.random.below(self.judge.image().len() + 1);
                    self.line(Line::Length(length))?;
                }
                1 => {
                    let length = self.judge.image().len() + 1 + self.random.below(8);
                    self.line(Line::Length(length))?;
                }
                2 => self.broken()?,
                _ => self.changed()?,
            }
        }
        let calls = 1 + self.random.below(5);
        self.few_calls(calls)?;
        self.line(Line::Restore)
    }

    /// The break words, each next to its limit or 0: a kind, a pair of entries, a name.
    fn broken(&mut self) -> Played {
        let image = self.judge.image();
        if image.len() < HEADER_WORDS {
            return Ok(());
        }
        let (entries, names) = (count(image, ENTRIES) as u32, image[NAMES_AT]);
        let limits = [(BREAK_KIND_AT, FIELD_MISSING + 1), (BREAK_SUB_AT, entries), (BREAK_SUP_AT, entries), (BREAK_NAME_AT, names)];
        for (i, limit) in limits {
            let word = match self.random.below(4) {
                0 => 0,
                near => limit.wrapping_add(near as u32).wrapping_sub(3),
            };
            self.line(Line::Set(i, word))?;
        }
        Ok(())
    }

    /// One word changed: of the header, of a record, or any.
    fn changed(&mut self) -> Played {
        let image = self.judge.image();
        if image.is_empty() {
            return Ok(());
        }
        let i = match self.random.below(10) {
            0..=3 => self.random.below(HEADER_WORDS.min(image.len())),
            4..=7 if self.judge.formed() => {
                let region = 1 + self.random.below(REGIONS);
                let words = (count(image, region) + 1) * WIDTHS[region - 1];
                (offset(image, region) + self.random.below(words)).min(image.len() - 1)
            }
            _ => self.random.below(image.len()),
        };
        let old = image[i];
        let other = image[self.random.below(image.len())];
        let word = match self.random.below(8) {
            0..=1 => old.wrapping_add(1),
            2..=3 => old.wrapping_sub(1),
            4 => other,
            5 => self.random.below(10) as u32,
            6 => old ^ (1 << self.random.below(32)),
            _ => self.random.of_these(&EDGES),
        };
        self.line(Line::Set(i, word))
    }

    /// Words that no call made: any, or under a header that fits them.
    pub fn any_words(&mut self) -> Played {
        let words = if self.random.chance(40) { self.free_words() } else { self.laid_words() };
        self.line(Line::Words(words))?;
        let calls = 2 + self.random.below(8);
        self.few_calls(calls)
    }

    fn free_words(&mut self) -> Vec<u32> {
        let length = self.random.of_these(&[0, 1, HEADER_WORDS - 1, HEADER_WORDS, HEADER_WORDS + 1, 60, 300]);
        let length = self.random.below(length + 1);
        (0..length).map(|_| self.any_word()).collect()
    }

    fn any_word(&mut self) -> u32 {
        match self.random.below(10) {
            0 => self.random.word(),
            1 => self.random.of_these(&EDGES),
            _ => self.random.below(9) as u32,
        }
    }

    /// A right header, and records of small numbers.
    fn laid_words(&mut self) -> Vec<u32> {
        let capacities: [u32; REGIONS] = std::array::from_fn(|_| self.random.below(4) as u32);
        let mut image = vec![0; words_for(&capacities) as usize];
        let names = self.random.below(4) as u32;
        image[FORMAT_AT] = FORMAT;
        image[LEVEL_AT] = self.any_word();
        image[NAMES_AT] = names;
        image[FUNCTOR_AT] = self.random.below(names as usize + 1) as u32;
        for region in ENTRIES..=EQUALS {
            let (capacity, width) = (capacities[region - 1], WIDTHS[region - 1]);
            let count = self.random.below(capacity as usize + 1);
            let at = words_for(&capacities[..region - 1]) as usize;
            image[offset_at(region)] = at as u32;
            image[capacity_at(region)] = capacity;
            image[count_at(region)] = count as u32;
            let records = &mut image[at..at + count * width];
            for word in &mut *records {
                *word = self.random.below(3) as u32;
            }
            if region == ENTRIES {
                // an entry's spread and negation are right more often so
                for entry in records.chunks_exact_mut(width) {
                    entry[Z_WORD] = 0;
                    entry[FLAGS_WORD] = self.random.below(2) as u32;
                    entry[SPREAD_WORD] = 1;
                    entry[NEGATION_WORD] = self.random.below(2) as u32;
                }
            }
        }
        image[STATE_AT] = if image[count_at(PENDING)] > 0 { ASKED } else { IDLE };
        image
    }
}
