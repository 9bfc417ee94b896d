//! Calls with arguments at random, made with the image in view: most are right, some are next to what is right, some at an edge.

use crate::call::{Call, Which, CALLS};
use crate::case::Line;
use crate::play::{Play, Played};
use shared::image::{capacity, entries};
use shared::layout::*;

impl Play<'_> {
    /// So many calls on the image, each one any.
    pub fn few_calls(&mut self, calls: usize) -> Played {
        for _ in 0..calls {
            let which = CALLS[self.random.below(Which::Disjoint as usize + 1)].0;
            self.random_call(which)?;
        }
        Ok(())
    }

    /// A call that moves on: makes while there are few entries, work while a question is asked.
    pub fn likely_call(&mut self) -> Which {
        let asked = self.judge.formed() && self.judge.image()[STATE_AT] == ASKED;
        let any = CALLS[self.random.below(Which::Disjoint as usize + 1)].0;
        match self.random.below(100) {
            0..=44 if asked => Which::Work,
            0..=5 => Which::Open,
            6..=8 => Which::OpenEqual,
            9..=13 => Which::MakeVariable,
            14..=20 => Which::MakePrimitive,
            21..=24 => Which::MakeAttrset,
            25..=27 => Which::PutBound,
            28..=29 => Which::MakeLambda,
            30..=32 => Which::MakeInter,
            33..=35 => Which::MakeUnion,
            36..=44 if !asked => Which::Open,
            // the others begin again
            _ if any == Which::Start => Which::Check,
            _ => any,
        }
    }

    pub fn random_call(&mut self, which: Which) -> Played {
        let mut call = Call::plain(which);
        for (i, &argument) in which.arguments().iter().enumerate() {
            call.args[i] = self.argument(argument);
        }
        match which {
            Which::MakeAttrset => call.extra = self.field_list(),
            Which::Open | Which::OpenEqual if self.random.chance(40) => {
                if self.random.chance(25) {
                    call.args[1] = self.entry_of(ATTRSET, call.args[1]);
                }
                call.args[2] = self.entry_like(call.args[1]);
            }
            Which::Enter if self.random.chance(2) => self.line(Line::Set(LEVEL_AT, u32::MAX))?,
            _ => (),
        }
        if which == Which::Start && self.random.chance(70) {
            call.args = self.start_that_fits();
        }
        self.line(Line::Call(call))
    }

    /// Capacities that come to as many words as there are, from a header on: those of the image, if it is one.
    fn start_that_fits(&self) -> [u32; 8] {
        let image = self.judge.image();
        if self.judge.formed() {
            let capacities = std::array::from_fn(|k| capacity(image, k + 1) as u32);
            return start_args(image[NAMES_AT], image[FUNCTOR_AT], &capacities);
        }
        // a field has 3 words, an equal 2
        let words = image.len().saturating_sub(HEADER_WORDS) as u32;
        let fields = words % 2;
        start_args(3, 1, &[0, fields, 0, 0, 0, words.saturating_sub(3 * fields) / 2])
    }

    /// An entry of the same kind as this one, where there is another.
    fn entry_like(&mut self, n: u32) -> u32 {
        if !self.judge.formed() {
            return n;
        }
        let kind = entries(self.judge.image()).get(n as usize).map(|entry| entry[KIND_WORD]);
        kind.map_or(n, |kind| self.entry_of(kind, n))
    }

    /// An entry of a kind, not this one, where there is another.
    fn entry_of(&mut self, kind: u32, n: u32) -> u32 {
        if !self.judge.formed() {
            return n;
        }
        let entries = entries(self.judge.image());
        let like = |&m: &u32| m != n && entries[m as usize][KIND_WORD] == kind;
        let all: Vec<u32> = (0..entries.len() as u32).filter(like).collect();
        if all.is_empty() {
            n
        } else {
            self.random.of_these(&all)
        }
    }

    /// A field list that is right in most cases.
    fn field_list(&mut self) -> Vec<u32> {
        let names = if self.judge.formed() { self.judge.image()[NAMES_AT].min(8) as usize } else { 3 };
        let mut list = Vec::new();
        for name in 0..names {
            if self.random.chance(40) {
                list.extend([name as u32, self.entry_number(), self.random.below(2) as u32]);
            }
        }
        if self.random.chance(12) {
            match self.random.below(4) {
                0 => list.push(0),
                1 => list.truncate(list.len().saturating_sub(1)),
                _ if list.is_empty() => list.extend([self.near(names as u32), 0, 0]),
                _ => {
                    let i = self.random.below(list.len());
                    list[i] = self.near(list[i]);
                }
            }
        }
        list
    }
}

pub fn start_args(names: u32, functor: u32, capacities: &[u32; 6]) -> [u32; 8] {
    let mut args = [names, functor, 0, 0, 0, 0, 0, 0];
    args[2..].copy_from_slice(capacities);
    args
}
