//! An answer of the C face.

use crate::refusal;
use shared::raw;

/// An answer, as the header says it. `check`, which answers a bool, is told as DONE with one value.
#[derive(Clone, Copy, PartialEq, Eq, Debug)]
pub struct Answer {
    pub kind: u32,
    pub number: u32,
    pub steps: u32,
    pub count: u32,
    pub values: [u32; 8],
}

impl Answer {
    pub fn of(kind: u32, number: u32, steps: u32, told: &[u32]) -> Answer {
        let mut values = [0; 8];
        values[..told.len()].copy_from_slice(told);
        Answer { kind, number, steps, count: told.len() as u32, values }
    }

    pub fn done(told: &[u32]) -> Answer {
        Answer::of(raw::DONE, 0, 0, told)
    }

    pub fn refused(number: u32) -> Answer {
        Answer::of(raw::REFUSED, number, 0, &[])
    }

    /// The same refusal at the opening of a question.
    pub fn unopened(self) -> Answer {
        Answer { kind: raw::UNOPENED, ..self }
    }

    pub fn no_room(region: usize) -> Answer {
        Answer::of(raw::REFUSED, refusal::NO_ROOM, 0, &[region as u32])
    }
}
