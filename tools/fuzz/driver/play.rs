//! A case while it is made: each line is seen, then carried out.

use crate::call::{Call, Which};
use crate::case::Line;
use crate::judge::{Fault, Judge};
use crate::random::Random;

pub struct Play<'a> {
    pub judge: &'a mut Judge,
    pub random: Random,
    pub seen: &'a mut dyn FnMut(&Line),
}

pub type Played = Result<(), Fault>;

impl Play<'_> {
    pub fn line(&mut self, line: Line) -> Played {
        (self.seen)(&line);
        self.judge.carry_out(&line)
    }

    pub fn call(&mut self, which: Which, args: &[u32]) -> Played {
        self.line(Line::Call(Call::with(which, args)))
    }
}
