//! Cases at random. A line is made with the image in view, so that most calls are accepted and each refusal is met.

use crate::call::Which;
use crate::case::Line;
use crate::generate_calls::start_args;
use crate::generate_names;
use crate::play::{Play, Played};
use shared::layout::{words_for, MOST, NAMES_MOST};

impl Play<'_> {
    pub fn case(&mut self) -> Played {
        let front = self.random.chance(50);
        self.line(Line::Front(front))?;
        match self.random.below(100) {
            0..=67 => self.session(),
            68..=79 => self.any_words(),
            80..=95 => generate_names::names(self),
            _ => generate_names::operators(self),
        }
    }

    /// An image started, calls on it, and now and then some on a damaged copy.
    fn session(&mut self) -> Played {
        let profile = self.profile();
        let capacities = self.capacities(profile);
        self.started(&capacities)?;
        let length = 10 + self.random.below(60);
        match profile {
            Profile::Deep => self.deep()?,
            Profile::ManyBounds => self.many_bounds()?,
            Profile::Large => {
                self.few_calls(3)?;
                return self.damaged();
            }
            _ => (),
        }
        for _ in 0..length {
            if self.random.chance(4) {
                self.damaged()?;
            } else {
                let which = self.likely_call();
                self.random_call(which)?;
            }
        }
        Ok(())
    }

    fn profile(&mut self) -> Profile {
        match self.random.below(20_000) {
            0..=9 => Profile::Large,
            10..=1_000 => Profile::ManyBounds,
            1_001..=4_000 => Profile::Deep,
            4_001..=7_000 => Profile::Tight,
            7_001..=12_000 => Profile::OneTight,
            _ => Profile::Ample,
        }
    }

    fn capacities(&mut self, profile: Profile) -> [u32; 6] {
        let random = &mut self.random;
        let mut ample = [
            6 + random.below(14),
            2 + random.below(12),
            2 + random.below(10),
            4 + random.below(16),
            2 + random.below(12),
            random.below(4),
        ]
        .map(|capacity| capacity as u32);
        match profile {
            Profile::Ample => ample,
            Profile::Tight => {
                [random.below(8), random.below(4), random.below(3), random.below(4), random.below(4), random.below(2)]
                    .map(|c| c as u32)
            }
            Profile::OneTight => {
                ample[random.below(6)] = random.below(3) as u32;
                ample
            }
            Profile::Deep => [28 + random.below(20) as u32, 2, 4, 20, 6, 1],
            Profile::ManyBounds => [36 + random.below(4) as u32, 0, 33 + random.below(12) as u32, 40, 40, 1],
            Profile::Large => {
                let mut large = [1; 6];
                let region = random.below(6);
                large[region] = MOST[region] + random.below(2) as u32;
                large
            }
        }
    }

    /// Starts that may be refused, then one that is as it should be.
    fn started(&mut self, capacities: &[u32; 6]) -> Played {
        let names = self.random.of_these(&[0, 1, 2, 3, 4, 5, 6, NAMES_MOST]);
        let functor = self.random.below(names as usize + 1).min(7) as u32;
        self.line(Line::Length(words_for(capacities) as usize))?;
        if self.random.chance(15) {
            let mut args = start_args(names, functor, capacities);
            let i = self.random.below(8);
            args[i] = self.near(args[i]);
            self.call(Which::Start, &args)?;
        }
        if self.random.chance(5) {
            self.line(Line::Length(self.judge.image().len() + 1))?;
            self.call(Which::Start, &start_args(names, functor, capacities))?;
            self.line(Line::Length(words_for(capacities) as usize))?;
        }
        self.call(Which::Start, &start_args(names, functor, capacities))
    }

    /// A tree of unions, with about as many leaves as can be made, negated, or joined with a negation by the rule for a meet.
    fn deep(&mut self) -> Played {
        self.call(Which::MakeVariable, &[])?;
        self.call(Which::MakePrimitive, &[2])?;
        self.call(Which::MakeInter, &[0, 1])?;
        let leaf = self.random.of_these(&[Which::MakePrimitive, Which::MakeNeg, Which::MakeNamed]);
        self.call(leaf, &[1, 0])?;
        let kind = if self.random.chance(75) { Which::MakeUnion } else { Which::MakeInter };
        let mut rest = self.random.of_these(&[341, 342, 343, 510, 511, 512]) - 1;
        // the tree, and one with 1, 2, 4, .. leaves; the next entry's number
        let (mut tree, mut power, mut next) = (3, 1, 4);
        while rest > 0 {
            if rest % 2 == 1 {
                self.call(kind, &[power, tree])?;
                (tree, next) = (next, next + 1);
            }
            rest /= 2;
            if rest > 0 {
                self.call(kind, &[power, power])?;
                (power, next) = (next, next + 1);
            }
        }
        match self.random.below(3) {
            0 => self.call(Which::MakeNeg, &[tree]),
            1 => {
                self.call(Which::MakeNamed, &[tree, 0])?;
                self.call(Which::MakeNamed, &[next, 0])
            }
            _ => {
                let which = self.random.of_these(&[Which::Open, Which::OpenEqual]);
                let budget = self.random.of_these(&[0, 100]);
                self.call(which, &[0, 2, tree, budget])?;
                self.call(Which::Work, &[100])
            }
        }
    }

    /// About as many bounds on one side of a variable as are searched for a repeated one.
    fn many_bounds(&mut self) -> Played {
        self.call(Which::MakeVariable, &[])?;
        for n in 1..35 {
            self.call(Which::MakePrimitive, &[n % 8])?;
        }
        let side = self.random.below(2) as u32;
        for bound in 1..31 + self.random.below(4) as u32 {
            self.call(Which::PutBound, &[0, side, bound])?;
        }
        for _ in 0..8 {
            let n = self.random.below(36) as u32;
            let (sub, sup) = if side == 0 { (n, 0) } else { (0, n) };
            if self.random.chance(50) {
                self.call(Which::PutBound, &[0, side, n])?;
            } else {
                let budget = self.random.of_these(&[0, 1, 100]);
                self.call(Which::Open, &[0, sub, sup, budget])?;
                self.call(Which::Work, &[100])?;
                self.call(Which::Abandon, &[])?;
            }
        }
        Ok(())
    }
}

#[derive(Clone, Copy, PartialEq, Eq)]
enum Profile {
    Ample,
    Tight,
    OneTight,
    Deep,
    ManyBounds,
    Large,
}
