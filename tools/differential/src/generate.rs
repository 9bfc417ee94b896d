//! Scripts at random, in families. A script is written while it runs, so that its lines may name entries that questions made.

use crate::family::{self, Family};
use crate::numbers::Numbers;
use crate::script::{Line, Make, Names, Question, Script};
use crate::session::{Ran, Session};
use crate::tally::Tally;
use shared::image::Entry;
use shared::layout::{ATTRSET, INTER, LAMBDA, LIST, NAMED, NEG, PRIMITIVE, UNION, VARIABLE};
use sheafwinch::{Field, Side};

/// Writes the script of a seed with this number, and runs it. It is whole where it ran to the end, else its last line has the fault.
pub fn write(seed: u64, number: u64, tally: &mut Tally) -> (Script, Ran) {
    let mut numbers = Numbers::new(seed, number);
    let family = Family::draw(&mut numbers);
    let (names, palette) = (family::names(&mut numbers), family::palette(&mut numbers));
    let room = family::room(family, &mut numbers);
    tally.scripts[family as usize] += 1;
    let session = Session::start(names, room, tally);
    let mut writer = Writer { numbers, family, names, palette, session, lines: Vec::new(), asked: Vec::new(), twins: Vec::new() };
    let ran = writer.write().and_then(|()| writer.session.end());
    (Script { names, room, lines: writer.lines }, ran)
}

struct Writer<'a> {
    numbers: Numbers,
    family: Family,
    names: Names,
    palette: &'static [u32],
    session: Session<'a>,
    lines: Vec<Line>,
    asked: Vec<(u32, u32)>,
    /// Entries and what was made like them.
    twins: Vec<(u32, u32)>,
}

impl Writer<'_> {
    fn write(&mut self) -> Ran {
        if self.numbers.chance(20) {
            let level = self.numbers.between(1, 3);
            self.say(Line::Level(level))?;
        }
        match self.family {
            Family::Chains => self.chain()?,
            Family::Bounds => return self.many_bounds(),
            Family::Deep => self.deep()?,
            Family::Long => return self.long(),
            _ => self.basics()?,
        }
        for _ in 0..self.numbers.between(3, 11) {
            if self.numbers.chance(25) {
                self.twin()?;
            } else {
                self.make()?;
            }
            if self.numbers.chance(3) {
                let level = self.numbers.below(3);
                self.say(Line::Level(level))?;
            }
        }
        let bounds = if self.family == Family::Chains { 8 } else { 4 };
        for _ in 0..self.numbers.below(bounds) {
            self.bound()?;
        }
        let marks = if self.family == Family::Marks { 3 } else { self.numbers.choice(&[0, 0, 0, 1]) };
        for _ in 0..marks {
            self.mark()?;
        }
        for _ in 0..self.numbers.between(6, 16) {
            let (left, right) = self.fresh_pair();
            self.ask(left, right)?;
            self.between()?;
        }
        Ok(())
    }

    /// Runs a line, and keeps it.
    fn say(&mut self, line: Line) -> Ran {
        let ran = self.session.line(&line);
        self.lines.push(line);
        ran
    }

    fn say_make(&mut self, make: Make) -> Ran {
        self.say(Line::Make(make))
    }

    fn count(&self) -> u32 {
        self.session.len()
    }

    fn entry(&self, n: u32) -> Entry {
        self.session.image().entry(n)
    }

    /// An entry, the last ones more often. There is one: no family goes on without.
    fn some(&mut self) -> u32 {
        let count = self.count();
        let a = self.numbers.below(count);
        if self.numbers.chance(50) {
            a.max(self.numbers.below(count))
        } else {
            a
        }
    }

    /// An entry that is as asked for, or else any.
    fn that(&mut self, fits: impl Fn(&Self, Entry) -> bool) -> u32 {
        let found = |n: &u32| fits(self, self.entry(*n));
        match (0..self.count()).filter(found).count() {
            0 => self.some(),
            many => {
                let which = self.numbers.below(many as u32) as usize;
                let found = |n: &u32| fits(self, self.entry(*n));
                (0..self.count()).filter(found).nth(which).expect("one of those counted")
            }
        }
    }

    fn of(&mut self, kinds: &[u32]) -> u32 {
        self.that(|_, e| kinds.contains(&e.kind))
    }

    /// A variable that has a bound on a side, if there is one.
    fn bounded(&mut self, side: Side) -> u32 {
        let start = self.numbers.below(64) as usize;
        let bounds = self.session.image().bounds();
        let turned = bounds.iter().cycle().skip(start).take(bounds.len());
        let found = turned.filter(|b| b[1] == side.number()).map(|b| b[0]).next();
        found.unwrap_or_else(|| self.of(&[VARIABLE]))
    }

    /// An attrset with a functor, if there is one.
    fn functor(&mut self) -> u32 {
        self.that(|writer, e| writer.session.image().has_functor(e))
    }

    /// A union of a variable and a lambda, if there is one.
    fn callable(&mut self) -> u32 {
        self.that(|writer, e| {
            let kind = |n| writer.entry(n).kind;
            e.kind == UNION && matches!((kind(e.x), kind(e.y)), (VARIABLE, LAMBDA) | (LAMBDA, VARIABLE))
        })
    }

    fn primitive(&mut self) -> Ran {
        let which = self.numbers.choice(self.palette);
        self.say_make(Make::Primitive(which))
    }

    fn basics(&mut self) -> Ran {
        self.primitive()?;
        self.primitive()?;
        self.say_make(Make::Variable)
    }

    /// Variables, each under the next by question or by bound, in any order.
    fn chain(&mut self) -> Ran {
        self.basics()?;
        let first = self.count();
        for _ in 0..self.numbers.between(2, 7) {
            self.say_make(Make::Variable)?;
        }
        let last = self.count();
        for _ in first..last {
            let v = self.numbers.between(first, last - 1);
            let (left, right) = (v, (v + 1).min(last - 1));
            if self.numbers.chance(70) {
                self.ask(left, right)?;
            } else if self.numbers.chance(50) {
                self.say(Line::Bound { variable: left, side: Side::Upper, bound: right })?;
            } else {
                self.say(Line::Bound { variable: right, side: Side::Lower, bound: left })?;
            }
        }
        Ok(())
    }

    /// Many variables: what comes into the first, then each under the next; between these, more into the first or out of the last.
    fn long(&mut self) -> Ran {
        self.basics()?;
        for _ in 0..self.numbers.between(20, 50) {
            self.make()?;
        }
        let first = self.count();
        let variables = self.numbers.between(10, 40);
        for _ in 0..variables {
            self.say_make(Make::Variable)?;
        }
        let last = first + variables - 1;
        for n in 0..first {
            if self.numbers.chance(60) {
                self.ask(n, first)?;
            }
        }
        let from_last = self.numbers.chance(50);
        for i in 0..variables - 1 {
            let v = if from_last { last - 1 - i } else { first + i };
            self.ask(v, v + 1)?;
            let other = self.numbers.below(first);
            match self.numbers.below(10) {
                0 | 1 => self.ask(other, first)?,
                2 => self.ask(last, other)?,
                _ => {}
            }
        }
        Ok(())
    }

    /// A variable with about as many bounds as are searched for a repeated one, which comes again; then questions over it.
    fn many_bounds(&mut self) -> Ran {
        self.say_make(Make::Variable)?;
        self.say_make(Make::Variable)?;
        for _ in 0..36 {
            self.primitive()?;
        }
        let last = self.count() - 1;
        if last < 2 {
            return Ok(());
        }
        let side = self.numbers.choice(&[Side::Lower, Side::Upper]);
        for bound in 2..=self.numbers.between(29, 35).min(last) {
            self.say(Line::Bound { variable: 0, side, bound })?;
        }
        for _ in 0..self.numbers.between(1, 4) {
            let bound = self.numbers.between(2, last);
            self.say(Line::Bound { variable: 0, side, bound })?;
        }
        for _ in 0..self.numbers.between(2, 8) {
            let other = if self.numbers.chance(20) { 1 } else { self.numbers.between(2, last) };
            let same_side = self.numbers.chance(60);
            let (left, right) = if (side == Side::Lower) == same_side { (other, 0) } else { (0, other) };
            self.ask(left, right)?;
            if self.numbers.chance(30) {
                let bound = self.numbers.between(1, last);
                self.say(Line::Bound { variable: 0, side, bound })?;
            }
        }
        Ok(())
    }

    /// Unions and intersections that hold the last one twice, up to the limit of depth.
    fn deep(&mut self) -> Ran {
        self.basics()?;
        for _ in 0..self.numbers.between(7, 10) {
            let n = self.count() - 1;
            let other = if self.numbers.chance(85) { n } else { self.some() };
            let make = if self.numbers.chance(50) { Make::Union(n, other) } else { Make::Inter(other, n) };
            self.say_make(make)?;
        }
        let (n, variable) = (self.count() - 1, self.of(&[VARIABLE]));
        let d = n - self.numbers.below(3.min(n + 1));
        let make = if self.numbers.chance(50) { Make::Inter(variable, d) } else { Make::Inter(d, variable) };
        self.say_make(make)
    }

    fn make(&mut self) -> Ran {
        let kind = self.numbers.weighted(&self.family.kinds()) as u32;
        let make = match kind {
            VARIABLE => Make::Variable,
            PRIMITIVE => return self.primitive(),
            LIST => Make::List(self.some()),
            LAMBDA => Make::Lambda(self.some(), self.some()),
            ATTRSET => self.attrset(),
            NAMED => Make::Named { inner: self.some(), label: self.numbers.choice(&[0, 1, 7, u32::MAX]) },
            NEG => Make::Neg(self.some()),
            _ => {
                let a = if self.numbers.chance(40) { self.of(&[VARIABLE]) } else { self.some() };
                let b = if kind == UNION && self.numbers.chance(30) { self.of(&[LAMBDA, NAMED]) } else { self.some() };
                let (a, b) = if self.numbers.chance(50) { (a, b) } else { (b, a) };
                if kind == INTER {
                    Make::Inter(a, b)
                } else {
                    Make::Union(a, b)
                }
            }
        };
        self.say_make(make)
    }

    fn attrset(&mut self) -> Make {
        let often = if self.family == Family::Functors { 60 } else { 25 };
        let mut fields = Vec::new();
        for name in 0..self.names.len() as u32 {
            let is_functor = self.names[name as usize] == "__functor";
            if self.numbers.chance(if is_functor { often } else { 35 }) {
                let callable = is_functor && self.numbers.chance(70);
                let entry = if callable { self.of(&[LAMBDA, VARIABLE]) } else { self.some() };
                fields.push(Field { name, entry, optional: self.numbers.chance(25) });
            }
        }
        let dynamic = self.numbers.chance(25).then(|| self.some());
        Make::Attrset { open: self.numbers.chance(30), dynamic, fields }
    }

    /// An entry like another: of the same kind, each component the same one or another.
    fn twin(&mut self) -> Ran {
        let n = self.of(&[LIST, LAMBDA, ATTRSET, ATTRSET, INTER, UNION, NAMED]);
        let e = self.entry(n);
        let make = match e.kind {
            LIST => Make::List(self.near(e.x)),
            LAMBDA => Make::Lambda(self.near(e.x), self.near(e.y)),
            NAMED => Make::Named { inner: self.near(e.x), label: e.y },
            INTER => Make::Inter(self.near(e.x), self.near(e.y)),
            UNION => Make::Union(self.near(e.x), self.near(e.y)),
            ATTRSET => self.near_attrset(e),
            _ => return self.primitive(),
        };
        self.say_make(make)?;
        self.twins.push((n, self.count() - 1));
        Ok(())
    }

    fn near_attrset(&mut self, e: Entry) -> Make {
        let mut fields = Vec::new();
        for [name, entry, _] in self.session.image().fields(e).to_vec() {
            if self.numbers.chance(75) {
                fields.push(Field { name, entry: self.near(entry), optional: self.numbers.chance(25) });
            }
        }
        let dynamic = self.numbers.chance(25).then(|| self.some());
        Make::Attrset { open: self.numbers.chance(30), dynamic, fields }
    }

    fn near(&mut self, n: u32) -> u32 {
        if self.numbers.chance(40) {
            n
        } else if self.numbers.chance(50) {
            let kind = self.entry(n).kind;
            self.of(&[kind])
        } else {
            self.some()
        }
    }

    /// A bound; of a concrete entry now and then, which is refused.
    fn bound(&mut self) -> Ran {
        let variable = if self.numbers.chance(97) { self.of(&[VARIABLE]) } else { self.some() };
        let side = self.numbers.choice(&[Side::Lower, Side::Upper]);
        let bound = self.some();
        self.say(Line::Bound { variable, side, bound })
    }

    fn mark(&mut self) -> Ran {
        let n = if self.numbers.chance(80) { self.of(&[VARIABLE]) } else { self.some() };
        self.say(Line::Mark(n))
    }

    /// What may come between two questions.
    fn between(&mut self) -> Ran {
        match self.numbers.below(40) {
            0..=3 => self.bound(),
            4 | 5 => self.mark(),
            6 | 7 => self.make(),
            8 => self.twin(),
            9 => {
                let level = self.numbers.below(4);
                self.say(Line::Level(level))
            }
            10 => {
                let (variable, level) = (self.of(&[VARIABLE]), self.numbers.choice(&[0, 1, 2, 3, u32::MAX]));
                self.say(Line::SetLevel { variable, level })
            }
            11..=14 => {
                let kinds = [PRIMITIVE, LIST, LAMBDA, ATTRSET, ATTRSET];
                let (a, b) = (self.numbers.choice(&kinds), self.numbers.choice(&kinds));
                let (left, right) = (self.of(&[a]), self.of(&[b]));
                self.say(Line::Disjoint(left, right))
            }
            15 | 16 => self.absorbed(),
            _ => Ok(()),
        }
    }

    /// An intersection under an entry that has the negation of a side, through unions and named ones.
    fn absorbed(&mut self) -> Ran {
        let inter = self.of(&[INTER]);
        let e = self.entry(inter);
        if e.kind != INTER {
            return Ok(());
        }
        let d = if self.entry(e.x).kind == VARIABLE { e.y } else { e.x };
        self.say_make(Make::Neg(d))?;
        let Some(mut sup) = self.entry(d).cached_negation() else {
            return Ok(());
        };
        for _ in 0..self.numbers.below(4) {
            let make = match self.numbers.below(3) {
                0 => Make::Named { inner: sup, label: 0 },
                1 => Make::Union(sup, self.some()),
                _ => Make::Union(self.some(), sup),
            };
            self.say_make(make)?;
            sup = self.count() - 1;
        }
        self.ask(inter, sup)
    }

    /// Two entries to ask about, most often ones that no step has come by and that are not trivially unlike.
    fn fresh_pair(&mut self) -> (u32, u32) {
        let mut pair = self.pair();
        for _ in 0..2 {
            let image = self.session.image();
            let (a, b) = (image.entry(pair.0).kind, image.entry(pair.1).kind);
            let unlike = a != b && matches!((a, b), (PRIMITIVE | LIST | LAMBDA, PRIMITIVE..=ATTRSET));
            if unlike || image.visited().contains(&[pair.0, pair.1]) {
                pair = self.pair();
            }
        }
        pair
    }

    /// Two entries, drawn by rule, so that the rare ones are reached too.
    fn pair(&mut self) -> (u32, u32) {
        match self.numbers.below(40) {
            0 if !self.asked.is_empty() => self.numbers.choice(&self.asked),
            1 => {
                let n = self.some();
                (n, n)
            }
            2..=5 => (self.of(&[INTER]), self.some()),
            6..=9 => (self.some(), self.of(&[UNION])),
            10 => (self.functor(), self.callable()),
            11 | 12 => (self.of(&[ATTRSET]), self.of(&[ATTRSET])),
            13..=15 => (self.functor(), self.of(&[LAMBDA])),
            16 => (self.some(), self.of(&[NEG])),
            17 => (self.of(&[NEG]), self.of(&[NEG])),
            18..=20 => (self.bounded(Side::Lower), self.some()),
            21..=23 => (self.some(), self.bounded(Side::Upper)),
            24 => (self.bounded(Side::Lower), self.bounded(Side::Upper)),
            25 => {
                let kind = self.numbers.choice(&[PRIMITIVE, LIST, LAMBDA]);
                (self.of(&[kind]), self.of(&[kind]))
            }
            26 | 27 => (self.of(&[UNION, NAMED]), self.some()),
            28..=36 if !self.twins.is_empty() => {
                let (a, b) = self.numbers.choice(&self.twins);
                if self.numbers.chance(50) {
                    (a, b)
                } else {
                    (b, a)
                }
            }
            _ => {
                let n = self.some();
                let kind = self.entry(n).kind;
                (n, if self.numbers.chance(50) { self.of(&[kind]) } else { self.some() })
            }
        }
    }

    /// A question, with a limit, since the Rust need not end.
    fn ask(&mut self, left: u32, right: u32) -> Ran {
        let (most, short) = if self.family == Family::Long { (4000, 1) } else { (self.numbers.choice(&[60, 60, 300]), 25) };
        let limit = if self.numbers.chance(short) { self.numbers.below(9) } else { most };
        let instalments = if self.numbers.chance(50) { self.numbers.between(1, 4) } else { 0 };
        let budgets = (0..instalments).map(|_| self.numbers.choice(&[0, 1, 1, 1, 2, 3, 5, 40])).collect();
        let (equal, held, pauses) = (self.numbers.chance(8), self.numbers.chance(10), self.numbers.chance(25));
        self.asked.push((left, right));
        self.say(Line::Ask(Question { left, right, equal, held, limit, budgets, pauses }))
    }
}
