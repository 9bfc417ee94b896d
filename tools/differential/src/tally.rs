//! What is counted, and how it is told.

use crate::family::FAMILIES;
use crate::rules::{Fields, Met, Rule, MEETINGS, RULES};
use crate::script::OPENINGS;
use sheafwinch::{Answer, Failure, Refusal, Region};
use std::fmt;

/// Refusals by number, and those by 5 by region.
#[derive(Default)]
pub struct Refusals {
    numbers: [u64; 13],
    regions: [u64; 7],
}

impl Refusals {
    pub fn add(&mut self, refusal: Refusal) {
        self.numbers[refusal.number() as usize] += 1;
        if let Refusal::NoRoom(region) = refusal {
            self.regions[region.number() as usize] += 1;
        }
    }

    fn total(&self) -> u64 {
        self.numbers.iter().sum()
    }
}

impl fmt::Display for Refusals {
    fn fmt(&self, out: &mut fmt::Formatter<'_>) -> fmt::Result {
        write!(out, "{}", self.total())?;
        for (number, &count) in self.numbers.iter().enumerate().filter(|(_, &count)| count > 0) {
            write!(out, "; by {number} {count}")?;
        }
        for (number, &count) in self.regions.iter().enumerate().filter(|(_, &count)| count > 0) {
            let region = Region::from_number(number as u32).expect("a region's number");
            write!(out, "; no room for {region} {count}")?;
        }
        Ok(())
    }
}

/// How often each rule was hit.
pub struct Hits(pub [u64; RULES]);

impl Default for Hits {
    fn default() -> Hits {
        Hits([0; RULES])
    }
}

#[derive(Default)]
pub struct Tally {
    /// By family.
    pub scripts: [u64; FAMILIES.len()],
    pub makes: u64,
    pub questions: u64,
    pub instalments: u64,
    pub pauses: u64,
    pub steps: u64,
    pub longest: u32,
    pub disjoint: u64,
    yes: u64,
    more: u64,
    mismatch: u64,
    missing: u64,
    /// Of makes, bounds and levels.
    pub calls_refused: Refusals,
    /// By the budget of the opening.
    pub openings: [u64; OPENINGS],
    /// Of questions, at the opening.
    pub openings_refused: Refusals,
    /// Of questions, at a step.
    pub steps_refused: Refusals,
    /// Of these, in the opening's instalment.
    pub first_refused: Refusals,
    pub hits: Hits,
    met: [u64; MEETINGS],
    dynamics: u64,
    pub bounds_there: u64,
    pub marks_passed: u64,
    pub visited_before: u64,
    pub differences: u64,
}

impl Tally {
    /// Counts what a question came to; a refused one is counted with the refusals.
    pub fn answer(&mut self, answer: Answer) {
        match answer {
            Answer::Yes => self.yes += 1,
            Answer::More => self.more += 1,
            Answer::Failed(Failure::Mismatch { .. }) => self.mismatch += 1,
            Answer::Failed(Failure::MissingField { .. }) => self.missing += 1,
            Answer::Refused(_) => {}
        }
    }

    pub fn fields(&mut self, fields: &Fields) {
        for (count, met) in self.met.iter_mut().zip(fields.met) {
            *count += u64::from(met);
        }
        self.dynamics += u64::from(fields.dynamics);
    }

    /// The rules by name, with their counts.
    fn named(&self) -> Vec<(&'static str, Vec<u64>)> {
        let one = |name, rule: Rule| (name, vec![self.hits.0[rule as usize]]);
        let two = |name, left: Rule| (name, self.hits.0[left as usize..][..2].to_vec());
        let met = |name, how: Met| (name, vec![self.met[how as usize]]);
        vec![
            one("variable under variable", Rule::VariableVariable),
            one("variable under concrete", Rule::VariableConcrete),
            one("concrete under variable", Rule::ConcreteVariable),
            ("  of these three, the bound was there", vec![self.bounds_there]),
            ("  marks passed on", vec![self.marks_passed]),
            ("equal numbers, or visited before", vec![self.visited_before]),
            two("named", Rule::NamedLeft),
            one("lambdas", Rule::Lambdas),
            one("lists", Rule::Lists),
            one("equal primitives", Rule::EqualPrimitives),
            one("Int or Float under Number", Rule::UnderNumber),
            one("functor under lambda", Rule::Functor),
            one("no rule fits, mismatch", Rule::Mismatch),
            one("attrsets", Rule::Attrsets),
            met("  sup's field, the same field", Met::Same),
            met("  sup's field, sub's dynamic type", Met::Dynamic),
            met("  sup's field, sub open", Met::Open),
            met("  sup's field, optional", Met::Optional),
            met("  sup's field, missing", Met::Missing),
            ("  two dynamic types", vec![self.dynamics]),
            one("neg under neg", Rule::NegNeg),
            one("under neg, disjoint", Rule::NegDisjoint),
            one("under neg, mismatch", Rule::NegMismatch),
            one("inter on the right", Rule::InterRight),
            one("union on the left", Rule::UnionLeft),
            one("inter on the left, both chosen", Rule::InterBoth),
            one("inter on the left, none chosen", Rule::InterNone),
            two("inter on the left, one chosen, mismatch", Rule::InterMismatchLeft),
            two("inter on the left, one chosen, target is sup", Rule::InterSupLeft),
            two("inter on the left, one chosen, target is new", Rule::InterNewLeft),
            one("union on the right, both variables", Rule::UnionVariables),
            two("union on the right, one variable, same kind", Rule::UnionKindLeft),
            two("union on the right, one variable, named", Rule::UnionNamedLeft),
            two("union on the right, one variable, functor", Rule::UnionFunctorLeft),
            two("union on the right, one variable, not compatible", Rule::UnionVariableLeft),
            one("union on the right, both disjoint, mismatch", Rule::UnionDisjoint),
            two("union on the right, one not disjoint", Rule::UnionOtherLeft),
            two("union on the right, one of the same kind", Rule::UnionLikeLeft),
            one("union on the right, both", Rule::UnionBoth),
        ]
    }
}

impl fmt::Display for Tally {
    fn fmt(&self, out: &mut fmt::Formatter<'_>) -> fmt::Result {
        let families: Vec<String> =
            FAMILIES.iter().zip(self.scripts).map(|(family, count)| format!("{} {count}", family.name())).collect();
        writeln!(out, "scripts: {}; {}", self.scripts.iter().sum::<u64>(), families.join(", "))?;
        writeln!(out, "makes: {}", self.makes)?;
        writeln!(out, "  makes, bounds and levels refused: {}", self.calls_refused)?;
        writeln!(out, "disjoint: {}", self.disjoint)?;
        writeln!(out, "questions: {}", self.questions)?;
        writeln!(out, "  answered: yes, and stopped at the limit: {}, {}", self.yes, self.more)?;
        writeln!(out, "  failed: mismatch, and missing field: {}, {}", self.mismatch, self.missing)?;
        let [zero, part, whole] = self.openings;
        writeln!(out, "  opened with budget 0, with part of the limit, and with all of it: {zero}, {part}, {whole}")?;
        writeln!(out, "  refused at the opening: {}", self.openings_refused)?;
        writeln!(out, "  refused at a step: {}", self.steps_refused)?;
        writeln!(out, "    of these in the opening's instalment: {}", self.first_refused)?;
        writeln!(out, "instalments: {}", self.instalments)?;
        writeln!(out, "pauses compared: {}", self.pauses)?;
        writeln!(out, "steps: {}; of one question at most: {}", self.steps, self.longest)?;
        writeln!(out, "How often each rule was hit; where there are two counts, on the left and on the right:")?;
        let named = self.named();
        for (name, counts) in &named {
            let counts: Vec<String> = counts.iter().map(u64::to_string).collect();
            writeln!(out, "{name}: {}", counts.join(", "))?;
        }
        let never: Vec<&str> = named.iter().filter(|(_, counts)| counts.contains(&0)).map(|(name, _)| name.trim()).collect();
        writeln!(out, "rules never hit: {}", if never.is_empty() { "none".into() } else { never.join("; ") })?;
        writeln!(out, "differences: {}", self.differences)
    }
}
