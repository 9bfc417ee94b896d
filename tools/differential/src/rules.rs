//! Which rule works a pair, told from its two entries as they stand: the first that fits, in 01's order. Entries keep their kinds and
//! components, so that a rule tells the same after the question as at its step. As crates/replay_test tells it, under the same names.

use crate::image::Image;
use shared::image::Entry;
use shared::layout::{ATTRSET, FLOAT, INT, INTER, LAMBDA, LIST, NAMED, NEG, NUMBER, PRIMITIVE, UNION, VARIABLE};
use sheafwinch::Table;

/// Where a rule has a left and a right case, the right one follows the left one.
#[derive(Clone, Copy, PartialEq, Eq)]
pub enum Rule {
    VariableVariable,
    VariableConcrete,
    ConcreteVariable,
    NamedLeft,
    NamedRight,
    Lambdas,
    Lists,
    EqualPrimitives,
    UnderNumber,
    Functor,
    Mismatch,
    Attrsets,
    NegNeg,
    NegDisjoint,
    NegMismatch,
    InterRight,
    UnionLeft,
    InterBoth,
    InterNone,
    InterMismatchLeft,
    InterMismatchRight,
    InterSupLeft,
    InterSupRight,
    InterNewLeft,
    InterNewRight,
    UnionVariables,
    UnionKindLeft,
    UnionKindRight,
    UnionNamedLeft,
    UnionNamedRight,
    UnionFunctorLeft,
    UnionFunctorRight,
    UnionVariableLeft,
    UnionVariableRight,
    UnionDisjoint,
    UnionOtherLeft,
    UnionOtherRight,
    UnionLikeLeft,
    UnionLikeRight,
    UnionBoth,
}

pub const RULES: usize = Rule::UnionBoth as usize + 1;

/// How a field of sup is met.
#[derive(Clone, Copy, PartialEq, Eq)]
pub enum Met {
    Same,
    Dynamic,
    Open,
    Optional,
    Missing,
}

pub const MEETINGS: usize = Met::Missing as usize + 1;

/// How sup's fields are met, up to one that is missing, and whether both attrsets have a dynamic type.
pub struct Fields {
    pub met: [u32; MEETINGS],
    pub dynamics: bool,
}

impl Fields {
    /// How many pairs follow.
    fn pairs(&self) -> u32 {
        if self.met[Met::Missing as usize] > 0 {
            return 0;
        }
        self.met[Met::Same as usize] + self.met[Met::Dynamic as usize] + u32::from(self.dynamics)
    }
}

/// The side that is chosen, or that the pair goes to.
#[derive(Clone, Copy)]
enum Hand {
    Left,
    Right,
}

impl Hand {
    fn of(self, left: Rule, right: Rule) -> Rule {
        match self {
            Hand::Left => left,
            Hand::Right => right,
        }
    }
}

/// The rules of a table's pairs.
#[derive(Clone, Copy)]
pub struct Rules<'a> {
    table: &'a Table,
    image: Image<'a>,
}

impl<'a> Rules<'a> {
    pub fn of(table: &'a Table) -> Rules<'a> {
        Rules { table, image: Image::of(table) }
    }

    pub fn rule(self, sub: u32, sup: u32) -> Rule {
        let (a, b) = (self.image.entry(sub), self.image.entry(sup));
        match (a.kind, b.kind) {
            (VARIABLE, VARIABLE) => Rule::VariableVariable,
            (VARIABLE, _) => Rule::VariableConcrete,
            (_, VARIABLE) => Rule::ConcreteVariable,
            (NAMED, _) => Rule::NamedLeft,
            (_, NAMED) => Rule::NamedRight,
            (LAMBDA, LAMBDA) => Rule::Lambdas,
            (LIST, LIST) => Rule::Lists,
            (ATTRSET, ATTRSET) => Rule::Attrsets,
            (PRIMITIVE, PRIMITIVE) => primitives(a.x, b.x),
            (NEG, NEG) => Rule::NegNeg,
            (kind, NEG) if kind != INTER && kind != UNION => {
                if self.disjoint(sub, b.x) {
                    Rule::NegDisjoint
                } else {
                    Rule::NegMismatch
                }
            }
            (_, INTER) => Rule::InterRight,
            (UNION, _) => Rule::UnionLeft,
            (INTER, _) => self.inter_left(a.x, a.y, sup),
            (_, UNION) => self.union_right(sub, a, b.x, b.y),
            _ if self.is_functor(a, b) => Rule::Functor,
            _ => Rule::Mismatch,
        }
    }

    /// How many pairs follow one that is neither equal nor visited; `bounds` is how many bounds a variable then has on the side that
    /// is gone through.
    pub fn consequences(self, sub: u32, sup: u32, bounds: u32) -> u32 {
        match self.rule(sub, sup) {
            Rule::VariableVariable | Rule::VariableConcrete | Rule::ConcreteVariable => bounds,
            Rule::Attrsets => self.fields(sub, sup).pairs(),
            Rule::Lambdas
            | Rule::InterRight
            | Rule::UnionLeft
            | Rule::InterBoth
            | Rule::InterNone
            | Rule::UnionVariables
            | Rule::UnionBoth => 2,
            Rule::EqualPrimitives
            | Rule::UnderNumber
            | Rule::Mismatch
            | Rule::NegDisjoint
            | Rule::NegMismatch
            | Rule::InterMismatchLeft
            | Rule::InterMismatchRight
            | Rule::UnionDisjoint => 0,
            _ => 1,
        }
    }

    /// Of two attrsets.
    pub fn fields(self, sub: u32, sup: u32) -> Fields {
        let (a, b) = (self.image.entry(sub), self.image.entry(sup));
        let mut met = [0; MEETINGS];
        for &[name, _, optional] in self.image.fields(b) {
            let how = self.met(a, name, optional != 0);
            met[how as usize] += 1;
            if how == Met::Missing {
                return Fields { met, dynamics: false };
            }
        }
        Fields { met, dynamics: a.dynamic().is_some() && b.dynamic().is_some() }
    }

    fn met(self, sub: Entry, name: u32, optional: bool) -> Met {
        if self.image.field(sub, name).is_some() {
            Met::Same
        } else if sub.dynamic().is_some() {
            Met::Dynamic
        } else if sub.open() {
            Met::Open
        } else if optional {
            Met::Optional
        } else {
            Met::Missing
        }
    }

    fn inter_left(self, x: u32, y: u32, sup: u32) -> Rule {
        match (self.is_chosen(x, y), self.is_chosen(y, x)) {
            (true, true) => Rule::InterBoth,
            (false, false) => Rule::InterNone,
            (true, false) => self.inter_one(Hand::Left, y, sup),
            (false, true) => self.inter_one(Hand::Right, x, sup),
        }
    }

    fn is_chosen(self, side: u32, other: u32) -> bool {
        self.image.kind(side) == VARIABLE || (self.holds_variable(side) && !self.holds_variable(other))
    }

    /// With one side chosen, d the other.
    fn inter_one(self, chosen: Hand, d: u32, sup: u32) -> Rule {
        if self.parts_disjoint(d, sup) {
            return chosen.of(Rule::InterMismatchLeft, Rule::InterMismatchRight);
        }
        let e = self.image.entry(d);
        if self.has_member(sup, e.cached_negation().unwrap_or(e.x)) {
            chosen.of(Rule::InterSupLeft, Rule::InterSupRight)
        } else {
            chosen.of(Rule::InterNewLeft, Rule::InterNewRight)
        }
    }

    fn holds_variable(self, n: u32) -> bool {
        let e = self.image.entry(n);
        match e.kind {
            VARIABLE => true,
            NAMED => self.holds_variable(e.x),
            INTER => self.holds_variable(e.x) || self.holds_variable(e.y),
            _ => false,
        }
    }

    fn parts_disjoint(self, n: u32, from: u32) -> bool {
        let e = self.image.entry(n);
        match e.kind {
            INTER => self.parts_disjoint(e.x, from) || self.parts_disjoint(e.y, from),
            _ => self.disjoint(n, from),
        }
    }

    fn has_member(self, n: u32, member: u32) -> bool {
        let e = self.image.entry(n);
        n == member
            || match e.kind {
                NAMED => self.has_member(e.x, member),
                UNION => self.has_member(e.x, member) || self.has_member(e.y, member),
                _ => false,
            }
    }

    fn union_right(self, sub: u32, a: Entry, x: u32, y: u32) -> Rule {
        match (self.image.kind(x) == VARIABLE, self.image.kind(y) == VARIABLE) {
            (true, true) => Rule::UnionVariables,
            (true, false) => self.compatible(a, Hand::Right, self.image.entry(y)),
            (false, true) => self.compatible(a, Hand::Left, self.image.entry(x)),
            (false, false) => self.union_concrete(sub, a.kind, x, y),
        }
    }

    /// Why an entry is compatible with the concrete side, or that it is not.
    fn compatible(self, a: Entry, concrete: Hand, b: Entry) -> Rule {
        if b.kind == NAMED {
            concrete.of(Rule::UnionNamedLeft, Rule::UnionNamedRight)
        } else if a.kind == b.kind {
            concrete.of(Rule::UnionKindLeft, Rule::UnionKindRight)
        } else if self.is_functor(a, b) {
            concrete.of(Rule::UnionFunctorLeft, Rule::UnionFunctorRight)
        } else {
            concrete.of(Rule::UnionVariableLeft, Rule::UnionVariableRight)
        }
    }

    fn union_concrete(self, sub: u32, kind: u32, x: u32, y: u32) -> Rule {
        match (self.disjoint(sub, x), self.disjoint(sub, y)) {
            (true, true) => Rule::UnionDisjoint,
            (false, true) => Rule::UnionOtherLeft,
            (true, false) => Rule::UnionOtherRight,
            (false, false) => match (self.image.kind(x) == kind, self.image.kind(y) == kind) {
                (true, false) => Rule::UnionLikeLeft,
                (false, true) => Rule::UnionLikeRight,
                _ => Rule::UnionBoth,
            },
        }
    }

    fn is_functor(self, a: Entry, b: Entry) -> bool {
        b.kind == LAMBDA && self.image.has_functor(a)
    }

    fn disjoint(self, a: u32, b: u32) -> bool {
        self.table.disjoint(a, b) == Ok(true)
    }
}

fn primitives(a: u32, b: u32) -> Rule {
    if a == b {
        Rule::EqualPrimitives
    } else if b == NUMBER && (a == INT || a == FLOAT) {
        Rule::UnderNumber
    } else {
        Rule::Mismatch
    }
}
