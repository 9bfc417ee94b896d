//! The inputs: the shapes of a table, and the questions asked of it one after the other. Every question answers yes, and none makes an
//! entry. A shape names shapes before it, by number; a question names two shapes.
use sheafwinch::Primitive;

#[derive(Clone)]
pub enum Shape {
    Variable,
    Primitive(Primitive),
    List(u32),
    Lambda(u32, u32),
    /// Closed, no field optional: names, from 1 on and ascending, with their entries.
    Attrset(Vec<(u32, u32)>),
    Union(u32, u32),
}

use Shape::*;

const INT: Shape = Primitive(Primitive::Int);
const NUMBER: Shape = Primitive(Primitive::Number);
const STRING: Shape = Primitive(Primitive::String);

#[derive(Default)]
pub struct Case {
    pub name: String,
    pub shapes: Vec<Shape>,
    pub questions: Vec<(u32, u32)>,
    /// The most pairs that are pending at once.
    pub pending: usize,
}

impl Case {
    fn put(&mut self, shape: Shape) -> u32 {
        self.shapes.push(shape);
        self.shapes.len() as u32 - 1
    }

    fn put_all(&mut self, shapes: impl Iterator<Item = Shape>) -> Vec<u32> {
        shapes.map(|shape| self.put(shape)).collect()
    }

    /// The field records that the shapes need, and the names, with the name 0, `__functor`.
    pub fn fields_and_names(&self) -> (usize, usize) {
        let lists = || self.shapes.iter().filter_map(|shape| if let Attrset(fields) = shape { Some(fields) } else { None });
        let last = lists().filter_map(|fields| fields.last()).map(|field| field.0).max();
        (lists().map(Vec::len).sum(), 1 + last.unwrap_or(0) as usize)
    }
}

/// What comes first: the bounds of a chain's first variable, or the links between its variables.
#[derive(Clone, Copy, PartialEq)]
pub enum First {
    Bounds,
    Links,
}

/// Attrsets of one field asked under the first variable, and each variable under the next one.
pub fn chain(variables: usize, bounds: usize, first: First) -> Case {
    chain_after(Vec::new(), variables, bounds, first)
}

/// The same in a table that has the shapes of another case first, so that this one's questions can be asked of it too.
pub fn chain_beside(case: &Case, variables: usize, bounds: usize, first: First) -> Case {
    chain_after(case.shapes.clone(), variables, bounds, first)
}

fn chain_after(shapes: Vec<Shape>, variables: usize, bounds: usize, first: First) -> Case {
    let mut case = Case { shapes, ..Case::default() };
    let int = case.put(INT);
    let lower = case.put_all((1..=bounds as u32).map(|name| Attrset(vec![(name, int)])));
    let chain = case.put_all((0..variables).map(|_| Variable));
    let bounding = lower.iter().map(|&bound| (bound, chain[0]));
    let linking = chain.windows(2).map(|pair| (pair[0], pair[1]));
    let when;
    (when, case.questions, case.pending) = match first {
        First::Bounds => ("first", bounding.chain(linking).collect(), bounds),
        First::Links => ("last", linking.chain(bounding).collect(), 1),
    };
    case.name = format!("chain of {variables}, {bounds} bounds {when}");
    case
}

/// Each of so many Ints asked under each of so many Numbers, one step to a question.
pub fn separate(ints: usize, numbers: usize) -> Case {
    let mut case = Case { name: format!("{} separate questions", ints * numbers), pending: 1, ..Case::default() };
    let ints = case.put_all((0..ints).map(|_| INT));
    let numbers = case.put_all((0..numbers).map(|_| NUMBER));
    case.questions = ints.iter().flat_map(|&sub| numbers.iter().map(move |&sup| (sub, sup))).collect();
    case
}

/// Each of so many attrsets of four Ints asked under each of so many of four Numbers: five steps to a question, and a pair visited, in the
/// first question five.
pub fn short(lefts: usize, rights: usize) -> Case {
    let mut case = Case { name: format!("{} short questions", lefts * rights), pending: 4, ..Case::default() };
    let ints = case.put_all((0..4).map(|_| INT));
    let numbers = case.put_all((0..4).map(|_| NUMBER));
    let attrset = |entries: &[u32]| Attrset((1..).zip(entries.iter().copied()).collect());
    let lefts = case.put_all((0..lefts).map(|_| attrset(&ints)));
    let rights = case.put_all((0..rights).map(|_| attrset(&numbers)));
    case.questions = lefts.iter().flat_map(|&sub| rights.iter().map(move |&sup| (sub, sup))).collect();
    case
}

/// Two attrsets with the same names, each asked under the other. The left has an Int of its own for each field, the right has one.
pub fn attrsets(fields: usize) -> Case {
    let mut case = Case { name: format!("attrsets of {fields} fields"), pending: fields, ..Case::default() };
    let one = case.put(INT);
    let own = case.put_all((0..fields).map(|_| INT));
    let left = case.put(Attrset((1..).zip(own).collect()));
    let right = case.put(Attrset((1..=fields as u32).map(|name| (name, one)).collect()));
    case.questions = vec![(left, right), (right, left)];
    case
}

/// A union of so many Ints, each next one on its right, asked under Number.
pub fn union_under(members: usize) -> Case {
    let mut case = Case { name: format!("union of {members} on the left"), pending: members, ..Case::default() };
    let number = case.put(NUMBER);
    let mut union = case.put(INT);
    for _ in 1..members {
        let int = case.put(INT);
        union = case.put(Union(union, int));
    }
    case.questions = vec![(union, number)];
    case
}

/// An Int asked under a union of Strings and, innermost, a Number: each String is disjoint from it.
pub fn under_union(members: usize) -> Case {
    let mut case = Case { name: format!("union of {members} on the right"), pending: 1, ..Case::default() };
    let int = case.put(INT);
    let mut union = case.put(NUMBER);
    for _ in 1..members {
        let string = case.put(STRING);
        union = case.put(Union(string, union));
    }
    case.questions = vec![(int, union)];
    case
}

/// Lists of lists, Int innermost, asked under as many with Number innermost.
pub fn lists(depth: usize) -> Case {
    let mut case = Case { name: format!("lists {depth} deep"), pending: 1, ..Case::default() };
    let question = [INT, NUMBER].map(|innermost| {
        let innermost = case.put(innermost);
        (0..depth).fold(innermost, |list, _| case.put(List(list)))
    });
    case.questions = vec![question.into()];
    case
}

/// Lambdas from Number, Int innermost, asked under as many from Int, Number innermost.
pub fn lambdas(depth: usize) -> Case {
    let mut case = Case { name: format!("lambdas {depth} deep"), pending: 2, ..Case::default() };
    let (int, number) = (case.put(INT), case.put(NUMBER));
    let question =
        [(number, int), (int, number)].map(|(param, body)| (0..depth).fold(body, |body, _| case.put(Lambda(param, body))));
    case.questions = vec![question.into()];
    case
}
