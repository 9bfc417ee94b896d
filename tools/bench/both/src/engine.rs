//! The two engines behind one trait: a table that is made from shapes, asked and read.
use crate::cases::{Case, Shape};
use lang_check::bench::{PrimitiveTy, Table as TixTable};
use shared::image;
use sheafwinch::{Answer, Field, Primitive, Region, Table};

/// What stands in a table after its questions.
#[derive(PartialEq)]
pub struct Contents {
    pub entries: usize,
    /// Variable, side and bound: by variable, lower ones first, each list in its order.
    pub bounds: Vec<[u32; 3]>,
    /// Sorted.
    pub visited: Vec<[u32; 2]>,
}

pub trait Engine: Clone {
    fn make(&mut self, shape: &Shape) -> u32;
    /// Opens a question and works it to the end; the steps, where the answer is yes.
    fn ask(&mut self, sub: u32, sup: u32) -> Option<u32>;
    fn contents(&self) -> Contents;

    fn make_all(mut self, case: &Case) -> Self {
        for (number, shape) in case.shapes.iter().enumerate() {
            assert_eq!(self.make(shape) as usize, number, "{}: a shape's number", case.name);
        }
        self
    }

    /// The steps of each question.
    fn ask_all(&mut self, case: &Case) -> Vec<u32> {
        let ask =
            |&(sub, sup): &(u32, u32)| self.ask(sub, sup).unwrap_or_else(|| panic!("{}: ({sub}, {sup}) is no yes", case.name));
        case.questions.iter().map(ask).collect()
    }
}

/// Ours, by the archive for C.
#[derive(Clone)]
pub struct Ours(pub Table);

impl Ours {
    pub fn new(case: &Case, capacities: [u32; 6]) -> Self {
        let (_, names) = case.fields_and_names();
        Ours(Table::from_words(image::laid(capacities, names as u32, 1)).expect("a laid image")).make_all(case)
    }
}

impl Engine for Ours {
    fn make(&mut self, shape: &Shape) -> u32 {
        let table = &mut self.0;
        let made = match *shape {
            Shape::Variable => table.make_variable(),
            Shape::Primitive(which) => table.make_primitive(which),
            Shape::List(element) => table.make_list(element),
            Shape::Lambda(param, body) => table.make_lambda(param, body),
            Shape::Union(left, right) => table.make_union(left, right),
            Shape::Attrset(ref fields) => {
                let fields: Vec<_> = fields.iter().map(|&(name, entry)| Field { name, entry, optional: false }).collect();
                table.make_attrset(&fields, false, None)
            }
        };
        made.expect("room for the shapes")
    }

    fn ask(&mut self, sub: u32, sup: u32) -> Option<u32> {
        let told = self.0.open(sub, sup, u32::MAX).ok()?;
        (told.answer == Answer::Yes).then_some(told.steps)
    }

    fn contents(&self) -> Contents {
        let mut bounds = image::bounds(self.0.words()).to_vec();
        bounds.sort_by_key(|bound| (bound[0], bound[1]));
        let mut visited = image::visited(self.0.words()).to_vec();
        visited.sort_unstable();
        Contents { entries: self.0.count(Region::Entries) as usize, bounds, visited }
    }
}

/// The Rust of tix.
#[derive(Clone)]
pub struct Tix(TixTable);

impl Tix {
    pub fn new(case: &Case, counted: bool) -> Self {
        Tix(TixTable::new(counted)).make_all(case)
    }
}

fn primitive(which: Primitive) -> PrimitiveTy {
    match which {
        Primitive::Null => PrimitiveTy::Null,
        Primitive::Bool => PrimitiveTy::Bool,
        Primitive::Int => PrimitiveTy::Int,
        Primitive::Float => PrimitiveTy::Float,
        Primitive::String => PrimitiveTy::String,
        Primitive::Path => PrimitiveTy::Path,
        Primitive::Uri => PrimitiveTy::Uri,
        Primitive::Number => PrimitiveTy::Number,
    }
}

impl Engine for Tix {
    fn make(&mut self, shape: &Shape) -> u32 {
        let table = &mut self.0;
        match *shape {
            Shape::Variable => table.variable(),
            Shape::Primitive(which) => table.primitive(primitive(which)),
            Shape::List(element) => table.list(element),
            Shape::Lambda(param, body) => table.lambda(param, body),
            Shape::Union(left, right) => table.union(left, right),
            Shape::Attrset(ref fields) => table.attrset(fields.iter().map(|&(name, entry)| (format!("name{name:04}"), entry))),
        }
    }

    fn ask(&mut self, sub: u32, sup: u32) -> Option<u32> {
        self.0.ask(sub, sup).ok()?;
        Some(self.0.steps())
    }

    fn contents(&self) -> Contents {
        let entries = self.0.entries();
        let mut bounds = Vec::new();
        for variable in 0..entries as u32 {
            for (side, list) in (0..).zip(self.0.bounds(variable).into_iter().flatten()) {
                bounds.extend(list.into_iter().map(|bound| [variable, side, bound]));
            }
        }
        let mut visited: Vec<_> = self.0.visited().collect();
        visited.sort_unstable();
        Contents { entries, bounds, visited }
    }
}
