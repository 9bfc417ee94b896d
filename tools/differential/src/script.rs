//! A script: what both sides are given, line by line. It is shown in the oracle's language, with what is ours alone as comments.

use sheafwinch::{Capacities, Field, Side};
use std::fmt;

/// The names that fields have, ascending.
pub type Names = &'static [&'static str];

#[derive(Clone)]
pub struct Script {
    pub names: Names,
    pub room: Capacities,
    pub lines: Vec<Line>,
}

#[derive(Clone)]
pub enum Line {
    Make(Make),
    Mark(u32),
    Bound {
        variable: u32,
        side: Side,
        bound: u32,
    },
    /// Enters or leaves levels up to this one.
    Level(u32),
    SetLevel {
        variable: u32,
        level: u32,
    },
    Disjoint(u32, u32),
    Ask(Question),
}

#[derive(Clone)]
pub enum Make {
    Variable,
    Primitive(u32),
    List(u32),
    Lambda(u32, u32),
    Attrset { open: bool, dynamic: Option<u32>, fields: Vec<Field> },
    Named { inner: u32, label: u32 },
    Neg(u32),
    Inter(u32, u32),
    Union(u32, u32),
}

#[derive(Clone)]
pub struct Question {
    pub left: u32,
    pub right: u32,
    pub equal: bool,
    pub held: bool,
    /// At most so many steps.
    pub limit: u32,
    /// Of the first instalments on our side, the opening's first; what is left of the limit is worked after them.
    pub budgets: Vec<u32>,
    /// Whether the records are compared at each pause.
    pub pauses: bool,
}

/// With what budget a question is opened on our side.
#[derive(Clone, Copy)]
pub enum Opening {
    Zero,
    Part,
    Whole,
}

pub const OPENINGS: usize = Opening::Whole as usize + 1;

impl Question {
    /// The budget of an instalment, the opening's being number 0, after so many steps.
    pub fn budget(&self, number: usize, steps: u32) -> u32 {
        let left = self.limit - steps;
        self.budgets.get(number).map_or(left, |&budget| left.min(budget))
    }

    pub fn opening(&self) -> Opening {
        match self.budget(0, 0) {
            0 => Opening::Zero,
            budget if budget < self.limit => Opening::Part,
            _ => Opening::Whole,
        }
    }
}

impl Make {
    /// Every entry number in it, to read or to change.
    fn each(&mut self, f: &mut impl FnMut(&mut u32)) {
        match self {
            Make::Variable | Make::Primitive(_) => {}
            Make::List(e) | Make::Named { inner: e, .. } | Make::Neg(e) => f(e),
            Make::Lambda(a, b) | Make::Inter(a, b) | Make::Union(a, b) => {
                f(a);
                f(b);
            }
            Make::Attrset { dynamic, fields, .. } => {
                dynamic.iter_mut().for_each(&mut *f);
                fields.iter_mut().for_each(|field| f(&mut field.entry));
            }
        }
    }
}

impl Line {
    /// Every entry number in it, to read or to change.
    pub fn each(&mut self, f: &mut impl FnMut(&mut u32)) {
        match self {
            Line::Make(make) => make.each(f),
            Line::Mark(e) | Line::SetLevel { variable: e, .. } => f(e),
            Line::Bound { variable: a, bound: b, .. } | Line::Disjoint(a, b) | Line::Ask(Question { left: a, right: b, .. }) => {
                f(a);
                f(b);
            }
            Line::Level(_) => {}
        }
    }
}

impl fmt::Display for Script {
    fn fmt(&self, out: &mut fmt::Formatter<'_>) -> fmt::Result {
        let room = self.room;
        writeln!(out, "new")?;
        writeln!(
            out,
            "# ours: room for {} entries, {} fields, {} bounds, {} visited, {} pending, {} equals; names {}",
            room.entries,
            room.fields,
            room.bounds,
            room.visited,
            room.pending,
            room.equals,
            self.names.join(" ")
        )?;
        for line in &self.lines {
            match line {
                Line::Make(make) => show_make(out, make, self.names)?,
                Line::Mark(n) => write!(out, "mark {n}")?,
                Line::Bound { variable, side, bound } => write!(out, "bound {variable} {} {bound}", side.number())?,
                Line::Level(level) => write!(out, "level {level}")?,
                Line::SetLevel { variable, level } => write!(out, "setlevel {variable} {level}")?,
                Line::Disjoint(a, b) => write!(out, "disjoint {a} {b}")?,
                Line::Ask(question) => write!(out, "{question}")?,
            }
            writeln!(out)?;
        }
        writeln!(out, "dump")
    }
}

fn show_make(out: &mut fmt::Formatter<'_>, make: &Make, names: Names) -> fmt::Result {
    match make {
        Make::Variable => write!(out, "var"),
        Make::Primitive(which) => write!(out, "prim {which}"),
        Make::List(element) => write!(out, "list {element}"),
        Make::Lambda(param, body) => write!(out, "lambda {param} {body}"),
        Make::Attrset { open, dynamic, fields } => {
            write!(out, "attr {} {} {}", u8::from(*open), dynamic.map_or(-1, i64::from), fields.len())?;
            fields.iter().try_for_each(|f| write!(out, " {} {} {}", names[f.name as usize], f.entry, u8::from(f.optional)))
        }
        Make::Named { inner, label } => write!(out, "named {inner} {label}"),
        Make::Neg(n) => write!(out, "neg {n}"),
        Make::Inter(left, right) => write!(out, "inter {left} {right}"),
        Make::Union(left, right) => write!(out, "union {left} {right}"),
    }
}

impl fmt::Display for Question {
    fn fmt(&self, out: &mut fmt::Formatter<'_>) -> fmt::Result {
        let verb = if self.equal { "equal" } else { "ask" };
        write!(out, "limit {}\n{verb} {} {}", self.limit, self.left, self.right)?;
        if self.held || !self.budgets.is_empty() {
            let held = if self.held { " held" } else { "" };
            let pauses = if self.pauses { ", compared at each pause" } else { "" };
            write!(out, "  # ours:{held} budgets {:?}{pauses}", self.budgets)?;
        }
        Ok(())
    }
}
