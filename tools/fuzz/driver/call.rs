//! The calls of include/sheafwinch.h: their names and arguments, and how each is written in a case.

use std::fmt;

#[derive(Clone, Copy, PartialEq, Eq, Debug)]
pub enum Which {
    Check,
    Start,
    MakeVariable,
    MakePrimitive,
    MakeList,
    MakeLambda,
    MakeAttrset,
    MakeNamed,
    MakeNeg,
    MakeInter,
    MakeUnion,
    Mark,
    PutBound,
    Enter,
    Exit,
    SetLevel,
    Open,
    OpenEqual,
    Work,
    Abandon,
    Entry,
    Record,
    Disjoint,
    CheckNames,
    CheckName,
    CountNames,
    ShowName,
    CompareNames,
    FindName,
    Resolve,
    FromLeft,
    AtOnce,
}

/// What an argument stands for.
#[derive(Clone, Copy, PartialEq, Eq)]
pub enum Argument {
    NameCount,
    Functor,
    Capacity,
    Primitive,
    Entry,
    Flag,
    Label,
    Side,
    Level,
    Budget,
    Region,
    Record,
    Name,
    Operator,
}

pub const FUNCTIONS: usize = 32;

use Argument as A;
use Which as W;

/// Every call with its name in the header, less `sheafwinch_`, and its arguments, less what is lent.
pub const CALLS: [(Which, &str, &[Argument]); FUNCTIONS] = [
    (W::Check, "check", &[]),
    (W::Start, "start", &[A::NameCount, A::Functor, A::Capacity, A::Capacity, A::Capacity, A::Capacity, A::Capacity, A::Capacity]),
    (W::MakeVariable, "make_variable", &[]),
    (W::MakePrimitive, "make_primitive", &[A::Primitive]),
    (W::MakeList, "make_list", &[A::Entry]),
    (W::MakeLambda, "make_lambda", &[A::Entry, A::Entry]),
    (W::MakeAttrset, "make_attrset", &[A::Flag, A::Flag, A::Entry]),
    (W::MakeNamed, "make_named", &[A::Entry, A::Label]),
    (W::MakeNeg, "make_neg", &[A::Entry]),
    (W::MakeInter, "make_inter", &[A::Entry, A::Entry]),
    (W::MakeUnion, "make_union", &[A::Entry, A::Entry]),
    (W::Mark, "mark", &[A::Entry]),
    (W::PutBound, "put_bound", &[A::Entry, A::Side, A::Entry]),
    (W::Enter, "enter", &[]),
    (W::Exit, "exit", &[]),
    (W::SetLevel, "set_level", &[A::Entry, A::Level]),
    (W::Open, "open", &[A::Flag, A::Entry, A::Entry, A::Budget]),
    (W::OpenEqual, "open_equal", &[A::Flag, A::Entry, A::Entry, A::Budget]),
    (W::Work, "work", &[A::Budget]),
    (W::Abandon, "abandon", &[]),
    (W::Entry, "entry", &[A::Entry]),
    (W::Record, "record", &[A::Region, A::Record]),
    (W::Disjoint, "disjoint", &[A::Entry, A::Entry]),
    (W::CheckNames, "check_names", &[]),
    (W::CheckName, "check_name", &[A::Name]),
    (W::CountNames, "count_names", &[]),
    (W::ShowName, "show_name", &[A::Name]),
    (W::CompareNames, "compare_names", &[A::Name, A::Name]),
    (W::FindName, "find_name", &[]),
    (W::Resolve, "resolve", &[A::Operator, A::Primitive, A::Primitive]),
    (W::FromLeft, "from_left", &[A::Operator, A::Primitive]),
    (W::AtOnce, "at_once", &[A::Operator]),
];

impl Which {
    /// Whether it opens a question.
    pub fn opens(self) -> bool {
        matches!(self, W::Open | W::OpenEqual)
    }

    pub fn name(self) -> &'static str {
        CALLS[self as usize].1
    }

    pub fn arguments(self) -> &'static [Argument] {
        CALLS[self as usize].2
    }
}

/// A call, less the image and the name list, which the case holds. `extra` is the field list of `make_attrset` or the bytes that
/// `find_name` looks for.
#[derive(Clone, Debug)]
pub struct Call {
    pub which: Which,
    pub args: [u32; 8],
    pub extra: Vec<u32>,
}

impl Call {
    pub fn plain(which: Which) -> Call {
        Call { which, args: [0; 8], extra: Vec::new() }
    }

    pub fn with(which: Which, args: &[u32]) -> Call {
        let mut call = Call::plain(which);
        call.args[..args.len()].copy_from_slice(args);
        call
    }
}

impl fmt::Display for Call {
    fn fmt(&self, f: &mut fmt::Formatter) -> fmt::Result {
        write!(f, "{}", self.which.name())?;
        for arg in &self.args[..self.which.arguments().len()] {
            write!(f, " {arg}")?;
        }
        if matches!(self.which, W::MakeAttrset | W::FindName) {
            write!(f, " :")?;
            for word in &self.extra {
                write!(f, " {word}")?;
            }
        }
        Ok(())
    }
}
