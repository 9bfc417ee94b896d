//! Sheafwinch for Rust: decides whether one shape fits under another, at once or in instalments. The calls are those of the proved
//! library's C face, `include/sheafwinch.h`; every call ends, on any argument, and a refusal leaves every word as found, but for the
//! steps done before one that is refused.
//!
//! ```
//! use sheafwinch::{Answer, Capacities, Failure, Primitive, Table};
//!
//! let room = Capacities { entries: 8, fields: 0, bounds: 0, visited: 8, pending: 8, equals: 0 };
//! let mut table = Table::start(0, None, room)?;
//! let int = table.make_primitive(Primitive::Int)?;
//! let number = table.make_primitive(Primitive::Number)?;
//! assert_eq!(table.open(int, number, 100)?.answer, Answer::Yes);
//! assert_eq!(table.open(number, int, 100)?.answer, Answer::Failed(Failure::Mismatch { sub: number, sup: int }));
//! # Ok::<(), sheafwinch::Refusal>(())
//! ```
//!
//! Build: `tools/capi/build OUT`, then set `SHEAFWINCH_LIB` to the full path of `OUT`. x86-64 Linux.
#![deny(missing_docs)]

use std::cmp::Ordering;
use std::error::Error;
use std::fmt;

mod raw;
use raw::Raw;

macro_rules! numbered {
    ($(#[$about:meta])* $name:ident { $($(#[$doc:meta])* $case:ident = $number:literal $word:literal,)* }) => {
        $(#[$about])*
        #[derive(Clone, Copy, Debug, PartialEq, Eq, Hash)]
        #[repr(u32)]
        pub enum $name { $($(#[$doc])* $case = $number,)* }

        impl $name {
            /// Its number in the header.
            pub fn number(self) -> u32 {
                self as u32
            }

            /// The one that has this number, if there is one.
            pub fn from_number(number: u32) -> Option<Self> {
                match number {
                    $($number => Some(Self::$case),)*
                    _ => None,
                }
            }
        }

        impl fmt::Display for $name {
            fn fmt(&self, out: &mut fmt::Formatter<'_>) -> fmt::Result {
                out.write_str(match self { $(Self::$case => $word,)* })
            }
        }
    };
}

/// Bytes of stack that a thread should have free when it calls: `SHEAFWINCH_STACK` of the header, which says how it was found. Measured,
/// not proved.
pub const STACK_BYTES: usize = 131_072;

numbered! {
    /// A primitive.
    Primitive {
        /// Null.
        Null = 0 "Null",
        /// Bool.
        Bool = 1 "Bool",
        /// Int, under Number.
        Int = 2 "Int",
        /// Float, under Number.
        Float = 3 "Float",
        /// String.
        String = 4 "String",
        /// Path.
        Path = 5 "Path",
        /// Uri.
        Uri = 6 "Uri",
        /// Number, over Int and Float.
        Number = 7 "Number",
    }
}

numbered! {
    /// An operator on primitives.
    Operator {
        /// Add.
        Add = 0 "Add",
        /// Sub.
        Sub = 1 "Sub",
        /// Mul.
        Mul = 2 "Mul",
        /// Div.
        Div = 3 "Div",
    }
}

numbered! {
    /// A side of a variable.
    Side {
        /// Lower bounds: what fits under the variable.
        Lower = 0 "lower",
        /// Upper bounds: what the variable fits under.
        Upper = 1 "upper",
    }
}

numbered! {
    /// A region of an image.
    Region {
        /// The entries: shapes and variables.
        Entries = 1 "entries",
        /// The fields of attrsets.
        Fields = 2 "fields",
        /// The bounds of variables.
        Bounds = 3 "bounds",
        /// The pairs that questions have come by.
        Visited = 4 "visited",
        /// The pairs that the question asked has yet to work.
        Pending = 5 "pending",
        /// The pairs that were asked to be equal.
        Equals = 6 "equals",
    }
}

impl Region {
    /// Most records that the region may have room for.
    pub fn most(self) -> u32 {
        match self {
            Region::Entries => 4_096,
            Region::Fields => 16_384,
            _ => 65_536,
        }
    }
}

/// How many records each region has room for.
#[repr(C)]
#[derive(Clone, Copy, Debug, Default, PartialEq, Eq, Hash)]
pub struct Capacities {
    /// Entries, at most 4,096.
    pub entries: u32,
    /// Fields, at most 16,384.
    pub fields: u32,
    /// Bounds, at most 65,536.
    pub bounds: u32,
    /// Visited pairs, at most 65,536.
    pub visited: u32,
    /// Pending pairs, at most 65,536.
    pub pending: u32,
    /// Equal pairs, at most 65,536.
    pub equals: u32,
}

impl Capacities {
    /// The words of an image with this room, or `None` where a capacity is over its most.
    pub fn words(&self) -> Option<usize> {
        let regions = [
            (Region::Entries, self.entries, 7),
            (Region::Fields, self.fields, 3),
            (Region::Bounds, self.bounds, 3),
            (Region::Visited, self.visited, 2),
            (Region::Pending, self.pending, 2),
            (Region::Equals, self.equals, 2),
        ];
        let mut words = 27;
        for (region, capacity, size) in regions {
            if capacity > region.most() {
                return None;
            }
            words += capacity as usize * size;
        }
        Some(words)
    }
}

/// Why a question failed.
#[derive(Clone, Copy, Debug, PartialEq, Eq, Hash)]
pub enum Failure {
    /// A pair that does not fit.
    Mismatch {
        /// The entry that was to fit under `sup`.
        sub: u32,
        /// The entry that `sub` was to fit under.
        sup: u32,
    },
    /// A closed attrset lacks a field that is not optional.
    MissingField {
        /// The attrset that lacks it.
        sub: u32,
        /// The attrset that has it.
        sup: u32,
        /// The number of the name.
        name: u32,
    },
}

impl Failure {
    /// Its number in the header: 1 mismatch, 2 missing field.
    pub fn number(self) -> u32 {
        match self {
            Failure::Mismatch { .. } => 1,
            Failure::MissingField { .. } => 2,
        }
    }

    fn of(kind: u32, sub: u32, sup: u32, name: u32) -> Failure {
        match kind {
            1 => Failure::Mismatch { sub, sup },
            2 => Failure::MissingField { sub, sup, name },
            _ => unlike_header(),
        }
    }
}

impl fmt::Display for Failure {
    fn fmt(&self, out: &mut fmt::Formatter<'_>) -> fmt::Result {
        match self {
            Failure::Mismatch { sub, sup } => write!(out, "mismatch ({sub}, {sup})"),
            Failure::MissingField { sub, sup, name } => write!(out, "missing field {name} ({sub}, {sup})"),
        }
    }
}

impl Error for Failure {}

/// Why a call was refused. As an `Err` it says that the table's words are as they were. A step that is refused is no `Err`: it is
/// told in an [`Instalment`], with the steps before it, which are kept.
#[derive(Clone, Copy, Debug, PartialEq, Eq, Hash)]
pub enum Refusal {
    /// 1: the words are no well formed image. Only [`Table::from_words`] gives it.
    BadTable,
    /// 2: an entry, record or name number at or above its count.
    BadNumber,
    /// 3: a question is asked, and the call is not a read, work or abandon.
    Busy,
    /// 4: work or abandon, and no question is asked.
    Idle,
    /// 5: the first region, in order, that lacks a record.
    NoRoom(Region),
    /// 6: a new entry's spread would pass 1,024.
    TooDeep,
    /// 7: names of fields not strictly ascending, or not below the name count.
    BadFields,
    /// 8: a held question, and one in this table has failed: the first failure.
    Broken(Failure),
    /// 9: a capacity over its most, over 4,096 names, or a functor that is no name.
    BadCapacity,
    /// 10: exit at level 0, enter at 4,294,967,295.
    Level,
    /// 11: a bound or a level for an entry that is no variable.
    NotAVariable,
    /// 12: a name list that is malformed.
    BadNames,
}

impl Refusal {
    /// Its number in the header, 1 to 12.
    pub fn number(self) -> u32 {
        match self {
            Refusal::BadTable => 1,
            Refusal::BadNumber => 2,
            Refusal::Busy => 3,
            Refusal::Idle => 4,
            Refusal::NoRoom(_) => 5,
            Refusal::TooDeep => 6,
            Refusal::BadFields => 7,
            Refusal::Broken(_) => 8,
            Refusal::BadCapacity => 9,
            Refusal::Level => 10,
            Refusal::NotAVariable => 11,
            Refusal::BadNames => 12,
        }
    }

    fn of(answer: &Raw) -> Refusal {
        let v = answer.values;
        match answer.number {
            1 => Refusal::BadTable,
            2 => Refusal::BadNumber,
            3 => Refusal::Busy,
            4 => Refusal::Idle,
            5 => Refusal::NoRoom(known(Region::from_number(v[0]))),
            6 => Refusal::TooDeep,
            7 => Refusal::BadFields,
            8 => Refusal::Broken(Failure::of(v[0], v[1], v[2], v[3])),
            9 => Refusal::BadCapacity,
            10 => Refusal::Level,
            11 => Refusal::NotAVariable,
            12 => Refusal::BadNames,
            _ => unlike_header(),
        }
    }
}

impl fmt::Display for Refusal {
    fn fmt(&self, out: &mut fmt::Formatter<'_>) -> fmt::Result {
        match self {
            Refusal::BadTable => out.write_str("BAD TABLE"),
            Refusal::BadNumber => out.write_str("BAD NUMBER"),
            Refusal::Busy => out.write_str("BUSY"),
            Refusal::Idle => out.write_str("IDLE"),
            Refusal::NoRoom(region) => write!(out, "NO ROOM({})", region.number()),
            Refusal::TooDeep => out.write_str("TOO DEEP"),
            Refusal::BadFields => out.write_str("BAD FIELDS"),
            Refusal::Broken(failure) => write!(out, "BROKEN: {failure}"),
            Refusal::BadCapacity => out.write_str("BAD CAPACITY"),
            Refusal::Level => out.write_str("LEVEL"),
            Refusal::NotAVariable => out.write_str("NOT A VARIABLE"),
            Refusal::BadNames => out.write_str("BAD NAMES"),
        }
    }
}

impl Error for Refusal {}

/// What an instalment comes to.
#[derive(Clone, Copy, Debug, PartialEq, Eq, Hash)]
pub enum Answer {
    /// It fits; the question is over.
    Yes,
    /// The budget is used; the question is still asked.
    More,
    /// It does not fit; the question is over.
    Failed(Failure),
    /// It stopped before a step, by 5 or 6, and the question is still asked; or work, and no question was asked (4).
    Refused(Refusal),
}

impl fmt::Display for Answer {
    fn fmt(&self, out: &mut fmt::Formatter<'_>) -> fmt::Result {
        match self {
            Answer::Yes => out.write_str("yes"),
            Answer::More => out.write_str("MORE"),
            Answer::Failed(failure) => failure.fmt(out),
            Answer::Refused(refusal) => refusal.fmt(out),
        }
    }
}

/// One instalment of a question: the first is that of its opening, the later ones are those of [`Table::work`].
#[derive(Clone, Copy, Debug, PartialEq, Eq, Hash)]
pub struct Instalment {
    /// What it came to.
    pub answer: Answer,
    /// The steps of this instalment, also where it was refused.
    pub steps: u32,
}

impl fmt::Display for Instalment {
    fn fmt(&self, out: &mut fmt::Formatter<'_>) -> fmt::Result {
        let plural = if self.steps == 1 { "" } else { "s" };
        write!(out, "{}, {} step{plural}", self.answer, self.steps)
    }
}

/// An entry, as it is read.
#[derive(Clone, Copy, Debug, PartialEq, Eq, Hash)]
pub enum Entry {
    /// A variable.
    Variable {
        /// Its level.
        level: u32,
    },
    /// A primitive.
    Primitive(Primitive),
    /// A list.
    List {
        /// The entry of its elements.
        element: u32,
    },
    /// A lambda.
    Lambda {
        /// The entry that it takes.
        param: u32,
        /// The entry that it gives.
        body: u32,
    },
    /// An attrset.
    Attrset {
        /// The number of its first field record; 0 where it has no fields.
        first: u32,
        /// How many fields it has.
        count: u32,
        /// Whether it may have other fields.
        open: bool,
        /// The entry of its dynamic type, if it has one.
        dynamic: Option<u32>,
    },
    /// An entry with a label.
    Named {
        /// The entry.
        inner: u32,
        /// The label, never tested.
        label: u32,
    },
    /// A negation.
    Neg {
        /// What it negates.
        inner: u32,
    },
    /// An intersection.
    Inter {
        /// Its left side.
        left: u32,
        /// Its right side.
        right: u32,
    },
    /// A union.
    Union {
        /// Its left side.
        left: u32,
        /// Its right side.
        right: u32,
    },
}

impl fmt::Display for Entry {
    fn fmt(&self, out: &mut fmt::Formatter<'_>) -> fmt::Result {
        match self {
            Entry::Variable { level } => write!(out, "variable at level {level}"),
            Entry::Primitive(primitive) => primitive.fmt(out),
            Entry::List { element } => write!(out, "list {element}"),
            Entry::Lambda { param, body } => write!(out, "lambda({param}, {body})"),
            Entry::Attrset { first, count, open, dynamic } => {
                let open = if *open { "open" } else { "closed" };
                write!(out, "{open} attrset, {count} fields from {first}")?;
                dynamic.map_or(Ok(()), |d| write!(out, ", dynamic {d}"))
            }
            Entry::Named { inner, label } => write!(out, "named({inner}, {label})"),
            Entry::Neg { inner } => write!(out, "neg {inner}"),
            Entry::Inter { left, right } => write!(out, "inter({left}, {right})"),
            Entry::Union { left, right } => write!(out, "union({left}, {right})"),
        }
    }
}

/// A field of an attrset.
#[derive(Clone, Copy, Debug, PartialEq, Eq, Hash)]
pub struct Field {
    /// The number of its name.
    pub name: u32,
    /// Its entry.
    pub entry: u32,
    /// Whether it may be missing.
    pub optional: bool,
}

/// A record of a region, as it is read.
#[derive(Clone, Copy, Debug, PartialEq, Eq, Hash)]
pub enum Record {
    /// Of entries: the words kind, x, y, z, flags, spread, negation.
    Entry([u32; 7]),
    /// Of fields.
    Field(Field),
    /// Of bounds.
    Bound {
        /// The variable.
        variable: u32,
        /// The side.
        side: Side,
        /// The entry that bounds it.
        bound: u32,
    },
    /// Of visited.
    Visited {
        /// The left of the pair.
        sub: u32,
        /// The right of the pair.
        sup: u32,
    },
    /// Of pending.
    Pending {
        /// The left of the pair.
        sub: u32,
        /// The right of the pair.
        sup: u32,
    },
    /// Of equals.
    Equal {
        /// The left of the pair.
        left: u32,
        /// The right of the pair.
        right: u32,
    },
}

impl fmt::Display for Record {
    fn fmt(&self, out: &mut fmt::Formatter<'_>) -> fmt::Result {
        match self {
            Record::Entry([kind, x, y, z, flags, spread, negation]) => {
                write!(out, "entries ({kind}, {x}, {y}, {z}, {flags}, {spread}, {negation})")
            }
            Record::Field(field) => write!(out, "fields ({}, {}, {})", field.name, field.entry, u32::from(field.optional)),
            Record::Bound { variable, side, bound } => write!(out, "bounds ({variable}, {}, {bound})", side.number()),
            Record::Visited { sub, sup } => write!(out, "visited ({sub}, {sup})"),
            Record::Pending { sub, sup } => write!(out, "pending ({sub}, {sup})"),
            Record::Equal { left, right } => write!(out, "equals ({left}, {right})"),
        }
    }
}

/// A table: an image and the words that hold it. The words are a well formed image at all times. A clone is a table of its own.
#[derive(Clone, Debug, PartialEq, Eq)]
pub struct Table {
    words: Vec<u32>,
}

impl Table {
    /// A table with no records, level 0, no question asked. `names` is how many names there are, `functor` the number of the name
    /// `__functor`. Refusals: 9.
    pub fn start(names: u32, functor: Option<u32>, capacities: Capacities) -> Result<Table, Refusal> {
        // The word is the functor's number plus 1; the last number is over any table's names, with or without 1 more.
        let functor = functor.map_or(0, |n| n.saturating_add(1));
        // Without words for capacities over their most: start refuses them.
        let mut words = vec![0; capacities.words().unwrap_or(0)];
        // SAFETY: the words are ours, and are all there.
        done(unsafe { raw::sheafwinch_start(words.as_mut_ptr(), words.len(), names, functor, capacities) })?;
        Ok(Table { words })
    }

    /// A table from words that [`Table::words`] gave, or any others: they are checked. Refusals: 1.
    pub fn from_words(words: Vec<u32>) -> Result<Table, Refusal> {
        if check(&words) {
            Ok(Table { words })
        } else {
            Err(Refusal::BadTable)
        }
    }

    /// The words of the image, to store or send.
    pub fn words(&self) -> &[u32] {
        &self.words
    }

    /// The words of the image, and the table is gone.
    pub fn into_words(self) -> Vec<u32> {
        self.words
    }

    /// How many records a region has.
    pub fn count(&self, region: Region) -> u32 {
        self.words[8 + 3 * region.number() as usize]
    }

    /// How many records a region has room for.
    pub fn capacity(&self, region: Region) -> u32 {
        self.words[7 + 3 * region.number() as usize]
    }

    /// Whether a question is asked.
    pub fn asked(&self) -> bool {
        self.words[1] != 0
    }

    /// The first failure of a question in this table, which refuses held questions.
    pub fn broken(&self) -> Option<Failure> {
        match self.words[2] {
            0 => None,
            kind => Some(Failure::of(kind, self.words[3], self.words[4], self.words[5])),
        }
    }

    /// The current level.
    pub fn level(&self) -> u32 {
        self.words[6]
    }

    /// How many names there are.
    pub fn names(&self) -> u32 {
        self.words[7]
    }

    // SAFETY of every call below: the words that are lent are a live Vec's, or a slice's, with its own length; what is written is
    // borrowed alone, by `&mut self`; and the library keeps no pointer.

    /// Makes a variable at the current level and gives its number. Refusals: 3, 5.
    pub fn make_variable(&mut self) -> Result<u32, Refusal> {
        value(unsafe { raw::sheafwinch_make_variable(self.words.as_mut_ptr(), self.words.len()) })
    }

    /// Makes a primitive and gives its number. Refusals: 3, 5.
    pub fn make_primitive(&mut self, which: Primitive) -> Result<u32, Refusal> {
        value(unsafe { raw::sheafwinch_make_primitive(self.words.as_mut_ptr(), self.words.len(), which.number()) })
    }

    /// Makes a list and gives its number. Refusals: 3, 2, 5.
    pub fn make_list(&mut self, element: u32) -> Result<u32, Refusal> {
        value(unsafe { raw::sheafwinch_make_list(self.words.as_mut_ptr(), self.words.len(), element) })
    }

    /// Makes a lambda and gives its number. Refusals: 3, 2, 5.
    pub fn make_lambda(&mut self, param: u32, body: u32) -> Result<u32, Refusal> {
        value(unsafe { raw::sheafwinch_make_lambda(self.words.as_mut_ptr(), self.words.len(), param, body) })
    }

    /// Makes an attrset and gives its number; names strictly ascending. Refusals: 3, 7, 2, 5.
    pub fn make_attrset(&mut self, fields: &[Field], open: bool, dynamic: Option<u32>) -> Result<u32, Refusal> {
        let list: Vec<u32> = fields.iter().flat_map(|f| [f.name, f.entry, u32::from(f.optional)]).collect();
        value(unsafe {
            raw::sheafwinch_make_attrset(
                self.words.as_mut_ptr(),
                self.words.len(),
                list.as_ptr(),
                list.len(),
                u32::from(open),
                u32::from(dynamic.is_some()),
                dynamic.unwrap_or(0),
            )
        })
    }

    /// Makes an entry with a label, which is any word, and gives its number. Refusals: 3, 2, 5, 6.
    pub fn make_named(&mut self, inner: u32, label: u32) -> Result<u32, Refusal> {
        value(unsafe { raw::sheafwinch_make_named(self.words.as_mut_ptr(), self.words.len(), inner, label) })
    }

    /// The number of an entry's negation: one that stands there, or a new one. May make more than one entry. Refusals: 3, 2, 5, 6.
    pub fn make_neg(&mut self, n: u32) -> Result<u32, Refusal> {
        value(unsafe { raw::sheafwinch_make_neg(self.words.as_mut_ptr(), self.words.len(), n) })
    }

    /// Makes an intersection and gives its number. Refusals: 3, 2, 5, 6.
    pub fn make_inter(&mut self, left: u32, right: u32) -> Result<u32, Refusal> {
        value(unsafe { raw::sheafwinch_make_inter(self.words.as_mut_ptr(), self.words.len(), left, right) })
    }

    /// Makes a union and gives its number. Refusals: 3, 2, 5, 6.
    pub fn make_union(&mut self, left: u32, right: u32) -> Result<u32, Refusal> {
        value(unsafe { raw::sheafwinch_make_union(self.words.as_mut_ptr(), self.words.len(), left, right) })
    }

    /// Sets the default mark of an entry. Refusals: 3, 2.
    pub fn mark(&mut self, n: u32) -> Result<(), Refusal> {
        done(unsafe { raw::sheafwinch_mark(self.words.as_mut_ptr(), self.words.len(), n) })
    }

    /// Puts a bound of a variable on a side. Refusals: 3, 2, 11, 5.
    pub fn put_bound(&mut self, variable: u32, side: Side, bound: u32) -> Result<(), Refusal> {
        done(unsafe { raw::sheafwinch_put_bound(self.words.as_mut_ptr(), self.words.len(), variable, side.number(), bound) })
    }

    /// Enters a level. Refusals: 3, 10.
    pub fn enter(&mut self) -> Result<(), Refusal> {
        done(unsafe { raw::sheafwinch_enter(self.words.as_mut_ptr(), self.words.len()) })
    }

    /// Leaves a level. Refusals: 3, 10.
    pub fn exit(&mut self) -> Result<(), Refusal> {
        done(unsafe { raw::sheafwinch_exit(self.words.as_mut_ptr(), self.words.len()) })
    }

    /// Sets a variable's level. Refusals: 3, 2, 11.
    pub fn set_level(&mut self, variable: u32, level: u32) -> Result<(), Refusal> {
        done(unsafe { raw::sheafwinch_set_level(self.words.as_mut_ptr(), self.words.len(), variable, level) })
    }

    /// Opens the question whether sub fits under sup, and works it, at most `budget` steps: the first instalment. Budget 0 opens it
    /// and answers MORE, 0 steps. After MORE [`Table::work`] goes on.
    ///
    /// `Err` is a refusal at the opening: 3, 2, 5. No question is asked by it, and every word is as it was. A step of the instalment
    /// that is refused, by 5 or 6, is `Ok` with [`Answer::Refused`]: the steps before it are kept, and the question is asked.
    ///
    /// ```
    /// use sheafwinch::{Answer, Capacities, Instalment, Primitive, Refusal, Region, Table};
    ///
    /// let room = Capacities { entries: 4, visited: 1, pending: 1, ..Capacities::default() };
    /// let mut table = Table::start(0, None, room)?;
    /// let int = table.make_primitive(Primitive::Int)?;
    /// let ints = table.make_list(int)?;
    /// let number = table.make_primitive(Primitive::Number)?;
    /// let numbers = table.make_list(number)?;
    ///
    /// // Refused at the opening: nothing happened.
    /// assert_eq!(table.open(ints, 4, 100), Err(Refusal::BadNumber));
    /// assert!(!table.asked());
    /// // Refused at its second step: the first is kept.
    /// let no_room = Answer::Refused(Refusal::NoRoom(Region::Visited));
    /// assert_eq!(table.open(ints, numbers, 100), Ok(Instalment { answer: no_room, steps: 1 }));
    /// assert!(table.asked());
    /// # Ok::<(), Refusal>(())
    /// ```
    pub fn open(&mut self, sub: u32, sup: u32, budget: u32) -> Result<Instalment, Refusal> {
        opened(unsafe { raw::sheafwinch_open(self.words.as_mut_ptr(), self.words.len(), 0, sub, sup, budget) })
    }

    /// Opens the same, held: refused once a question in this table has failed. `Err`: 3, 8, 2, 5.
    ///
    /// ```
    /// use sheafwinch::{Answer, Capacities, Failure, Primitive, Refusal, Table};
    ///
    /// let room = Capacities { entries: 2, visited: 2, pending: 1, ..Capacities::default() };
    /// let mut table = Table::start(0, None, room)?;
    /// let int = table.make_primitive(Primitive::Int)?;
    /// let number = table.make_primitive(Primitive::Number)?;
    /// let mismatch = Failure::Mismatch { sub: number, sup: int };
    /// assert_eq!(table.open_held(number, int, 100)?.answer, Answer::Failed(mismatch));
    /// // Resent, it is not worked, and told what failed before.
    /// assert_eq!(table.open_held(number, int, 100), Err(Refusal::Broken(mismatch)));
    /// # Ok::<(), Refusal>(())
    /// ```
    pub fn open_held(&mut self, sub: u32, sup: u32, budget: u32) -> Result<Instalment, Refusal> {
        opened(unsafe { raw::sheafwinch_open(self.words.as_mut_ptr(), self.words.len(), 1, sub, sup, budget) })
    }

    /// Opens the question whether each of two entries fits under the other, and works it as [`Table::open`] does. `Err`: 3, 2, 5.
    ///
    /// ```
    /// use sheafwinch::{Answer, Capacities, Instalment, Primitive, Table};
    ///
    /// let room = Capacities { entries: 2, visited: 2, pending: 2, equals: 1, ..Capacities::default() };
    /// let mut table = Table::start(0, None, room)?;
    /// let text = table.make_primitive(Primitive::String)?;
    /// let labelled = table.make_named(text, 12)?;
    /// assert_eq!(table.open_equal(text, labelled, 1), Ok(Instalment { answer: Answer::More, steps: 1 }));
    /// assert_eq!(table.work(100), Instalment { answer: Answer::Yes, steps: 3 });
    /// # Ok::<(), sheafwinch::Refusal>(())
    /// ```
    pub fn open_equal(&mut self, left: u32, right: u32, budget: u32) -> Result<Instalment, Refusal> {
        opened(unsafe { raw::sheafwinch_open_equal(self.words.as_mut_ptr(), self.words.len(), 0, left, right, budget) })
    }

    /// Opens the same, held: refused once a question in this table has failed. `Err`: 3, 8, 2, 5.
    pub fn open_equal_held(&mut self, left: u32, right: u32, budget: u32) -> Result<Instalment, Refusal> {
        opened(unsafe { raw::sheafwinch_open_equal(self.words.as_mut_ptr(), self.words.len(), 1, left, right, budget) })
    }

    /// Works the question that is asked, at most `budget` steps: a later instalment. After MORE the next work goes on where this one
    /// stopped. Refusals: 4, and at a step 5, 6: these keep the steps before it and leave the question asked.
    pub fn work(&mut self, budget: u32) -> Instalment {
        instalment(unsafe { raw::sheafwinch_work(self.words.as_mut_ptr(), self.words.len(), budget) })
    }

    /// Gives up the question that is asked. What its steps added stays, visited pairs too, so a later question may say yes for
    /// nothing: open no more in that table. Refusals: 4.
    pub fn abandon(&mut self) -> Result<(), Refusal> {
        done(unsafe { raw::sheafwinch_abandon(self.words.as_mut_ptr(), self.words.len()) })
    }

    /// Reads an entry. Refusals: 2.
    pub fn entry(&self, n: u32) -> Result<Entry, Refusal> {
        let v = values(unsafe { raw::sheafwinch_entry(self.words.as_ptr(), self.words.len(), n) })?;
        Ok(match v[0] {
            0 => Entry::Variable { level: v[1] },
            1 => Entry::Primitive(known(Primitive::from_number(v[1]))),
            2 => Entry::List { element: v[1] },
            3 => Entry::Lambda { param: v[1], body: v[2] },
            4 => Entry::Attrset { first: v[1], count: v[2], open: v[3] != 0, dynamic: (v[4] != 0).then_some(v[5]) },
            5 => Entry::Named { inner: v[1], label: v[2] },
            6 => Entry::Neg { inner: v[1] },
            7 => Entry::Inter { left: v[1], right: v[2] },
            8 => Entry::Union { left: v[1], right: v[2] },
            _ => unlike_header(),
        })
    }

    /// Reads record n of a region. Refusals: 2.
    pub fn record(&self, region: Region, n: u32) -> Result<Record, Refusal> {
        let told = unsafe { raw::sheafwinch_record(self.words.as_ptr(), self.words.len(), region.number(), n) };
        let [_, a, b, c, d, e, f, g] = values(told)?;
        Ok(match region {
            Region::Entries => Record::Entry([a, b, c, d, e, f, g]),
            Region::Fields => Record::Field(Field { name: a, entry: b, optional: c != 0 }),
            Region::Bounds => Record::Bound { variable: a, side: known(Side::from_number(b)), bound: c },
            Region::Visited => Record::Visited { sub: a, sup: b },
            Region::Pending => Record::Pending { sub: a, sup: b },
            Region::Equals => Record::Equal { left: a, right: b },
        })
    }

    /// Whether two entries are disjoint by their shapes and so share no value; no says that nothing is known. Refusals: 2.
    pub fn disjoint(&self, left: u32, right: u32) -> Result<bool, Refusal> {
        Ok(value(unsafe { raw::sheafwinch_disjoint(self.words.as_ptr(), self.words.len(), left, right) })? != 0)
    }
}

/// Whether words are a well formed image.
pub fn check(words: &[u32]) -> bool {
    unsafe { raw::sheafwinch_check(words.as_ptr(), words.len()) }
}

/// A name list: bytes that may be one; every call checks. See the header for the form.
#[derive(Clone, Copy, Debug, PartialEq, Eq)]
pub struct Names<'a>(pub &'a [u8]);

impl<'a> Names<'a> {
    /// Whether the bytes are a name list. Refusals: 12.
    pub fn check(self) -> Result<(), Refusal> {
        done(unsafe { raw::sheafwinch_check_names(self.0.as_ptr(), self.0.len()) })
    }

    /// Whether they are, and have a name n. Refusals: 12, 2.
    pub fn check_name(self, n: u32) -> Result<(), Refusal> {
        done(unsafe { raw::sheafwinch_check_name(self.0.as_ptr(), self.0.len(), n) })
    }

    /// How many names there are. Refusals: 12.
    pub fn count(self) -> Result<u32, Refusal> {
        value(unsafe { raw::sheafwinch_count_names(self.0.as_ptr(), self.0.len()) })
    }

    /// The part of the list that holds name n. Refusals: 12, 2.
    pub fn show(self, n: u32) -> Result<&'a [u8], Refusal> {
        let v = values(unsafe { raw::sheafwinch_show_name(self.0.as_ptr(), self.0.len(), n) })?;
        Ok(&self.0[v[0] as usize..][..v[1] as usize])
    }

    /// How two names compare, by unsigned bytes, a proper prefix first. Refusals: 12, 2.
    pub fn compare(self, left: u32, right: u32) -> Result<Ordering, Refusal> {
        Ok(match value(unsafe { raw::sheafwinch_compare_names(self.0.as_ptr(), self.0.len(), left, right) })? {
            0 => Ordering::Less,
            1 => Ordering::Equal,
            2 => Ordering::Greater,
            _ => unlike_header(),
        })
    }

    /// The number of the name that has these bytes, if one has. Refusals: 12.
    pub fn find(self, name: &[u8]) -> Result<Option<u32>, Refusal> {
        perhaps(unsafe { raw::sheafwinch_find_name(self.0.as_ptr(), self.0.len(), name.as_ptr(), name.len()) })
    }
}

impl Operator {
    /// The result on two primitives, if it is known.
    pub fn resolve(self, left: Primitive, right: Primitive) -> Option<Primitive> {
        primitive(unsafe { raw::sheafwinch_resolve(self.number(), left.number(), right.number()) })
    }

    /// The result as far as the left primitive alone settles it.
    pub fn from_left(self, left: Primitive) -> Option<Primitive> {
        primitive(unsafe { raw::sheafwinch_from_left(self.number(), left.number()) })
    }

    /// The primitive that bounds operands and result at once, if there is one.
    pub fn at_once(self) -> Option<Primitive> {
        primitive(unsafe { raw::sheafwinch_at_once(self.number()) })
    }
}

fn unlike_header() -> ! {
    panic!("libsheafwinch.a answered what its header does not list: is it of another version?")
}

fn known<T>(case: Option<T>) -> T {
    case.unwrap_or_else(|| unlike_header())
}

fn values(answer: Raw) -> Result<[u32; 8], Refusal> {
    match answer.kind {
        raw::DONE => Ok(answer.values),
        raw::REFUSED => Err(Refusal::of(&answer)),
        _ => unlike_header(),
    }
}

fn instalment(answer: Raw) -> Instalment {
    let v = answer.values;
    let came_to = match answer.kind {
        raw::YES => Answer::Yes,
        raw::MORE => Answer::More,
        raw::FAILED => Answer::Failed(Failure::of(answer.number, v[0], v[1], v[2])),
        raw::REFUSED => Answer::Refused(Refusal::of(&answer)),
        _ => unlike_header(),
    };
    Instalment { answer: came_to, steps: answer.steps }
}

fn opened(answer: Raw) -> Result<Instalment, Refusal> {
    match answer.kind {
        raw::UNOPENED => Err(Refusal::of(&answer)),
        _ => Ok(instalment(answer)),
    }
}

fn done(answer: Raw) -> Result<(), Refusal> {
    values(answer).map(|_| ())
}

fn value(answer: Raw) -> Result<u32, Refusal> {
    values(answer).map(|v| v[0])
}

fn perhaps(answer: Raw) -> Result<Option<u32>, Refusal> {
    values(answer).map(|v| (answer.count != 0).then_some(v[0]))
}

fn primitive(answer: Raw) -> Option<Primitive> {
    match perhaps(answer) {
        Ok(number) => number.map(|n| known(Primitive::from_number(n))),
        Err(_) => unlike_header(),
    }
}

#[cfg(test)]
mod tests {
    use super::*;

    /// No call of this crate makes such a table.
    #[test]
    fn words_that_are_no_image_are_refused_at_the_opening() {
        let room = Capacities { entries: 1, visited: 1, pending: 2, equals: 1, ..Capacities::default() };
        let mut table = Table::start(0, None, room).unwrap();
        table.make_variable().unwrap();
        table.words.pop();
        let before = table.clone();
        for open in [Table::open, Table::open_held, Table::open_equal, Table::open_equal_held] {
            assert_eq!(open(&mut table, 0, 0, 9), Err(Refusal::BadTable));
            assert_eq!(table, before);
        }
    }
}
