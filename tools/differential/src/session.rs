//! Both sides at work on one script, compared after every line.

use crate::compare::{self, same, Compared, Difference};
use crate::image::Image;
use crate::room::Needs;
use crate::script::{Line, Make, Names};
use crate::sides::{make_oracles, make_ours, put_bound_oracles};
use crate::tally::Tally;
use lang_check::table::Table as Oracle;
use shared::layout::VARIABLE;
use sheafwinch::{Capacities, Failure, Refusal, Side, Table};
use std::panic::{self, AssertUnwindSafe};

/// Why a script does not go on.
pub enum Fault {
    Differs(Box<Difference>),
    /// A line names an entry that there is not; so a script may be that lost a line.
    Unfit,
}

impl From<Box<Difference>> for Fault {
    fn from(difference: Box<Difference>) -> Fault {
        Fault::Differs(difference)
    }
}

pub type Ran = Result<(), Fault>;

pub struct Session<'a> {
    pub(crate) names: Names,
    pub(crate) table: Table,
    pub(crate) oracle: Oracle,
    /// The first question that failed.
    pub(crate) failed: Option<Failure>,
    /// Our words before a call.
    pub(crate) before: Vec<u32>,
    pub(crate) tally: &'a mut Tally,
}

impl<'a> Session<'a> {
    pub fn start(names: Names, room: Capacities, tally: &'a mut Tally) -> Session<'a> {
        let functor = names.iter().position(|&name| name == "__functor").map(|n| n as u32);
        let table = Table::start(names.len() as u32, functor, room).expect("capacities below their most");
        Session { names, table, oracle: Oracle::default(), failed: None, before: Vec::new(), tally }
    }

    pub fn image(&self) -> Image<'_> {
        Image::of(&self.table)
    }

    /// How many entries both sides have.
    pub fn len(&self) -> u32 {
        self.oracle.len()
    }

    /// Runs a line on both sides. A panic of either is a difference, and the session is over.
    pub fn line(&mut self, line: &Line) -> Ran {
        let ran = panic::catch_unwind(AssertUnwindSafe(|| self.run(line)));
        ran.unwrap_or_else(|_| {
            let said = "see standard error";
            let difference = Difference { what: "a side panicked".into(), ours: said.into(), oracles: said.into() };
            Err(Fault::Differs(Box::new(difference)))
        })
    }

    fn run(&mut self, line: &Line) -> Ran {
        self.before.clear();
        self.before.extend_from_slice(self.table.words());
        match line {
            Line::Make(make) => self.make(make)?,
            Line::Mark(n) => {
                same("refusal of mark", self.table.mark(*n).err(), None)?;
                self.oracle.mark(*n);
            }
            Line::Bound { variable, side, bound } => self.put_bound(*variable, *side, *bound)?,
            Line::Level(level) => self.set_table_level(*level)?,
            Line::SetLevel { variable, level } => self.set_level(*variable, *level)?,
            Line::Disjoint(left, right) => {
                self.tally.disjoint += 1;
                same("disjoint", self.table.disjoint(*left, *right), Ok(self.oracle.disjoint(*left, *right)))?;
            }
            Line::Ask(question) => return self.ask(question),
        }
        Ok(())
    }

    /// What is compared at a script's end: all records, and that our words are a well formed image.
    pub fn end(&mut self) -> Ran {
        compare::records(&self.table, &self.oracle, self.names)?;
        Ok(same("well formed", sheafwinch::check(self.table.words()), true)?)
    }

    fn make(&mut self, make: &Make) -> Compared {
        self.tally.makes += 1;
        match make_ours(&mut self.table, make) {
            Ok(ours) => {
                same("number of the entry made", ours, make_oracles(&mut self.oracle, make, self.names))?;
                same("entries", self.image().len(), self.oracle.len())
            }
            Err(refusal) => {
                let mut beyond = self.oracle.clone();
                make_oracles(&mut beyond, make, self.names);
                let mut needs = Needs::of(&self.table, &beyond);
                if let Make::Attrset { fields, .. } = make {
                    needs.fields += fields.len() as u32;
                }
                self.refused(refusal, needs.refusal(&self.table))
            }
        }
    }

    fn put_bound(&mut self, variable: u32, side: Side, bound: u32) -> Compared {
        let ours = self.table.put_bound(variable, side, bound);
        if self.image().kind(variable) != VARIABLE {
            return self.not_a_variable(ours);
        }
        match ours {
            Ok(()) => put_bound_oracles(&mut self.oracle, variable, side, bound),
            Err(refusal) => {
                let mut beyond = self.oracle.clone();
                put_bound_oracles(&mut beyond, variable, side, bound);
                return self.refused(refusal, Needs::of(&self.table, &beyond).refusal(&self.table));
            }
        }
        Ok(())
    }

    fn set_table_level(&mut self, level: u32) -> Compared {
        while self.table.level() < level {
            same("refusal of enter", self.table.enter().err(), None)?;
            self.oracle.enter();
        }
        while self.table.level() > level {
            same("refusal of exit", self.table.exit().err(), None)?;
            self.oracle.exit();
        }
        same("level", self.table.level(), self.oracle.level())
    }

    fn set_level(&mut self, variable: u32, level: u32) -> Compared {
        let ours = self.table.set_level(variable, level);
        if self.image().kind(variable) != VARIABLE {
            return self.not_a_variable(ours);
        }
        same("refusal of a level", ours.err(), None)?;
        self.oracle.set_level(variable, level);
        Ok(())
    }

    /// The Rust asserts where an entry is no variable, so it is not called.
    fn not_a_variable(&mut self, ours: Result<(), Refusal>) -> Compared {
        same("refusal for a concrete entry", ours, Err(Refusal::NotAVariable))?;
        self.refused(Refusal::NotAVariable, Some(Refusal::NotAVariable))
    }

    /// A call that was refused: that this is the refusal it deserves, and that no word is changed.
    fn refused(&mut self, refusal: Refusal, deserved: Option<Refusal>) -> Compared {
        self.tally.calls_refused.add(refusal);
        same("refusal, and what the Rust's records call for", Some(refusal), deserved)?;
        self.unchanged()
    }

    pub(crate) fn unchanged(&self) -> Compared {
        same("whether a refused call left the words as found", self.table.words() == self.before, true)
    }
}
