//! Questions on both sides.

use crate::compare::{self, same, Compared};
use crate::image::Image;
use crate::room::Needs;
use crate::rules::{Rule, Rules};
use crate::script::{Names, Question};
use crate::session::{Fault, Ran, Session};
use lang_check::table;
use shared::layout::VARIABLE;
use sheafwinch::{Answer, Failure, Instalment, Refusal, Region};

/// How many visited pairs, bounds and marks there were before a question.
struct Before {
    visited: usize,
    bounds: usize,
    marks: u32,
}

impl Before {
    fn of(image: Image) -> Before {
        Before { visited: image.visited().len(), bounds: image.bounds().len(), marks: image.marks() }
    }
}

/// An answer that both sides can give.
#[derive(Debug, PartialEq)]
enum Told {
    Yes,
    More,
    Failed(Failure),
}

impl Session<'_> {
    /// Opens a question, works it, and compares what comes of it. A refusal at the opening and one of a step are not the same.
    pub(crate) fn ask(&mut self, question: &Question) -> Ran {
        self.tally.questions += 1;
        self.tally.openings[question.opening() as usize] += 1;
        let deserved = self.refusal_at_opening(question);
        let before = Before::of(self.image());
        let opened = self.open(question, question.budget(0, 0));
        same("refusal at the opening, and what the Rust's records call for", opened.err(), deserved)?;
        match opened {
            Err(refusal) => {
                self.tally.openings_refused.add(refusal);
                Ok(self.unchanged()?)
            }
            Ok(first) => self.work(question, first, &before),
        }
    }

    /// Opens a question on our side, with a budget.
    fn open(&mut self, question: &Question, budget: u32) -> Result<Instalment, Refusal> {
        let Question { left, right, .. } = *question;
        match (question.equal, question.held) {
            (false, false) => self.table.open(left, right, budget),
            (false, true) => self.table.open_held(left, right, budget),
            (true, false) => self.table.open_equal(left, right, budget),
            (true, true) => self.table.open_equal_held(left, right, budget),
        }
    }

    /// Why a question must not be opened.
    fn refusal_at_opening(&self, question: &Question) -> Option<Refusal> {
        if let (true, Some(failure)) = (question.held, self.failed) {
            return Some(Refusal::Broken(failure));
        }
        let pending = if question.equal { 2 } else { 1 };
        if pending > self.table.capacity(Region::Pending) {
            return Some(Refusal::NoRoom(Region::Pending));
        }
        let records = question.equal && question.left != question.right;
        let full = self.oracle.equals().len() as u32 == self.table.capacity(Region::Equals);
        (records && full).then_some(Refusal::NoRoom(Region::Equals))
    }

    /// Works a question on our side, after its first instalment, then on the other, and compares.
    fn work(&mut self, question: &Question, first: Instalment, before: &Before) -> Ran {
        let Instalment { answer, steps } = self.work_ours(question, first)?;
        let (ours, limit) = match answer {
            Answer::Yes => (Told::Yes, question.limit),
            Answer::More => (Told::More, question.limit),
            Answer::Failed(failure) => (Told::Failed(failure), question.limit),
            Answer::Refused(refusal) => {
                self.refused_step(question, steps, refusal)?;
                (Told::More, steps)
            }
        };
        let (oracles, oracles_steps) = self.oracle.ask(question.equal, question.left, question.right, limit);
        let oracles = told(oracles, self.names);
        same("answer", (&ours, steps), (&oracles, oracles_steps))?;
        compare::records(&self.table, &self.oracle, self.names)?;
        self.count(answer, steps, before);
        self.finish(ours)?;
        Ok(())
    }

    /// All instalments on our side, the first of them worked by the opening.
    fn work_ours(&mut self, question: &Question, first: Instalment) -> Result<Instalment, Fault> {
        let mut told = first;
        let mut steps = 0;
        for number in 0.. {
            self.tally.instalments += 1;
            let budget = question.budget(number, steps);
            same("whether an instalment keeps to its budget", told.steps <= budget, true)?;
            steps += told.steps;
            if told.answer != Answer::More {
                if let (0, Answer::Refused(refusal)) = (number, told.answer) {
                    self.tally.first_refused.add(refusal);
                }
                break;
            }
            same("steps of an instalment that answers MORE, and its budget", told.steps, budget)?;
            if steps == question.limit {
                break;
            }
            if question.pauses {
                self.pause(question, steps)?;
            }
            told = self.table.work(question.budget(number + 1, steps));
        }
        Ok(Instalment { answer: told.answer, steps })
    }

    /// At a pause: the records are those of the Rust stopped there, and another call is refused.
    fn pause(&mut self, question: &Question, steps: u32) -> Ran {
        self.tally.pauses += 1;
        let mut stopped = self.oracle.clone();
        let (answer, oracles_steps) = stopped.ask(question.equal, question.left, question.right, steps);
        same("answer at a pause", (&Told::More, steps), (&told(answer, self.names), oracles_steps))?;
        compare::records(&self.table, &stopped, self.names)?;
        self.before.copy_from_slice(self.table.words());
        same("a call while a question is asked, and BUSY", self.table.make_variable(), Err(Refusal::Busy))?;
        same("an opening while a question is asked, and BUSY", self.open(question, 1), Err(Refusal::Busy))?;
        Ok(self.unchanged()?)
    }

    /// A step that was refused: that the Rust, let one step further, has more records than there is room for, or too deep an entry;
    /// and that the same step is refused again.
    fn refused_step(&mut self, question: &Question, steps: u32, refusal: Refusal) -> Compared {
        self.tally.steps_refused.add(refusal);
        let mut beyond = self.oracle.clone();
        beyond.ask(question.equal, question.left, question.right, steps + 1);
        let mut needs = Needs::of(&self.table, &beyond);
        if let Some(&[sub, sup]) = self.image().pending().last() {
            let through = if self.image().kind(sub) == VARIABLE { beyond.lower(sub).len() } else { beyond.upper(sup).len() };
            needs.pending -= 1;
            needs.pending += Rules::of(&self.table).consequences(sub, sup, through as u32);
        }
        same("refusal of a step, and what the Rust's records call for", Some(refusal), needs.refusal(&self.table))?;
        self.before.copy_from_slice(self.table.words());
        let again = Instalment { answer: Answer::Refused(refusal), steps: 0 };
        same("a refused step again, and the same refusal", self.table.work(1), again)?;
        self.unchanged()
    }

    /// After a question: abandons it where it is still asked; the first failure is kept.
    fn finish(&mut self, ours: Told) -> Compared {
        same("whether a question is asked", self.table.asked(), ours == Told::More)?;
        match ours {
            Told::More => same("refusal of abandon", self.table.abandon().err(), None)?,
            Told::Failed(failure) => self.failed = self.failed.or(Some(failure)),
            Told::Yes => {}
        }
        same("pending pairs of no question", self.image().pending().len(), 0)?;
        same("first failure", self.table.broken(), self.failed)
    }

    /// Counts an answer and the rules of the pairs visited.
    fn count(&mut self, answer: Answer, steps: u32, before: &Before) {
        let image = Image::of(&self.table);
        let rules = Rules::of(&self.table);
        let tally = &mut *self.tally;
        tally.answer(answer);
        tally.steps += u64::from(steps);
        tally.longest = tally.longest.max(steps);
        let pairs = &image.visited()[before.visited..];
        tally.visited_before += u64::from(steps) - pairs.len() as u64;
        let mut with_variable = 0;
        for &[sub, sup] in pairs {
            let rule = rules.rule(sub, sup);
            tally.hits.0[rule as usize] += 1;
            match rule {
                Rule::VariableVariable | Rule::VariableConcrete | Rule::ConcreteVariable => with_variable += 1,
                Rule::Attrsets => tally.fields(&rules.fields(sub, sup)),
                _ => {}
            }
        }
        tally.bounds_there += with_variable - (image.bounds().len() - before.bounds) as u64;
        tally.marks_passed += u64::from(image.marks() - before.marks);
    }
}

fn told(answer: table::Answer, names: Names) -> Told {
    match answer {
        table::Answer::Yes => Told::Yes,
        table::Answer::More => Told::More,
        table::Answer::Mismatch { sub, sup } => Told::Failed(Failure::Mismatch { sub, sup }),
        table::Answer::Missing { sub, sup, name } => {
            let name = names.iter().position(|&n| n == name.as_str()).expect("a name of the script") as u32;
            Told::Failed(Failure::MissingField { sub, sup, name })
        }
    }
}
