//! The smallest script that still fails, as far as leaving out one thing at a time leads to it.

use crate::compare::Difference;
use crate::family::ROOMY;
use crate::script::{Line, Make, Question, Script};
use crate::session::{Fault, Session};
use crate::tally::Tally;
use sheafwinch::Field;

/// A script that differs at its last line, with what each side says there, and how many entries there are before each line.
pub struct Failing {
    pub script: Script,
    pub difference: Box<Difference>,
    counts: Vec<u32>,
}

impl Failing {
    /// The script up to the line that differs, if one does.
    pub fn of(mut script: Script) -> Option<Failing> {
        let Replay { counts, fault } = replay(&script);
        match fault {
            Some(Fault::Differs(difference)) => {
                script.lines.truncate(counts.len() - 1);
                Some(Failing { script, difference, counts })
            }
            _ => None,
        }
    }

    pub fn shrunk(mut self) -> Failing {
        while let Some(smaller) = self.smaller() {
            self = smaller;
        }
        self
    }

    /// One that still fails with fewer lines, the last tried first; or with a line that says less.
    fn smaller(&self) -> Option<Failing> {
        let lines = (0..self.script.lines.len()).rev();
        let shorter = lines.map(|line| self.script.without(line, &self.counts)).find_map(Failing::of);
        shorter.or_else(|| self.script.simpler().into_iter().find_map(Failing::of))
    }
}

/// How a script ran that stands there already.
struct Replay {
    /// How many entries there were before each line that ran, and after the last.
    counts: Vec<u32>,
    fault: Option<Fault>,
}

fn replay(script: &Script) -> Replay {
    let mut tally = Tally::default();
    let mut session = Session::start(script.names, script.room, &mut tally);
    let mut counts = vec![0];
    for line in &script.lines {
        let ran = if line.fits(session.len()) { session.line(line) } else { Err(Fault::Unfit) };
        counts.push(session.len());
        if let Err(fault) = ran {
            return Replay { counts, fault: Some(fault) };
        }
    }
    Replay { counts, fault: session.end().err() }
}

impl Script {
    /// The script without a line and what needs it, the other entries renumbered. `counts` has how many entries there are before each
    /// line and after the last.
    fn without(&self, line: usize, counts: &[u32]) -> Script {
        let mut numbers = Vec::new();
        let mut lines = Vec::new();
        let mut next = 0;
        for (i, kept) in self.lines.iter().enumerate() {
            let kept = if i == line { None } else { kept.clone().renumbered(&numbers) };
            for _ in counts[i]..counts[i + 1] {
                numbers.push(kept.as_ref().map(|_| next));
                next += u32::from(kept.is_some());
            }
            lines.extend(kept);
        }
        Script { lines, ..*self }
    }

    /// The scripts that say less in one line, or give more room.
    fn simpler(&self) -> Vec<Script> {
        let mut found = Vec::new();
        if self.room != ROOMY {
            found.push(Script { room: ROOMY, ..self.clone() });
        }
        for (i, line) in self.lines.iter().enumerate() {
            for simpler in line.simpler() {
                let mut script = self.clone();
                script.lines[i] = simpler;
                found.push(script);
            }
        }
        found
    }
}

impl Line {
    /// Whether every entry that it names is below a count.
    fn fits(&self, count: u32) -> bool {
        let mut fits = true;
        self.clone().each(&mut |e| fits &= *e < count);
        fits
    }

    /// The line with its entries renumbered; none where it names one that has no number now.
    fn renumbered(mut self, numbers: &[Option<u32>]) -> Option<Line> {
        let mut fits = true;
        self.each(&mut |e| match numbers[*e as usize] {
            Some(number) => *e = number,
            None => fits = false,
        });
        fits.then_some(self)
    }

    /// The lines that say less than it, or name lower entries.
    fn simpler(&self) -> Vec<Line> {
        let mut found = match self {
            Line::Make(Make::Variable | Make::Primitive(_)) => Vec::new(),
            Line::Make(_) => vec![Line::Make(Make::Variable), Line::Make(Make::Primitive(0))],
            Line::Ask(question) => question.simpler().into_iter().map(Line::Ask).collect(),
            _ => Vec::new(),
        };
        if let Line::Make(Make::Attrset { open, dynamic, fields }) = self {
            found.extend(simpler_attrsets(*open, *dynamic, fields));
        }
        found.extend(self.lower());
        found
    }

    /// The line with one of its entries a lower one, of the first few.
    fn lower(&self) -> Vec<Line> {
        let mut entries = Vec::new();
        self.clone().each(&mut |e| entries.push(*e));
        let mut found = Vec::new();
        for (place, &entry) in entries.iter().enumerate() {
            for lower in 0..entry.min(4) {
                let mut line = self.clone();
                let mut at = 0..;
                line.each(&mut |e| {
                    if at.next() == Some(place) {
                        *e = lower;
                    }
                });
                found.push(line);
            }
        }
        found
    }
}

fn simpler_attrsets(open: bool, dynamic: Option<u32>, fields: &[Field]) -> Vec<Line> {
    let mut found = Vec::new();
    let mut say = |open, dynamic, fields| found.push(Line::Make(Make::Attrset { open, dynamic, fields }));
    for i in 0..fields.len() {
        let mut fewer = fields.to_vec();
        fewer.remove(i);
        say(open, dynamic, fewer);
        if fields[i].optional {
            let mut plainer = fields.to_vec();
            plainer[i].optional = false;
            say(open, dynamic, plainer);
        }
    }
    if dynamic.is_some() {
        say(open, None, fields.to_vec());
    }
    if open {
        say(false, dynamic, fields.to_vec());
    }
    found
}

impl Question {
    fn simpler(&self) -> Vec<Question> {
        let mut found = Vec::new();
        if self.equal {
            found.push(Question { equal: false, ..self.clone() });
        }
        if self.held {
            found.push(Question { held: false, ..self.clone() });
        }
        if !self.budgets.is_empty() {
            found.push(Question { budgets: Vec::new(), ..self.clone() });
            let mut fewer = self.clone();
            fewer.budgets.pop();
            found.push(fewer);
        }
        if self.pauses {
            found.push(Question { pauses: false, ..self.clone() });
        }
        found
    }
}
