//! Carries out the lines of a case and compares each call with what is due: the answer, and every word that was lent.

use crate::answer::Answer;
use crate::call::{Call, Which};
use crate::case::Line;
use crate::lent::{Lent, Memory, Pool};
use crate::make::{make, Lending};
use crate::model;
use crate::model_names::{names_due, operator_due};
use crate::tally::Tally;
use shared::formed::well_formed;
use shared::raw;

/// What a call did that it must not do.
pub type Fault = String;

pub struct Judge {
    images: Pool<u32>,
    doubles: Pool<u32>,
    lists: Pool<u8>,
    fields: Pool<u32>,
    names: Pool<u8>,
    front: bool,
    lent: Lending,
    /// Whether the image is well formed.
    formed: bool,
    /// What the image must hold after the call.
    due: Vec<u32>,
    before: Vec<u32>,
    saved: Vec<u32>,
    pub tally: Tally,
}

impl Judge {
    pub fn new(memory: Memory) -> Judge {
        Judge {
            images: Pool::new(memory),
            doubles: Pool::new(memory),
            lists: Pool::new(memory),
            fields: Pool::new(memory),
            names: Pool::new(memory),
            front: false,
            lent: Lending { image: Lent::empty(), list: Lent::empty(), fields: Lent::empty(), name: Lent::empty() },
            formed: false,
            due: Vec::new(),
            before: Vec::new(),
            saved: Vec::new(),
            tally: Tally::default(),
        }
    }

    /// Ready for another case: no words, no bytes.
    pub fn clear(&mut self) {
        self.lent.image = Lent::empty();
        self.lent.list = Lent::empty();
        self.formed = false;
        self.front = false;
        self.saved.clear();
    }

    pub fn image(&self) -> &[u32] {
        self.lent.image.elements()
    }

    pub fn list(&self) -> &[u8] {
        self.lent.list.elements()
    }

    pub fn formed(&self) -> bool {
        self.formed
    }

    pub fn carry_out(&mut self, line: &Line) -> Result<(), Fault> {
        match line {
            Line::Front(front) => self.front = *front,
            Line::Length(n) => {
                let mut words = self.image().to_vec();
                words.resize(*n, 0);
                self.put(&words)?;
            }
            Line::Words(words) => self.put(words)?,
            Line::Set(i, word) => {
                if let Some(place) = self.lent.image.elements_mut().get_mut(*i) {
                    *place = *word;
                }
                self.look(false)?;
            }
            Line::Save => {
                self.saved.clear();
                self.saved.extend_from_slice(self.lent.image.elements());
            }
            Line::Restore => {
                let saved = std::mem::take(&mut self.saved);
                self.put(&saved)?;
                self.saved = saved;
            }
            Line::List(bytes) => {
                self.lent.list = self.lists.lend(bytes.len(), self.front, 0);
                self.lent.list.elements_mut().copy_from_slice(bytes);
            }
            Line::Call(call) => self.call(call)?,
        }
        Ok(())
    }

    fn put(&mut self, words: &[u32]) -> Result<(), Fault> {
        if words.len() != self.lent.image.len || words.is_empty() {
            self.lent.image = self.images.lend(words.len(), self.front, 0);
        }
        self.lent.image.elements_mut().copy_from_slice(words);
        self.look(false)
    }

    /// Sees whether the image is well formed, and whether `check` says so. `by_call`: a call left it so.
    fn look(&mut self, by_call: bool) -> Result<(), Fault> {
        self.formed = well_formed(self.lent.image.elements());
        self.tally.look(by_call, self.formed);
        self.call(&Call::plain(Which::Check))
    }

    fn call(&mut self, call: &Call) -> Result<(), Fault> {
        match call.which {
            Which::CheckNames | Which::CheckName | Which::CountNames | Which::ShowName | Which::CompareNames | Which::FindName => {
                self.name_call(call)
            }
            Which::Resolve | Which::FromLeft | Which::AtOnce => {
                let answer = self.make(call);
                same(call, &answer, &operator_due(call))
            }
            _ => self.image_call(call),
        }
    }

    fn make(&mut self, call: &Call) -> Answer {
        let answer = make(call, &self.lent);
        self.tally.call(call.which, &answer);
        answer
    }

    fn name_call(&mut self, call: &Call) -> Result<(), Fault> {
        if call.which == Which::FindName {
            self.lent.name = self.names.lend(call.extra.len(), self.front, 0);
            self.lent.name.elements_mut().iter_mut().zip(&call.extra).for_each(|(byte, &word)| *byte = word as u8);
        }
        let due = names_due(call, self.list());
        let before = self.list().to_vec();
        let answer = self.make(call);
        if self.list() != before {
            return Err("a byte of the name list changed".to_string());
        }
        same(call, &answer, &due)
    }

    fn image_call(&mut self, call: &Call) -> Result<(), Fault> {
        if call.which == Which::MakeAttrset {
            self.lent.fields = self.fields.lend(call.extra.len(), self.front, 0);
            self.lent.fields.elements_mut().copy_from_slice(&call.extra);
        }
        self.due.clear();
        self.due.extend_from_slice(self.lent.image.elements());
        let due = model::due(call, &mut self.due, self.formed, &mut self.tally.rules);
        if call.which == Which::Work || call.which.opens() {
            self.before.clear();
            self.before.extend_from_slice(self.lent.image.elements());
        }
        let answer = self.make(call);
        same(call, &answer, &due)?;
        if self.lent.image.elements() != self.due {
            return Err(format!("{}: {}", told(call, &answer), difference(self.lent.image.elements(), &self.due)));
        }
        if call.which == Which::MakeAttrset && self.lent.fields.elements() != call.extra {
            return Err("a word of the field list changed".to_string());
        }
        let reads = matches!(call.which, Which::Check | Which::Entry | Which::Record | Which::Disjoint);
        let unopened = answer.kind == raw::UNOPENED;
        // an opening whose first step is refused has asked its question
        let refused = unopened || (answer.kind == raw::REFUSED && answer.steps == 0 && !call.which.opens());
        if !reads && !refused {
            self.look_again(call, &answer)?;
        }
        if call.which.opens() && !unopened {
            self.in_instalments(call, &answer, 0)?;
        }
        if answer.steps > 1 {
            self.in_instalments(call, &answer, 1)?;
        }
        Ok(())
    }

    /// The same question in two instalments, the first of so many steps, ends the same. The first is what the call is: an opening or work.
    fn in_instalments(&mut self, call: &Call, whole: &Answer, steps: u32) -> Result<(), Fault> {
        let mut double = self.doubles.lend(self.before.len(), self.front, 0);
        double.elements_mut().copy_from_slice(&self.before);
        let image = std::mem::replace(&mut self.lent.image, double);
        let (mut shorter, budget) = (call.clone(), call.which.arguments().len() - 1);
        shorter.args[budget] = steps;
        let first = self.make(&shorter);
        let second = self.make(&Call::with(Which::Work, &[call.args[budget] - steps]));
        let double = std::mem::replace(&mut self.lent.image, image);
        if first != Answer::of(raw::MORE, 0, steps, &[]) {
            return Err(format!("{}, but with budget {steps} {first:?}", told(call, whole)));
        }
        if second != (Answer { steps: whole.steps - steps, ..*whole }) {
            return Err(format!("{}, but in two instalments the second says {second:?}", told(call, whole)));
        }
        if double.elements() != self.image() {
            return Err(format!("{}, but in two instalments {}", told(call, whole), difference(double.elements(), self.image())));
        }
        Ok(())
    }

    fn look_again(&mut self, call: &Call, answer: &Answer) -> Result<(), Fault> {
        self.look(true)?;
        if !self.formed {
            return Err(format!("{}: leaves words that are no well formed image", told(call, answer)));
        }
        Ok(())
    }
}

fn told(call: &Call, answer: &Answer) -> String {
    format!("{call} answers {answer:?}")
}

fn same(call: &Call, answer: &Answer, due: &Answer) -> Result<(), Fault> {
    if answer == due {
        Ok(())
    } else {
        Err(format!("{}, due is {due:?}", told(call, answer)))
    }
}

fn difference(found: &[u32], due: &[u32]) -> String {
    match found.iter().zip(due).position(|(f, d)| f != d) {
        Some(i) => format!("word {i} is {}, due is {}", found[i], due[i]),
        None => "as due".to_string(),
    }
}
