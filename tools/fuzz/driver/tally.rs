//! Counts what was met, and says what should have been met and was not.

use crate::answer::Answer;
use crate::call::{Which, CALLS, FUNCTIONS};
use crate::rules::{Hits, RULES, RULE_NAMES};
use shared::raw;

/// The outcomes of a call that are told apart, as places in a row: DONE without a value, with one (or, where the first value is of few
/// kinds, each of them), YES, MORE, FAILED by number, REFUSED by number, and NO ROOM by region; the last two again at the opening.
const OUTCOMES: usize = 50;
const DONE: u8 = 0;
const VALUE: u8 = 1;
const YES: u8 = 10;
const MORE: u8 = 11;
const MISMATCH: u8 = 12;
const MISSING: u8 = 13;

const fn refused(number: u8) -> u8 {
    MISSING + number
}

const fn no_room(region: u8) -> u8 {
    25 + region
}

/// How much further on a refusal at the opening stands.
const UNOPENED: u8 = 18;

/// What the header says that a call may answer.
fn wanted(which: Which) -> Vec<u8> {
    let mut answers = worked_or_told(which);
    let regions: &[u8] = match which {
        Which::Open => &[5],
        Which::OpenEqual => &[5, 6],
        _ => return answers,
    };
    answers.extend([1, 3, 8, 2].map(|number| UNOPENED + refused(number)));
    answers.extend(regions.iter().map(|&region| UNOPENED + no_room(region)));
    answers
}

/// What it may answer besides, so each answer of a call that opens no question.
fn worked_or_told(which: Which) -> Vec<u8> {
    let (accepted, refusals, regions): (&[u8], &[u8], &[u8]) = match which {
        Which::Check => (&[VALUE, VALUE + 1], &[], &[]),
        Which::Start => (&[DONE], &[9], &[]),
        Which::MakeVariable => (&[VALUE], &[1, 3], &[1]),
        Which::MakePrimitive | Which::MakeList | Which::MakeLambda => (&[VALUE], &[1, 3, 2], &[1]),
        Which::MakeAttrset => (&[VALUE], &[1, 3, 7, 2], &[1, 2]),
        Which::MakeNamed | Which::MakeNeg | Which::MakeInter | Which::MakeUnion => (&[VALUE], &[1, 3, 2, 6], &[1]),
        Which::Mark => (&[DONE], &[1, 3, 2], &[]),
        Which::PutBound => (&[DONE], &[1, 3, 2, 11], &[3]),
        Which::Enter | Which::Exit => (&[DONE], &[1, 3, 10], &[]),
        Which::SetLevel => (&[DONE], &[1, 3, 2, 11], &[]),
        Which::Open | Which::OpenEqual => (&[YES, MORE, MISMATCH, MISSING], &[6], &[1, 3, 4, 5]),
        Which::Work => (&[YES, MORE, MISMATCH, MISSING], &[1, 4, 6], &[1, 3, 4, 5]),
        Which::Abandon => (&[DONE], &[1, 4], &[]),
        Which::Entry => (&[1, 2, 3, 4, 5, 6, 7, 8, 9], &[1, 2], &[]),
        Which::Record => (&[2, 3, 4, 5, 6, 7], &[1, 2], &[]),
        Which::Disjoint => (&[VALUE, VALUE + 1], &[1, 2], &[]),
        Which::CheckNames => (&[DONE], &[12], &[]),
        Which::CheckName => (&[DONE], &[12, 2], &[]),
        Which::CountNames => (&[VALUE], &[12], &[]),
        Which::ShowName => (&[VALUE], &[12, 2], &[]),
        Which::CompareNames => (&[VALUE, VALUE + 1, VALUE + 2], &[12, 2], &[]),
        Which::FindName => (&[DONE, VALUE], &[12], &[]),
        Which::Resolve | Which::FromLeft | Which::AtOnce => (&[DONE, VALUE], &[2], &[]),
    };
    let refusals = refusals.iter().map(|&number| refused(number));
    accepted.iter().copied().chain(refusals).chain(regions.iter().map(|&region| no_room(region))).collect()
}

fn by_first_value(which: Which) -> bool {
    matches!(which, Which::Check | Which::Entry | Which::Record | Which::Disjoint | Which::CompareNames)
}

fn place(which: Which, answer: &Answer) -> Option<u8> {
    let first = answer.values[0].min(8) as u8;
    Some(match (answer.kind, answer.number) {
        (raw::DONE, _) if answer.count == 0 => DONE,
        (raw::DONE, _) => VALUE + if by_first_value(which) { first } else { 0 },
        (raw::YES, _) => YES,
        (raw::MORE, _) => MORE,
        (raw::FAILED, 1) => MISMATCH,
        (raw::FAILED, 2) => MISSING,
        (raw::REFUSED | raw::UNOPENED, 1..=12) => refusal(answer),
        _ => return None,
    })
}

fn refusal(answer: &Answer) -> u8 {
    let place = match (answer.number, answer.values[0]) {
        (5, region @ 1..=6) => no_room(region as u8),
        (number, _) => refused(number as u8),
    };
    place + if answer.kind == raw::UNOPENED { UNOPENED } else { 0 }
}

fn label(which: Which, place: u8) -> String {
    match place {
        _ if place > no_room(6) => format!("unopened {}", label(which, place - UNOPENED)),
        DONE => "done".to_string(),
        VALUE..YES if by_first_value(which) => format!("value {}", place - VALUE),
        VALUE..YES => "value".to_string(),
        YES => "yes".to_string(),
        MORE => "more".to_string(),
        MISMATCH | MISSING => format!("failed {}", place - YES - 1),
        _ if place > no_room(0) => format!("5({})", place - no_room(0)),
        _ => format!("{}", place - MISSING),
    }
}

pub struct Tally {
    met: [[u64; OUTCOMES]; FUNCTIONS],
    /// Images looked at, as the case set them and as a call left them: not well formed, well formed.
    looks: [[u64; 2]; 2],
    pub rules: Hits,
    pub calls: u64,
    pub cases: u64,
}

impl Default for Tally {
    fn default() -> Tally {
        Tally { met: [[0; OUTCOMES]; FUNCTIONS], looks: [[0; 2]; 2], rules: [0; RULES], calls: 0, cases: 0 }
    }
}

impl Tally {
    pub fn look(&mut self, by_call: bool, formed: bool) {
        self.looks[usize::from(by_call)][usize::from(formed)] += 1;
    }

    /// An answer that no call gives is counted nowhere: it is a fault, and told as one.
    pub fn call(&mut self, which: Which, answer: &Answer) {
        self.calls += 1;
        if let Some(place) = place(which, answer) {
            self.met[which as usize][usize::from(place)] += 1;
        }
    }

    /// Prints the counts; whether all that is wanted was met.
    pub fn print(&self) -> bool {
        let [[unfit, set], [_, left]] = self.looks;
        println!("{} calls, {} of them check after a change; {} cases", self.calls, unfit + set + left, self.cases);
        println!(
            "images as a case set them: {set} well formed, {unfit} not; as an accepted call left them: {left}, all well formed"
        );
        println!("calls by answer: done, value (the first one where it is of few kinds), yes, more, failed by number; refusals by number,");
        println!("NO ROOM with its region; unopened: refused at the opening");
        let mut whole = true;
        for (which, name, _) in CALLS {
            let row = &self.met[which as usize];
            let mut parts: Vec<String> = Vec::new();
            for place in wanted(which) {
                let met = row[usize::from(place)];
                whole &= met > 0;
                let count = if met > 0 { met.to_string() } else { "NEVER".to_string() };
                parts.push(format!("{}: {count}", label(which, place)));
            }
            println!("  {name:15}{:>12}   {}", row.iter().sum::<u64>(), parts.join(", "));
        }
        println!("pairs worked, by the rule that the model took:");
        for (name, hits) in RULE_NAMES.iter().zip(self.rules) {
            whole &= hits > 0;
            println!("  {name:38}{}", if hits > 0 { hits.to_string() } else { "NEVER".to_string() });
        }
        whole
    }
}
