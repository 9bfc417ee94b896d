//! What one check of the image in place of two saves: many short questions, each opened and worked to its end in one call, and the same
//! opened with budget 0 and worked in a second call, which checks the image again.
use crate::cases::{self, Case, First};
use crate::engine::{Engine, Ours};
use crate::timing;
use shared::layout::MOST;
use sheafwinch::{Answer, Instalment, Table};
use std::hint::black_box;

/// Questions that are timed in a round: a table's, of as many fresh copies as it takes.
const QUESTIONS: usize = 10_000;
/// Checks between two looks at the clock.
const CHECKS: u32 = 100;
const BUDGET: u32 = u32::MAX;
const MORE: Instalment = Instalment { answer: Answer::More, steps: 0 };

/// The middle size: a sixteenth of the largest capacities.
const MIDDLE: [u32; 6] = [MOST[0] / 16, MOST[1] / 16, MOST[2] / 16, MOST[3] / 16, MOST[4] / 16, MOST[5] / 16];

type Question = (u32, u32);
type Way = fn(&mut Table, Question) -> Instalment;

fn one_call(table: &mut Table, (sub, sup): Question) -> Instalment {
    table.open(sub, sup, BUDGET).expect("no refusal at the opening")
}

fn two_calls(table: &mut Table, (sub, sup): Question) -> Instalment {
    let opened = table.open(sub, sup, 0).expect("no refusal at the opening");
    assert_eq!(opened, MORE, "budget 0");
    table.work(BUDGET)
}

/// A table before its questions.
struct Ready {
    name: &'static str,
    table: Table,
}

/// What was seen of a table and its questions. Times are seconds of one question.
pub struct Opened {
    pub name: String,
    pub words: usize,
    pub steps: u32,
    pub two: f64,
    pub one: f64,
    pub check: f64,
    pub rounds: usize,
}

/// A case's tables: small, middle, large, and large with a chain worked before, so that bounds and visited pairs are nearly full.
fn tables(case: &Case, pairs: usize) -> Vec<Ready> {
    let (fields, _) = case.fields_and_names();
    let enough = [case.shapes.len(), fields, 0, pairs, case.pending, 0].map(|count| count as u32);
    let of = |name, capacities| Ready { name, table: Ours::new(case, capacities).0 };
    let beside = cases::chain_beside(case, 244, 245, First::Bounds);
    let mut full = Ours::new(&beside, MOST);
    full.ask_all(&beside);
    vec![
        of("just enough", enough),
        of("a sixteenth of the largest", MIDDLE),
        of("the largest, nearly empty", MOST),
        Ready { name: "the largest, bounds and visited nearly full", table: full.0 },
    ]
}

/// The seconds of a question, over so many.
fn run(table: &Table, questions: &[Question], steps: u32, way: Way) -> f64 {
    let mut seconds = 0.0;
    for _ in 0..QUESTIONS / questions.len() {
        let mut table = table.clone();
        let mut right = true;
        let start = timing::clock();
        for &question in questions {
            right &= black_box(way)(&mut table, question) == Instalment { answer: Answer::Yes, steps };
        }
        seconds += timing::clock() - start;
        assert!(right, "every answer is yes, after {steps} steps");
        black_box(&table);
    }
    seconds / QUESTIONS as f64
}

/// Sees that both ways answer and leave the same, or ends the run; then times them.
fn see(ready: &Ready, questions: &[Question], steps: u32) -> Opened {
    let left = [two_calls as Way, one_call].map(|way| {
        let mut table = ready.table.clone();
        for &question in questions {
            let told = way(&mut table, question);
            assert_eq!(told, Instalment { answer: Answer::Yes, steps }, "{}: {question:?}", ready.name);
        }
        table
    });
    assert!(left[0] == left[1], "{}: one call and two leave different words", ready.name);
    let [two, one] = [two_calls as Way, one_call].map(|way| move || run(&ready.table, questions, steps, way));
    let ([two, one], rounds) = timing::in_turn([&two, &one]);
    let check = timing::check(&left[0], CHECKS);
    let name = ready.name.to_string();
    Opened { name, words: ready.table.words().len(), steps, two, one, check, rounds }
}

/// Each table with questions of one step, then with questions of five; a line for each when it is done.
pub fn all() -> Vec<Opened> {
    let mut seen = Vec::new();
    for (case, pairs, steps) in [(cases::separate(10, 10), 100, 1), (cases::short(10, 10), 104, 5)] {
        for ready in tables(&case, pairs) {
            let told = see(&ready, &case.questions, steps);
            let (two, one) = (told.two * 1e6, told.one * 1e6);
            println!(
                "short questions, {}, steps {steps}: agreed; two calls {two:.3} µs a question, one call {one:.3} µs, ratio {:.2}",
                told.name,
                one / two
            );
            seen.push(told);
        }
    }
    seen
}
