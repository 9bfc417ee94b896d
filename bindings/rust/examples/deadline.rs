//! A question worked in instalments until a deadline, its words stored, and continued later; then the same question in one go.
//! Answer, steps and every word are the same.

use sheafwinch::{Answer, Capacities, Instalment, Primitive, Refusal, Side, Table};
use std::time::{Duration, Instant};

const SHAPES: u32 = 60;

/// Two variables: the first takes lists of Int, the second fits under lists of Number. Each of the one kind meets each of the other.
fn table() -> Result<(Table, u32, u32), Refusal> {
    let room = Capacities { entries: 4 + 2 * SHAPES, bounds: 4 * SHAPES, visited: 65_536, pending: 1_024, fields: 0, equals: 0 };
    let mut table = Table::start(0, None, room)?;
    let int = table.make_primitive(Primitive::Int)?;
    let number = table.make_primitive(Primitive::Number)?;
    let request = table.make_variable()?;
    let station = table.make_variable()?;
    for _ in 0..SHAPES {
        let asked = table.make_list(int)?;
        table.put_bound(request, Side::Lower, asked)?;
        let taken = table.make_list(number)?;
        table.put_bound(station, Side::Upper, taken)?;
    }
    Ok((table, request, station))
}

/// Steps of an instalment.
const BUDGET: u32 = 100;

/// Works on after an instalment, until the question is over or the deadline has passed: the answer so far, and the steps.
fn work_until(table: &mut Table, mut last: Instalment, deadline: Instant) -> (Answer, u32) {
    let mut steps = last.steps;
    while last.answer == Answer::More && Instant::now() < deadline {
        last = table.work(BUDGET);
        steps += last.steps;
    }
    (last.answer, steps)
}

fn main() -> Result<(), Refusal> {
    let (mut table, request, station) = table()?;
    let mut whole = table.clone();

    let deadline = Instant::now() + Duration::from_millis(1);
    let first = table.open(request, station, BUDGET)?;
    let (answer, before) = work_until(&mut table, first, deadline);
    println!("at the deadline: {answer}, {before} steps");

    let stored = table.into_words();
    println!("stored: {} words", stored.len());

    let mut table = Table::from_words(stored)?;
    let (answer, after) = match answer {
        Answer::More => {
            let next = table.work(BUDGET);
            work_until(&mut table, next, Instant::now() + Duration::from_secs(60))
        }
        over => (over, 0),
    };
    println!("later: {answer}, {after} steps more");

    let once = whole.open(request, station, u32::MAX)?;
    println!("in one go: {once}");
    assert_eq!((answer, before + after), (once.answer, once.steps));
    assert_eq!(table, whole);
    println!("the same answer, steps and words");
    Ok(())
}
