//! The bench of document 01, the refusals, and one of every other call.

use sheafwinch::*;
use std::cmp::Ordering;

const ROOM: Capacities = Capacities { entries: 24, fields: 8, bounds: 80, visited: 16, pending: 16, equals: 4 };
/// `__functor`, `x`, `y`.
const NAMES: Names = Names(b"\x03\0\0\0\x09\0\x0a\0\x0b\0__functorxy");

fn field(name: u32, entry: u32) -> Field {
    Field { name, entry, optional: false }
}

fn table_in(room: Capacities) -> Table {
    fill(room).expect("the bench table has room")
}

fn fill(room: Capacities) -> Result<Table, Refusal> {
    let mut t = Table::start(3, Some(0), room)?;
    for primitive in [Primitive::Int, Primitive::Number, Primitive::Float, Primitive::String] {
        t.make_primitive(primitive)?;
    }
    t.make_variable()?;
    t.make_variable()?;
    t.make_union(1, 0)?;
    t.make_neg(0)?;
    t.make_attrset(&[field(1, 0)], false, None)?;
    t.make_attrset(&[field(1, 1)], false, None)?;
    t.make_attrset(&[field(1, 0), field(2, 3)], false, None)?;
    t.make_lambda(0, 3)?;
    t.make_attrset(&[], true, None)?;
    t.make_attrset(&[field(0, 4)], false, None)?;
    assert_eq!(t.make_inter(4, 3)?, 14);
    Ok(t)
}

fn table() -> Table {
    table_in(ROOM)
}

fn open(t: &mut Table, sub: u32, sup: u32) -> Instalment {
    t.open(sub, sup, u32::MAX).expect("the opening")
}

type Open = fn(&mut Table, u32, u32, u32) -> Result<Instalment, Refusal>;
const OPENS: [Open; 4] = [Table::open, Table::open_held, Table::open_equal, Table::open_equal_held];

fn yes(steps: u32) -> Instalment {
    Instalment { answer: Answer::Yes, steps }
}

fn more(steps: u32) -> Instalment {
    Instalment { answer: Answer::More, steps }
}

fn mismatch(sub: u32, sup: u32) -> Answer {
    Answer::Failed(Failure::Mismatch { sub, sup })
}

fn records(t: &Table, region: Region) -> Vec<Record> {
    (0..t.count(region)).map(|n| t.record(region, n).expect("record")).collect()
}

#[test]
fn b1() {
    let mut t = table();
    assert_eq!(open(&mut t, 0, 0), yes(1));
    assert_eq!(t.count(Region::Visited), 0);
}

#[test]
fn b2_plain_again_and_held_again() {
    let mut t = table();
    assert_eq!(open(&mut t, 1, 0).answer, mismatch(1, 0));
    assert_eq!(open(&mut t, 1, 0), yes(1));
    let before = t.clone();
    let broken = Refusal::Broken(Failure::Mismatch { sub: 1, sup: 0 });
    assert_eq!(t.open_held(1, 0, 9), Err(broken));
    assert_eq!(t.open_equal_held(1, 0, 9), Err(broken));
    assert_eq!(broken.number(), 8);
    assert_eq!(t, before);
    assert_eq!(t.broken(), Some(Failure::Mismatch { sub: 1, sup: 0 }));
}

#[test]
fn b3_whole() {
    assert_eq!(open(&mut table(), 1, 6), Instalment { answer: mismatch(1, 0), steps: 3 });
}

#[test]
fn b3_with_budgets_0_2_1() {
    let mut t = table();
    assert_eq!(t.open(1, 6, 0), Ok(more(0)));
    assert_eq!(t.work(2), more(2));
    assert!(t.asked());
    assert_eq!(records(&t, Region::Pending), [Record::Pending { sub: 1, sup: 0 }]);
    assert_eq!(t.work(1), Instalment { answer: mismatch(1, 0), steps: 1 });
    assert!(!t.asked());
    let mut whole = table();
    open(&mut whole, 1, 6);
    assert_eq!(t, whole);
}

#[test]
fn b3_stored_and_loaded_between() {
    let mut t = table();
    assert_eq!(t.open(1, 6, 2), Ok(more(2)));
    let mut later = Table::from_words(t.words().to_vec()).unwrap();
    assert_eq!(later.work(1), t.work(1));
    assert_eq!(later.into_words(), t.words());
}

#[test]
fn b4() {
    assert_eq!(open(&mut table(), 2, 6), yes(2));
}

#[test]
fn b5() {
    let mut t = table();
    let missing = Answer::Failed(Failure::MissingField { sub: 8, sup: 10, name: 2 });
    assert_eq!(open(&mut t, 8, 10).answer, missing);
    assert_eq!(records(&t, Region::Visited), [Record::Visited { sub: 8, sup: 10 }]);
}

#[test]
fn b6() {
    let mut t = table();
    assert_eq!(open(&mut t, 0, 4), yes(1));
    assert_eq!(open(&mut t, 4, 5), yes(2));
    assert_eq!(open(&mut t, 5, 1), yes(2));
    let bound = |variable, side, bound| Record::Bound { variable, side, bound };
    let bounds = [bound(4, Side::Lower, 0), bound(4, Side::Upper, 5), bound(5, Side::Lower, 0), bound(5, Side::Upper, 1)];
    assert_eq!(records(&t, Region::Bounds), bounds);
}

#[test]
fn b7_b8_b9() {
    assert_eq!(open(&mut table(), 3, 7).answer, Answer::Yes);
    assert_eq!(open(&mut table(), 1, 7).answer, mismatch(1, 7));
    assert_eq!(open(&mut table(), 12, 11).answer, mismatch(12, 11));
}

#[test]
fn b10() {
    let mut t = table();
    assert_eq!(open(&mut t, 13, 11), yes(2));
    assert_eq!(t.count(Region::Entries), 17);
}

#[test]
fn b11() {
    let mut t = table();
    assert_eq!(open(&mut t, 14, 0).answer, mismatch(14, 0));
    assert_eq!(t.count(Region::Entries), 15);
}

#[test]
fn b12() {
    let mut t = table();
    assert_eq!(open(&mut t, 14, 3), yes(2));
    assert_eq!(t.entry(16), Ok(Entry::Union { left: 3, right: 15 }));
    assert_eq!(t.entry(15), Ok(Entry::Neg { inner: 3 }));
}

#[test]
fn no_room_in_20_entries() {
    let mut t = table_in(Capacities { entries: 20, ..ROOM });
    assert_eq!(open(&mut t, 13, 4).answer, Answer::Yes);
    let no_room = Refusal::NoRoom(Region::Entries);
    assert_eq!(t.open(13, 11, 9), Ok(Instalment { answer: Answer::Refused(no_room), steps: 4 }));
    assert_eq!(t.count(Region::Entries), 19);
    assert!(t.asked());
    assert_eq!(t.work(9), Instalment { answer: Answer::Refused(no_room), steps: 0 });
    assert_eq!(t.abandon(), Ok(()));
    assert_eq!(no_room.to_string(), "NO ROOM(1)");
}

#[test]
fn bounds_32_and_33() {
    for (many, more) in [(32, 0), (33, 1)] {
        let mut t = Table::start(0, None, Capacities { entries: 40, bounds: 40, ..ROOM }).unwrap();
        let variable = t.make_variable().unwrap();
        for _ in 0..many {
            let bound = t.make_primitive(Primitive::Int).unwrap();
            t.put_bound(variable, Side::Lower, bound).unwrap();
        }
        t.put_bound(variable, Side::Lower, 1).unwrap();
        assert_eq!(t.count(Region::Bounds), many + more);
    }
}

#[test]
fn refusals_leave_every_word() {
    let mut t = table();
    let before = t.clone();
    assert_eq!(t.make_list(15), Err(Refusal::BadNumber));
    assert_eq!(t.entry(15), Err(Refusal::BadNumber));
    assert_eq!(t.record(Region::Bounds, 0), Err(Refusal::BadNumber));
    assert_eq!(t.work(1), Instalment { answer: Answer::Refused(Refusal::Idle), steps: 0 });
    assert_eq!(t.abandon(), Err(Refusal::Idle));
    assert_eq!(t.make_attrset(&[field(2, 0), field(1, 0)], false, None), Err(Refusal::BadFields));
    assert_eq!(t.make_attrset(&[field(3, 0)], false, None), Err(Refusal::BadFields));
    assert_eq!(t.make_attrset(&[], false, Some(15)), Err(Refusal::BadNumber));
    assert_eq!(t.exit(), Err(Refusal::Level));
    assert_eq!(t.put_bound(0, Side::Upper, 1), Err(Refusal::NotAVariable));
    assert_eq!(t.set_level(0, 1), Err(Refusal::NotAVariable));
    assert_eq!(t, before);
    assert_eq!(t.open(1, 6, 0), Ok(more(0)));
    let before = t.clone();
    assert_eq!(t.make_variable(), Err(Refusal::Busy));
    assert_eq!(t, before);
}

/// Opens by every call, with budgets 0 and 9: refused at the opening, and every word is as it was.
fn refused_at_the_opening(t: &mut Table, sub: u32, sup: u32, opens: &[Open], refusal: Refusal) {
    let before = t.clone();
    for open in opens {
        for budget in [0, 9] {
            assert_eq!(open(t, sub, sup, budget), Err(refusal));
            assert_eq!(*t, before);
        }
    }
}

#[test]
fn refusals_at_the_opening() {
    let (held, equal) = ([OPENS[1], OPENS[3]], &OPENS[2..]);
    let broken = Refusal::Broken(Failure::Mismatch { sub: 1, sup: 0 });
    let mut t = table();
    refused_at_the_opening(&mut t, 15, 0, &OPENS, Refusal::BadNumber);
    refused_at_the_opening(&mut t, 0, 15, &OPENS, Refusal::BadNumber);
    assert_eq!(open(&mut t, 1, 0).answer, mismatch(1, 0));
    // 8 is before 2
    refused_at_the_opening(&mut t, 15, 0, &held, broken);
    assert_eq!(t.open(1, 6, 0), Ok(more(0)));
    // 3 is before both
    refused_at_the_opening(&mut t, 15, 0, &OPENS, Refusal::Busy);

    let no_pending = Refusal::NoRoom(Region::Pending);
    refused_at_the_opening(&mut table_in(Capacities { pending: 0, ..ROOM }), 0, 1, &OPENS, no_pending);
    let mut t = table_in(Capacities { pending: 1, equals: 0, ..ROOM });
    refused_at_the_opening(&mut t, 0, 1, equal, no_pending);
    let mut t = table_in(Capacities { equals: 0, ..ROOM });
    refused_at_the_opening(&mut t, 0, 1, equal, Refusal::NoRoom(Region::Equals));
    // an entry with itself is not recorded
    assert_eq!(t.open_equal(0, 0, 9), Ok(yes(2)));
}

#[test]
fn no_room_at_the_opening_and_at_a_step() {
    let no_pending = Refusal::NoRoom(Region::Pending);
    let mut t = table_in(Capacities { pending: 0, ..ROOM });
    assert_eq!(t.open(1, 6, 9), Err(no_pending));
    assert!(!t.asked());
    // its one record is free again at the step, which needs two
    let mut t = table_in(Capacities { pending: 1, ..ROOM });
    assert_eq!(t.open(1, 6, 9), Ok(Instalment { answer: Answer::Refused(no_pending), steps: 0 }));
    assert!(t.asked());
    assert_eq!(records(&t, Region::Pending), [Record::Pending { sub: 1, sup: 6 }]);
}

#[test]
fn held_is_plain_where_none_failed() {
    for (plain, held) in [(OPENS[0], OPENS[1]), (OPENS[2], OPENS[3])] {
        for (sub, sup) in (0..15).flat_map(|sub| (0..15).map(move |sup| (sub, sup))) {
            let (mut t, mut other) = (table(), table());
            assert_eq!(held(&mut t, sub, sup, 9), plain(&mut other, sub, sup, 9));
            assert_eq!(t, other);
        }
    }
}

#[test]
fn opened_with_0_and_worked_is_opened() {
    let prepared = |failed: bool| {
        let mut t = table_in(Capacities { entries: 20, visited: 9, pending: 3, equals: 1, ..ROOM });
        assert_eq!(open(&mut t, 13, 4).answer, Answer::Yes);
        if failed {
            assert_eq!(open(&mut t, 3, 0).answer, mismatch(3, 0));
        }
        t
    };
    let (mut ended, mut stopped, mut refused) = (0, 0, 0);
    for (i, how) in OPENS.into_iter().enumerate() {
        // a held one in a table that no question has failed in
        let before = prepared(i % 2 == 0);
        for (sub, sup) in (0..15).flat_map(|sub| (0..15).map(move |sup| (sub, sup))) {
            for budget in [0, 1, 2, 5, u32::MAX] {
                let (mut once, mut twice) = (before.clone(), before.clone());
                let told = how(&mut once, sub, sup, budget).expect("there is room to open it");
                assert_eq!(how(&mut twice, sub, sup, 0), Ok(more(0)));
                assert_eq!(twice.work(budget), told);
                assert_eq!(twice, once, "({sub}, {sup}), budget {budget}");
                match told.answer {
                    Answer::More => stopped += 1,
                    Answer::Refused(_) => refused += 1,
                    _ => ended += 1,
                }
                assert_eq!(once.asked(), matches!(told.answer, Answer::More | Answer::Refused(_)));
            }
        }
    }
    assert!(ended > 0 && stopped > 0 && refused > 0, "{ended} ended, {stopped} stopped, {refused} refused");
}

#[test]
fn refusals_of_start_and_words() {
    assert_eq!(Table::start(4097, None, ROOM), Err(Refusal::BadCapacity));
    assert_eq!(Table::start(3, Some(3), ROOM), Err(Refusal::BadCapacity));
    assert_eq!(Table::start(3, Some(u32::MAX), ROOM), Err(Refusal::BadCapacity));
    assert_eq!(Table::start(3, None, Capacities { equals: u32::MAX, ..ROOM }), Err(Refusal::BadCapacity));
    assert_eq!(Table::from_words(Vec::new()), Err(Refusal::BadTable));
    let mut words = table().into_words();
    assert!(check(&words));
    words[0] = 2;
    assert!(!check(&words));
    assert_eq!(Table::from_words(words), Err(Refusal::BadTable));
    let most = Capacities { entries: 4096, fields: 16384, bounds: 65536, visited: 65536, pending: 65536, equals: 65536 };
    assert_eq!(Table::start(4096, Some(4095), most).unwrap().words().len(), 667_675);
}

#[test]
fn no_room_and_too_deep() {
    let mut t = table_in(Capacities { entries: 15, fields: 5, ..ROOM });
    assert_eq!(t.make_variable(), Err(Refusal::NoRoom(Region::Entries)));
    let mut t = table_in(Capacities { fields: 5, ..ROOM });
    assert_eq!(t.make_attrset(&[field(1, 0)], false, None), Err(Refusal::NoRoom(Region::Fields)));
    let mut t = Table::start(0, None, Capacities { entries: 20, ..ROOM }).unwrap();
    let mut n = t.make_variable().unwrap();
    let refusal = loop {
        match t.make_union(n, n) {
            Ok(made) => n = made,
            Err(refusal) => break refusal,
        }
    };
    assert_eq!(refusal, Refusal::TooDeep);
}

#[test]
fn every_kind_is_read() {
    let mut t = table();
    t.enter().unwrap();
    assert_eq!(t.level(), 1);
    let variable = t.make_variable().unwrap();
    assert_eq!(t.entry(variable), Ok(Entry::Variable { level: 1 }));
    t.set_level(variable, 7).unwrap();
    assert_eq!(t.entry(variable), Ok(Entry::Variable { level: 7 }));
    t.exit().unwrap();
    t.mark(variable).unwrap();
    assert_eq!(t.record(Region::Entries, variable), Ok(Record::Entry([0, 7, 0, 0, 1, 1, 0])));
    let list = t.make_list(variable).unwrap();
    assert_eq!(t.entry(list), Ok(Entry::List { element: variable }));
    let named = t.make_named(list, 99).unwrap();
    assert_eq!(t.entry(named), Ok(Entry::Named { inner: list, label: 99 }));
    let optional = Field { name: 1, entry: 0, optional: true };
    let attrset = t.make_attrset(&[optional], true, Some(3)).unwrap();
    assert_eq!(t.entry(attrset), Ok(Entry::Attrset { first: 5, count: 1, open: true, dynamic: Some(3) }));
    assert_eq!(t.record(Region::Fields, 5), Ok(Record::Field(optional)));
    assert_eq!(t.entry(12), Ok(Entry::Attrset { first: 0, count: 0, open: true, dynamic: None }));
    assert_eq!(t.entry(0), Ok(Entry::Primitive(Primitive::Int)));
    assert_eq!(t.entry(7), Ok(Entry::Neg { inner: 0 }));
    assert_eq!(t.entry(11), Ok(Entry::Lambda { param: 0, body: 3 }));
    assert_eq!(t.entry(14), Ok(Entry::Inter { left: 4, right: 3 }));
    assert_eq!(t.open_equal(0, 2, 0), Ok(more(0)));
    assert_eq!(records(&t, Region::Equals), [Record::Equal { left: 0, right: 2 }]);
    assert_eq!(t.disjoint(0, 3), Ok(true));
    assert_eq!(t.disjoint(0, 1), Ok(false));
    assert_eq!((t.names(), t.capacity(Region::Entries)), (3, 24));
}

#[test]
fn names() {
    assert_eq!(NAMES.check(), Ok(()));
    assert_eq!(Names(&NAMES.0[1..]).check(), Err(Refusal::BadNames));
    assert_eq!(NAMES.check_name(2), Ok(()));
    assert_eq!(NAMES.check_name(3), Err(Refusal::BadNumber));
    assert_eq!(NAMES.count(), Ok(3));
    assert_eq!(NAMES.show(0), Ok(&b"__functor"[..]));
    assert_eq!(NAMES.show(2), Ok(&b"y"[..]));
    assert_eq!(NAMES.show(3), Err(Refusal::BadNumber));
    assert_eq!(NAMES.compare(1, 2), Ok(Ordering::Less));
    assert_eq!(NAMES.compare(2, 2), Ok(Ordering::Equal));
    assert_eq!(NAMES.compare(2, 0), Ok(Ordering::Greater));
    assert_eq!(NAMES.find(b"y"), Ok(Some(2)));
    assert_eq!(NAMES.find(b"z"), Ok(None));
    assert_eq!(Names(b"").find(b"y"), Err(Refusal::BadNames));
}

#[test]
fn operators() {
    use Primitive::*;
    assert_eq!(Operator::Add.resolve(Int, Float), Some(Float));
    assert_eq!(Operator::Sub.resolve(Int, String), None);
    assert_eq!(Operator::Add.resolve(Path, String), Some(Path));
    assert_eq!(Operator::Add.from_left(String), Some(String));
    assert_eq!(Operator::Mul.from_left(Int), None);
    assert_eq!(Operator::Div.at_once(), Some(Number));
    assert_eq!(Operator::Add.at_once(), None);
}

#[test]
fn told_in_words() {
    let mismatch = Failure::Mismatch { sub: 1, sup: 0 };
    assert_eq!(mismatch.to_string(), "mismatch (1, 0)");
    assert_eq!(Failure::MissingField { sub: 8, sup: 10, name: 2 }.to_string(), "missing field 2 (8, 10)");
    assert_eq!(Refusal::Broken(mismatch).to_string(), "BROKEN: mismatch (1, 0)");
    assert_eq!(Instalment { answer: Answer::More, steps: 2 }.to_string(), "MORE, 2 steps");
    assert_eq!(Instalment { answer: Answer::Yes, steps: 1 }.to_string(), "yes, 1 step");
    assert_eq!(table().entry(6).unwrap().to_string(), "union(1, 0)");
    assert_eq!(Record::Bound { variable: 4, side: Side::Upper, bound: 5 }.to_string(), "bounds (4, 1, 5)");
    let error: Box<dyn std::error::Error> = Box::new(Refusal::NotAVariable);
    assert_eq!(error.to_string(), "NOT A VARIABLE");
}
