//! How each call is made.

use crate::answer::Answer;
use crate::call::{Call, Which as W};
use crate::lent::Lent;
use shared::{raw, Capacities};

/// What a call is lent, each as its pointer and count.
pub struct Lending {
    pub image: Lent<u32>,
    pub list: Lent<u8>,
    pub fields: Lent<u32>,
    pub name: Lent<u8>,
}

pub fn make(call: &Call, lent: &Lending) -> Answer {
    let (image, words) = (lent.image.at, lent.image.len);
    let (list, bytes) = (lent.list.at.cast_const(), lent.list.len);
    let [a, b, c, d, ..] = call.args;
    // SAFETY: what is lent is there, aligned, and stands apart from all else that is lent.
    let told = unsafe {
        match call.which {
            W::Check => return Answer::done(&[raw::sheafwinch_check(image, words) as u32]),
            W::Start => raw::sheafwinch_start(image, words, a, b, room(&call.args)),
            W::MakeVariable => raw::sheafwinch_make_variable(image, words),
            W::MakePrimitive => raw::sheafwinch_make_primitive(image, words, a),
            W::MakeList => raw::sheafwinch_make_list(image, words, a),
            W::MakeLambda => raw::sheafwinch_make_lambda(image, words, a, b),
            W::MakeAttrset => raw::sheafwinch_make_attrset(image, words, lent.fields.at, lent.fields.len, a, b, c),
            W::MakeNamed => raw::sheafwinch_make_named(image, words, a, b),
            W::MakeNeg => raw::sheafwinch_make_neg(image, words, a),
            W::MakeInter => raw::sheafwinch_make_inter(image, words, a, b),
            W::MakeUnion => raw::sheafwinch_make_union(image, words, a, b),
            W::Mark => raw::sheafwinch_mark(image, words, a),
            W::PutBound => raw::sheafwinch_put_bound(image, words, a, b, c),
            W::Enter => raw::sheafwinch_enter(image, words),
            W::Exit => raw::sheafwinch_exit(image, words),
            W::SetLevel => raw::sheafwinch_set_level(image, words, a, b),
            W::Open => raw::sheafwinch_open(image, words, a, b, c, d),
            W::OpenEqual => raw::sheafwinch_open_equal(image, words, a, b, c, d),
            W::Work => raw::sheafwinch_work(image, words, a),
            W::Abandon => raw::sheafwinch_abandon(image, words),
            W::Entry => raw::sheafwinch_entry(image, words, a),
            W::Record => raw::sheafwinch_record(image, words, a, b),
            W::Disjoint => raw::sheafwinch_disjoint(image, words, a, b),
            W::CheckNames => raw::sheafwinch_check_names(list, bytes),
            W::CheckName => raw::sheafwinch_check_name(list, bytes, a),
            W::CountNames => raw::sheafwinch_count_names(list, bytes),
            W::ShowName => raw::sheafwinch_show_name(list, bytes, a),
            W::CompareNames => raw::sheafwinch_compare_names(list, bytes, a, b),
            W::FindName => raw::sheafwinch_find_name(list, bytes, lent.name.at, lent.name.len),
            W::Resolve => raw::sheafwinch_resolve(a, b, c),
            W::FromLeft => raw::sheafwinch_from_left(a, b),
            W::AtOnce => raw::sheafwinch_at_once(a),
        }
    };
    Answer { kind: told.kind, number: told.number, steps: told.steps, count: told.count, values: told.values }
}

fn room(args: &[u32; 8]) -> Capacities {
    let [_, _, entries, fields, bounds, visited, pending, equals] = *args;
    Capacities { entries, fields, bounds, visited, pending, equals }
}
