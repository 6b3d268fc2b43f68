//! Maps: a cell for each key. Most operations reply what was under the key before; others whether
//! they set it, or nothing.

use super::{Access, Cells, Effect, Family, Function, Need, Op, Reply, Room, Shape, Value, Words};

static PUT: Function = Function {
    argument: Shape::Pair,
    takes: "a pair of integers, [key value]",
    replies: "the earlier value, an integer or nil",
    of_nothing: None,
    ..Function::finding(
        "put",
        &MAP,
        Access {
            effect: |entry, reply| {
                Some(Effect { need: Need::replied(reply), sets: Some(entry.last()) })
            },
            next: |entry, content| (Reply::Value(content), entry.last()),
        },
    )
};

static GET: Function = Function {
    argument: Shape::Value,
    takes: "a key, an integer",
    ..Function::finding("get", &MAP, Access::LOOK)
};

/// One that found nothing only looked.
static DEL: Function = Function {
    argument: Shape::Value,
    takes: "a key, an integer",
    replies: "the removed value, an integer or nil",
    ..Function::finding(
        "del",
        &MAP,
        Access {
            effect: |_, reply| {
                let need = Need::replied(reply);
                Some(Effect { need, sets: (need != Need::Is(None)).then_some(None) })
            },
            next: |_, content| (Reply::Value(content), None),
        },
    )
};

static PUT_IF_ABSENT: Function = Function {
    argument: Shape::Pair,
    takes: "a pair of integers, [key value]",
    other_names: &["put_if_absent"],
    ..Function::telling_whether(
        "put-if-absent",
        &MAP,
        Access {
            effect: |entry, reply| Some(Effect::replaces(None, entry.last(), reply)),
            next: |entry, content| (Reply::Flag(content.is_none()), content.or(entry.last())),
        },
    )
};

static REPLACE: Function = Function {
    argument: Shape::Triple,
    takes: "three integers, [key old new]",
    ..Function::telling_whether(
        "replace",
        &MAP,
        Access {
            effect: |entry, reply| Some(Effect::replaces(entry.expected(), entry.last(), reply)),
            next: |entry, content| match content == entry.expected() {
                true => (Reply::Flag(true), entry.last()),
                false => (Reply::Flag(false), content),
            },
        },
    )
};

static ASSOC: Function = Function {
    argument: Shape::Pair,
    takes: "a pair of integers, [key value]",
    ..Function::setting_silently(
        "assoc",
        &MAP,
        Access {
            effect: |entry, _| Some(Effect::sets(entry.last())),
            next: |entry, _| (Reply::Value(None), entry.last()),
        },
    )
};

static DISSOC: Function = Function {
    argument: Shape::Value,
    takes: "a key, an integer",
    ..Function::setting_silently(
        "dissoc",
        &MAP,
        Access { effect: |_, _| Some(Effect::sets(None)), next: |_, _| (Reply::Value(None), None) },
    )
};

/// An operation that puts a value under a key that has none.
fn put(key: Option<i64>, value: i64) -> (Op, Reply) {
    let argument = Value::Pair(key.unwrap_or(0), value);
    (Op { function: &PUT, argument }, Reply::Value(None))
}

pub static MAP: Room = Room {
    word: "map",
    functions: &[&PUT, &GET, &DEL, &PUT_IF_ABSENT, &REPLACE, &ASSOC, &DISSOC],
    family: Family::Cells(Cells { has_keys: true, has_values: true, fill: put }),
    words: Words {
        put: "put",
        seen: "seen",
        taken: "replaced or removed",
        out_of_date: "after it had been replaced or removed",
        content_title: "content after {key value}",
        left_end: "",
    },
};
