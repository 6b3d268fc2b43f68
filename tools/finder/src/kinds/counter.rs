//! Counters: a number, to which amounts are added.

use super::room::{INTEGER, Number};
use super::{Does, Family, Function, Op, Reply, Room, Shape, Value, Words};

static FETCH_ADD: Function = Function {
    other_names: &["fetch_add"],
    argument: Shape::Number,
    reply: Shape::Number,
    replies: "the number before, an integer",
    does: Does::Adds,
    ..Function::putting("fetch-add", &COUNTER)
};

static GET_COUNT: Function = Function {
    other_names: &["get_count"],
    reply: Shape::Number,
    replies: INTEGER,
    of_nothing: None,
    does: Does::Counts,
    ..Function::taking("get-count", &COUNTER)
};

/// The first addition, which leaves this number.
fn add(number: i64) -> (Op, Reply) {
    (Op { function: &FETCH_ADD, argument: Value::Int(number) }, Reply::Value(Some(0)))
}

pub static COUNTER: Room = Room {
    word: "counter",
    functions: &[&FETCH_ADD, &GET_COUNT],
    family: Family::Number(Number { fill: add }),
    words: Words {
        put: "added",
        seen: "found",
        taken: "found",
        out_of_date: "after it had been more",
        content_title: "number after",
        left_end: "",
    },
};
