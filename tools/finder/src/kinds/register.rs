//! Registers: one cell, which is written, read, and compared and set.

use super::room::NOTHING;
use super::{Access, Cells, Does, Effect, Family, Function, OfNothing, Op, Reply, Room};
use super::{Shape, Value, Words};

static WRITE: Function = Function {
    does: Does::Accesses(Access {
        effect: |new, _| Some(Effect::sets(new.last())),
        next: |new, _| (Reply::Value(new.last()), new.last()),
    }),
    ..Function::putting("write", &REGISTER)
};

static READ: Function = Function::finding("read", &REGISTER, Access::LOOK);

static CAS: Function = Function {
    argument: Shape::Pair,
    reply: Shape::Swapped,
    takes: "a pair of integers, [old new]",
    replies: "its pair where it swapped, and false where it did not",
    of_nothing: Some(OfNothing::False),
    does: Does::Accesses(Access {
        effect: |pair, reply| Some(Effect::replaces(pair.expected(), pair.last(), reply)),
        next: |pair, content| match pair {
            Value::Pair(expected, new) if content == Some(expected) => {
                (Reply::Swapped(expected, new), Some(new))
            }
            _ => (Reply::NotSwapped, content),
        },
    }),
    ..Function::putting("cas", &REGISTER)
};

static CLEAR: Function = Function {
    argument: Shape::Nothing,
    takes: NOTHING,
    ..Function::setting_silently(
        "clear",
        &REGISTER,
        Access { effect: |_, _| Some(Effect::sets(None)), next: |_, _| (Reply::Value(None), None) },
    )
};

static CREATE: Function = Function::telling_whether(
    "create",
    &REGISTER,
    Access {
        effect: |new, reply| Some(Effect::replaces(None, new.last(), reply)),
        next: |new, content| (Reply::Flag(content.is_none()), content.or(new.last())),
    },
);

pub static REGISTER: Room = Room {
    word: "register",
    functions: &[&WRITE, &READ, &CAS, &CLEAR, &CREATE],
    family: Family::Cells(Cells {
        has_keys: false,
        has_values: true,
        fill: |_, value| setting(Some(value)),
    }),
    words: Words {
        put: "written",
        seen: "read",
        taken: "replaced by :cas",
        out_of_date: "after another content had replaced it",
        content_title: "content after",
        left_end: "",
    },
};

/// The kind of an object that is one cell.
pub static KIND: &Room = &REGISTER;

/// The operation that leaves a content, whatever the cell contains, with its reply.
pub fn setting(content: Option<i64>) -> (Op, Reply) {
    let op = match content {
        Some(value) => Op { function: &WRITE, argument: Value::Int(value) },
        None => Op { function: &CLEAR, argument: Value::Nil },
    };
    (op, Reply::Value(content))
}

/// The one that finds a content.
pub fn finding(content: Option<i64>) -> (Op, Reply) {
    (Op { function: &READ, argument: Value::Nil }, Reply::Value(content))
}

/// The one that replaces a content by another one, as far as there is one.
pub fn replacing(old: Option<i64>, new: Option<i64>) -> (Op, Reply) {
    match (old, new) {
        (Some(old), Some(new)) => {
            (Op { function: &CAS, argument: Value::Pair(old, new) }, Reply::Swapped(old, new))
        }
        (None, Some(new)) => {
            (Op { function: &CREATE, argument: Value::Int(new) }, Reply::Flag(true))
        }
        (_, None) => setting(None),
    }
}
