//! Sets: a cell for each element, which contains the element or nothing. Each operation replies
//! whether the element was added, or removed, or found.

use super::{Access, Cells, Effect, Family, Function, Need, Op, Reply, Room, Value, Words};

static ADD: Function = Function::telling_whether(
    "add",
    &SET,
    Access {
        effect: |element, reply| Some(changes(None, element.last(), reply)),
        next: |element, content| (Reply::Flag(content.is_none()), element.last()),
    },
);

static REMOVE: Function = Function::telling_whether(
    "remove",
    &SET,
    Access {
        effect: |element, reply| Some(changes(element.last(), None, reply)),
        next: |_, content| (Reply::Flag(content.is_some()), None),
    },
);

static CONTAINS: Function = Function::telling_whether(
    "contains",
    &SET,
    Access {
        effect: |element, reply| {
            let is_in = reply? == Reply::Flag(true);
            let content = element.last().filter(|_| is_in);
            Some(Effect { need: Need::Is(content), sets: None })
        },
        next: |_, content| (Reply::Flag(content.is_some()), content),
    },
);

/// The effect of an operation that changes one content to the other one, and replies whether it did
/// so. If it did not the other one was there. While it is pending either may have been there.
fn changes(old: Option<i64>, new: Option<i64>, reply: Option<Reply>) -> Effect {
    match reply {
        Some(Reply::Flag(true)) => Effect { need: Need::Is(old), sets: Some(new) },
        Some(_) => Effect { need: Need::Is(new), sets: None },
        None => Effect::sets(new),
    }
}

/// An operation that adds an element which is not in the set.
fn add(key: Option<i64>, element: i64) -> (Op, Reply) {
    let argument = Value::Int(key.unwrap_or(element));
    (Op { function: &ADD, argument }, Reply::Flag(true))
}

pub static SET: Room = Room {
    word: "set",
    functions: &[&ADD, &REMOVE, &CONTAINS],
    family: Family::Cells(Cells { has_keys: true, has_values: false, fill: add }),
    words: Words {
        put: "added",
        seen: "found",
        taken: "removed",
        out_of_date: "after it had been removed",
        content_title: "content after",
        left_end: "",
    },
};
