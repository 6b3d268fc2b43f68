//! A kind that only tests have: a slot, which is occupied by a value or free. It shows that a kind
//! is a room and its lines in the registry: all tests that go through the kinds have it too.

use super::{Access, Cells, Effect, Family, Function, Need, Op, Reply, Room, Value, Words};

static OCCUPY: Function = Function::telling_whether(
    "occupy",
    &SLOT,
    Access {
        effect: |value, reply| Some(Effect::replaces(None, value.last(), reply)),
        next: |value, content| (Reply::Flag(content.is_none()), content.or(value.last())),
    },
);

/// One that found nothing only looked.
static VACATE: Function = Function::finding(
    "vacate",
    &SLOT,
    Access {
        effect: |_, reply| {
            let need = Need::replied(reply);
            Some(Effect { need, sets: (need != Need::Is(None)).then_some(None) })
        },
        next: |_, content| (Reply::Value(content), None),
    },
);

/// An operation that occupies a free slot.
fn occupy(_: Option<i64>, value: i64) -> (Op, Reply) {
    (Op { function: &OCCUPY, argument: Value::Int(value) }, Reply::Flag(true))
}

pub static SLOT: Room = Room {
    word: "slot",
    functions: &[&OCCUPY, &VACATE],
    family: Family::Cells(Cells { has_keys: false, has_values: true, fill: occupy }),
    words: Words {
        put: "put into the slot",
        seen: "seen",
        taken: "taken out",
        out_of_date: "after it had been taken out",
        content_title: "content after",
        left_end: "",
    },
};
