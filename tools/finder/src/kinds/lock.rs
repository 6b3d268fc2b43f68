//! Locks: held by an owner, or free.

use super::room::{INTEGER, NOTHING};
use super::{Does, Family, Function, Holdable, Room, Shape, Words};
use crate::orders::lock_order;
use crate::reasons::{lock_patterns, rare_lock_patterns};

/// A function that does this, and names the owner.
const fn owning(name: &'static str, does: Does) -> Function {
    Function {
        argument: Shape::Value,
        reply: Shape::Silent,
        takes: INTEGER,
        replies: NOTHING,
        ..Function::holding(name, &LOCK, does)
    }
}

static LOCK_BY: Function = owning("lock", Does::Acquires);
static UNLOCK_BY: Function = owning("unlock", Does::Releases);

pub static LOCK: Room = Room {
    word: "lock",
    functions: &[&LOCK_BY, &UNLOCK_BY],
    family: Family::Holdable(Holdable {
        has_owner: true,
        order: lock_order,
        patterns: lock_patterns,
        rare_patterns: rare_lock_patterns,
    }),
    words: Words {
        put: "locked",
        seen: "unlocked",
        taken: "unlocked",
        out_of_date: "after another content had replaced it",
        content_title: "owner after",
        left_end: "",
    },
};
