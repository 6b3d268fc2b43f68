//! Mutexes: held or free.

use super::{Does, Family, Function, Holdable, Room, Words};
use crate::orders::mutex_order;
use crate::reasons::{mutex_patterns, rare_mutex_patterns};

static ACQUIRE: Function =
    Function { other_names: &["lock"], ..Function::holding("acquire", &MUTEX, Does::Acquires) };

static RELEASE: Function =
    Function { other_names: &["unlock"], ..Function::holding("release", &MUTEX, Does::Releases) };

pub static MUTEX: Room = Room {
    word: "mutex",
    functions: &[&ACQUIRE, &RELEASE],
    family: Family::Holdable(Holdable {
        has_owner: false,
        order: mutex_order,
        patterns: mutex_patterns,
        rare_patterns: rare_mutex_patterns,
    }),
    words: Words {
        put: "acquired",
        seen: "released",
        taken: "released",
        out_of_date: "after another content had replaced it",
        content_title: "content after",
        left_end: "",
    },
};
