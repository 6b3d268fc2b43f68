//! Patterns of one value that objects with values of all kinds have: it is taken, or seen, earlier
//! or more often than it is put in, or set.

use super::Facts;
use super::pattern::{General, Says, SaysOfElement};
use crate::history::ObjectHistory;
use crate::kinds::{Kind, Words};
use std::fmt::{self, Display, Formatter};

/// What is wrong with one value.
#[derive(Clone, Copy, Debug, PartialEq, Eq)]
pub enum OneValue {
    /// The value is taken, or seen, and no operation puts it in, or sets it.
    NeverSet(i64),
    /// The value is taken, or seen, by an operation that returns before any is invoked that puts it
    /// in, or sets it.
    TooEarly(i64),
    /// The value is put in once, and taken twice.
    TakenTwice(i64),
    /// When `taken` operations that take the value have returned, fewer are invoked that put it in,
    /// or set it.
    TakenTooOften { value: i64, taken: usize, set: usize },
}

/// How often: `once`, or `2 times`.
struct Times(usize);

impl Display for Times {
    fn fmt(&self, f: &mut Formatter<'_>) -> fmt::Result {
        match self.0 {
            1 => f.write_str("once"),
            times => write!(f, "{times} times"),
        }
    }
}

impl Says for OneValue {
    fn sentence(&self, kind: Kind, facts: Facts) -> String {
        let Words { put, taken, .. } = kind.words;
        let seen = facts.seen(kind);
        match *self {
            OneValue::NeverSet(value) => match facts.undone {
                Some(undone) => {
                    format!("value {value} was {seen} and only {put} by {}", undone.text())
                }
                None => format!("value {value} was {seen} and never {put}"),
            },
            OneValue::TooEarly(value) => format!("value {value} was {seen} before it was {put}"),
            OneValue::TakenTwice(value) => {
                format!("value {value} was {put} once and {taken} twice")
            }
            OneValue::TakenTooOften { value, taken: times, set } => {
                let (times, set) = (Times(times), Times(set));
                format!("value {value} was {taken} {times} and by then {put} {set}")
            }
        }
    }
}

impl SaysOfElement for OneValue {
    fn sentence_of_element(&self, element: i64, kind: Kind, facts: Facts) -> String {
        match self {
            OneValue::NeverSet(_) => OneValue::NeverSet(element).sentence(kind, facts),
            OneValue::TooEarly(_) => OneValue::TooEarly(element).sentence(kind, facts),
            OneValue::TakenTwice(_) | OneValue::TakenTooOften { .. } => {
                General.sentence_of_element(element, kind, facts)
            }
        }
    }
}

impl OneValue {
    /// The pattern of a beginning of this history as one of the whole. `None`: it may not be true
    /// of it.
    pub(super) fn of_whole(self, history: &ObjectHistory) -> Option<OneValue> {
        let puts = |value: i64| history.ops.iter().filter(|o| o.puts() == Some(value)).count();
        match self {
            OneValue::NeverSet(value) if puts(value) > 0 => Some(OneValue::TooEarly(value)),
            OneValue::NeverSet(_) if !history.kind.is_container() => None,
            OneValue::TakenTwice(value) if puts(value) > 1 => {
                Some(OneValue::TakenTooOften { value, taken: 2, set: 1 })
            }
            OneValue::NeverSet(_) | OneValue::TooEarly(_) => Some(self),
            OneValue::TakenTwice(_) | OneValue::TakenTooOften { .. } => Some(self),
        }
    }
}
