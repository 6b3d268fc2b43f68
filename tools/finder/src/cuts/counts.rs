//! Counts: a content that was taken away more often than it can have been there, or values that
//! definitely were ahead of what a removal found. They need no search.

use super::ahead::is_blocked;
use crate::history::{ObjectHistory, Operation};
use crate::kinds::{Effect, Family, Need, Op, Reply};

/// What is counted: a content, or a part of one.
#[derive(Clone, Copy, Debug, PartialEq, Eq)]
pub enum Counted {
    /// This value, in a queue, stack, heap or register.
    Value(i64),
    /// This value under this key of a map.
    Entry { key: i64, value: i64 },
    /// No value under this key of a map.
    NoEntry(i64),
    /// A mutex that is held.
    Held,
    /// A mutex that is free.
    Free,
    /// What definitely was ahead of what the removal of this number found, in a queue, stack or
    /// heap.
    Ahead(u32),
}

/// A count from the number of a map on, which is 0 at the beginning.
#[derive(Clone, Copy, Debug, PartialEq, Eq)]
pub struct Count {
    pub counted: Counted,
    pub from: u32,
}

impl Counted {
    /// Where it is counted, the key if there are keys, and the value there; none of nothing.
    fn place(self) -> Option<(Option<i64>, Option<i64>)> {
        match self {
            Counted::Value(value) => Some((None, Some(value))),
            Counted::Entry { key, value } => Some((Some(key), Some(value))),
            Counted::NoEntry(key) => Some((Some(key), None)),
            Counted::Held | Counted::Free | Counted::Ahead(_) => None,
        }
    }

    /// Whether an operation on a mutex makes it so.
    fn is_made_by(self, holds: bool) -> bool {
        match self {
            Counted::Held => holds,
            Counted::Free => !holds,
            Counted::Value(_) | Counted::Entry { .. } | Counted::NoEntry(_) | Counted::Ahead(_) => {
                false
            }
        }
    }

    /// Whether it is in a container, and this is it.
    fn is_value(self, value: Option<i64>) -> bool {
        self.place() == Some((None, value)) && value.is_some()
    }

    /// Whether an operation with this reply sets the content; with no reply, whether it may.
    fn is_set_by(self, op: Op, reply: Option<Reply>) -> bool {
        match op.kind().family {
            Family::Container(_) => self.is_value(op.puts()),
            Family::Cells(_) => {
                let new = op.effect(reply).and_then(|effect| effect.sets);
                new.is_some_and(|new| self.place() == Some((op.key(), new)))
            }
            Family::Holdable(_) => op.holds().is_some_and(|holds| self.is_made_by(holds)),
            Family::Number(_) => false,
        }
    }

    /// Whether an operation with this reply took the content away.
    fn is_taken_by(self, op: Op, reply: Reply) -> bool {
        match op.kind().family {
            Family::Container(_) => {
                op.removes() && reply.content().is_some_and(|taken| self.is_value(taken))
            }
            Family::Cells(_) => match op.effect(Some(reply)) {
                Some(Effect { need: Need::Is(old), sets: Some(_) }) => {
                    self.place() == Some((op.key(), old))
                }
                _ => false,
            },
            Family::Holdable(_) => {
                let is_other = matches!(self, Counted::Held | Counted::Free);
                op.holds().is_some_and(|holds| is_other && !self.is_made_by(holds))
            }
            Family::Number(_) => false,
        }
    }
}

impl Count {
    /// How often the object can have contained it before the count begins, at most. `None`: it is
    /// not known.
    fn most_before(self, history: &ObjectHistory) -> Option<usize> {
        match self.counted {
            _ if self.from > 0 => (!history.kind.is_container()).then_some(1),
            Counted::NoEntry(_) | Counted::Free => Some(1),
            _ => Some(0),
        }
    }

    /// Whether an operation sets the content, and had not returned before the count begins.
    fn is_set_by(self, o: &Operation) -> bool {
        !o.has_failed()
            && o.returned().is_none_or(|at| at >= self.from)
            && self.counted.is_set_by(o.op, o.reply())
    }

    /// Whether an operation was invoked where the count begins or later, and took the content away.
    fn is_taken_by(self, o: &Operation) -> bool {
        o.number >= self.from && o.reply().is_some_and(|r| self.counted.is_taken_by(o.op, r))
    }
}

/// Whether the content was taken away, by operations that were invoked where the count begins or
/// later, more often than the object can have contained it before and operations that had not
/// returned before can have set it; or whether more was put in ahead of what a removal found than
/// can have been taken out before it. Then no order is valid.
pub fn is_exceeded(history: &ObjectHistory, count: Count) -> bool {
    if let Counted::Ahead(number) = count.counted {
        return is_blocked(history, number, count.from);
    }
    if !history.kind.is_countable() {
        return false;
    }
    count.most_before(history).is_some_and(|most| {
        let set = history.ops.iter().filter(|o| count.is_set_by(o)).count();
        let taken = history.ops.iter().filter(|o| count.is_taken_by(o)).count();
        taken > set + most
    })
}
