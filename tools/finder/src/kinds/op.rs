//! Operations and replies, and what they do in the words of the families.

use super::cells::{Effect, Need};
use super::room::{Does, Family, Function, Kind};
use std::fmt::{self, Display, Formatter};

/// An operation with its argument.
#[derive(Clone, Copy, Debug, PartialEq, Eq)]
pub struct Op {
    pub function: &'static Function,
    pub argument: Value,
}

/// What an operation replies.
#[derive(Clone, Copy, Debug, PartialEq, Eq)]
pub enum Reply {
    /// A value, or nil.
    Value(Option<i64>),
    /// A compare-and-set that took place, with its two values.
    Swapped(i64, i64),
    NotSwapped,
    /// Whether the operation did what it asks for, or found what it looks for.
    Flag(bool),
}

/// An argument or a reply, as a history writes it.
#[derive(Clone, Copy, Debug, PartialEq, Eq)]
pub enum Value {
    Nil,
    False,
    True,
    Int(i64),
    Pair(i64, i64),
    Triple(i64, i64, i64),
}

/// What an operation does with the values of a container.
#[derive(Clone, Copy, Debug, PartialEq, Eq)]
pub enum Role {
    Puts(i64),
    Takes(i64),
    FindsNone,
    /// A removal that is pending: it takes a value that is not known, or nothing.
    Unknown,
}

impl Reply {
    /// The reply as a history writes it.
    pub fn value(self) -> Value {
        match self {
            Reply::Value(None) => Value::Nil,
            Reply::Value(Some(value)) => Value::Int(value),
            Reply::Swapped(expected, new) => Value::Pair(expected, new),
            Reply::NotSwapped | Reply::Flag(false) => Value::False,
            Reply::Flag(true) => Value::True,
        }
    }

    /// The content that it tells: a value, or nothing.
    pub fn content(self) -> Option<Option<i64>> {
        match self {
            Reply::Value(content) => Some(content),
            Reply::Swapped(..) | Reply::NotSwapped | Reply::Flag(_) => None,
        }
    }

    /// Whether it says that the object contained something else than the operation asks for.
    pub fn is_refusal(self) -> bool {
        match self {
            Reply::NotSwapped | Reply::Flag(false) => true,
            Reply::Value(_) | Reply::Swapped(..) | Reply::Flag(true) => false,
        }
    }
}

impl Value {
    /// The first integer, which is the key if there are keys.
    pub fn first(self) -> Option<i64> {
        match self {
            Value::Int(first) | Value::Pair(first, _) | Value::Triple(first, ..) => Some(first),
            Value::Nil | Value::False | Value::True => None,
        }
    }

    /// The last but one, which is the value to be replaced if there is one.
    pub fn expected(self) -> Option<i64> {
        match self {
            Value::Pair(expected, _) | Value::Triple(_, expected, _) => Some(expected),
            Value::Nil | Value::False | Value::True | Value::Int(_) => None,
        }
    }

    /// The last integer.
    pub fn last(self) -> Option<i64> {
        match self {
            Value::Int(last) | Value::Pair(_, last) | Value::Triple(_, _, last) => Some(last),
            Value::Nil | Value::False | Value::True => None,
        }
    }
}

impl Display for Value {
    fn fmt(&self, f: &mut Formatter<'_>) -> fmt::Result {
        match self {
            Value::Nil => f.write_str("nil"),
            Value::False => f.write_str("false"),
            Value::True => f.write_str("true"),
            Value::Int(value) => write!(f, "{value}"),
            Value::Pair(a, b) => write!(f, "[{a} {b}]"),
            Value::Triple(a, b, c) => write!(f, "[{a} {b} {c}]"),
        }
    }
}

impl Op {
    /// The name of its function, as a history writes it after `:f :`.
    pub fn name(self) -> &'static str {
        self.function.name
    }

    pub fn kind(self) -> Kind {
        self.function.kind
    }

    /// The value that the operation puts into a container.
    pub fn puts(self) -> Option<i64> {
        match self.function.does {
            Does::Puts => self.argument.last(),
            Does::Takes | Does::Accesses(_) => None,
            Does::Acquires | Does::Releases | Does::Adds | Does::Counts => None,
        }
    }

    /// Whether the operation takes a value out of a container.
    pub fn removes(self) -> bool {
        matches!(self.function.does, Does::Takes)
    }

    /// What the operation with this reply does with the values of a container. No reply: it is
    /// pending.
    pub fn role(self, reply: Option<Reply>) -> Role {
        match (self.puts(), reply) {
            (Some(value), _) => Role::Puts(value),
            (None, Some(Reply::Value(Some(value)))) => Role::Takes(value),
            (None, Some(_)) => Role::FindsNone,
            (None, None) => Role::Unknown,
        }
    }

    /// The key of its cell, where the object has keys.
    pub fn key(self) -> Option<i64> {
        match &self.function.kind.family {
            Family::Cells(cells) if cells.has_keys => self.argument.first(),
            Family::Cells(_) | Family::Container(_) | Family::Holdable(_) | Family::Number(_) => {
                None
            }
        }
    }

    /// What the operation with this reply asks of its cell, and leaves there. No reply: it is
    /// pending, and has an effect where it may set the cell. `None`: it has no effect that is
    /// known, or is on no cell.
    pub fn effect(self, reply: Option<Reply>) -> Option<Effect> {
        match &self.function.does {
            Does::Accesses(access) => (access.effect)(self.argument, reply),
            Does::Puts | Does::Takes | Does::Acquires | Does::Releases => None,
            Does::Adds | Does::Counts => None,
        }
    }

    /// What the operation replies where its cell has this content, and what it leaves there.
    /// `None`: it is on no cell.
    pub fn next(self, content: Option<i64>) -> Option<(Reply, Option<i64>)> {
        match &self.function.does {
            Does::Accesses(access) => Some((access.next)(self.argument, content)),
            Does::Puts | Does::Takes | Does::Acquires | Does::Releases => None,
            Does::Adds | Does::Counts => None,
        }
    }

    /// What the operation adds to a number: 0 if it only tells it. `None`: it is on no number.
    pub fn adds(self) -> Option<i64> {
        match self.function.does {
            Does::Adds => self.argument.last(),
            Does::Counts => Some(0),
            Does::Puts | Does::Takes | Does::Accesses(_) | Does::Acquires | Does::Releases => None,
        }
    }

    /// The number before and after the operation, by its reply.
    pub fn steps(self, reply: Reply) -> Option<(i64, i64)> {
        let before = reply.content()??;
        Some((before, before.checked_add(self.adds()?)?))
    }

    /// Whether the object is held after the operation. `None`: it is no mutex or lock.
    pub fn holds(self) -> Option<bool> {
        self.function.holds()
    }

    /// Who holds the object after the operation, where this one does before it: its argument names
    /// who acquires it, and who releases it. `None`: the operation is not possible, or on another
    /// kind.
    pub fn next_holder(self, holder: Option<Value>) -> Option<Option<Value>> {
        match self.holds()? {
            true => holder.is_none().then_some(Some(self.argument)),
            false => (holder == Some(self.argument)).then_some(None),
        }
    }

    /// What the operation leaves in its cell if it sets it, whatever it replies.
    pub fn sets(self) -> Option<Option<i64>> {
        self.effect(None)?.sets
    }

    /// The value that the operation may put in, or set, whatever it replies.
    pub fn new_value(self) -> Option<i64> {
        self.puts().or_else(|| self.sets().flatten())
    }

    /// Whether the operation only looks at its cell.
    pub fn only_looks(self) -> bool {
        self.function.only_looks()
    }

    /// Whether the reply would differ, or the operation would not be possible, with another content
    /// of the object.
    pub fn depends(self, reply: Reply) -> bool {
        match self.function.does {
            Does::Puts => false,
            Does::Takes | Does::Acquires | Does::Releases | Does::Adds | Does::Counts => true,
            Does::Accesses(_) => self.effect(Some(reply)).is_some_and(|it| it.need != Need::Any),
        }
    }

    /// Whether the operation may change what the object contains. No reply: it is pending.
    pub fn may_change(self, reply: Option<Reply>) -> bool {
        match self.function.does {
            Does::Puts | Does::Acquires | Does::Releases => true,
            Does::Takes => reply != Some(Reply::Value(None)),
            Does::Adds | Does::Counts => self.adds() != Some(0),
            Does::Accesses(_) => self.effect(reply).is_some_and(|it| it.sets.is_some()),
        }
    }

    /// Whether the reply tells what the object contains after the operation.
    pub fn tells(self, reply: Reply) -> bool {
        match self.function.does {
            Does::Puts => false,
            Does::Takes => reply == Reply::Value(None),
            Does::Accesses(_) => self.effect(Some(reply)).is_some_and(|it| it.shows().is_some()),
            Does::Acquires | Does::Releases | Does::Counts => true,
            Does::Adds => self.steps(reply).is_some(),
        }
    }
}
