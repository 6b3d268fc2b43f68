//! Cells: each contains a value or nothing, and is empty at first. An operation asks something of
//! what its cell contains, and may set it.

use super::op::{Op, Reply, Value};

/// What is special to an object that has cells.
pub struct Cells {
    /// Whether there is a cell for each key. Else there is one.
    pub has_keys: bool,
    /// Whether a cell contains a value, of which there are several. Else it contains its key, or
    /// nothing: a part keeps the cell as a whole, and nothing is counted.
    pub has_values: bool,
    /// An operation with its reply that leaves a value in an empty cell, that of a key where there
    /// are keys.
    pub fill: fn(Option<i64>, i64) -> (Op, Reply),
}

/// What a function does with a cell.
pub struct Access {
    /// What an operation with this argument and reply asks of its cell, and leaves there.
    pub effect: fn(Value, Option<Reply>) -> Option<Effect>,
    /// What an operation with this argument replies where the cell has this content, and what it
    /// leaves.
    pub next: fn(Value, Option<i64>) -> (Reply, Option<i64>),
}

/// What a call asks of what the cell contains before it.
#[derive(Clone, Copy, Debug, PartialEq, Eq)]
pub enum Need<C> {
    Any,
    Is(C),
    IsNot(C),
}

/// What an operation asks of its cell, and leaves there if it sets it.
#[derive(Clone, Copy, Debug, PartialEq, Eq)]
pub struct Effect {
    pub need: Need<Option<i64>>,
    pub sets: Option<Option<i64>>,
}

impl Access {
    /// The operation finds what it replies. It has no effect while it is pending.
    pub const LOOK: Access = Access {
        effect: |_, reply| Some(Effect { need: Need::Is(reply?.content()?), sets: None }),
        next: |_, content| (Reply::Value(content), content),
    };
}

impl Effect {
    /// What the cell contains after it, if that is known.
    pub fn shows(&self) -> Option<Option<i64>> {
        match (self.sets, self.need) {
            (Some(content), _) | (None, Need::Is(content)) => Some(content),
            (None, Need::Any | Need::IsNot(_)) => None,
        }
    }

    /// Whether it found another content than it asked for.
    pub fn is_refused(&self) -> bool {
        matches!(self.need, Need::IsNot(_))
    }

    /// That of an operation which sets its cell whatever it contains, and does not tell what.
    pub fn sets(content: Option<i64>) -> Effect {
        Effect { need: Need::Any, sets: Some(content) }
    }

    /// That of an operation which sets its cell to the second content where it contains the first
    /// one, and replies whether it did so.
    pub fn replaces(old: Option<i64>, new: Option<i64>, reply: Option<Reply>) -> Effect {
        match reply.is_some_and(Reply::is_refusal) {
            true => Effect { need: Need::IsNot(old), sets: None },
            false => Effect { need: Need::Is(old), sets: Some(new) },
        }
    }
}

impl Need<Option<i64>> {
    /// That of an operation which replies what was there.
    pub fn replied(reply: Option<Reply>) -> Need<Option<i64>> {
        reply.and_then(Reply::content).map_or(Need::Any, Need::Is)
    }
}
