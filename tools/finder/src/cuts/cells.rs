//! Cells: a register, or a key of a map, of which some values are kept, and all others are one
//! other value.

use super::Values;
use crate::history::{End, ObjectHistory, Operation};
use crate::kinds::{Effect, Need, Op, Reply, lone_cell};
use std::collections::BTreeSet;

struct Cell<'a> {
    values: &'a Values,
    other: i64,
    key: Option<i64>,
}

impl Cell<'_> {
    /// Whether the content is kept: a value that is, or, of an object which is one cell, nothing.
    fn is_kept(&self, content: Option<i64>) -> bool {
        content.map_or(self.key.is_none(), |value| self.values.has(value))
    }

    /// What leaves this content in the part. What it found stays known only if that is kept.
    /// If all is kept, an operation of an object which is one cell stays as it is (`own`).
    fn changed(
        &self,
        own: Option<(Op, Reply)>,
        need: Need<Option<i64>>,
        content: Option<i64>,
    ) -> (Op, Reply) {
        match need {
            Need::Any => own.unwrap_or_else(|| lone_cell::setting(content)),
            Need::Is(found) if self.is_kept(found) => {
                own.unwrap_or_else(|| lone_cell::replacing(found, content))
            }
            Need::Is(_) | Need::IsNot(_) => lone_cell::setting(content),
        }
    }

    /// What an operation with this effect becomes. Where it leaves no kept content the part may
    /// choose whether it stays.
    fn touched(
        &self,
        stays: bool,
        own: Option<(Op, Reply)>,
        effect: Effect,
    ) -> Option<(Op, Reply)> {
        match (effect.sets, effect.need) {
            (Some(content), need) if self.is_kept(content) => {
                Some(self.changed(own, need, content))
            }
            (Some(_), need) => stays.then(|| self.changed(None, need, Some(self.other))),
            (None, Need::Is(content)) => stays.then(|| match self.is_kept(content) {
                true => lone_cell::finding(content),
                false => lone_cell::setting(Some(self.other)),
            }),
            (None, Need::Any | Need::IsNot(_)) => None,
        }
    }

    /// What an operation with this reply becomes.
    fn returned(&self, stays: bool, op: Op, reply: Reply) -> Option<(Op, Reply)> {
        let own = self.key.is_none().then_some((op, reply));
        self.touched(stays, own, op.effect(Some(reply))?)
    }

    /// What a pending operation becomes.
    fn pending(&self, op: Op) -> Option<Op> {
        self.touched(false, None, op.effect(None)?).map(|(op, _)| op)
    }

    /// What an operation becomes. `None`: it is left out.
    fn piece(&self, stays: bool, operation: &Operation) -> Option<Operation> {
        let Operation { number, op, end } = *operation;
        if op.key() != self.key {
            return None;
        }
        let (op, end) = match end {
            End::Failed => return None,
            End::Pending => (self.pending(op)?, end),
            End::Returned { at, reply } => {
                let (op, reply) = self.returned(stays, op, reply)?;
                (op, End::Returned { at, reply })
            }
        };
        Some(Operation { number, op, end })
    }
}

/// The part of a register, or of a map on one key, that can leave one of these values, and of the
/// others the operations with these numbers, which leave the other value in place of theirs. What
/// shows a value that is not kept, or none under the key, becomes a write of the other value. Of
/// another kind of object nothing stays.
pub(super) fn cell(
    history: &ObjectHistory,
    key: Option<i64>,
    values: &Values,
    other: i64,
    numbers: &BTreeSet<u32>,
) -> ObjectHistory {
    let cell = Cell { values, other, key };
    let pieces =
        history.ops.iter().filter_map(|o| cell.piece(numbers.contains(&o.number), o)).collect();
    let kind = if key.is_some() { lone_cell::KIND } else { history.kind };
    ObjectHistory { kind, ..history.with(pieces) }
}
