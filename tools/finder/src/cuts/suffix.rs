//! Suffixes: what can take effect from a call on that tells what the object then contains.

use crate::history::{End, ObjectHistory, Operation};
use crate::kinds::{Family, Need, Op, Reply, lone_cell};

/// An operation on an empty object, and its reply.
type First = (Op, Reply);

/// What an operation with this reply left, if the reply tells: nothing, or what this operation
/// leaves in an empty object.
fn left_by(op: Op, reply: Reply) -> Option<Option<First>> {
    if !op.tells(reply) {
        return None;
    }
    Some(match &op.kind().family {
        Family::Container(_) => None,
        Family::Cells(cells) => {
            let content = op.effect(Some(reply))?.shows()?;
            content.map(|value| (cells.fill)(op.key(), value))
        }
        Family::Holdable(_) => (op.holds() == Some(true)).then_some((op, reply)),
        Family::Number(number) => Some((number.fill)(op.steps(reply)?.1)),
    })
}

/// An operation that overlaps the first one: what set an object that is one cell sets it whatever
/// was there, unless that must have been nothing, and any other is pending. Where the suffix begins
/// empty, each is pending.
fn overlapping(first: Option<First>, operation: &Operation) -> Operation {
    let effect = operation.reply().and_then(|reply| operation.op.effect(Some(reply)));
    let effect = effect.filter(|_| operation.op.kind().is_lone_cell());
    let effect = effect.filter(|effect| effect.need != Need::Is(None));
    let written = effect.and_then(|effect| effect.sets.flatten());
    match (first, written, operation.end) {
        (Some(_), Some(value), End::Returned { at, .. }) => {
            let (op, reply) = lone_cell::setting(Some(value));
            Operation { op, end: End::Returned { at, reply }, ..*operation }
        }
        _ => Operation { end: End::Pending, ..*operation },
    }
}

/// The part that begins with the call of this number. What returned before it is left out. `None`:
/// the call has not returned, its reply does not tell what it left, or some call of the map is on
/// another key.
pub(super) fn from(history: &ObjectHistory, number: u32) -> Option<ObjectHistory> {
    let ops = &history.ops;
    let call = ops.iter().find(|o| o.number == number)?;
    let End::Returned { at: begun, reply } = call.end else {
        return None;
    };
    let first = left_by(call.op, reply)?;
    if ops.iter().any(|o| !o.has_failed() && o.op.key() != call.op.key()) {
        return None;
    }
    let piece = |o: &Operation| {
        if o.number == number {
            let (op, reply) = first?;
            return Some(Operation { number, op, end: End::Returned { at: begun, reply } });
        }
        if o.has_failed() || o.returned().is_some_and(|at| at < number) {
            return None;
        }
        Some(if o.number > begun { *o } else { overlapping(first, o) })
    };
    Some(history.with(ops.iter().filter_map(piece).collect()))
}
