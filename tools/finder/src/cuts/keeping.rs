//! Projections: the operations on some values, or on some keys.

use super::Values;
use crate::history::{ObjectHistory, Operation};
use crate::kinds::{Cells, Effect, Family, Need, Op, Reply, Role};
use std::collections::BTreeSet;

/// Whether an operation of a container may be kept, or left out.
fn fits_values(values: &Values, kept: bool, role: Role) -> bool {
    match role {
        Role::Puts(value) | Role::Takes(value) => kept == values.has(value),
        Role::FindsNone | Role::Unknown => true,
    }
}

/// The same of one on the cell of a key. What does not set it may be left out.
fn fits_keys(values: &Values, kept: bool, key: Option<i64>, effect: Option<Effect>) -> bool {
    let has = key.is_some_and(|key| values.has(key));
    match effect.and_then(|effect| effect.sets) {
        Some(_) => kept == has,
        None => !kept || has,
    }
}

/// The same of one on an object that is one cell. Which values are kept is asked of what it leaves
/// if it is left out, and of what it asks for if it is kept.
fn fits_cell(values: &Values, kept: bool, effect: Option<Effect>, is_pending: bool) -> bool {
    let Some(Effect { need, sets }) = effect else {
        return true;
    };
    let leaves = sets.flatten().is_some_and(|value| values.has(value));
    match need {
        // What leaves nothing is kept.
        _ if !kept => !leaves && sets != Some(None),
        Need::Any | Need::Is(None) => true,
        Need::Is(Some(value)) => values.has(value) || is_pending && !leaves,
        Need::IsNot(_) => *values == Values::All,
    }
}

/// Whether an operation with this reply may be kept, or left out. No reply: it is pending.
fn fits(values: &Values, kept: bool, op: Op, reply: Option<Reply>) -> bool {
    match op.kind().family {
        Family::Container(_) => fits_values(values, kept, op.role(reply)),
        Family::Cells(Cells { has_keys: true, .. }) => {
            fits_keys(values, kept, op.key(), op.effect(reply))
        }
        Family::Cells(Cells { has_keys: false, .. }) => {
            fits_cell(values, kept, op.effect(reply), reply.is_none())
        }
        Family::Holdable(_) => kept,
        Family::Number(_) => kept || op.only_looks(),
    }
}

/// The operations with these numbers, which keep these values, or at a map these keys. Of the
/// pending removals at least the first ones must be kept: as many as kept values are left over.
/// `None`: the part is not closed, so a whole with a valid order can have a part that has none.
pub(super) fn keep(
    history: &ObjectHistory,
    values: &Values,
    numbers: &BTreeSet<u32>,
) -> Option<ObjectHistory> {
    let ops = &history.ops;
    let is_kept = |o: &&Operation| numbers.contains(&o.number);
    let mut pending = ops.iter().filter(|o| o.is_pending() && o.op.removes());
    let is_closed =
        ops.iter().all(|o| o.has_failed() || fits(values, is_kept(&o), o.op, o.reply()))
            && pending.by_ref().take(values.left_over(ops)).all(|o| is_kept(&o));
    is_closed.then(|| history.with(ops.iter().filter(is_kept).copied().collect()))
}
