//! Locks. A lock is one cell, which contains its owner.

use super::cells::searched_order;
use crate::accesses::owners_of;
use crate::timeline::Timeline;

/// An order of the calls that may be valid.
pub fn lock_order(timeline: &Timeline) -> Option<Vec<u32>> {
    let cell = owners_of(&timeline.calls);
    let order = searched_order(&cell.accesses)?;
    Some(order.into_iter().map(|place| cell.accesses[place].call.number).collect())
}
