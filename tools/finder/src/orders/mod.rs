//! Orders of an object's calls that may be valid, each looked for by a method that is made for its
//! kind. What `quick_order` and `order_by_contents` return was checked.
//!
//! The methods are made to find an order of any mutex, and of a container in which
//! each value is put in once, in some n log n steps of n calls. If values repeat those of a
//! container find many orders, and further ones by its contents, and `cells` those of an object
//! that has cells, of a lock, and of a number. They do not find each. The room of a
//! kind says which methods are for it.

mod cells;
mod heap;
mod line;
mod lock;
mod mutex;
mod number;
mod queue;
mod queue_search;
mod stack;
mod stack_search;

pub use heap::heap_order;
pub use lock::lock_order;
pub use mutex::mutex_order;
pub use queue::queue_order;
pub use queue_search::searched_queue_order;
pub use stack::{Pairing, stack_order};
pub use stack_search::searched_stack_order;

use crate::check::is_valid;
use crate::history::ObjectHistory;
use crate::kinds::{ContainerOrders, Family};
use crate::residences::Transfers;
use crate::timeline::Timeline;
use cells::{CellsOrder, order_of_cells};
use number::number_order;

/// What the quick methods find.
pub enum Quick {
    Order(Vec<u32>),
    /// No order. For a map `key` may name the key at which they stopped: they found orders for the
    /// calls on each lesser key.
    Open {
        key: Option<i64>,
    },
}

/// The methods for a container; none for another object.
fn container_orders(history: &ObjectHistory) -> Option<&'static ContainerOrders> {
    match &history.kind.family {
        Family::Container(container) => Some(&container.orders),
        Family::Cells(_) | Family::Holdable(_) | Family::Number(_) => None,
    }
}

/// A valid order of the object's operations, by the quick methods that are made for its kind.
pub fn quick_order(history: &ObjectHistory) -> Quick {
    let timeline = Timeline::of(&history.ops);
    let order = match &history.kind.family {
        Family::Cells(_) => match order_of_cells(&timeline) {
            CellsOrder::Order(order) => Some(order),
            CellsOrder::OpenCell { key } => return Quick::Open { key },
        },
        Family::Holdable(held) => (held.order)(&timeline),
        Family::Number(_) => number_order(&timeline),
        Family::Container(container) => {
            let transfers = Transfers::of(&timeline.calls);
            if transfers.overdraw() {
                return Quick::Open { key: None };
            }
            (container.orders.quick)(&timeline, transfers)
        }
    };
    let order = order.filter(|order| is_valid(history, order));
    match order.or_else(|| order_of_other_pairs(history, &timeline)) {
        Some(order) => Quick::Order(order),
        None => Quick::Open { key: None },
    }
}

/// Whether the quick methods take long: some of them try many pairs if values repeat.
pub fn is_slow(history: &ObjectHistory) -> bool {
    container_orders(history).is_some_and(|orders| orders.are_slow)
        && Transfers::of(&Timeline::of(&history.ops).calls).repeat()
}

/// Another order of the calls of a container, where it can be chosen which removal takes which
/// value.
fn order_of_other_pairs(history: &ObjectHistory, timeline: &Timeline) -> Option<Vec<u32>> {
    let orders = container_orders(history)?;
    let transfers = Transfers::of(&timeline.calls);
    if !transfers.leave_a_choice() {
        return None;
    }
    (orders.other_pairs)(timeline, transfers).filter(|order| is_valid(history, order))
}

/// A valid order of a container, by a search of all that it may contain, where it can be chosen
/// which removal takes which value.
pub fn order_by_contents(history: &ObjectHistory) -> Option<Vec<u32>> {
    let search = container_orders(history)?.by_contents?;
    let timeline = Timeline::of(&history.ops);
    if !Transfers::of(&timeline.calls).leave_a_choice() {
        return None;
    }
    search(&timeline).filter(|order| is_valid(history, order))
}

/// The keys of a map for whose calls no order was found, at most 16; none for another object.
pub fn open_keys(history: &ObjectHistory) -> Vec<i64> {
    match history.kind.has_keys() {
        true => cells::open_keys(&Timeline::of(&history.ops)),
        false => Vec::new(),
    }
}

#[cfg(test)]
mod tests {
    use super::*;
    use crate::kinds::KINDS;
    use crate::small::Random;

    #[test]
    fn orders_of_right_objects_are_found() {
        let mut random = Random::new(0x0123_4567_89ab_cdef);
        for kind in KINDS.iter().copied().filter(|kind| !kind.is_container()) {
            let is_found = |length: u32, random: &mut Random| {
                let history = random.recorded(kind, length);
                matches!(quick_order(&history), Quick::Order(_))
            };
            let found = (0..1_000).filter(|k| is_found(10 + k % 60, &mut random)).count();
            assert_eq!(found, 1_000, "{kind:?}");
        }
    }
}
