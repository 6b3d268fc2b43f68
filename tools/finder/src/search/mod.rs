//! The bounded search for an order of the operations of one object, after Wing and Gong, "Testing
//! and Verifying Concurrent Objects", Journal of Parallel and Distributed Computing 17, 1993. Pairs
//! of operations done and content from which no order goes on are remembered, after Lowe, "Testing
//! for Linearizability", Concurrency and Computation: Practice and Experience 29, 2017.
//!
//! The proved program has the same search. Orders of trial, steps, and what is remembered are the
//! same, so that what is found here in some steps is found there in as many.

mod dead;
mod digest;
mod not_done;
mod walk;

use crate::history::ObjectHistory;
use walk::Walk;

/// Which of the operations that can come next in an order is tried first.
#[derive(Clone, Copy, Debug, PartialEq, Eq)]
pub enum TryFirst {
    /// That with the least number.
    Number,
    /// That with the least return. Operations that are pending come last.
    Return,
}

/// How a search ends.
#[derive(Debug, PartialEq, Eq)]
pub enum Outcome {
    /// A valid order: the numbers of the invocations.
    Order(Vec<u32>),
    /// No order is valid.
    Impossible,
    /// There is no answer within the limit of steps.
    OutOfSteps,
}

/// What a search came to.
pub struct Searched {
    pub outcome: Outcome,
    /// How many steps it took.
    pub steps: u64,
    /// Some order that was begun has all operations that returned before this number.
    pub passed: u32,
}

/// Searches for a valid order of the operations, depth first, in at most this many steps. A step is
/// one operation tried.
pub fn search(history: &ObjectHistory, first: TryFirst, steps: u64) -> Searched {
    if history.ops.iter().all(|o| o.returned().is_none()) {
        return Searched { outcome: Outcome::Order(Vec::new()), steps: 0, passed: u32::MAX };
    }
    Walk::new(history, first).run(steps)
}

#[cfg(test)]
mod tests {
    use super::*;
    use crate::history::{End, Operation};
    use crate::kinds::{Op, Reply};
    use crate::small::op;

    /// An operation that was invoked and returned at these numbers; pending if at none.
    fn operation(number: u32, op: Op, end: Option<(u32, Option<i64>)>) -> Operation {
        let returned = |(at, value)| End::Returned { at, reply: Reply::Value(value) };
        Operation { number, op, end: end.map_or(End::Pending, returned) }
    }

    fn queue(ops: Vec<Operation>) -> ObjectHistory {
        ObjectHistory { object: 0, kind: ops[0].op.kind(), ops }
    }

    #[test]
    fn finds_an_order_in_either_order_of_trial() {
        let history = queue(vec![
            operation(0, op("enqueue 1"), Some((3, Some(1)))),
            operation(1, op("enqueue 2"), Some((2, Some(2)))),
            operation(4, op("dequeue"), Some((5, Some(2)))),
        ]);
        for first in [TryFirst::Number, TryFirst::Return] {
            assert_eq!(search(&history, first, 100).outcome, Outcome::Order(vec![1, 0, 4]));
        }
    }

    #[test]
    fn uses_pending_operations() {
        let history = queue(vec![
            operation(0, op("enqueue 1"), None),
            operation(1, op("dequeue"), Some((2, Some(1)))),
        ]);
        assert_eq!(search(&history, TryFirst::Return, 100).outcome, Outcome::Order(vec![0, 1]));
    }

    #[test]
    fn counts_steps() {
        let history = queue(vec![
            operation(0, op("enqueue 1"), Some((1, Some(1)))),
            operation(2, op("dequeue"), Some((3, None))),
        ]);
        assert_eq!(search(&history, TryFirst::Number, 1).outcome, Outcome::OutOfSteps);
        for first in [TryFirst::Number, TryFirst::Return] {
            let searched = search(&history, first, 2);
            assert_eq!(searched.outcome, Outcome::Impossible);
            // the enqueue was in the order, the dequeue was not
            assert_eq!((searched.steps, searched.passed), (2, 3));
        }
    }

    #[test]
    fn nothing_that_returned_has_an_empty_order() {
        let history = queue(vec![operation(0, op("dequeue"), None)]);
        assert_eq!(search(&history, TryFirst::Number, 0).outcome, Outcome::Order(Vec::new()));
    }
}
