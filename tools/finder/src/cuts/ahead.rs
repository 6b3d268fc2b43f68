//! What definitely was ahead of what a removal found: each of these values was taken out before it,
//! and only some removals can have done that. It needs no search, and no difference between values.
//!
//! A removal that found nothing has all values ahead of it that definitely were in before. One of a
//! heap has the lesser values, one of a queue those that were put in before its value, one of a
//! stack those that were pushed on it. In each valid order a put that counts is before the removal,
//! and so is a removal of what it put in.

use crate::history::{ObjectHistory, Operation};
use crate::kinds::{Gives, Reply};

/// A removal that returned, and which puts were ahead of what it found.
#[derive(Clone, Copy, Debug)]
pub struct Ahead {
    number: u32,
    /// The number of its return.
    pub at: u32,
    /// What it found.
    pub found: Option<i64>,
    gives: Gives,
    /// A put counts that was invoked at this number or later.
    from: u32,
    /// A put counts that returned before this number.
    before: u32,
}

impl Ahead {
    /// The removal of this number, where puts count from a number on. `None`: it is no removal that
    /// returned, or one of a stack whose value may have been pushed from that number on.
    pub fn of(history: &ObjectHistory, number: u32, from: u32) -> Option<Ahead> {
        let place = history.ops.binary_search_by_key(&number, |o| o.number).ok()?;
        let removal = &history.ops[place];
        let (at, Reply::Value(found)) = (removal.returned()?, removal.reply()?) else {
            return None;
        };
        let own_puts = || history.ops.iter().filter(|o| found.is_some() && o.puts() == found);
        let is_over = |put: &Operation| put.returned().is_some_and(|at| at < from);
        let gives = removal.op.kind().gives()?;
        let before = match (gives, found) {
            _ if !removal.op.removes() => return None,
            (Gives::First, Some(_)) => own_puts().next().map_or(0, |put| put.number).min(number),
            (Gives::Last, Some(_)) if !own_puts().all(is_over) => return None,
            (Gives::First, None) | (Gives::Last | Gives::Least, _) => number,
        };
        Some(Ahead { number, at, found, gives, from, before })
    }

    /// Whether a value can be ahead of what the removal found.
    pub fn has(&self, value: i64) -> bool {
        match (self.gives, self.found) {
            (Gives::Least, Some(found)) => value < found,
            (Gives::Least, None) | (Gives::First | Gives::Last, _) => true,
        }
    }

    /// Whether an operation is a put that definitely was ahead.
    pub fn is_ahead(&self, o: &Operation) -> bool {
        o.number >= self.from
            && o.returned().is_some_and(|at| at < self.before)
            && o.puts().is_some_and(|value| self.has(value))
    }

    /// Whether an operation is another removal that can have taken out such a value before.
    pub fn may_precede(&self, o: &Operation) -> bool {
        let may_take = o.is_pending() && o.op.removes();
        (may_take || o.takes().is_some_and(|value| self.has(value)))
            && o.number != self.number
            && o.number <= self.at
    }
}

/// Whether more puts definitely were ahead of what the removal of this number found than other
/// removals can have been before it. Then no order is valid.
pub fn is_blocked(history: &ObjectHistory, number: u32, from: u32) -> bool {
    Ahead::of(history, number, from).is_some_and(|ahead| {
        let puts = history.ops.iter().filter(|o| ahead.is_ahead(o)).count();
        let removals = history.ops.iter().filter(|o| ahead.may_precede(o)).count();
        puts > removals
    })
}

#[cfg(test)]
mod tests {
    use super::*;
    use crate::content::Content;
    use crate::history::End;
    use crate::kinds::Op;
    use crate::small::{Random, containers, has_order, op};

    /// An operation that was invoked and returned at these numbers; pending if at none.
    fn operation(number: u32, op: Op, end: Option<(u32, Option<i64>)>) -> Operation {
        let returned = |(at, value)| End::Returned { at, reply: Reply::Value(value) };
        Operation { number, op, end: end.map_or(End::Pending, returned) }
    }

    fn history(ops: Vec<Operation>) -> ObjectHistory {
        ObjectHistory { object: 0, kind: ops[0].op.kind(), ops }
    }

    /// Each of these has a valid order, by a form of the law that is not true.
    #[test]
    fn what_has_an_order_is_not_blocked() {
        let enqueue = |value: i64| op(&format!("enqueue {value}"));
        let insert = |value: i64| op(&format!("insert {value}"));
        let push = |value: i64| op(&format!("push {value}"));
        let (dequeue, extract_min, pop) = (op("dequeue"), op("extract-min"), op("pop"));
        let histories = [
            (
                history(vec![
                    operation(0, enqueue(1), Some((2, Some(1)))),
                    operation(1, dequeue, None),
                    operation(3, dequeue, Some((4, None))),
                ]),
                3,
            ),
            (
                history(vec![
                    operation(0, enqueue(1), Some((1, Some(1)))),
                    operation(2, dequeue, Some((5, None))),
                    operation(3, dequeue, Some((4, Some(1)))),
                ]),
                2,
            ),
            (
                history(vec![
                    operation(0, enqueue(1), None),
                    operation(1, dequeue, Some((2, None))),
                ]),
                1,
            ),
            (
                history(vec![
                    operation(0, enqueue(7), Some((1, Some(7)))),
                    operation(2, enqueue(7), Some((4, Some(7)))),
                    operation(3, dequeue, Some((5, Some(7)))),
                ]),
                3,
            ),
            (
                history(vec![
                    operation(0, enqueue(1), Some((2, Some(1)))),
                    operation(1, enqueue(2), Some((3, Some(2)))),
                    operation(4, dequeue, Some((5, Some(2)))),
                ]),
                4,
            ),
            (
                history(vec![
                    operation(0, insert(1), Some((3, Some(1)))),
                    operation(1, extract_min, Some((2, None))),
                    operation(4, extract_min, Some((5, Some(1)))),
                ]),
                4,
            ),
            (
                history(vec![
                    operation(0, push(0), Some((2, Some(0)))),
                    operation(1, pop, None),
                    operation(3, push(0), Some((4, Some(0)))),
                    operation(5, push(0), Some((6, Some(0)))),
                    operation(7, pop, Some((8, Some(0)))),
                ]),
                7,
            ),
            (
                history(vec![
                    operation(0, push(1), Some((5, Some(1)))),
                    operation(1, push(0), Some((2, Some(0)))),
                    operation(3, pop, Some((4, Some(1)))),
                ]),
                3,
            ),
            (
                history(vec![
                    operation(0, push(1), Some((2, Some(1)))),
                    operation(1, push(2), None),
                    operation(3, pop, Some((4, Some(2)))),
                ]),
                3,
            ),
        ];
        for (history, number) in histories {
            assert!(has_order(&history.ops, &Content::empty(history.kind)), "{history:?}");
            for from in 0..9 {
                assert!(!is_blocked(&history, number, from), "{history:?} from {from}");
            }
        }
    }

    #[test]
    fn each_kind_of_find_is_blocked() {
        let lost = |one: &str, other: &str, take: &str, found, from| {
            let ops = vec![
                operation(0, op(one), Some((1, Some(2)))),
                operation(2, op(other), Some((3, Some(3)))),
                operation(4, op(take), Some((5, found))),
            ];
            is_blocked(&history(ops), 4, from)
        };
        assert!(lost("enqueue 2", "enqueue 3", "dequeue", None, 0));
        assert!(lost("enqueue 2", "enqueue 3", "dequeue", Some(3), 0));
        assert!(!lost("enqueue 2", "enqueue 3", "dequeue", Some(2), 0));
        assert!(lost("insert 2", "insert 3", "extract-min", Some(3), 0));
        assert!(!lost("insert 2", "insert 3", "extract-min", Some(2), 0));
        assert!(lost("push 2", "push 3", "pop", Some(2), 2));
        assert!(!lost("push 2", "push 3", "pop", Some(2), 0));
        assert!(!lost("push 2", "push 3", "pop", Some(3), 4));
    }

    /// Of histories that are drawn none that is blocked has an order, and many are blocked.
    #[test]
    fn no_history_that_is_blocked_has_an_order() {
        let mut random = Random::new(0x2545_f491_4f6c_dd1d);
        let mut blocked = [0; 3];
        for (place, kind) in containers().enumerate() {
            for drawn in 0..6_000 {
                let history =
                    if drawn % 2 == 0 { random.crash(kind) } else { random.history(kind) };
                let numbers = history.ops.iter().map(|o| o.number);
                let is_any = numbers
                    .clone()
                    .any(|number| (0..18).any(|from| is_blocked(&history, number, from)));
                if is_any {
                    blocked[place] += 1;
                    let calls = history.ops.iter().filter(|o| !o.has_failed());
                    let calls: Vec<Operation> = calls.copied().collect();
                    assert!(!has_order(&calls, &Content::empty(kind)), "{history:?}");
                }
            }
        }
        assert!(blocked.iter().all(|count| *count > 300), "{blocked:?}");
    }
}
