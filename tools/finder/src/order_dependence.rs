//! Whether some reply of a history depends on the order of operations of different processes. If
//! none does, the history says nothing about the order: an object that mixed up its operations
//! could have given the same replies.
//!
//! A reply depends on it if two things hold. It would differ, or its operation would not be
//! possible, with another content of its cell: of a map the key, of a set the element, of the other
//! kinds the object. And an operation of another process, invoked before the reply, may change that
//! cell.

use crate::history::{History, ObjectHistory, Operation};
use crate::splitmix::NumberTable;

/// A moment, which is the number of an event, with its process.
#[derive(Clone, Copy)]
struct Moment {
    process: u64,
    at: u32,
}

/// Moments of two processes: the most extreme one, and that of another process.
#[derive(Clone, Copy, Default)]
struct OfTwo {
    first: Option<Moment>,
    other: Option<Moment>,
}

impl OfTwo {
    /// Notes a moment; `precedes` says which of two is more extreme.
    fn note(&mut self, moment: Moment, precedes: impl Fn(u32, u32) -> bool) {
        let is_ahead = |of: Option<Moment>| of.is_none_or(|it| precedes(moment.at, it.at));
        match self.first {
            Some(first) if first.process == moment.process => {
                self.first = Some(if is_ahead(self.first) { moment } else { first });
            }
            _ if is_ahead(self.first) => self.other = self.first.replace(moment),
            _ if is_ahead(self.other) => self.other = Some(moment),
            _ => {}
        }
    }

    /// The most extreme moment of a process that is not this one.
    fn of_others(&self, process: u64) -> Option<u32> {
        let is_other = |it: &Moment| it.process != process;
        self.first.filter(is_other).or(self.other).map(|it| it.at)
    }
}

/// What was seen of a cell: the earliest invocations of operations that may change it, and the
/// latest returns of operations whose reply depends on it.
#[derive(Clone, Copy, Default)]
struct Cell {
    changes: OfTwo,
    replies: OfTwo,
}

impl Cell {
    /// Notes an operation of this process, the next by its invocation. Whether a reply depends on
    /// an operation of another process then.
    fn note(&mut self, operation: &Operation, process: u64) -> bool {
        let (op, reply) = (operation.op, operation.reply());
        let may_change = op.may_change(reply);
        let depends = reply.is_some_and(|reply| op.depends(reply));
        let is_seen = |at: u32| at > operation.number;
        let is_found = depends && self.changes.of_others(process).is_some()
            || may_change && self.replies.of_others(process).is_some_and(is_seen);
        if may_change {
            let moment = Moment { process, at: operation.number };
            self.changes.note(moment, |one, another| one < another);
        }
        if let Some(at) = operation.returned().filter(|_| depends) {
            self.replies.note(Moment { process, at }, |one, another| one > another);
        }
        is_found
    }
}

/// Whether a reply of this object depends on the order.
fn has_such_reply(object: &ObjectHistory, history: &History) -> bool {
    let mut cells = NumberTable::<i64, Cell>::default();
    let mut all = object.ops.iter().filter(|it| !it.has_failed());
    all.any(|operation| {
        let cell = cells.entry(operation.op.key().unwrap_or(0)).or_default();
        history.process_of(operation.number).is_some_and(|process| cell.note(operation, process))
    })
}

/// Whether some reply of the history depends on the order of operations of different processes.
pub fn depends_on_order(history: &History) -> bool {
    history.objects.iter().any(|object| has_such_reply(object, history))
}

#[cfg(test)]
mod tests {
    use super::*;
    use crate::read_history;

    /// A history in short: of each event its process and what it is, as `0 write 1` of an
    /// invocation, `0 = 1` of a return, `0 fail` and `0 info`.
    fn history_of(events: &str) -> History {
        let mut calls = NumberTable::<u64, &str>::default();
        let mut text = String::new();
        for event in events.split(", ") {
            let (process, rest) = event.split_once(' ').expect("a process");
            let process: u64 = process.parse().expect("a number");
            let (word, value) = rest.split_once(' ').unwrap_or((rest, "nil"));
            let of_type = match word {
                "=" => "ok",
                "fail" | "info" => word,
                _ => "invoke",
            };
            let function = match of_type {
                "invoke" => {
                    calls.insert(process, word);
                    word
                }
                _ => calls[&process],
            };
            text += &format!(
                "{{:process {process}, :type :{of_type}, :f :{function}, :value {value}}}\n"
            );
        }
        read_history(text.as_bytes()).unwrap_or_else(|| panic!("{text}"))
    }

    #[test]
    fn histories_that_cannot_fail_are_told() {
        let writes: String =
            (0..600).map(|it| format!("{} write {it}, {} = {it}, ", it % 3, it % 3)).collect();
        for events in [
            "0 write 1, 1 write 2, 0 = 1, 1 = 2",
            &(writes.clone() + "1 read, 1 fail"),
            &(writes + "1 read"),
            "0 write 1, 1 write 2, 0 info, 1 info",
            "0 read, 1 read, 0 = nil, 1 = nil",
            "0 read, 0 = nil, 1 write 2, 1 = 2",
            "0 write 1, 0 = 1, 0 read, 0 = 1, 0 cas [1 2], 0 = [1 2]",
            "0 put [1 5], 1 put [2 6], 0 = nil, 1 = nil, 0 get 1, 1 get 2, 0 = 5, 1 = 6",
            "0 assoc [1 5], 1 assoc [1 6], 0 = nil, 1 = nil",
            "0 add 1, 1 add 2, 0 = true, 1 = true, 0 contains 1, 1 contains 2, 0 = true, 1 = true",
            "0 enqueue 1, 1 enqueue 2, 0 = 1, 1 = 2",
            "0 enqueue 1, 0 = 1, 0 dequeue, 0 = 1, 1 dequeue",
            "0 fetch-add 0, 0 = 0, 1 get-count, 1 = 0",
            "0 acquire, 0 = nil, 0 release, 0 = nil",
            "0 write 1, 0 = 1, 1 cas [5 6], 1 info",
        ] {
            assert!(!depends_on_order(&history_of(events)), "{events}");
        }
    }

    #[test]
    fn histories_that_can_fail_are_not() {
        let writes: String = (0..10_000).map(|it| format!("0 write {it}, 0 = {it}, ")).collect();
        for events in [
            &(writes + "1 read, 1 = 9999"),
            "0 enqueue 1, 1 dequeue, 2 dequeue, 1 = 1, 2 = nil, 0 = 1",
            "0 write 1, 0 info, 1 read, 1 = nil",
            "1 read, 0 write 1, 1 = nil, 0 = 1",
            "0 write 1, 0 = 1, 1 write 2, 1 = 2, 0 cas [2 3], 0 = [2 3]",
            "0 put [1 5], 1 put [1 6], 0 = nil, 1 = 5",
            "0 assoc [1 5], 0 = nil, 1 get 1, 1 = 5",
            "0 add 1, 1 add 1, 0 = true, 1 = false",
            "0 push 1, 1 pop, 0 = 1, 1 = nil",
            "0 insert 1, 0 = 1, 1 extract-min, 1 = 1",
            "0 fetch-add 1, 1 get-count, 0 = 0, 1 = 1",
            "0 acquire, 1 acquire, 0 = nil",
            "0 lock 1, 0 = nil, 1 lock 2, 0 unlock 1, 0 = nil, 1 = nil",
        ] {
            assert!(depends_on_order(&history_of(events)), "{events}");
        }
    }

    #[test]
    fn all_objects_are_looked_at() {
        let read = b"{:process 0, :type :invoke, :f :write, :value 1}
                     {:process 1, :type :invoke, :f :write, :value 1, :object 1}
                     {:process 2, :type :invoke, :f :read, :object 1}
                     {:process 2, :type :ok, :f :read, :object 1}";
        assert!(depends_on_order(&read_history(read).expect("a history")));
    }
}
