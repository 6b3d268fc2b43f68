//! Parts of an object's history that have a valid order if the whole has one, so that a small part
//! can show that no order of the whole is valid. Herlihy and Wing's locality, "Linearizability: A
//! Correctness Condition for Concurrent Objects", TOPLAS 1990, is the model: what is true of
//! objects in a history is here made true of values, keys and times in the history of one object.

mod ahead;
mod cells;
mod counts;
mod keeping;
mod suffix;

pub use ahead::Ahead;
pub use counts::{Count, Counted, is_exceeded};

use crate::history::{End, ObjectHistory, Operation};
use std::collections::BTreeSet;

/// Which values are kept, or at a map which keys.
#[derive(Clone, Debug, PartialEq, Eq)]
pub enum Values {
    All,
    Only(BTreeSet<i64>),
}

impl Values {
    pub fn has(&self, value: i64) -> bool {
        match self {
            Values::All => true,
            Values::Only(values) => values.contains(&value),
        }
    }

    /// How many of these values can be left in a queue, stack or heap for pending removals: as many
    /// as are put in, and not taken out by calls that returned.
    pub fn left_over(&self, ops: &[Operation]) -> usize {
        let has = |value: Option<i64>| value.is_some_and(|value| self.has(value));
        let put = ops.iter().filter(|o| has(o.puts())).count();
        let taken = ops.iter().filter(|o| has(o.takes())).count();
        put.saturating_sub(taken)
    }
}

/// How a part is cut out of an object's history. Numbers are those of maps of the history.
#[derive(Clone, Debug, PartialEq, Eq)]
pub enum Cut {
    /// What can take effect from the call with this number on.
    From(u32),
    /// What was invoked before this number, pending where it had not returned by then.
    Until(u32),
    /// All except what was done with this value before this number, where it definitely was not in
    /// the queue, stack or heap.
    Without { value: i64, before: u32 },
    /// The operations with these numbers, which keep these values, or at a map these keys.
    Keep { values: Values, numbers: BTreeSet<u32> },
    /// Of a register, or of a key of a map as a register: the operations that can leave one of
    /// these values, and of the others those with these numbers, with one other value in place of
    /// all others, and of no value under the key.
    Cell { key: Option<i64>, values: Values, other: i64, numbers: BTreeSet<u32> },
}

impl Cut {
    /// The part that the cut leaves. `None`: it names no part that has a valid order if the whole
    /// has.
    fn part_of(&self, history: &ObjectHistory) -> Option<ObjectHistory> {
        match self {
            Cut::From(number) => suffix::from(history, *number),
            Cut::Until(number) => Some(until(history, *number)),
            Cut::Without { value, before } => without(history, *value, *before),
            Cut::Keep { values, numbers } => keeping::keep(history, values, numbers),
            Cut::Cell { key, values, other, numbers } => {
                Some(cells::cell(history, *key, values, *other, numbers))
            }
        }
    }
}

/// The part that the cuts name: each cuts the part that those before it left. `None`: one of them
/// names none.
pub fn part_by(history: &ObjectHistory, cuts: &[Cut]) -> Option<ObjectHistory> {
    let Some((first, rest)) = cuts.split_first() else {
        return Some(history.clone());
    };
    rest.iter().try_fold(first.part_of(history)?, |part, cut| cut.part_of(&part))
}

/// The operations that were invoked before this number. One that returned at it or later is
/// pending.
fn until(history: &ObjectHistory, until: u32) -> ObjectHistory {
    let before = history.ops.iter().filter(|o| o.number < until);
    let pending = |o: &Operation| match o.returned() {
        Some(at) if at >= until => Operation { end: End::Pending, ..*o },
        _ => *o,
    };
    history.with(before.map(pending).collect())
}

/// The part without the puts of a value that were invoked before this number, and without its
/// removals that had returned by then. `None`: there are fewer of these than of those, so that the
/// value may have been in.
fn without(history: &ObjectHistory, value: i64, before: u32) -> Option<ObjectHistory> {
    let puts = |o: &&Operation| o.puts() == Some(value) && o.number < before;
    let takes =
        |o: &&Operation| o.takes() == Some(value) && o.returned().is_some_and(|at| at < before);
    let ops = &history.ops;
    if ops.iter().filter(puts).count() > ops.iter().filter(takes).count() {
        return None;
    }
    let rest = ops.iter().filter(|o| !puts(o) && !takes(o));
    Some(history.with(rest.copied().collect()))
}

#[cfg(test)]
mod tests {
    use super::*;
    use crate::content::Content;
    use crate::kinds::{KINDS, Op};
    use crate::read_history;
    use crate::small::{Random, has_order, op};

    fn history_of(events: &[(u32, &str)]) -> ObjectHistory {
        let events = events.iter().map(|(process, rest)| format!("{{:process {process} {rest}}}"));
        let text: String = events.collect();
        read_history(text.as_bytes()).expect("a history").objects.remove(0)
    }

    fn numbers_of(part: Option<ObjectHistory>) -> Option<Vec<u32>> {
        part.map(|part| part.ops.iter().map(|o| o.number).collect())
    }

    fn keep(values: &[i64], numbers: &[u32]) -> Cut {
        let values = Values::Only(values.iter().copied().collect());
        Cut::Keep { values, numbers: numbers.iter().copied().collect() }
    }

    fn queue() -> ObjectHistory {
        history_of(&[
            (0, ":type :invoke :f :enqueue :value 1"),
            (0, ":type :ok :f :enqueue :value 1"),
            (1, ":type :invoke :f :enqueue :value 2"),
            (2, ":type :invoke :f :dequeue"),
            (3, ":type :invoke :f :dequeue"),
            (3, ":type :ok :f :dequeue :value 1"),
        ])
    }

    #[test]
    fn a_part_by_values_is_closed() {
        let queue = queue();
        assert_eq!(numbers_of(part_by(&queue, &[keep(&[1], &[0, 4])])), Some(vec![0, 4]));
        assert_eq!(numbers_of(part_by(&queue, &[keep(&[1], &[0])])), None);
        assert_eq!(numbers_of(part_by(&queue, &[keep(&[1], &[0, 2, 4])])), None);
        // the pending dequeue may take 2
        assert_eq!(numbers_of(part_by(&queue, &[keep(&[2], &[2])])), None);
        assert_eq!(numbers_of(part_by(&queue, &[keep(&[2], &[2, 3])])), Some(vec![2, 3]));
    }

    #[test]
    fn a_beginning_leaves_what_returned_later_pending() {
        let part = part_by(&queue(), &[Cut::Until(5)]).expect("a part");
        assert_eq!(part.ops.len(), 4);
        assert!(part.ops[3].is_pending());
    }

    #[test]
    fn a_value_is_left_out_only_if_it_definitely_was_not_in() {
        let without = |before| numbers_of(part_by(&queue(), &[Cut::Without { value: 1, before }]));
        assert_eq!(without(5), None);
        assert_eq!(without(6), Some(vec![2, 3]));
    }

    #[test]
    fn an_end_begins_at_a_call_that_tells_the_content() {
        let register = history_of(&[
            (0, ":type :invoke :f :write :value 1"),
            (1, ":type :invoke :f :cas :value [1 2]"),
            (0, ":type :ok :f :write :value 1"),
            (1, ":type :ok :f :cas :value [1 2]"),
            (0, ":type :invoke :f :cas :value [1 3]"),
            (0, ":type :ok :f :cas :value false"),
        ]);
        let part = part_by(&register, &[Cut::From(0)]).expect("a part");
        let ops: Vec<Op> = part.ops.iter().map(|o| o.op).collect();
        assert_eq!(ops, [op("write 1"), op("write 2"), op("cas 1 3")]);
        assert!(part_by(&register, &[Cut::From(4)]).is_none());
        assert!(part_by(&queue(), &[Cut::From(0)]).is_none());
    }

    #[test]
    fn a_cell_has_one_value_for_all_others() {
        let map = history_of(&[
            (0, ":type :invoke :f :put :value [5 1]"),
            (0, ":type :ok :f :put :value nil"),
            (0, ":type :invoke :f :put :value [5 7]"),
            (0, ":type :ok :f :put :value 1"),
            (0, ":type :invoke :f :get :value 6"),
            (0, ":type :ok :f :get :value nil"),
        ]);
        let cell = |numbers: &[u32]| Cut::Cell {
            key: Some(5),
            values: Values::Only(BTreeSet::from([1])),
            other: 0,
            numbers: numbers.iter().copied().collect(),
        };
        let ops = |numbers| {
            let part = part_by(&map, &[cell(numbers)]).expect("a part");
            part.ops.iter().map(|o| o.op).collect::<Vec<Op>>()
        };
        assert_eq!(ops(&[]), [op("write 1")]);
        assert_eq!(ops(&[2, 4]), [op("write 1"), op("cas 1 0")]);
    }

    /// A cut of some history that is drawn.
    fn draw_cut(random: &mut Random, history: &ObjectHistory) -> Cut {
        let mut some = |most: u64| random.below(most) as usize;
        let count = history.ops.len() as u64;
        let values = match some(4) {
            0 => Values::All,
            1 => Values::Only(BTreeSet::from([0, 1])),
            one => Values::Only(BTreeSet::from([one as i64 - 2])),
        };
        let number = history.ops[some(count)].number;
        let chosen = history.ops.iter().filter(|_| some(2) == 0);
        let numbers = chosen.map(|o| o.number).collect();
        let is_kept = |o: &&Operation| match o.op.key() {
            Some(key) => values.has(key),
            None => true,
        };
        match some(5) {
            0 => Cut::From(number),
            1 => Cut::Until(number + some(3) as u32),
            2 => Cut::Keep { values, numbers },
            3 => {
                let numbers = history.ops.iter().filter(is_kept).map(|o| o.number).collect();
                Cut::Keep { values, numbers }
            }
            _ => {
                let key = history.kind.has_keys().then_some(some(3) as i64);
                Cut::Cell { key, values, other: 7, numbers }
            }
        }
    }

    fn has_some_order(history: &ObjectHistory) -> bool {
        let calls = history.ops.iter().filter(|o| !o.has_failed());
        let calls: Vec<Operation> = calls.copied().collect();
        has_order(&calls, &Content::empty(history.kind))
    }

    /// The operations on one key, if there are keys.
    fn on_one_key(history: &ObjectHistory) -> ObjectHistory {
        let key = history.ops[0].op.key();
        let ops = history.ops.iter().filter(|o| o.op.key() == key);
        history.with(ops.copied().collect())
    }

    #[test]
    fn a_part_of_a_history_with_an_order_has_one() {
        let mut random = Random::new(0x1234_5678_9abc_def1);
        for kind in KINDS.iter().copied() {
            let mut parts = 0;
            for drawn in 0..20_000 {
                let history = random.history(kind);
                let history = if drawn % 2 == 0 { on_one_key(&history) } else { history };
                if !has_some_order(&history) {
                    continue;
                }
                let cut = draw_cut(&mut random, &history);
                if matches!(cut, Cut::Cell { .. }) && !kind.has_values_in_cells() {
                    continue;
                }
                if let Some(part) = cut.part_of(&history) {
                    assert!(has_some_order(&part), "{cut:?} {history:?} {part:?}");
                    parts += 1;
                }
            }
            assert!(parts > 500, "{kind:?}: {parts}");
        }
    }

    #[test]
    fn no_history_that_exceeds_a_count_has_an_order() {
        let mut random = Random::new(0x2468_ace0_1357_9bdf);
        for kind in KINDS.iter().copied().filter(|kind| !kind.is_container()) {
            let mut exceeded = 0;
            for _ in 0..20_000 {
                let history = random.history(kind);
                let (key, value) = (random.below(3) as i64, random.below(3) as i64);
                let counted = match random.below(4) {
                    0 if kind.has_keys() => Counted::NoEntry(key),
                    1 => Counted::Held,
                    2 => Counted::Free,
                    _ if kind.has_keys() => Counted::Entry { key, value },
                    _ => Counted::Value(value),
                };
                let from = [0, 0, random.below(8) as u32][random.below(3) as usize];
                if is_exceeded(&history, Count { counted, from }) {
                    assert!(!has_some_order(&history), "{counted:?} {from} {history:?}");
                    exceeded += 1;
                }
            }
            assert_eq!(exceeded > 100, kind.is_countable(), "{kind:?}: {exceeded}");
        }
    }

    #[test]
    fn a_count_is_exceeded_where_more_is_taken_than_set() {
        let counted = Counted::Value(1);
        let mut queue = queue();
        assert!(!is_exceeded(&queue, Count { counted, from: 0 }));
        queue.ops.remove(0);
        assert!(is_exceeded(&queue, Count { counted, from: 0 }));
        // what the queue contained before is not known
        assert!(!is_exceeded(&queue, Count { counted, from: 1 }));
    }
}
