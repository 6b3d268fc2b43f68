//! What an object contains, with operations that can be undone, for a search that goes forth and
//! back.

use crate::kinds::{Bag, Cells, Does, Family, Kind, Op, Reply, Value};
use std::collections::BTreeMap;

/// What an object contains, by the family of its kind.
#[derive(Clone, PartialEq, Eq)]
pub enum Content {
    Values(Bag<i64>),
    Cell(Option<i64>),
    Cells(BTreeMap<i64, i64>),
    /// Who holds it, as the argument of its operations names him.
    Holdable(Option<Value>),
    Number(i64),
}

/// What brings back the content before an operation.
#[derive(Clone, Copy)]
pub enum Undo {
    /// The operation left the content as it was.
    Nothing,
    /// Takes out the value that was put in last.
    Take(i64),
    /// Puts back the value that was taken out last.
    PutBack(i64),
    Set(Option<i64>),
    SetKey(i64, Option<i64>),
    SetHolder(Option<Value>),
    SetNumber(i64),
}

fn apply_to_values(values: &mut Bag<i64>, op: Op) -> Option<(Reply, Undo)> {
    match op.function.does {
        Does::Puts => {
            let value = op.puts()?;
            values.put(value);
            Some((Reply::Value(Some(value)), Undo::Take(value)))
        }
        Does::Takes => {
            let taken = values.take();
            Some((Reply::Value(taken), taken.map_or(Undo::Nothing, Undo::PutBack)))
        }
        Does::Accesses(_) | Does::Acquires | Does::Releases | Does::Adds | Does::Counts => None,
    }
}

fn set_key(cells: &mut BTreeMap<i64, i64>, key: i64, content: Option<i64>) {
    match content {
        Some(value) => cells.insert(key, value),
        None => cells.remove(&key),
    };
}

impl Content {
    pub fn empty(kind: Kind) -> Content {
        match &kind.family {
            Family::Container(container) => Content::Values(Bag::empty(container.gives)),
            Family::Cells(Cells { has_keys: false, .. }) => Content::Cell(None),
            Family::Cells(Cells { has_keys: true, .. }) => Content::Cells(BTreeMap::new()),
            Family::Holdable(_) => Content::Holdable(None),
            Family::Number(_) => Content::Number(0),
        }
    }

    /// Does the operation. `None`: it is not possible, and nothing is done.
    pub fn apply(&mut self, op: Op) -> Option<(Reply, Undo)> {
        match self {
            Content::Values(values) => apply_to_values(values, op),
            Content::Cell(content) => {
                let before = *content;
                let (reply, after) = op.next(before)?;
                *content = after;
                Some((reply, Undo::Set(before)))
            }
            Content::Cells(cells) => {
                let key = op.key()?;
                let before = cells.get(&key).copied();
                let (reply, after) = op.next(before)?;
                if before == after {
                    return Some((reply, Undo::Nothing));
                }
                set_key(cells, key, after);
                Some((reply, Undo::SetKey(key, before)))
            }
            Content::Holdable(holder) => {
                let before = *holder;
                *holder = op.next_holder(before)?;
                Some((Reply::Value(None), Undo::SetHolder(before)))
            }
            Content::Number(number) => {
                let before = *number;
                *number = before.checked_add(op.adds()?)?;
                Some((Reply::Value(Some(before)), Undo::SetNumber(before)))
            }
        }
    }

    /// Undoes what the last operation did that is not undone.
    pub fn undo(&mut self, undo: Undo) {
        match (self, undo) {
            (Content::Values(values), Undo::Take(value)) => values.undo_put(value),
            (Content::Values(values), Undo::PutBack(value)) => values.undo_take(value),
            (Content::Cell(content), Undo::Set(before)) => *content = before,
            (Content::Cells(cells), Undo::SetKey(key, before)) => set_key(cells, key, before),
            (Content::Holdable(holder), Undo::SetHolder(before)) => *holder = before,
            (Content::Number(number), Undo::SetNumber(before)) => *number = before,
            // What undoes nothing, or is of another content.
            (Content::Values(_) | Content::Cell(_) | Content::Cells(_), _) => {}
            (Content::Holdable(_) | Content::Number(_), _) => {}
        }
    }
}

/// A content that is kept to compare with.
pub enum KeptContent {
    /// The values of a container, in four bytes each if all are small.
    Small(Box<[i32]>),
    Whole(Content),
}

/// The values, if all are small.
fn small_values(bag: &Bag<i64>) -> Option<Box<[i32]>> {
    let mut small = Vec::with_capacity(bag.len());
    let are_small = bag.all(|value| i32::try_from(value).map(|it| small.push(it)).is_ok());
    are_small.then(|| small.into_boxed_slice())
}

impl KeptContent {
    pub fn of(content: &Content) -> KeptContent {
        let small = match content {
            Content::Values(values) => small_values(values),
            Content::Cell(_) | Content::Cells(_) | Content::Holdable(_) | Content::Number(_) => {
                None
            }
        };
        small.map_or_else(|| KeptContent::Whole(content.clone()), KeptContent::Small)
    }

    /// Whether this is the content.
    pub fn is(&self, content: &Content) -> bool {
        match (self, content) {
            (KeptContent::Whole(kept), content) => kept == content,
            (KeptContent::Small(small), Content::Values(values)) => {
                let mut small = small.iter().copied().map(i64::from);
                values.all(|value| small.next() == Some(value)) && small.next().is_none()
            }
            (KeptContent::Small(_), Content::Cell(_) | Content::Cells(_)) => false,
            (KeptContent::Small(_), Content::Holdable(_) | Content::Number(_)) => false,
        }
    }

    /// How many bytes it takes at most, if there are at most this many keys: a key is in a tree
    /// whose nodes may be half full.
    pub fn bytes(&self, keys: usize) -> usize {
        match self {
            KeptContent::Small(values) => values.len() * 4,
            KeptContent::Whole(Content::Values(values)) => values.len() * 16,
            KeptContent::Whole(Content::Cells(_)) => keys * 64,
            KeptContent::Whole(Content::Cell(_) | Content::Holdable(_) | Content::Number(_)) => 0,
        }
    }
}

#[cfg(test)]
mod tests {
    use super::*;
    use crate::small::op;

    #[test]
    fn operations_are_undone() {
        for ops in [
            &["enqueue 1", "enqueue 2", "dequeue", "dequeue", "dequeue"][..],
            &["push 1", "push 2", "pop", "pop", "pop"],
            &["insert 2", "insert 1", "insert 2", "extract-min"],
            &["write 1", "cas 1 2", "cas 1 3", "read"],
            &["put 1 2", "put 1 3", "get 1", "del 1", "del 1"],
            &["acquire", "release"],
            &["clear", "create 1", "create 2", "clear"],
            &["put-if-absent 1 2", "put-if-absent 1 3", "replace 1 2 4", "replace 1 2 5"],
            &["assoc 1 2", "dissoc 1", "dissoc 1"],
            &["add 1", "add 1", "contains 1", "remove 1", "remove 1"],
            &["fetch-add 3", "get-count", "fetch-add -5"],
            &["lock 1", "unlock 1", "lock 2"],
        ] {
            let kind = op(ops[0]).kind();
            let mut content = Content::empty(kind);
            let mut before = Vec::new();
            for text in ops {
                let kept = KeptContent::of(&content);
                let (_, undo) = content.apply(op(text)).expect("a possible operation");
                before.push((kept, undo));
            }
            for (kept, undo) in before.into_iter().rev() {
                content.undo(undo);
                assert!(kept.is(&content), "{kind:?}");
            }
            assert!(content == Content::empty(kind), "{kind:?}");
        }
    }

    #[test]
    fn a_held_mutex_cannot_be_acquired() {
        let mut mutex = Content::Holdable(Some(Value::Nil));
        assert!(mutex.apply(op("acquire")).is_none());
        assert!(mutex == Content::Holdable(Some(Value::Nil)));
    }

    #[test]
    fn a_lock_is_unlocked_by_its_owner() {
        let mut lock = Content::Holdable(Some(Value::Int(1)));
        assert!(lock.apply(op("lock 1")).is_none());
        assert!(lock.apply(op("unlock 2")).is_none());
        assert!(lock.apply(op("unlock 1")).is_some());
        assert!(lock == Content::Holdable(None));
    }

    #[test]
    fn a_number_has_64_bits() {
        let mut number = Content::Number(i64::MAX);
        assert!(number.apply(op("fetch-add 1")).is_none());
        assert!(number == Content::Number(i64::MAX));
        assert!(number.apply(op("fetch-add -1")).is_some());
    }
}
