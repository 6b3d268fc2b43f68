//! A digest of the operations done and the content.

use crate::content::Undo;
use crate::kinds::{Family, Gives, Op, Reply, Role};
use crate::splitmix::{STEP, mixed};

/// Two ways to do the same operations that leave the same content have one digest, so that a pair
/// is found again by its hash. Whether it is the same pair is always compared.
#[derive(Clone, Copy, Default)]
pub(super) struct Digest {
    done: u64,
    content: u64,
    /// How many values have gone in at the back, those that came out there again taken off, and how
    /// many out in front.
    back: u64,
    front: u64,
}

/// A hash of two numbers.
fn pair(a: u64, b: u64) -> u64 {
    mixed(a.wrapping_add(b.wrapping_mul(STEP)).wrapping_add(STEP))
}

fn of_value(value: i64, place: u64) -> u64 {
    pair(value.cast_unsigned(), place)
}

fn of_entry(key: i64, value: i64) -> u64 {
    pair(of_value(value, 1), key.cast_unsigned())
}

impl Digest {
    pub fn hash(&self) -> u64 {
        pair(self.content, self.done)
    }

    fn add(&mut self, part: u64) {
        self.content = self.content.wrapping_add(part);
    }

    fn remove(&mut self, part: u64) {
        self.content = self.content.wrapping_sub(part);
    }

    fn put(&mut self, value: i64, gives: Gives) {
        match gives {
            Gives::First | Gives::Last => {
                self.add(of_value(value, self.back));
                self.back += 1;
            }
            Gives::Least => self.add(of_value(value, 0)),
        }
    }

    fn take(&mut self, value: i64, gives: Gives) {
        match gives {
            Gives::First => {
                self.remove(of_value(value, self.front));
                self.front += 1;
            }
            Gives::Last => {
                self.back -= 1;
                self.remove(of_value(value, self.back));
            }
            Gives::Least => self.remove(of_value(value, 0)),
        }
    }

    /// What the cell of a key contained is replaced.
    fn replace(&mut self, key: i64, old: Option<i64>, new: Option<i64>) {
        if let Some(old) = old {
            self.remove(of_entry(key, old));
        }
        if let Some(new) = new {
            self.add(of_entry(key, new));
        }
    }

    /// The operation of an object that has cells sets its cell, if it does, which contained what
    /// this brings back.
    fn set(&mut self, op: Op, reply: Reply, undo: Undo) {
        let Some(new) = op.effect(Some(reply)).and_then(|effect| effect.sets) else {
            return;
        };
        match (op.key(), undo) {
            (Some(key), Undo::SetKey(_, old)) => self.replace(key, old, new),
            // The cell contains what it did before.
            (Some(_), _) => {}
            (None, _) => self.content = new.map_or(0, |new| of_value(new, 0)),
        }
    }

    /// After one more operation, at this place of the trials, with its reply, and with what undoes
    /// it.
    pub fn after(mut self, place: usize, op: Op, reply: Reply, undo: Undo) -> Digest {
        self.done = self.done.wrapping_add(pair(place as u64, 7));
        match (&op.kind().family, op.role(Some(reply))) {
            (Family::Container(container), Role::Puts(value)) => self.put(value, container.gives),
            (Family::Container(container), Role::Takes(value)) => self.take(value, container.gives),
            (Family::Container(_), Role::FindsNone | Role::Unknown) => {}
            (Family::Cells(_), _) => self.set(op, reply, undo),
            (Family::Holdable(_), _) => {
                let holder = op.argument.last().filter(|_| op.holds() == Some(true));
                let is_held = u64::from(op.holds() == Some(true));
                self.content = holder.map_or(is_held, |holder| of_value(holder, 2));
            }
            (Family::Number(_), _) => {
                self.content = op.steps(reply).map_or(0, |(_, after)| of_value(after, 0));
            }
        }
        self
    }
}
