//! What the calls of a queue do.

use crate::kinds::Role;
use crate::timeline::Call;

/// A call, and the number of the value that it puts in or takes.
#[derive(Clone, Copy, Default)]
pub struct Known {
    /// Its place among the calls.
    pub call: u32,
    pub begin: u32,
    pub end: u32,
    pub value: u32,
}

/// The calls of a queue, in the order of their begins.
#[derive(Default)]
pub struct Calls {
    /// The puts that return.
    pub puts: Vec<Known>,
    /// The removals of values.
    pub takes: Vec<Known>,
    /// The removals that find nothing.
    pub empties: Vec<Known>,
    /// The puts that are pending, by their values.
    spare: Vec<Known>,
    /// The removals that are pending.
    pub unknown: Vec<Known>,
    /// All values, in rising order.
    pub values: Vec<i64>,
}

impl Calls {
    pub fn new(calls: &[Call]) -> Calls {
        let values = calls.iter().filter_map(|call| match call.op.role(call.reply) {
            Role::Puts(value) | Role::Takes(value) => Some(value),
            _ => None,
        });
        let mut values: Vec<i64> = values.collect();
        values.sort_unstable();
        values.dedup();
        let mut known = Calls { values, ..Calls::default() };
        for (place, call) in (0..).zip(calls) {
            known.add(place, call);
        }
        known.spare.sort_unstable_by_key(|it| (it.value, it.begin));
        known
    }

    fn add(&mut self, place: u32, call: &Call) {
        let number = |value| self.values.partition_point(|it| *it < value) as u32;
        let known = |value| Known { call: place, begin: call.begin, end: call.end, value };
        match call.op.role(call.reply) {
            Role::Puts(value) if call.is_pending() => self.spare.push(known(number(value))),
            Role::Puts(value) => self.puts.push(known(number(value))),
            Role::Takes(value) => self.takes.push(known(number(value))),
            Role::FindsNone => self.empties.push(known(0)),
            Role::Unknown => self.unknown.push(known(0)),
        }
    }

    /// Of the pending puts of a value the one that this many come before.
    pub fn spare(&self, value: u32, before: u32) -> Option<Known> {
        let first = self.spare.partition_point(|it| it.value < value);
        let spare = self.spare.get(first + before as usize);
        spare.copied().filter(|spare| spare.value == value)
    }
}
