//! Calls that are pending, and which of them were used.

use crate::splitmix::NumberTable;

/// The list of no pushes.
pub const UNUSED: u32 = 0;

/// The last pending push of a list that was used, by its value, and the list before.
struct Use {
    value: i64,
    before: u32,
}

/// The pending calls that have begun, by their places, and lists of pushes that were used.
#[derive(Default)]
pub struct Pending {
    pub pops: Vec<u32>,
    pushes: NumberTable<i64, Vec<u32>>,
    /// Lists by their numbers, from 1 on.
    uses: Vec<Use>,
    numbers: NumberTable<(i64, u32), u32>,
}

impl Pending {
    /// Whether none has begun.
    pub fn is_empty(&self) -> bool {
        self.pops.is_empty() && self.pushes.is_empty()
    }

    /// Notes that a push begins.
    pub fn add_push(&mut self, value: i64, call: u32) {
        self.pushes.entry(value).or_default().push(call);
    }

    /// How many lists there are.
    pub fn len(&self) -> usize {
        self.uses.len()
    }

    fn last(&self, list: u32) -> Option<&Use> {
        self.uses.get((list as usize).checked_sub(1)?)
    }

    /// How many pushes of a value a list has.
    fn count(&self, list: u32, value: i64) -> usize {
        let uses = std::iter::successors(self.last(list), |used| self.last(used.before));
        uses.filter(|used| used.value == value).count()
    }

    /// The list with one more push of this value, if one is left that has begun.
    pub fn with_push(&mut self, list: u32, value: i64) -> Option<u32> {
        let begun = self.pushes.get(&value)?.len();
        if self.count(list, value) >= begun {
            return None;
        }
        Some(*self.numbers.entry((value, list)).or_insert_with(|| {
            self.uses.push(Use { value, before: list });
            self.uses.len() as u32
        }))
    }

    /// The push that is the last of a list.
    pub fn last_push(&self, list: u32) -> Option<u32> {
        let value = self.last(list)?.value;
        let count = self.count(list, value);
        self.pushes.get(&value)?.get(count - 1).copied()
    }
}
