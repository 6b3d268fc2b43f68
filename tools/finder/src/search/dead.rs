//! The pairs of operations done and content from which no order goes on. They take a bounded amount
//! of memory: the older half of them is forgotten, and what begins with them may then be searched
//! again.

use super::not_done::NotDone;
use crate::content::{Content, KeptContent};
use std::collections::HashMap;

/// How many bytes the pairs of one generation take at most, except for the last one.
const MOST_BYTES: usize = 128 << 20;

/// How many bytes a pair takes apart from what it lists.
const BYTES_OF_A_PAIR: usize = 240;

/// How many bytes a place that is not done takes, as a list may have room for twice as many.
const BYTES_OF_A_PLACE: usize = 8;

/// A pair: the operations below `high` except for those listed are done, and none above.
pub(super) struct Pair {
    high: usize,
    not_done: Box<[u32]>,
    content: KeptContent,
}

impl Pair {
    pub fn new(high: usize, not_done: &NotDone, content: &Content) -> Pair {
        let not_done = not_done.below(high).map(|place| place as u32).collect();
        Pair { high, not_done, content: KeptContent::of(content) }
    }

    fn is(&self, high: usize, not_done: &NotDone, content: &Content) -> bool {
        self.high == high
            && self.not_done.iter().map(|place| *place as usize).eq(not_done.below(high))
            && self.content.is(content)
    }
}

/// The pairs that are remembered, by their hashes. Once the younger ones take as much as they may,
/// they become the older ones, and those that were the older ones are forgotten.
#[derive(Default)]
pub(super) struct Dead {
    older: HashMap<u64, Pair>,
    younger: HashMap<u64, Pair>,
    /// How much the younger ones take.
    bytes: usize,
    /// How many keys a map may have.
    keys: usize,
}

impl Dead {
    pub fn new(keys: usize) -> Dead {
        Dead { keys, ..Dead::default() }
    }

    pub fn holds(&self, hash: u64, high: usize, not_done: &NotDone, content: &Content) -> bool {
        let is = |pair: &Pair| pair.is(high, not_done, content);
        self.younger.get(&hash).is_some_and(is) || self.older.get(&hash).is_some_and(is)
    }

    pub fn remember(&mut self, hash: u64, pair: Pair) {
        let bytes = BYTES_OF_A_PAIR
            + pair.not_done.len() * BYTES_OF_A_PLACE
            + pair.content.bytes(self.keys);
        if self.bytes + bytes > MOST_BYTES {
            self.older = std::mem::take(&mut self.younger);
            self.bytes = 0;
        }
        self.younger.insert(hash, pair);
        self.bytes += bytes;
    }
}
