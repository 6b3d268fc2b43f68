//! The contents of a stack, as a graph.

use crate::splitmix::mixed;

/// The content without any value.
pub const EMPTY: u32 = 0;

/// How many contents are found again at most.
const MOST_SLOTS: usize = 1 << 18;

/// A content that may be below a value, and how many more pending calls were used for it than for
/// the first one.
#[derive(Clone, Copy, PartialEq, Eq)]
pub struct Below {
    pub content: u32,
    pub cost: u32,
    /// Of these the pops. It may be less than none: the numbers wrap.
    pub pops: u32,
}

/// A value that is on top of one of some contents.
struct Content {
    value: i64,
    first: usize,
    count: usize,
}

/// Contents by their numbers, from 1 on.
pub struct Contents {
    contents: Vec<Content>,
    belows: Vec<Below>,
    /// Numbers of contents, each at the slot that its hash names: the last one that named it.
    slots: Vec<u32>,
}

fn hash_of(value: i64, belows: &[Below]) -> u64 {
    belows.iter().fold(mixed(value.cast_unsigned()), |hash, below| {
        let number = u64::from(below.content) | (u64::from(below.cost) << 32);
        mixed(hash.wrapping_add(number))
    })
}

impl Contents {
    /// The empty content alone, of a stack on which there are this many calls, at least one.
    pub fn new(calls: usize) -> Contents {
        let slots = (16 * calls).clamp(1, MOST_SLOTS);
        Contents { contents: Vec::new(), belows: Vec::new(), slots: vec![EMPTY; slots] }
    }

    /// How much is kept.
    pub fn len(&self) -> usize {
        self.contents.len() + self.belows.len()
    }

    fn get(&self, number: u32) -> Option<&Content> {
        self.contents.get((number as usize).checked_sub(1)?)
    }

    /// The value on top.
    pub fn value(&self, number: u32) -> Option<i64> {
        Some(self.get(number)?.value)
    }

    /// The contents that may be below the value on top.
    pub fn belows(&self, number: u32) -> &[Below] {
        match self.get(number) {
            Some(content) => &self.belows[content.first..content.first + content.count],
            None => &[],
        }
    }

    /// The number of a content, which may be a new one.
    pub fn number(&mut self, value: i64, belows: &[Below]) -> u32 {
        let slot = (hash_of(value, belows) % self.slots.len() as u64) as usize;
        let known = self.slots[slot];
        if self.value(known) == Some(value) && self.belows(known) == belows {
            return known;
        }
        let first = self.belows.len();
        self.belows.extend_from_slice(belows);
        self.contents.push(Content { value, first, count: belows.len() });
        self.slots[slot] = self.contents.len() as u32;
        self.slots[slot]
    }
}
