//! States of a search from which there is no way on, each kept as a fingerprint. One may be
//! forgotten, and two may have the same fingerprint: then an order may be missed, and no wrong one
//! is found.

use crate::accesses::{Access, Need};
use crate::splitmix::mixed;

/// The most states that are remembered.
const MOST_STATES: usize = 2_000_000;

/// The fingerprint of a call; calls that do the same until the same moment have the same one.
pub fn fingerprint_of(access: &Access) -> u64 {
    let (need, content) = match access.need {
        Need::Any => (1, 0),
        Need::Is(content) => (2, content),
        Need::IsNot(content) => (3, content),
    };
    let sets = access.sets.map_or(0, |content| content + 1);
    let parts = [content as u64, sets as u64, u64::from(access.call.end)];
    parts.into_iter().fold(need, |fingerprint: u64, part| mixed(fingerprint.wrapping_add(part)))
}

/// Fingerprints, each at the slot that it names.
pub struct DeadEnds {
    slots: Vec<u64>,
}

impl DeadEnds {
    /// Room for some states for each of these calls.
    pub fn new(calls: usize) -> DeadEnds {
        DeadEnds { slots: vec![0; (16 * calls + 64).min(MOST_STATES)] }
    }

    fn slot(&self, fingerprint: u64) -> usize {
        (fingerprint % self.slots.len() as u64) as usize
    }

    pub fn contains(&self, fingerprint: u64) -> bool {
        self.slots[self.slot(fingerprint)] == fingerprint
    }

    pub fn add(&mut self, fingerprint: u64) {
        let slot = self.slot(fingerprint);
        self.slots[slot] = fingerprint;
    }
}
