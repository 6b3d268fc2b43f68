//! Removals that are pending, and by when values must be gone that no call is known to take.

use super::Gaps;
use crate::timeline::Interval;
use crate::trees::{ABSENT, Least};

/// The removals that are pending, and the calls that need values to be gone: a value must be gone
/// where its put returns before one of these begins.
pub struct Removals {
    /// For each moment at which such a call begins the moment of its return. None if no removal
    /// is pending.
    returns: Option<Least>,
    moments: usize,
    /// In the order of their begins; the last first if `last_first`.
    removals: Vec<Interval>,
    last_first: bool,
    unused: Gaps,
}

impl Removals {
    /// Those removals that come in the order of their begins, in a history of this many moments.
    pub fn new(moments: u32, mut removals: Vec<Interval>, last_first: bool) -> Removals {
        if last_first {
            removals.reverse();
        }
        let moments = moments as usize;
        Removals {
            returns: (!removals.is_empty()).then(|| Least::of(&vec![ABSENT; moments])),
            moments,
            unused: Gaps::new(removals.len() as u32),
            removals,
            last_first,
        }
    }

    /// Whether no removal is pending.
    pub fn is_empty(&self) -> bool {
        self.removals.is_empty()
    }

    /// Notes a call that needs values to be gone.
    pub fn note(&mut self, call: &Interval) {
        if let Some(returns) = &mut self.returns {
            returns.set(call.begin as usize, i64::from(call.end));
        }
    }

    /// Takes back what was noted.
    pub fn forget(&mut self, call: &Interval) {
        if let Some(returns) = &mut self.returns {
            returns.set(call.begin as usize, ABSENT);
        }
    }

    /// By when a value must be gone whose put returns at this moment, if it must.
    pub fn due(&self, from: u32) -> Option<u32> {
        let due = self.returns.as_ref()?.least(from as usize, self.moments);
        u32::try_from(due).ok()
    }

    /// A removal that begins before this moment and that was not taken yet.
    pub fn take(&mut self, due: u32) -> Option<Interval> {
        let from = if self.last_first {
            self.removals.partition_point(|call| call.begin >= due)
        } else {
            0
        };
        let place = self.unused.first_free(from as u32);
        let call = *self.removals.get(place as usize)?;
        if call.begin >= due {
            return None;
        }
        self.unused.cover(place, place + 1);
        Some(call)
    }
}
