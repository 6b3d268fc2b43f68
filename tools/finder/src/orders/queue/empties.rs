//! The calls that find nothing, and where they cut the line.

use crate::residences::{DefiniteCounts, NEVER, Transfers};
use crate::timeline::Interval;
use std::collections::BTreeSet;

/// A call that finds nothing: its gap, its return and its number.
#[derive(Clone, Copy, PartialEq, Eq, PartialOrd, Ord)]
pub struct Empty {
    pub gap: u32,
    end: u32,
    pub number: u32,
}

/// Gaps for the calls that find nothing.
pub struct Empties {
    definite: DefiniteCounts,
    pub left: BTreeSet<Empty>,
}

impl Empties {
    /// Each call in the first gap in which the fewest values definitely are in the queue. `None`: a
    /// value is taken more often than it is put in, or a call has no gap.
    pub fn new(transfers: &Transfers, end: u32) -> Option<Empties> {
        let definite = DefiniteCounts::new(&transfers.known, end)?;
        let empty = |call: &Interval| {
            let gap = definite.fewest(call.begin, call.end)?;
            Some(Empty { gap, end: call.end, number: call.number })
        };
        let left = transfers.empties.iter().map(empty).collect::<Option<_>>()?;
        Some(Empties { definite, left })
    }

    /// The first call, and the same in a later gap. `None`: there is none, or no gap is left for
    /// it.
    pub fn postponed(&self) -> Option<(Empty, Empty)> {
        let first = *self.left.first()?;
        let gap = self.definite.fewest(first.gap + 1, first.end)?;
        Some((first, Empty { gap, ..first }))
    }

    pub fn first_gap(&self) -> u32 {
        self.left.first().map_or(NEVER, |empty| empty.gap)
    }
}
