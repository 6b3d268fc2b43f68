//! The calls of a queue that are lined up, and their order.

use crate::timeline::Interval;

/// What comes first in one gap between two calls that find nothing.
#[derive(Clone, Copy, PartialEq, Eq, PartialOrd, Ord)]
enum Rank {
    Put,
    Take,
    FindsNone,
}

/// A call that is lined up: the number of calls that find nothing before it, its gap, its rank, and
/// its number.
type Step = (usize, u32, Rank, u32);

/// The calls that are lined up, each in the first gap that those before it leave.
#[derive(Default)]
pub struct Line {
    puts: Vec<Step>,
    takes: Vec<Step>,
    empties: Vec<Step>,
    phase: usize,
    /// The gap of the last call that finds nothing, and 0 if there is none.
    from: u32,
    put_at: u32,
    take_at: u32,
}

impl Line {
    pub fn put(&mut self, call: &Interval) {
        self.put_at = call.begin.max(self.from).max(self.put_at);
        self.puts.push((self.phase, self.put_at, Rank::Put, call.number));
    }

    pub fn take(&mut self, call: &Interval) {
        self.take_at = call.begin.max(self.put_at).max(self.take_at);
        self.takes.push((self.phase, self.take_at, Rank::Take, call.number));
    }

    /// A call finds nothing, in the first gap that those before it leave.
    pub fn find_none(&mut self, call: &Interval) {
        let gap = call.begin.max(self.put_at).max(self.take_at).max(self.from);
        self.find_none_in(gap, call.number);
    }

    /// A call finds nothing in this gap.
    pub fn find_none_in(&mut self, gap: u32, number: u32) {
        self.empties.push((self.phase, gap, Rank::FindsNone, number));
        self.from = gap;
        self.phase += 1;
    }

    /// The numbers of the calls in their order.
    pub fn order(self) -> Vec<u32> {
        // Each list is in order, so they are merged.
        let mut steps = [self.puts, self.takes, self.empties].concat();
        steps.sort_by_key(|(phase, gap, rank, _)| (*phase, *gap, *rank));
        steps.into_iter().map(|(_, _, _, number)| number).collect()
    }
}
