//! How many values definitely are in a queue or stack at each gap, whichever removals take them: of
//! each value, the number of its puts that have returned less that of its removals that have begun.

use super::Transfer;
use super::residence::pair_by_counts;
use crate::trees::Least;

/// The number of values for each gap.
pub struct DefiniteCounts {
    counts: Least,
}

/// In how many of these ranges of gaps each gap is, up to the last.
pub fn counts_of(ranges: impl Iterator<Item = (u32, u32)>, last: u32) -> Vec<i64> {
    let mut numbers = vec![0; last as usize + 1];
    let mut add = |gap: u32, change: i64| {
        if let Some(number) = numbers.get_mut(gap as usize) {
            *number += change;
        }
    };
    for (from, to) in ranges.filter(|(from, to)| from < to) {
        add(from, 1);
        add(to, -1);
    }
    let mut count = 0;
    for number in &mut numbers {
        count += *number;
        *number = count;
    }
    numbers
}

impl DefiniteCounts {
    /// `None`: a value is taken more often than it is put in.
    pub fn new(known: &[Transfer], end: u32) -> Option<DefiniteCounts> {
        let residences = pair_by_counts(known)?;
        let ranges = residences.iter().map(|it| (it.put.end, it.taken_from()));
        Some(DefiniteCounts { counts: Least::of(&counts_of(ranges, end)) })
    }

    /// The first gap `from <= gap < to` in which the fewest values definitely are in the object.
    pub fn fewest(&self, from: u32, to: u32) -> Option<u32> {
        let (from, to) = (from as usize, to as usize);
        let fewest = self.counts.least(from, to);
        self.counts.first_at_most(from, to, fewest).map(|gap| gap as u32)
    }
}
