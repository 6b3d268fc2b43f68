//! Orders in which other pairs are tried if values can't be ordered.

use super::crossings::uncross;
use super::ordering::Ordering;
use super::trials::try_changes;
use super::turns::{by_length, merge_turns};
use crate::residences::Residence;
use crate::timeline::Interval;

/// How often the values are ordered anew, with other pairs.
const MOST_ROUNDS: usize = 40;

/// How many values are ordered at most, in all these rounds.
const MOST_ORDERED: usize = 2_000_000;

/// How often these values are ordered.
pub fn rounds_of(residences: &[Residence]) -> usize {
    (MOST_ORDERED / residences.len().max(1)).clamp(1, MOST_ROUNDS)
}

/// Changes the pops of equal values, if values could not be ordered: so that fewer cross if
/// `crossing` asks for that, and otherwise so that more can be ordered. Returns whether any was
/// changed.
fn change(
    residences: &mut [Residence],
    stuck: &[Vec<Residence>],
    crossing: bool,
    work: &mut u64,
) -> bool {
    let mut changes = false;
    for some in stuck {
        changes |=
            crossing && uncross(residences, some, work) || try_changes(residences, some, work);
    }
    changes
}

/// An order of the calls that may be valid: if values can't be ordered other pairs are tried, as
/// long as comparisons, this many, are left.
pub fn order_in_rounds(
    mut residences: Vec<Residence>,
    empties: &[Interval],
    end: u32,
    mut work: u64,
) -> Option<Vec<u32>> {
    let mut fewest = usize::MAX;
    for _ in 0..rounds_of(&residences) {
        let (long, short) = by_length(&residences);
        let ordering = Ordering::of(long, empties, end)?;
        if ordering.stuck.is_empty() {
            return Some(merge_turns(&ordering.turns, &short));
        }
        // changes that make fewer values cross have to do good, or others are tried
        let count = ordering.stuck_count();
        let crossing = count < fewest;
        fewest = fewest.min(count);
        if !change(&mut residences, &ordering.stuck, crossing, &mut work) || work == 0 {
            break;
        }
    }
    None
}
