//! Changes of a stack's pairs that are tried: of values that could not be ordered equal ones change
//! their pops, and the change is made after which most can be ordered.

use super::crossings::{Change, partners, place_of};
use super::ordering::Ordering;
use super::turns::by_length;
use crate::residences::Residence;
use crate::timeline::{Interval, PENDING};

/// How many values are tried at most.
const MOST_VALUES: usize = 400;

/// How many changes are tried at most.
const MOST_CHANGES: usize = 400;

/// How many comparisons of values an ordering counts for, for each value.
const WORK: u64 = 100;

/// The moments at which calls of these values begin and return, in rising order.
fn moments_of(residences: &[Residence]) -> Vec<u32> {
    let calls = residences.iter().flat_map(|r| [Some(r.put), r.take]).flatten();
    let moments = calls.flat_map(|call| [call.begin, call.end]);
    let mut moments: Vec<u32> = moments.filter(|moment| *moment < PENDING).collect();
    moments.sort_unstable();
    moments
}

/// The call on a time that has these moments alone.
fn with_ranks(moments: &[u32], call: Interval) -> Interval {
    let rank = |moment: u32| match moment {
        moment if moment < PENDING => moments.partition_point(|other| *other < moment) as u32,
        pending => pending,
    };
    Interval { begin: rank(call.begin), end: rank(call.end), ..call }
}

/// How many of these values can't be ordered.
fn left_over(residences: &[Residence]) -> usize {
    let moments = moments_of(residences);
    let own: Vec<Residence> = (residences.iter())
        .map(|residence| Residence {
            put: with_ranks(&moments, residence.put),
            take: residence.take.map(|take| with_ranks(&moments, take)),
            ..*residence
        })
        .collect();
    let (long, _) = by_length(&own);
    let ordering = Ordering::of(long, &[], moments.len() as u32);
    ordering.map_or(0, |ordering| ordering.stuck_count())
}

/// The changes of the pops of values that can be made.
fn changes_of(residences: &[Residence], stuck: &[Residence]) -> Vec<Change> {
    let changes = stuck.iter().flat_map(|own| {
        let first = place_of(residences, own);
        let others = partners(residences, own).filter(move |second| *second != first);
        others.map(move |second| Change { first, second })
    });
    let possible = changes.filter(|change| change.changed(residences).is_some());
    possible.take(MOST_CHANGES).collect()
}

/// How many of the values can't be ordered after a change. `None`: it can't be made.
fn try_change(residences: &[Residence], stuck: &[Residence], change: Change) -> Option<usize> {
    let (one, other) = change.changed(residences)?;
    let is_changed = |number| number == one.put.number || number == other.put.number;
    let rest = stuck.iter().copied().filter(|value| !is_changed(value.put.number));
    Some(left_over(&rest.chain([one, other]).collect::<Vec<_>>()))
}

/// Tries changes of the pops of values that could not be ordered, and makes the one after which the
/// fewest can't be ordered, if they are fewer. The residences are sorted by value and by the begin
/// of the push. Whether one was made.
pub fn try_changes(residences: &mut [Residence], stuck: &[Residence], work: &mut u64) -> bool {
    if stuck.len() > MOST_VALUES {
        return false;
    }
    let mut best = None;
    let mut fewest = stuck.len();
    for change in changes_of(residences, stuck) {
        if fewest == 0 || *work == 0 {
            break;
        }
        *work = work.saturating_sub(WORK * stuck.len() as u64);
        if let Some(left) = try_change(residences, stuck, change)
            && left < fewest
        {
            fewest = left;
            best = Some(change);
        }
    }
    if let Some(change) = best
        && let Some((one, other)) = change.changed(residences)
    {
        residences[change.first] = one;
        residences[change.second] = other;
    }
    best.is_some()
}
