//! Removals that are pending, given to values that must be gone.

use crate::residences::{Removals, Residence};
use crate::timeline::Interval;

/// By when the values must be gone that no call is known to take, with their places: a value that
/// was put before them is taken, or nothing is found, by a call that begins when their put has
/// returned.
pub fn dues_of(residences: &[Residence], removals: &mut Removals) -> Vec<(u32, usize)> {
    let mut left = Vec::new();
    let mut taken = Vec::new();
    for (place, residence) in residences.iter().enumerate() {
        match residence.take {
            Some(take) => taken.push((residence.put.end, take)),
            None => left.push((residence.put.begin, place)),
        }
    }
    left.sort_unstable();
    taken.sort_by_key(|(end, _)| *end);
    let mut taken = taken.into_iter().peekable();
    let mut dues = Vec::new();
    for (begin, place) in left {
        while let Some((_, take)) = taken.next_if(|(end, _)| *end < begin) {
            removals.note(&take);
        }
        dues.extend(removals.due(residences[place].put.end).map(|due| (due, place)));
    }
    dues.sort_unstable();
    dues
}

/// Gives removals that are pending to the values that no call is known to take and that must be
/// gone.
pub fn give_removals(residences: &mut [Residence], empties: &[Interval], mut removals: Removals) {
    if removals.is_empty() {
        return;
    }
    empties.iter().for_each(|call| removals.note(call));
    for (due, place) in dues_of(residences, &mut removals) {
        if let Some(call) = removals.take(due) {
            residences[place].take = Some(call);
        }
    }
}
