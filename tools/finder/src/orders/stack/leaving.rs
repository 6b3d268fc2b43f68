//! Values of a stack that pending pops take.
//!
//! All other values are ordered first. In that order each value that pending pops may take is put
//! where the fewest values are in the stack, of the places that its put may have. There it cannot
//! affect any call until the stack gets lower than that, or nothing is found: just before that it
//! must be gone. The values are gone by the pending pops in the order of these moments, the pop
//! that begins first at the first. No other choice of pops could do more for these places.

use super::giving::dues_of;
use super::ordering::Ordering;
use super::rounds::rounds_of;
use super::turns::{Step, Turn, by_length, merge_turns};
use crate::residences::{Removals, Residence};
use crate::timeline::Interval;
use crate::trees::Least;

/// Where a value may be put in an order.
#[derive(Clone, Copy)]
enum Places {
    /// Where each call of the order is in the last gap that it may be in: then what is added
    /// does not conflict with the other additions.
    OfLastGaps,
    /// Wherever the calls of the order allow it.
    All,
}

/// The first gap that each turn may be in.
fn first_gaps(turns: &[Turn]) -> Vec<u32> {
    let gaps = turns.iter().scan(0, |first, turn| {
        *first = turn.first_gap(*first);
        Some(*first)
    });
    gaps.collect()
}

/// The last gap that each turn may be in.
fn last_gaps(turns: &[Turn]) -> Vec<u32> {
    let mut gaps = vec![0; turns.len()];
    let mut last = u32::MAX;
    for (gap, turn) in gaps.iter_mut().zip(turns).rev() {
        last = last.min(turn.call.end.saturating_sub(1));
        *gap = last;
    }
    gaps
}

/// An order of calls, and how many values are in the stack at each place of it.
struct Heights {
    /// The gap by which each turn counts for a call that comes after it.
    counts: Vec<u32>,
    /// The last gap that each turn may be in.
    last: Vec<u32>,
    /// How many values there are after the last turn, and before each, from the last on.
    before: Least,
    /// How many there are after each turn: one fewer than none if a call finds nothing.
    after: Least,
}

/// How a value is in the stack that no known pop takes.
struct Stay {
    put: Interval,
    /// The turn before which it is put.
    place: usize,
    gap: u32,
    /// The turn before which it is gone; none if it may stay.
    until: Option<usize>,
}

impl Heights {
    fn new(turns: &[Turn], places: Places) -> Heights {
        let mut height = 0;
        let mut before = vec![0];
        let mut after = Vec::new();
        for turn in turns {
            height += match turn.step {
                Step::Push => 1,
                Step::Pop => -1,
                Step::FindsNone => 0,
            };
            before.push(height);
            after.push(if turn.step == Step::FindsNone { -1 } else { height });
        }
        before.reverse();
        Heights {
            counts: match places {
                Places::OfLastGaps => last_gaps(turns),
                Places::All => first_gaps(turns),
            },
            last: last_gaps(turns),
            before: Least::of(&before),
            after: Least::of(&after),
        }
    }

    /// The last place of a put at which the fewest values are below its own, and before which turn
    /// the value must be gone, if it must.
    fn stay(&self, put: Interval) -> Option<Stay> {
        let turns = self.last.len();
        let first = self.last.partition_point(|gap| *gap < put.begin);
        let last = self.counts.partition_point(|gap| *gap < put.end);
        let (from, to) = (turns - last, turns - first + 1);
        let height = self.before.least(from, to);
        let place = turns - self.before.first_at_most(from, to, height)?;
        let before = place.checked_sub(1).map_or(0, |before| self.counts[before]);
        Some(Stay {
            put,
            place,
            gap: put.begin.max(before),
            until: self.after.first_at_most(place, turns, height - 1),
        })
    }
}

/// A turn that is added to others: the place of that before which it comes, and its rank among
/// those that come there.
struct Added {
    place: usize,
    rank: usize,
    turn: Turn,
}

/// The pops of the values that must be gone. `None`: there are too few, or they begin too late.
fn pops_of(heights: &Heights, stays: &[Stay], pops: &[Interval]) -> Option<Vec<Added>> {
    let dues = stays.iter().enumerate().filter_map(|(place, stay)| Some((stay.until?, place)));
    let mut dues: Vec<(usize, usize)> = dues.collect();
    dues.sort_unstable();
    let mut pops = pops.iter();
    let added = dues.into_iter().map(|(until, place)| {
        let pop = pops.next().filter(|pop| pop.begin <= heights.last[until])?;
        // all that come here are put, and then what was put last is gone first
        Some(Added { place: until, rank: usize::MAX - place, turn: Turn::new(*pop, Step::Pop) })
    });
    added.collect()
}

/// The turns with those that are added.
fn with_added(turns: &[Turn], mut added: Vec<Added>) -> Vec<Turn> {
    added.sort_unstable_by_key(|one| (one.place, one.rank));
    let mut added = added.into_iter().peekable();
    let mut all = Vec::new();
    for (place, turn) in turns.iter().enumerate() {
        while let Some(one) = added.next_if(|one| one.place <= place) {
            all.push(one.turn);
        }
        all.push(*turn);
    }
    all.extend(added.map(|one| one.turn));
    all
}

/// The turns of a stack's calls, with those of the values that pending pops may take. `None`: there
/// are too few such pops, which come in the order of their begins.
fn with_leaving(turns: Vec<Turn>, leaving: &[Residence], pops: &[Interval]) -> Option<Vec<Turn>> {
    if leaving.is_empty() {
        return Some(turns);
    }
    [Places::OfLastGaps, Places::All].into_iter().find_map(|places| {
        let heights = Heights::new(&turns, places);
        let mut stays: Vec<Stay> =
            leaving.iter().filter_map(|residence| heights.stay(residence.put)).collect();
        stays.sort_unstable_by_key(|stay| (stay.place, stay.gap));
        let mut added = pops_of(&heights, &stays, pops)?;
        added.extend(stays.iter().enumerate().map(|(rank, stay)| Added {
            place: stay.place,
            rank,
            turn: Turn::new(stay.put, Step::Push),
        }));
        Some(with_added(&turns, added))
    })
}

/// The values of a stack for which a place is looked for first, the others, and the pending pops
/// that may take those.
struct Placing {
    residences: Vec<Residence>,
    leaving: Vec<Residence>,
    pops: Vec<Interval>,
}

impl Placing {
    /// Takes out the values that no known pop takes, of those with these numbers. False if there
    /// are none.
    fn let_leave(&mut self, mut numbers: Vec<u32>) -> bool {
        numbers.sort_unstable();
        let leaves = |residence: &Residence| {
            residence.take.is_none() && numbers.binary_search(&residence.put.number).is_ok()
        };
        let before = self.leaving.len();
        self.leaving.extend(self.residences.iter().filter(|residence| leaves(residence)));
        self.residences.retain(|residence| !leaves(residence));
        self.leaving.len() > before
    }

    /// The numbers of the values that must be gone, or are put before a call returns that finds
    /// nothing.
    fn due(&self, empties: &[Interval], end: u32) -> Vec<u32> {
        let mut removals = Removals::new(end, self.pops.clone(), false);
        empties.iter().for_each(|call| removals.note(call));
        let last = empties.iter().map(|call| call.end).max().unwrap_or(0);
        let dues = dues_of(&self.residences, &mut removals).into_iter();
        let due = dues.map(|(_, place)| &self.residences[place]);
        let early = self.residences.iter().filter(|r| r.take.is_none() && r.put.end < last);
        due.chain(early).map(|residence| residence.put.number).collect()
    }
}

/// An order of the calls of a stack in which no value is pushed twice that may be valid. The
/// pending pops come in the order of their begins.
pub fn order_around_leaving(
    residences: Vec<Residence>,
    empties: &[Interval],
    pops: Vec<Interval>,
    end: u32,
) -> Option<Vec<u32>> {
    let rounds = rounds_of(&residences);
    let mut placing = Placing { residences, leaving: Vec::new(), pops };
    placing.let_leave(placing.due(empties, end));
    for _ in 0..rounds {
        let (long, short) = by_length(&placing.residences);
        let ordering = Ordering::of(long, empties, end)?;
        if ordering.stuck.is_empty() {
            let turns = with_leaving(ordering.turns, &placing.leaving, &placing.pops)?;
            return Some(merge_turns(&turns, &short));
        }
        let stuck = ordering.stuck.iter().flatten();
        if !placing.let_leave(stuck.map(|residence| residence.put.number).collect()) {
            return None;
        }
    }
    None
}
