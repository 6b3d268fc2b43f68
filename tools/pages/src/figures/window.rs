//! The window: which events of an object are drawn.

use super::moments::{Moment, count_drawn, draw_some};
use super::numbers::{FIRST, LANES, MOST};
use crate::timeline::DrawnOperation;
use std::collections::{BTreeMap, BTreeSet};

/// The events of a window, by the numbers of their maps: from one on, and below one. Without both
/// the window is chosen.
#[derive(Clone, Copy, Default)]
pub struct Stretch {
    pub from: Option<u32>,
    pub to: Option<u32>,
}

impl Stretch {
    pub fn is_given(&self) -> bool {
        self.from.is_some() || self.to.is_some()
    }
}

/// How many events before and after each focus event are drawn, where the pairs before are too
/// many.
const AROUND: [(usize, usize); 6] = [(MOST_BEFORE, 10), (10, 5), (5, 2), (2, 1), (1, 0), (0, 0)];

/// The most events before or after a focus event that are drawn for it.
pub const MOST_BEFORE: usize = 20;

/// The longest hole that is filled.
const HOLE: usize = 7;

/// The place of the first event from this number on.
fn place_of(moments: &[Moment], number: u32) -> usize {
    moments.partition_point(|moment| moment.number < number)
}

/// Draws the events around those with these numbers, and no others.
fn draw_around(moments: &mut [Moment], focus: &[u32], before: usize, after: usize) {
    for moment in moments.iter_mut() {
        moment.is_drawn = false;
    }
    let last = moments.len().saturating_sub(1);
    for number in focus {
        let place = place_of(moments, *number).min(last);
        let from = place.saturating_sub(before);
        draw_some(moments, from, place - from + after + 1);
    }
}

/// The places of the drawn events.
pub fn drawn_places(moments: &[Moment]) -> impl Iterator<Item = usize> + '_ {
    (0..moments.len()).filter(|place| moments[*place].is_drawn)
}

/// Draws the events of short holes between drawn ones.
fn fill_holes(moments: &mut [Moment]) {
    let places: Vec<usize> = drawn_places(moments).collect();
    for pair in places.windows(2) {
        let between = pair[1] - pair[0] - 1;
        if between <= HOLE {
            draw_some(moments, pair[0] + 1, between);
        }
    }
}

/// Draws no more than the first of the drawn events.
fn draw_no_more(moments: &mut [Moment]) {
    for moment in moments.iter_mut().filter(|moment| moment.is_drawn).skip(MOST) {
        moment.is_drawn = false;
    }
}

/// Draws the events of the window: those of the stretch, if one is given; all, if there are no more
/// than `whole`; without a focus the first ones; and else what is around the focus, the less of it
/// the more the focus is.
pub fn choose(moments: &mut [Moment], focus: &[u32], stretch: Stretch, whole: usize) {
    if stretch.is_given() {
        let first = place_of(moments, stretch.from.unwrap_or(0));
        let next = place_of(moments, stretch.to.unwrap_or(u32::MAX));
        draw_some(moments, first, next.saturating_sub(first).min(MOST));
    } else if moments.len() <= whole {
        draw_some(moments, 0, whole);
    } else if focus.is_empty() {
        draw_some(moments, 0, FIRST);
    } else {
        for (before, after) in AROUND {
            draw_around(moments, focus, before, after);
            if count_drawn(moments) <= MOST {
                break;
            }
        }
        fill_holes(moments);
        draw_no_more(moments);
    }
}

/// How near a process is to the focus: whether it has none of its operations, the distance of its
/// nearest event in events, and its first event.
type Nearness = (bool, usize, usize);

/// The places of the drawn events of the focus; without any that of the first drawn event.
fn focus_places(
    operations: &[DrawnOperation],
    moments: &[Moment],
    focus: &BTreeSet<u32>,
) -> Vec<usize> {
    let is_focus = |place: &usize| {
        moments[*place].of(operations).is_some_and(|it| focus.contains(&it.number()))
    };
    let places: Vec<usize> = drawn_places(moments).filter(is_focus).collect();
    if places.is_empty() {
        return vec![drawn_places(moments).next().unwrap_or(0)];
    }
    places
}

/// How far the place is from the nearest of these.
fn distance(places: &[usize], place: usize) -> usize {
    places.iter().map(|other| other.abs_diff(place)).min().unwrap_or(usize::MAX)
}

/// The processes of drawn events, each with how near it is.
fn processes(
    operations: &[DrawnOperation],
    moments: &[Moment],
    focus: &BTreeSet<u32>,
) -> BTreeMap<u64, Nearness> {
    let places = focus_places(operations, moments, focus);
    let mut nearest: BTreeMap<u64, Nearness> = BTreeMap::new();
    for place in drawn_places(moments) {
        let Some(operation) = moments[place].of(operations) else {
            continue;
        };
        let is_other = !focus.contains(&operation.number());
        let own = (is_other, distance(&places, place), place);
        let known = nearest.entry(operation.process).or_insert(own);
        *known = own.min(*known);
    }
    nearest
}

/// The processes that have a lane: those nearest to the focus.
fn lanes_of(nearest: &BTreeMap<u64, Nearness>) -> BTreeSet<u64> {
    let by_nearness = nearest.iter().map(|(process, nearness)| (*nearness, *process));
    let sorted: BTreeSet<(Nearness, u64)> = by_nearness.collect();
    sorted.into_iter().take(LANES).map(|(_, process)| process).collect()
}

/// What a window leaves out for lack of lanes: operations with an event in it, by their numbers,
/// and how many processes these are of.
#[derive(Default)]
pub struct WithoutLane {
    pub operations: BTreeSet<u32>,
    pub processes: usize,
}

/// Keeps at most as many processes as there are lanes, those nearest to the focus, and says what of
/// the window that leaves out.
pub fn narrow(
    operations: &[DrawnOperation],
    moments: &mut [Moment],
    focus: &BTreeSet<u32>,
) -> WithoutLane {
    let nearest = processes(operations, moments, focus);
    let Some(processes) = nearest.len().checked_sub(LANES).filter(|more| *more > 0) else {
        return WithoutLane::default();
    };
    let lanes = lanes_of(&nearest);
    let left_out = |moment: &Moment| {
        moment.of(operations).filter(|operation| !lanes.contains(&operation.process))
    };
    let drawn = moments.iter().filter(|moment| moment.is_drawn);
    let left_out_numbers = drawn.filter_map(left_out).map(|operation| operation.number()).collect();
    for moment in moments.iter_mut() {
        moment.is_drawn &= left_out(moment).is_none();
    }
    WithoutLane { operations: left_out_numbers, processes }
}
