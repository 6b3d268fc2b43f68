//! The events of a large object that a figure may need: those near to what it draws, and some more
//! on each side, which show that there is a hole.

use super::moments::{Moment, moments_at, moments_of};
use super::numbers::{FIRST, MOST};
use super::window::{MOST_BEFORE, Stretch};
use crate::timeline::DrawnOperation;
use finder::Nemesis;
use std::ops::Range;

/// An object with no more operations has all its events listed.
const FEW: usize = 2_000;

/// How many more operations on each side are listed than may be drawn. That is more than a window
/// that is drawn whole has events, and than two events of a window are apart.
const MARGIN: usize = 256;

/// Where what may be drawn is in more places, all events are listed.
const MOST_PLACES: usize = 32;

/// The numbers around this one that have, besides the margins, `before` events before it and
/// `after` from it on, if there are that many.
fn numbers_near(
    operations: &[DrawnOperation],
    number: u32,
    before: usize,
    after: usize,
) -> Range<u32> {
    let place = operations.partition_point(|operation| operation.number() < number);
    let first = place.saturating_sub(before + MARGIN);
    let from = if first == 0 { 0 } else { operations[first].number() };
    from..operations.get(place + after + MARGIN).map_or(u32::MAX, DrawnOperation::number)
}

/// The numbers near to the stretch, or to the beginning if there is neither a stretch nor a focus,
/// and near to each event of the focus; in rising order of their beginnings.
fn all_near(operations: &[DrawnOperation], focus: &[u32], stretch: Stretch) -> Vec<Range<u32>> {
    let mut near = Vec::new();
    if stretch.is_given() {
        near.push(numbers_near(operations, stretch.from.unwrap_or(0), 0, MOST));
    } else if focus.is_empty() {
        near.push(numbers_near(operations, 0, 0, FIRST));
    }
    let around = |number: &u32| numbers_near(operations, *number, MOST_BEFORE, MOST_BEFORE);
    near.extend(focus.iter().map(around));
    near.sort_unstable_by_key(|numbers| numbers.start);
    near
}

/// The same numbers, where those that overlap are joined.
fn join(near: Vec<Range<u32>>) -> Vec<Range<u32>> {
    let mut joined: Vec<Range<u32>> = Vec::new();
    for numbers in near {
        match joined.last_mut() {
            Some(last) if numbers.start <= last.end => last.end = last.end.max(numbers.end),
            _ => joined.push(numbers),
        }
    }
    joined
}

/// Where events are listed.
pub struct Near {
    /// Numbers that are apart and in rising order.
    numbers: Vec<Range<u32>>,
    /// Whether all events are listed.
    has_all: bool,
}

/// Where the events are listed that a window may need: of few operations everywhere; of many near
/// to the stretch and to the events of the focus, or at the beginning.
pub fn near_to(operations: &[DrawnOperation], focus: &[u32], stretch: Stretch) -> Near {
    let mut numbers = Vec::new();
    if operations.len() > FEW {
        numbers = join(all_near(operations, focus, stretch));
    }
    Near { has_all: numbers.is_empty() || numbers.len() > MOST_PLACES, numbers }
}

impl Near {
    fn has(&self, number: u32) -> bool {
        self.numbers.iter().any(|numbers| numbers.contains(&number))
    }

    /// The events that are listed, in rising number; none is drawn.
    pub fn moments(&self, operations: &[DrawnOperation], nemeses: &[Nemesis]) -> Vec<Moment> {
        if self.has_all {
            return moments_of(operations, nemeses);
        }
        let begin = self.numbers.first().map_or(0, |numbers| numbers.start);
        let end = self.numbers.last().map_or(0, |numbers| numbers.end);
        let begun = &operations[..operations.partition_point(|it| it.number() < end)];
        let is_late = |it: &DrawnOperation| it.ended.unwrap_or(it.number()) >= begin;
        let late = begun.iter().enumerate().filter(|(_, operation)| is_late(operation));
        let of_operations = late.flat_map(|(place, operation)| moments_at(place, operation));
        let of_nemeses = nemeses.iter().map(|nemesis| Moment::new(nemesis.number, None, false));
        let all = of_operations.chain(of_nemeses);
        let mut moments: Vec<Moment> = all.filter(|moment| self.has(moment.number)).collect();
        moments.sort_unstable_by_key(|moment| moment.number);
        moments
    }
}
