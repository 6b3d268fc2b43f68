//! The puts, or the removals, that are left.

use crate::residences::{NEVER, Transfer};
use crate::timeline::Interval;
use crate::trees::{ABSENT, Least};
use std::ops::Range;

/// How many values are looked at to see which puts and removals belong together.
const MOST_UPCOMING: usize = 13;

/// A put or a removal. Its value is identified by its place in rising order.
#[derive(Clone, Copy)]
pub struct Call {
    pub value: usize,
    pub span: Interval,
}

/// The puts, or the removals, and which of them are left.
pub struct Side {
    /// By value, and calls of one value by their returns.
    pub calls: Vec<Call>,
    /// Of each value the place of its first call, and then the number of calls.
    starts: Vec<usize>,
    /// When each begins that is left.
    begins: Least,
    /// The places in the order of the returns.
    by_return: Vec<usize>,
    /// How far the walk over the returns has come.
    pub next: usize,
}

impl Side {
    /// The puts, or the removals, among these transfers, which are sorted by their values.
    pub fn new(all: &[Transfer], takes: bool) -> Side {
        let mut calls = Vec::new();
        let mut starts = vec![0];
        let values = all.chunk_by(|one, other| one.value == other.value);
        for (value, transfers) in values.enumerate() {
            let own = transfers.iter().filter(|transfer| transfer.takes == takes);
            calls.extend(own.map(|transfer| Call { value, span: transfer.call }));
            starts.push(calls.len());
        }
        calls.sort_unstable_by_key(|call| (call.value, call.span.end));
        let begins: Vec<i64> = calls.iter().map(|call| i64::from(call.span.begin)).collect();
        let mut by_return: Vec<usize> = (0..calls.len()).collect();
        by_return.sort_by_key(|place| calls[*place].span.end);
        Side { calls, starts, begins: Least::of(&begins), by_return, next: 0 }
    }

    fn is_left(&self, place: usize) -> bool {
        self.begins.number(place) != ABSENT
    }

    /// The call that is left and returns first, with its place.
    pub fn first(&mut self) -> Option<(usize, Call)> {
        while let Some(place) = self.by_return.get(self.next).copied() {
            if self.is_left(place) {
                return Some((place, self.calls[place]));
            }
            self.next += 1;
        }
        None
    }

    /// The values of some calls that are left and return, in the order of their returns.
    pub fn upcoming(&self) -> Vec<usize> {
        let left = self.by_return[self.next..].iter().filter(|place| self.is_left(**place));
        let calls = left.map(|place| self.calls[*place]);
        let returning = calls.take_while(|call| !call.span.is_pending());
        returning.map(|call| call.value).take(MOST_UPCOMING).collect()
    }

    /// The places of a value's calls.
    pub fn places(&self, value: usize) -> Range<usize> {
        self.starts[value]..self.starts[value + 1]
    }

    /// The place of the call of this value that is left, begins by this moment, and returns first.
    pub fn ready(&self, value: usize, latest: u32) -> Option<usize> {
        let Range { start, end } = self.places(value);
        self.begins.first_at_most(start, end, i64::from(latest))
    }

    /// Whether another call of the same value is left that returns before this one.
    pub fn has_earlier(&self, place: usize) -> bool {
        let from = self.places(self.calls[place].value).start;
        self.begins.first_at_most(from, place, i64::from(NEVER)).is_some()
    }

    /// Takes out the call at this place.
    pub fn remove(&mut self, place: usize) {
        self.begins.set(place, ABSENT);
    }

    /// Puts it back.
    pub fn restore(&mut self, place: usize) {
        self.begins.set(place, i64::from(self.calls[place].span.begin));
    }
}
