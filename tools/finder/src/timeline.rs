//! The calls of an object on a time of their own.

use crate::history::Operation;
use crate::kinds::{Op, Reply};
use std::cmp::Reverse;
use std::collections::BinaryHeap;
use std::collections::binary_heap::PeekMut;

/// The end of a call that has not returned: it is after every moment of the object's events.
pub const PENDING: u32 = u32::MAX - 1;

/// When a call takes effect. Moments are places among the object's own invocations and returns. Gap
/// `g` is the time right after moment `g`: the call takes effect in one of the gaps `begin <= g <
/// end`.
#[derive(Clone, Copy, Debug)]
pub struct Interval {
    /// The number of its invocation in the history.
    pub number: u32,
    pub begin: u32,
    pub end: u32,
}

impl Interval {
    /// Whether the call has not returned.
    pub fn is_pending(&self) -> bool {
        self.end == PENDING
    }
}

/// A call: an operation that did not fail.
#[derive(Clone, Copy, Debug)]
pub struct Call {
    /// The number of its invocation in the history.
    pub number: u32,
    /// The number of its return in the history, or `PENDING`.
    pub returned: u32,
    pub op: Op,
    pub reply: Option<Reply>,
    pub begin: u32,
    pub end: u32,
}

impl Call {
    /// When it takes effect.
    pub fn span(&self) -> Interval {
        Interval { number: self.number, begin: self.begin, end: self.end }
    }

    /// Whether the call has not returned.
    pub fn is_pending(&self) -> bool {
        self.end == PENDING
    }

    /// The first number of the history after its return.
    pub fn until(&self) -> u32 {
        self.returned + 1
    }
}

/// An invocation or a return.
#[derive(Clone, Copy)]
pub struct Moment {
    /// The place of its call.
    pub call: usize,
    pub returns: bool,
}

/// The invocations and returns of these calls, in the order in which they come. The calls come in
/// the order of their invocations.
pub fn moments_of<'a>(calls: impl Iterator<Item = &'a Call>) -> Vec<Moment> {
    let mut moments = Vec::with_capacity(2 * calls.size_hint().0);
    // those that run, the first to return first
    let mut running: BinaryHeap<Reverse<(u32, usize)>> = BinaryHeap::new();
    let returns = |Reverse((_, call))| Moment { call, returns: true };
    for (place, call) in calls.enumerate() {
        while let Some(next) = running.peek_mut()
            && next.0.0 < call.begin
        {
            moments.push(returns(PeekMut::pop(next)));
        }
        moments.push(Moment { call: place, returns: false });
        if !call.is_pending() {
            running.push(Reverse((call.end, place)));
        }
    }
    moments.extend(running.into_sorted_vec().into_iter().rev().map(returns));
    moments
}

/// The calls of an object.
pub struct Timeline {
    /// In the order of their invocations.
    pub calls: Vec<Call>,
    pub moments: Vec<Moment>,
}

impl Timeline {
    /// The operations that did not fail, with their moments.
    pub fn of<'a>(ops: impl IntoIterator<Item = &'a Operation>) -> Timeline {
        let ops = ops.into_iter().filter(|o| !o.has_failed());
        let mut calls: Vec<Call> = ops
            .map(|o| {
                let returned = o.returned().unwrap_or(PENDING);
                let (number, op, reply) = (o.number, o.op, o.reply());
                Call { number, returned, op, reply, begin: number, end: returned }
            })
            .collect();
        let moments = moments_of(calls.iter());
        for (at, moment) in (0..).zip(&moments) {
            let call = &mut calls[moment.call];
            *(if moment.returns { &mut call.end } else { &mut call.begin }) = at;
        }
        Timeline { calls, moments }
    }

    /// The number of moments.
    pub fn end(&self) -> u32 {
        self.moments.len() as u32
    }
}
