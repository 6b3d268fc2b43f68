//! The calls of a stack in their order.

use crate::residences::Residence;
use crate::timeline::Interval;

/// What a turn does.
#[derive(Clone, Copy, PartialEq, Eq)]
pub enum Step {
    Push,
    Pop,
    FindsNone,
}

/// The call that is next in the order, and the first gap that it may be in.
#[derive(Clone, Copy)]
pub struct Turn {
    pub call: Interval,
    pub step: Step,
    pub from: u32,
}

impl Turn {
    /// A turn that may be in any gap of its call.
    pub fn new(call: Interval, step: Step) -> Turn {
        Turn { call, step, from: 0 }
    }

    /// The first gap that it may be in after one that is in this gap.
    pub fn first_gap(&self, before: u32) -> u32 {
        self.call.begin.max(self.from).max(before)
    }
}

/// The values apart: those that definitely are in the stack for a while, and the others, each in
/// rising order of their gaps.
pub fn by_length(residences: &[Residence]) -> (Vec<Residence>, Vec<Residence>) {
    let all = residences.iter().copied();
    let (mut short, mut long): (Vec<Residence>, Vec<Residence>) =
        all.partition(|residence| residence.definitely_from() > residence.definitely_to());
    long.sort_unstable_by_key(Residence::definitely_from);
    short.sort_unstable_by_key(Residence::definitely_to);
    (long, short)
}

/// The turns, each in the first gap that those before it leave, and between them the values that
/// are put and taken in one gap.
pub fn merge_turns(turns: &[Turn], short: &[Residence]) -> Vec<u32> {
    let mut order = Vec::new();
    let mut short = short.iter().peekable();
    let mut gap = 0;
    for turn in turns {
        gap = turn.first_gap(gap);
        while let Some(residence) = short.next_if(|residence| residence.definitely_to() < gap) {
            order.push(residence.put.number);
            order.extend(residence.take.map(|take| take.number));
        }
        order.push(turn.call.number);
    }
    for residence in short {
        order.push(residence.put.number);
        order.extend(residence.take.map(|take| take.number));
    }
    order
}
