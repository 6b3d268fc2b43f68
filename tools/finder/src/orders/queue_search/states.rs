//! The states of a search.

use super::calls::{Calls, Known};
use super::fronts::Front;
use super::records::BEGIN;
use crate::splitmix::{STEP, mixed};

/// What is known of the calls that are placed.
#[derive(Clone, Copy, Default)]
pub struct Placed {
    /// The last begin of one.
    pub latest: u32,
    /// How many pending calls are used.
    pub cost: u32,
    /// The sum of their returns.
    ends: u64,
    /// The sum of a number for each. The same calls have the same one.
    hash: u64,
}

impl Placed {
    /// The same, and this call.
    pub fn with(&self, call: &Known) -> Placed {
        Placed {
            latest: self.latest.max(call.begin),
            cost: self.cost,
            ends: self.ends + u64::from(call.end),
            hash: self.hash.wrapping_add(mixed(STEP.wrapping_add(u64::from(call.call)))),
        }
    }

    /// The same, and a pending call.
    pub fn with_pending(&self, call: &Known) -> Placed {
        Placed { latest: self.latest.max(call.begin), cost: self.cost + 1, ..*self }
    }
}

/// What may have happened until now.
#[derive(Clone)]
pub struct State {
    pub puts: Front,
    pub takes: Front,
    pub empties: Front,
    pub placed: Placed,
    /// How many pending removals are used.
    pub lost: usize,
    /// The step that led here.
    pub step: u32,
    /// The last step that used a pending put.
    pub spare: u32,
}

impl State {
    /// Before the first call.
    pub fn new(calls: &Calls) -> State {
        State {
            puts: Front::new(&calls.puts),
            takes: Front::new(&calls.takes),
            empties: Front::new(&calls.empties),
            placed: Placed::default(),
            lost: 0,
            step: BEGIN,
            spare: BEGIN,
        }
    }

    /// Before this moment a removal that is next has to begin.
    pub fn take_limit(&self) -> u32 {
        self.takes.bound().min(self.empties.bound())
    }

    /// Before this moment a put that is next has to begin.
    pub fn put_limit(&self) -> u32 {
        self.puts.bound().min(self.take_limit())
    }

    /// How many calls it lists.
    pub fn listed(&self) -> usize {
        self.puts.left.len() + self.takes.left.len() + self.empties.left.len()
    }

    /// Whether all removals are placed that return.
    pub fn is_done(&self) -> bool {
        self.takes.left.is_empty() && self.empties.left.is_empty()
    }
}

/// What can be next in a state.
#[derive(Clone, Copy)]
pub enum Choice {
    /// A value's put and removal.
    Pair(Known, Known),
    /// A value's put and a pending removal.
    Lost(Known, Known),
    /// A value's removal and a pending put.
    Spare(Known, Known),
    /// A call that finds nothing.
    Empty(Known),
}

/// A state that a choice leads to, before it is made.
#[derive(Clone, Copy)]
pub struct Draft {
    /// The place of the state before it, in its layer.
    pub from: usize,
    pub choice: Choice,
    pub placed: Placed,
}

/// Leaves one of the drafts in which the same calls are placed, one that used the fewest pending
/// calls; of these those that used few, which is at most `slack` more than `least`; and of these at
/// most this many.
pub fn narrow(drafts: &mut Vec<Draft>, least: u32, slack: u32, most: usize) {
    drafts.sort_unstable_by_key(|it| (it.placed.hash, it.placed.cost, it.placed.latest));
    drafts.dedup_by_key(|it| it.placed.hash);
    let fewest = drafts.iter().map(|draft| draft.placed.cost).min().unwrap_or(least);
    let limit = fewest.min(least).saturating_add(slack);
    drafts.retain(|it| it.placed.cost <= limit);
    if drafts.len() > most {
        drafts.sort_unstable_by_key(|it| (it.placed.cost, it.placed.ends));
        drafts.truncate(most);
    }
}
