//! The states of a search.

use super::contents::EMPTY;
use super::pending::UNUSED;
use super::records::{Records, Step};

/// What may have happened until now.
#[derive(Clone, Copy)]
pub struct State {
    /// The bits of the running calls that are placed.
    pub placed: u64,
    pub content: u32,
    /// The pending pushes that were used, and how many pending pops.
    pub uses: u32,
    pub pops: u32,
    /// How many pending calls were used.
    pub cost: u32,
    /// The step that led here.
    pub step: u32,
}

impl State {
    /// Before the first call.
    pub const BEGIN: State =
        State { placed: 0, content: EMPTY, uses: UNUSED, pops: 0, cost: 0, step: 0 };

    /// States that are alike have the same.
    fn key(&self) -> (u64, u32, u32) {
        (self.placed, self.content, self.uses)
    }
}

/// A state that a step leads to, before the step is recorded.
#[derive(Clone, Copy)]
pub struct Draft {
    pub state: State,
    pub step: Step,
}

/// Of states with equal keys, keeps one that used the fewest pending calls.
pub fn merge(states: &mut Vec<State>) {
    states.sort_unstable_by_key(|it| (it.key(), it.cost));
    states.dedup_by_key(|it| it.key());
}

/// Merges the drafts, records their steps, and adds their states.
pub fn settle(records: &mut Records, mut drafts: Vec<Draft>, states: &mut Vec<State>) {
    drafts.sort_unstable_by_key(|it| (it.state.key(), it.state.cost));
    drafts.dedup_by_key(|it| it.state.key());
    states
        .extend(drafts.iter().map(|draft| State { step: records.add(draft.step), ..draft.state }));
}

/// Leaves the states that used few pending calls, and of these at most this many: those in which
/// the fewest calls are placed.
pub fn narrow(states: &mut Vec<State>, slack: u32, most: usize) {
    let least = states.iter().map(|state| state.cost).min().unwrap_or(0);
    let limit = least.saturating_add(slack);
    states.retain(|state| state.cost <= limit);
    if states.len() > most {
        states.sort_unstable_by_key(|it| (it.cost, it.placed.count_ones(), it.placed, it.content));
        states.truncate(most);
    }
}
