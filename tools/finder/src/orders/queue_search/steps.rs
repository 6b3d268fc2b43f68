//! The steps from the states of one layer to those of the next.

use super::calls::{Calls, Known};
use super::records::{Records, Step};
use super::states::{Choice, Draft, State, narrow};
use crate::timeline::Call;

/// How many drafts of a layer are made at most, before no more states are looked at.
const MOST_DRAFTS: usize = 1 << 22;

/// The removal of a value that can be next, in the state that was looked at in this turn.
#[derive(Clone, Copy, Default)]
struct Ready {
    turn: u64,
    take: Known,
}

/// What a search knows.
pub struct Search {
    pub calls: Calls,
    pub records: Records,
    /// By values.
    ready: Vec<Ready>,
    turn: u64,
    /// How many steps may still be taken.
    pub left: u64,
}

impl Search {
    /// A search among these calls that may take `left` steps.
    pub fn new(calls: &[Call], left: u64) -> Search {
        let calls = Calls::new(calls);
        let ready = vec![Ready::default(); calls.values.len()];
        Search { calls, records: Records::new(), ready, turn: 0, left }
    }

    /// The call that finds nothing and returns first, if it can be next.
    fn empty(&self, state: &State) -> Option<Choice> {
        let call = *state.empties.left.first()?;
        let can_be_next = call.begin.max(state.placed.latest) < state.put_limit();
        can_be_next.then_some(Choice::Empty(call))
    }

    /// The put and the removal that return first, if they have one value and no call that finds
    /// nothing could be before them.
    fn first_pair(&self, state: &State) -> Option<Choice> {
        let put = *state.puts.left.first()?;
        let take = *state.takes.left.first()?;
        if put.value != take.value
            || put.begin >= state.put_limit()
            || take.begin >= state.take_limit()
        {
            return None;
        }
        let latest = put.begin.max(take.begin);
        let is_safe = latest <= state.placed.latest
            || latest <= state.empties.first_begin(&self.calls.empties);
        is_safe.then_some(Choice::Pair(put, take))
    }

    /// What is next in a state, and is no worse than anything else, whatever comes later. `None`:
    /// it has to be chosen.
    fn sure_choice(&self, state: &State) -> Option<Choice> {
        self.empty(state).or_else(|| self.first_pair(state))
    }

    /// Notes for each value the first removal to return of those that begin before this moment.
    fn note_takes(&mut self, state: &State, limit: u32) {
        self.turn += 1;
        for take in state.takes.left.iter().filter(|take| take.begin < limit) {
            let ready = &mut self.ready[take.value as usize];
            if ready.turn != self.turn {
                *ready = Ready { turn: self.turn, take: *take };
            }
        }
    }

    /// The removal of a value that was noted, when it is asked for the first time.
    fn take_noted(&mut self, value: u32) -> Option<Known> {
        let ready = &mut self.ready[value as usize];
        if ready.turn != self.turn {
            return None;
        }
        ready.turn = 0;
        Some(ready.take)
    }

    fn draft(&mut self, state: &State, from: usize, choice: Choice) -> Draft {
        self.left = self.left.saturating_sub(1);
        let placed = match choice {
            Choice::Pair(put, take) => state.placed.with(&put).with(&take),
            Choice::Lost(put, by) => state.placed.with(&put).with_pending(&by),
            Choice::Spare(take, by) => state.placed.with(&take).with_pending(&by),
            Choice::Empty(call) => state.placed.with(&call),
        };
        Draft { from, choice, placed }
    }

    /// Adds what a put and a removal lead to, of those that begin before these moments.
    fn add_pairs_before(
        &mut self,
        state: &State,
        from: usize,
        limits: (u32, u32),
        drafts: &mut Vec<Draft>,
    ) {
        self.note_takes(state, limits.1);
        for put in state.puts.left.iter().filter(|put| put.begin < limits.0) {
            if let Some(take) = self.take_noted(put.value) {
                drafts.push(self.draft(state, from, Choice::Pair(*put, take)));
            }
        }
    }

    /// Adds what a put and a removal lead to, in the layer after the next. Where a call that finds
    /// nothing is left, also those that leave it as much room as there is.
    fn add_pairs(&mut self, state: &State, from: usize, drafts: &mut Vec<Draft>) {
        self.left = self.left.saturating_sub(1);
        if let Some(choice) = self.sure_choice(state) {
            if let Choice::Pair(..) = choice {
                drafts.push(self.draft(state, from, choice));
            }
            return;
        }
        let (puts, takes) = (state.put_limit(), state.take_limit());
        self.add_pairs_before(state, from, (puts, takes), drafts);
        if let Some(call) = state.empties.left.first() {
            let latest = state.placed.latest.max(call.begin) + 1;
            let limits = (puts.min(latest), takes.min(latest));
            self.add_pairs_before(state, from, limits, drafts);
        }
    }

    /// The put that returns first and a pending removal, if they can be next.
    fn lost(&self, state: &State) -> Option<Choice> {
        let put = *state.puts.left.first()?;
        let by = *self.calls.unknown.get(state.lost)?;
        let can_be_next = put.begin < state.put_limit() && by.begin < state.take_limit();
        can_be_next.then_some(Choice::Lost(put, by))
    }

    /// The removal that returns first and a pending put, if they can be next.
    fn spare(&self, state: &State) -> Option<Choice> {
        let take = *state.takes.left.first()?;
        self.calls.spare(take.value, 0)?;
        let used = self.records.used(state.spare, take.value);
        let by = self.calls.spare(take.value, used)?;
        let can_be_next = take.begin < state.take_limit() && by.begin < state.put_limit();
        can_be_next.then_some(Choice::Spare(take, by))
    }

    /// Adds what one call leads to, in the next layer.
    fn add_singles(&mut self, state: &State, from: usize, drafts: &mut Vec<Draft>) {
        if let Some(choice) = self.sure_choice(state) {
            if let Choice::Empty(_) = choice {
                drafts.push(self.draft(state, from, choice));
            }
            return;
        }
        for choice in [self.lost(state), self.spare(state)].into_iter().flatten() {
            drafts.push(self.draft(state, from, choice));
        }
    }

    /// The state that a draft leads to.
    fn follow(&mut self, state: &State, draft: &Draft) -> State {
        let mut after = State { placed: draft.placed, ..state.clone() };
        let step = match draft.choice {
            Choice::Pair(put, take) => {
                after.puts.remove(&self.calls.puts, put.call);
                after.takes.remove(&self.calls.takes, take.call);
                Step::Pair { put: put.call, take: take.call }
            }
            Choice::Lost(put, by) => {
                after.puts.remove(&self.calls.puts, put.call);
                after.lost += 1;
                Step::Pair { put: put.call, take: by.call }
            }
            Choice::Spare(take, by) => {
                after.takes.remove(&self.calls.takes, take.call);
                let used = self.records.used(state.spare, take.value) + 1;
                let (put, value, last) = (by.call, take.value, state.spare);
                Step::Spare { put, take: take.call, value, used, last }
            }
            Choice::Empty(call) => {
                after.empties.remove(&self.calls.empties, call.call);
                Step::Empty { call: call.call }
            }
        };
        after.step = self.records.add(state.step, step);
        if let Step::Spare { .. } = step {
            after.spare = after.step;
        }
        after
    }

    /// The layer after these two: at most `width` states, which used at most `slack` more pending
    /// calls than another.
    pub fn layer(
        &mut self,
        older: &[State],
        newer: &[State],
        slack: u32,
        width: usize,
    ) -> Vec<State> {
        let mut drafts = Vec::new();
        for (from, state) in older.iter().enumerate() {
            if drafts.len() < MOST_DRAFTS {
                self.add_pairs(state, from, &mut drafts);
            }
        }
        for (from, state) in newer.iter().enumerate() {
            self.add_singles(state, from, &mut drafts);
        }
        let least = newer.iter().map(|state| state.placed.cost).min().unwrap_or(u32::MAX);
        narrow(&mut drafts, least, slack, width);
        let after = drafts.iter().map(|draft| match draft.choice {
            Choice::Pair(..) => self.follow(&older[draft.from], draft),
            _ => self.follow(&newer[draft.from], draft),
        });
        after.collect()
    }
}
