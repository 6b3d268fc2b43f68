//! The steps from states in which a call returns that has no place yet.

use super::calls::{Running, RunningCall};
use super::contents::{Below, Contents, EMPTY};
use super::pending::Pending;
use super::records::{Origin, Records, Step};
use super::states::{Draft, State, merge, narrow, settle};
use crate::kinds::Role;

/// How many values are popped at most before a call.
const MOST_POPS: usize = 100;

/// How many states are gone on from at most, while one call is placed.
const MOST_OPEN: usize = 10_000;

/// How many states they may lead to by one more pop, before no more are looked at.
const MOST_DRAFTS: usize = 200_000;

/// A push that is placed, and the state before it.
#[derive(Clone, Copy)]
struct Push {
    placed: u64,
    value: i64,
    call: u32,
    before: State,
}

impl Push {
    /// Pushes that lead to one state have the same.
    fn key(&self) -> (u64, i64, u32) {
        (self.placed, self.value, self.before.uses)
    }

    fn origin(&self) -> Origin {
        Origin { content: self.before.content, step: self.before.step, call: self.call }
    }
}

/// What a search knows.
pub struct Search {
    pub running: Running,
    pub pending: Pending,
    pub contents: Contents,
    pub records: Records,
    /// How many steps may still be taken.
    pub left: u64,
}

impl Search {
    /// A search among this many calls that may take `left` steps.
    pub fn new(calls: usize, left: u64) -> Search {
        Search {
            running: Running::default(),
            pending: Pending::default(),
            contents: Contents::new(calls),
            records: Records::new(),
            left,
        }
    }

    /// The states after the value on top is popped, each with the content that is left.
    fn popped(&mut self, state: &State) -> impl Iterator<Item = State> {
        let belows = self.contents.belows(state.content);
        self.left = self.left.saturating_sub(belows.len() as u64);
        belows.iter().map(|below| State {
            content: below.content,
            pops: state.pops.wrapping_add(below.pops),
            cost: state.cost + below.cost,
            ..*state
        })
    }

    /// A call that runs pops the value on top.
    fn pop(&mut self, state: &State, by: &RunningCall, drafts: &mut Vec<Draft>) {
        drafts.extend(self.popped(state).map(|after| Draft {
            step: Step::Pop { before: state.step, call: by.call, left: after.content },
            state: State { placed: after.placed | by.bit, ..after },
        }));
    }

    /// A pending call pops the value on top, if one is left that has begun.
    fn pop_pending(&mut self, state: &State, drafts: &mut Vec<Draft>) {
        let begun = self.pending.pops.len();
        let popped = self.popped(state).map(|after| Draft {
            step: Step::PendingPop { before: state.step, left: after.content },
            state: State { pops: after.pops.wrapping_add(1), cost: after.cost + 1, ..after },
        });
        drafts.extend(popped.filter(|draft| draft.state.pops as usize <= begun));
    }

    /// Places the calls that run and find nothing, if there is nothing.
    fn with_empties(&mut self, mut state: State) -> State {
        while state.content == EMPTY
            && let Some(by) = self.running.first(state.placed, Role::FindsNone)
        {
            state.placed |= by.bit;
            state.step = self.records.add(Step::Still { before: state.step, call: by.call });
        }
        state
    }

    /// Pops the value on top by a call that runs, or else by one that is pending where fewer of
    /// these were used than `most`. A value that is wanted is left.
    fn add_pops(&mut self, state: &State, wanted: Option<i64>, most: u32, drafts: &mut Vec<Draft>) {
        let Some(value) = self.contents.value(state.content) else {
            return;
        };
        if wanted == Some(value) {
            return;
        }
        if let Some(by) = self.running.first(state.placed, Role::Takes(value)) {
            self.pop(state, &by, drafts);
        } else if state.cost < most && !self.pending.pops.is_empty() {
            self.pop_pending(state, drafts);
        }
    }

    /// These states, and those that pops lead to from them.
    fn popped_from(&mut self, open: &[State], wanted: Option<i64>, most: u32) -> Vec<State> {
        let mut reached = Vec::new();
        let mut front = open.to_vec();
        for _ in 0..MOST_POPS {
            if front.is_empty() {
                break;
            }
            let mut drafts = Vec::new();
            for state in std::mem::take(&mut front) {
                let state = self.with_empties(state);
                reached.push(state);
                if drafts.len() < MOST_DRAFTS {
                    self.add_pops(&state, wanted, most, &mut drafts);
                }
            }
            settle(&mut self.records, drafts, &mut front);
            narrow(&mut front, u32::MAX, MOST_OPEN);
        }
        merge(&mut reached);
        reached
    }

    /// Pops a value that is pushed right before: by a call that runs, or by one that is pending
    /// where fewer of these were used than `most`.
    fn pop_at_once(
        &mut self,
        state: &State,
        value: i64,
        by: &RunningCall,
        most: u32,
        drafts: &mut Vec<Draft>,
    ) {
        let before = state.step;
        let after = State { placed: state.placed | by.bit, ..*state };
        if let Some(push) = self.running.first(state.placed, Role::Puts(value)) {
            let before = self.records.add(Step::Still { before, call: push.call });
            let state = State { placed: after.placed | push.bit, ..after };
            drafts.push(Draft { state, step: Step::Still { before, call: by.call } });
        }
        if state.cost >= most {
            return;
        }
        if let Some(uses) = self.pending.with_push(state.uses, value) {
            let before = self.records.add(Step::PendingPush { before, uses });
            let state = State { uses, cost: after.cost + 1, ..after };
            drafts.push(Draft { state, step: Step::Still { before, call: by.call } });
        }
    }

    /// Places a pop that returns.
    fn place_pop(&mut self, open: &[State], by: &RunningCall, value: i64, most: u32) -> Vec<Draft> {
        let mut drafts = Vec::new();
        for state in open {
            self.pop_at_once(state, value, by, most, &mut drafts);
        }
        for state in &self.popped_from(open, Some(value), most) {
            if self.contents.value(state.content) == Some(value) && drafts.len() < MOST_DRAFTS {
                self.pop(state, by, &mut drafts);
            }
        }
        drafts
    }

    /// The pushes that run and can be placed now: of each value the one that returns first.
    fn pushes<'a>(&'a self, state: &'a State) -> impl Iterator<Item = Push> {
        self.running.calls.iter().filter_map(|running| {
            let Role::Puts(value) = running.role else {
                return None;
            };
            let first = self.running.first(state.placed, running.role)?;
            let placed = state.placed | running.bit;
            let push = Push { placed, value, call: running.call, before: *state };
            (first.call == running.call).then_some(push)
        })
    }

    /// The state that these pushes lead to, which come in rising order of the contents before them.
    /// One of them has the fewest pending calls before it.
    fn pushed(&mut self, pushes: &[Push], least: &Push) -> State {
        self.left = self.left.saturating_sub(pushes.len() as u64);
        let mut origins = vec![least.origin()];
        let mut belows = Vec::new();
        for same in pushes.chunk_by(|one, other| one.before.content == other.before.content) {
            let before = same[0].before;
            belows.push(Below {
                content: before.content,
                cost: before.cost - least.before.cost,
                pops: before.pops.wrapping_sub(least.before.pops),
            });
            if before.content != least.before.content {
                origins.push(same[0].origin());
            }
        }
        State {
            placed: least.placed,
            content: self.contents.number(least.value, &belows),
            step: self.records.add_push(&origins),
            ..least.before
        }
    }

    /// Adds the states that the pushes lead to: to `done` those in which the call with this bit is
    /// placed.
    fn add_pushed(
        &mut self,
        mut pushes: Vec<Push>,
        bit: u64,
        open: &mut Vec<State>,
        done: &mut Vec<State>,
    ) {
        pushes.sort_unstable_by_key(|it| (it.key(), it.before.content, it.before.cost));
        for own in pushes.chunk_by(|one, other| one.key() == other.key()) {
            let Some(least) = own.iter().min_by_key(|push| push.before.cost) else {
                continue;
            };
            let state = self.pushed(own, least);
            if state.placed & bit == 0 {
                open.push(state);
            } else {
                done.push(state);
            }
        }
    }

    /// Places a push that returns, after other calls, if need be.
    fn place_push(&mut self, open: &[State], by: &RunningCall, done: &mut Vec<State>) {
        let mut open = self.popped_from(open, None, 0);
        for _ in 0..=self.running.calls.len() {
            if self.left == 0 {
                return;
            }
            narrow(&mut open, u32::MAX, MOST_OPEN);
            let fewest = open.iter().map(|state| state.placed.count_ones()).min();
            let (next, mut later): (Vec<State>, Vec<State>) =
                open.iter().partition(|state| Some(state.placed.count_ones()) == fewest);
            let pushes = next.iter().flat_map(|state| self.pushes(state)).collect();
            self.add_pushed(pushes, by.bit, &mut later, done);
            open = later;
        }
    }

    /// Adds the states in which a call that returns is placed.
    pub fn place(&mut self, open: &[State], by: &RunningCall, most: u32, done: &mut Vec<State>) {
        match by.role {
            Role::Puts(_) => self.place_push(open, by, done),
            Role::Takes(value) => {
                let drafts = self.place_pop(open, by, value, most);
                settle(&mut self.records, drafts, done);
            }
            Role::FindsNone | Role::Unknown => {
                let reached = self.popped_from(open, None, most);
                done.extend(reached.into_iter().filter(|state| state.placed & by.bit != 0));
            }
        }
        merge(done);
    }
}
