//! The search through the history of a stack.

use super::records::Placed;
use super::states::{State, narrow};
use super::steps::Search;
use crate::kinds::Role;
use crate::timeline::{Call, Moment};

/// How many states are kept at most.
const MOST_STATES: usize = 2_000;

/// How many steps and contents are kept at most: some 300 MB of them.
const MOST_KEPT: usize = 16_000_000;

impl Search {
    /// A call begins. False where too many run.
    fn begin(&mut self, place: u32, call: &Call) -> bool {
        match call.op.role(call.reply) {
            role if !call.is_pending() => return self.running.begin(place, call.end, role),
            Role::Puts(value) => self.pending.add_push(value, place),
            _ => self.pending.pops.push(place),
        }
        true
    }

    /// The call that returns first returns: the states in which it is placed.
    fn end(&mut self, states: &[State], slack: u32) -> Vec<State> {
        let Some(by) = self.running.calls.first().copied() else {
            return Vec::new();
        };
        let least = states.iter().map(|state| state.cost).min().unwrap_or(u32::MAX);
        let (open, mut done): (Vec<State>, Vec<State>) =
            states.iter().partition(|state| state.placed & by.bit == 0);
        self.place(&open, &by, least.saturating_add(slack), &mut done);
        if done.is_empty() && !self.pending.is_empty() {
            self.place(&open, &by, u32::MAX, &mut done);
        }
        narrow(&mut done, slack, MOST_STATES);
        self.running.end_first();
        done.iter_mut().for_each(|state| state.placed &= !by.bit);
        done
    }

    /// Whether the search has gone on for too long.
    fn is_over(&self) -> bool {
        let kept = self.contents.len() + self.records.len() + self.pending.len();
        self.left == 0 || kept > MOST_KEPT
    }

    /// The states at the end; none if it is given up.
    pub fn run(&mut self, calls: &[Call], moments: &[Moment], slack: u32) -> Vec<State> {
        let mut states = vec![State::BEGIN];
        for moment in moments {
            if moment.returns {
                states = self.end(&states, slack);
            } else if !self.begin(moment.call as u32, &calls[moment.call]) {
                return Vec::new();
            }
            if states.is_empty() || self.is_over() {
                return Vec::new();
            }
        }
        states
    }

    /// The order that leads to this state.
    pub fn order(&self, calls: &[Call], state: &State) -> Option<Vec<u32>> {
        let mut pops = self.pending.pops.iter().copied();
        let order = self.records.trace(state.step)?.into_iter().rev().map(|placed| {
            let place = match placed {
                Placed::Call(call) => call,
                Placed::PendingPop => pops.next()?,
                Placed::PendingPush(uses) => self.pending.last_push(uses)?,
            };
            Some(calls[place as usize].number)
        });
        order.collect()
    }
}
