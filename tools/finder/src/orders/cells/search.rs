//! The search for an order of one cell's calls. It goes through their begins and returns. What only
//! looks for a content is placed as soon as the content is there; what sets one is placed where a
//! call returns that has no place yet, one step after the other. If no step is left it goes back
//! and tries the next one.

use super::choices::Position;
use super::dead_ends::{DeadEnds, fingerprint_of};
use super::demands::Demands;
use super::waiting::{Role, Waiting};
use crate::accesses::{Access, NOTHING, Need};
use crate::splitmix::mixed;
use crate::timeline::{Moment, moments_of};

/// The most steps in which a search comes no further.
const MOST_IN_VAIN: usize = 1_500_000;

/// The most steps in which a hasty search comes no further and goes back step by step.
const MOST_UNTIL_HASTE: usize = 5_000;

/// The state in which a call returns that has no place, and how many steps were tried there.
#[derive(Clone, Copy)]
struct Choice {
    call: usize,
    at: usize,
    placed: usize,
    content: usize,
    fingerprint: u64,
    tried: usize,
}

struct Search<'a> {
    accesses: &'a [Access],
    moments: Vec<Moment>,
    demands: Demands,
    /// The place of the next moment.
    at: usize,
    /// What the cell contains.
    content: usize,
    /// The calls that have a place, in order.
    order: Vec<usize>,
    waiting: Waiting,
    /// The sum of the fingerprints of the calls that wait.
    fingerprint: u64,
    choices: Vec<Choice>,
    dead_ends: DeadEnds,
    steps: usize,
    /// The furthest moment, and the number of steps when the search came there.
    furthest: usize,
    steps_there: usize,
    /// Whether it leaps back further than is known not to matter.
    hasty: bool,
}

impl<'a> Search<'a> {
    fn new(accesses: &'a [Access], hasty: bool) -> Search<'a> {
        Search {
            accesses,
            moments: moments_of(accesses.iter().map(|access| &access.call)),
            demands: Demands::of(accesses),
            at: 0,
            content: NOTHING,
            order: Vec::new(),
            waiting: Waiting::default(),
            fingerprint: 0,
            choices: Vec::new(),
            dead_ends: DeadEnds::new(accesses.len()),
            steps: 0,
            furthest: 0,
            steps_there: 0,
            hasty,
        }
    }

    /// The call waits for a place.
    fn wait(&mut self, call: usize) {
        let access = &self.accesses[call];
        self.waiting.add(call, access);
        self.fingerprint = self.fingerprint.wrapping_add(fingerprint_of(access));
    }

    /// The call waits no longer. False if it did not wait.
    fn leave(&mut self, call: usize) -> bool {
        let access = &self.accesses[call];
        let waits = self.waiting.remove(call, access);
        if waits {
            self.fingerprint = self.fingerprint.wrapping_sub(fingerprint_of(access));
        }
        waits
    }

    /// Gives a call that waits the next place.
    fn place(&mut self, call: usize) {
        if self.leave(call) {
            self.order.push(call);
        }
    }

    /// Whether the call sets nothing, and the content that is there allows it.
    fn is_shown(&self, access: &Access) -> bool {
        let is_allowed = match access.need {
            Need::Any => true,
            Need::Is(content) => content == self.content,
            Need::IsNot(content) => content != self.content,
        };
        is_allowed && access.sets.is_none()
    }

    /// The call begins. What only looks for what is there has its place at once.
    fn begin(&mut self, call: usize) {
        if self.is_shown(&self.accesses[call]) {
            self.order.push(call);
        } else {
            self.wait(call);
        }
    }

    /// Places all calls that wait and do this with the content.
    fn place_all(&mut self, role: Role, content: usize) {
        while let Some((_, call)) = self.waiting.first(role, content) {
            self.place(call);
        }
    }

    /// Places a call that sets a content, and those that then can be placed.
    fn step(&mut self, call: usize) {
        let Some(target) = self.accesses[call].sets else {
            return;
        };
        self.place(call);
        let before = std::mem::replace(&mut self.content, target);
        self.place_all(Role::Sees, target);
        if before != target {
            self.place_all(Role::Refuses, before);
        }
    }

    fn waits(&self, call: usize) -> bool {
        self.waiting.by_end.contains(&(self.accesses[call].call.end, call))
    }

    /// Goes on to the next return of a call that has no place; none if all have one.
    fn next_return(&mut self) -> Option<usize> {
        while let Some(moment) = self.moments.get(self.at).copied() {
            self.steps += 1;
            if !moment.returns {
                self.begin(moment.call);
            } else if self.waits(moment.call) {
                return Some(moment.call);
            }
            self.at += 1;
        }
        None
    }

    /// The state in which this call returns.
    fn choice(&self, call: usize) -> Choice {
        let moment = mixed(self.fingerprint.wrapping_add(self.at as u64));
        Choice {
            call,
            at: self.at,
            placed: self.order.len(),
            content: self.content,
            fingerprint: mixed(moment.wrapping_add(self.content as u64)),
            tried: 0,
        }
    }

    /// Goes back to a state: what has been placed since then waits again, and what has begun since
    /// then has not begun.
    fn back_to(&mut self, choice: &Choice) {
        for call in self.order.split_off(choice.placed) {
            self.wait(call);
        }
        for k in choice.at..self.at.min(self.moments.len()) {
            let moment = self.moments[k];
            if !moment.returns {
                self.leave(moment.call);
            }
        }
        self.at = choice.at;
        self.content = choice.content;
    }

    /// The return at this choice, which the search has gone back to.
    fn position(&self, choice: &Choice) -> Position<'_> {
        Position {
            accesses: self.accesses,
            demands: &self.demands,
            waiting: &self.waiting,
            content: self.content,
            call: choice.call,
            now: self.accesses[choice.call].call.end,
        }
    }

    /// How many calls come before the last one in the order that sets one of these contents, and
    /// could be placed later: no call that is against them comes wholly after it, and before this
    /// call begins.
    fn before_last(&mut self, contents: &[usize], call: usize) -> Option<usize> {
        let begin = self.accesses[call].call.begin;
        let mut barrier = 0;
        for (k, place) in self.order.iter().enumerate().rev() {
            self.steps += 1;
            let access = &self.accesses[*place];
            let Some(content) = access.shows() else {
                continue;
            };
            if !contents.contains(&content) {
                if access.call.end <= begin {
                    barrier = barrier.max(access.call.begin);
                }
            } else if access.sets.is_some() && access.call.end > barrier {
                return Some(k);
            }
        }
        None
    }

    /// Gives up the choices since one of the contents was set that lead to what the call at this
    /// choice asks for. If no way leads there now, none of them can set it again.
    fn leap_back(&mut self, choice: &Choice) {
        let position = self.position(choice);
        let Some(goal) = position.goal() else {
            return;
        };
        let mut contents = Vec::new();
        position.step_to(goal, &mut contents);
        let last = self.before_last(&contents, choice.call);
        let mut keep =
            last.map_or(0, |last| self.choices.partition_point(|choice| choice.placed <= last));
        if contents.len() > 1 || self.accesses[choice.call].sets.is_some() {
            keep += 1;
        }
        self.choices.truncate(keep);
    }

    /// Whether the search leaps back at each dead end, since it came no further for long.
    fn is_stuck(&self) -> bool {
        self.hasty && self.steps > self.steps_there + MOST_UNTIL_HASTE
    }

    /// Tries the next step of the last state that has one left. False if none has.
    fn try_step(&mut self) -> bool {
        while let Some(mut choice) = self.choices.pop() {
            self.back_to(&choice);
            let steps = self.position(&choice).steps_after(choice.tried);
            self.steps += steps.len() + 1;
            if let Some(call) = steps.get(choice.tried) {
                choice.tried += 1;
                self.choices.push(choice);
                self.step(*call);
                return true;
            }
            self.dead_ends.add(choice.fingerprint);
            if choice.tried == 0 || self.is_stuck() {
                self.leap_back(&choice);
            }
        }
        false
    }

    /// Whether there were more steps than this, or too many since the search came further than
    /// before.
    fn takes_too_long(&mut self, limit: usize) -> bool {
        if self.at > self.furthest {
            self.furthest = self.at;
            self.steps_there = self.steps;
        }
        self.steps > limit || self.steps > self.steps_there + MOST_IN_VAIN
    }

    /// Whether an order of all calls that return is found in this many steps.
    fn succeeds(&mut self, limit: usize) -> bool {
        while let Some(call) = self.next_return() {
            let choice = self.choice(call);
            if !self.dead_ends.contains(choice.fingerprint) {
                self.choices.push(choice);
            }
            if self.takes_too_long(limit) || !self.try_step() {
                return false;
            }
        }
        true
    }
}

/// The most steps of a search among this many calls.
fn most_steps(calls: usize) -> usize {
    20_000 + 100 * calls
}

/// The places of a cell's calls in an order that may be valid. The second search leaves out more.
pub fn searched_order(accesses: &[Access]) -> Option<Vec<usize>> {
    for hasty in [false, true] {
        let mut search = Search::new(accesses, hasty);
        if search.succeeds(most_steps(accesses.len())) {
            return Some(search.order);
        }
        if search.choices.is_empty() {
            break;
        }
    }
    None
}
