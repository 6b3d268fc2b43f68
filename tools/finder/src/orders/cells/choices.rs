//! What may be placed next where a call returns that has no place yet: the likely steps first.

use super::demands::Demands;
use super::waiting::{Role, Waiting};
use crate::accesses::{Access, Need};
use crate::timeline::PENDING;

/// The longest chain of contents that is followed to see how long each must stay.
const MOST_LINKS: usize = 16;

/// The most ways out of a content that are tried of one sort.
const MOST_WAYS_OUT: usize = 4;

/// The most calls that wait among which a step is sought.
const MOST_SEEN: usize = 100;

/// The return of a call that has no place, and the cell at that moment.
#[derive(Clone, Copy)]
pub struct Position<'a> {
    pub accesses: &'a [Access],
    pub demands: &'a Demands,
    pub waiting: &'a Waiting,
    pub content: usize,
    pub call: usize,
    pub now: u32,
}

impl Position<'_> {
    /// The content that a call asks for and that is not there.
    fn goal_of(&self, place: usize) -> Option<usize> {
        match self.accesses[place].need {
            Need::Is(goal) if goal != self.content => Some(goal),
            _ => None,
        }
    }

    /// The content that the call that returns asks for and that is not there.
    pub fn goal(&self) -> Option<usize> {
        self.goal_of(self.call)
    }

    /// Whether a call asks that a content is not there.
    fn refuses(&self, place: usize) -> bool {
        matches!(self.accesses[place].need, Need::IsNot(_))
    }

    /// Until when calls need the content that this call sets, or a content made from it, as far as
    /// no other call can set these.
    fn until(&self, place: usize, content: usize) -> u32 {
        let mut until = self.now;
        let mut begin = self.now;
        let mut setter = place;
        let mut content = content;
        for _ in 0..MOST_LINKS {
            if self.waiting.has_other_setter(content, setter) {
                break;
            }
            let hold = self.demands.hold(content, begin);
            until = until.max(hold.until);
            let waiting = self.waiting.first(Role::Takes, content);
            let waiting = waiting.filter(|(end, _)| *end < hold.next).map(|(_, taker)| taker);
            let Some(taker) = waiting.or(hold.taker) else {
                break;
            };
            let access = &self.accesses[taker];
            begin = begin.max(access.call.begin);
            setter = taker;
            content = access.sets.unwrap_or(content);
        }
        until
    }

    /// Of the calls that can be placed now and set the content, the first to return.
    fn setter_now(&self, content: usize) -> Option<usize> {
        let sources = [Some(self.content), None];
        let setters = sources.into_iter().filter_map(|source| self.waiting.setter(content, source));
        setters.min().map(|(_, place)| place)
    }

    /// The first step of a shortest way to a content. The list takes in the contents out of which
    /// calls lead there: all of them if there is no way.
    pub fn step_to(&self, goal: usize, contents: &mut Vec<usize>) -> Option<usize> {
        contents.push(goal);
        let mut next = 0;
        while let Some(content) = contents.get(next).copied() {
            if let Some(place) = self.setter_now(content) {
                return Some(place);
            }
            self.waiting.add_sources(content, contents);
            next += 1;
        }
        None
    }

    /// The first step to the place of a call.
    fn step_for(&self, place: usize) -> Option<usize> {
        match self.goal_of(place) {
            Some(goal) => self.step_to(goal, &mut Vec::new()),
            None => Some(place),
        }
    }

    /// Whether a call can't have its place while the content is there, and stays.
    fn is_against(&self, place: usize, content: usize) -> bool {
        let access = &self.accesses[place];
        match (access.need, access.sets) {
            (Need::Is(other), _) => other != content,
            (Need::Any, Some(target)) => target != content,
            _ => false,
        }
    }

    /// What has to come before this call sets a content: the first step for a call that returns
    /// while the content is asked for, and is against it.
    fn step_before(&self, place: usize, content: usize) -> Option<usize> {
        let until = self.until(place, content);
        let soon = self.waiting.by_end.iter().take(MOST_SEEN).take_while(|(end, _)| *end < until);
        let against = soon.filter(|(_, other)| *other != place && self.is_against(*other, content));
        let mut steps = against.filter_map(|(_, other)| self.step_for(*other));
        steps.find(|step| *step != place)
    }

    /// Adds a step, unless one is there that does the same.
    fn add_new(&self, steps: &mut Vec<usize>, place: usize) {
        let done = |place: usize| (self.accesses[place].need, self.accesses[place].sets);
        if steps.iter().all(|step| done(*step) != done(place)) {
            steps.push(place);
        }
    }

    /// Adds a step. Before one that overwrites comes what takes away the content that is there, and
    /// what can't come soon after.
    fn add_step(&self, steps: &mut Vec<usize>, place: usize) {
        let access = &self.accesses[place];
        if let (Need::Any, Some(content)) = (access.need, access.sets) {
            if let Some((end, taker)) = self.waiting.first(Role::Takes, self.content)
                && end != PENDING
            {
                self.add_new(steps, taker);
            }
            if let Some(other) = self.step_before(place, content) {
                self.add_new(steps, other);
            }
        }
        self.add_new(steps, place);
    }

    /// Whether the call sets another content than is there, and is not kept for later. One that
    /// need not take effect is kept where what it sets is asked for later, and no other call sets
    /// that.
    fn is_spare(&self, place: usize) -> bool {
        let access = &self.accesses[place];
        access.sets.is_some_and(|target| {
            target != self.content
                && (!access.call.is_pending() || self.until(place, target) == self.now)
        })
    }

    /// Adds some calls with this role: such as can be spared, or any.
    fn add_some(&self, steps: &mut Vec<usize>, role: Role, content: usize, spare: bool) {
        let enough = steps.len() + MOST_WAYS_OUT;
        for (_, place) in self.waiting.all(role, content).take(MOST_SEEN) {
            if steps.len() >= enough {
                return;
            }
            if !spare || self.is_spare(place) {
                self.add_new(steps, place);
            }
        }
    }

    /// Adds steps that lead away from the content that is there, first such as can be spared.
    fn add_ways_out(&self, steps: &mut Vec<usize>) {
        for spare in [true, false] {
            self.add_some(steps, Role::Takes, self.content, spare);
            self.add_some(steps, Role::Overwrites, 0, spare);
        }
    }

    /// The steps that are likely to let the call have its place.
    fn likely_steps(&self) -> Vec<usize> {
        let mut steps = Vec::new();
        if self.refuses(self.call) {
            self.add_ways_out(&mut steps);
        } else if let Some(step) = self.step_for(self.call) {
            self.add_step(&mut steps, step);
        }
        steps
    }

    /// Adds the steps that can be of use: calls that have to return, and what lets such a call find
    /// what it asks for. One that need not take effect does only if that is seen.
    fn add_others(&self, steps: &mut Vec<usize>) {
        for (_, place) in self.waiting.by_end.iter().take_while(|(end, _)| *end != PENDING) {
            if self.refuses(*place) {
                self.add_ways_out(steps);
            } else if let Some(goal) = self.goal_of(*place) {
                for source in [Some(self.content), None] {
                    if let Some((_, setter)) = self.waiting.setter(goal, source) {
                        self.add_new(steps, setter);
                    }
                }
            } else {
                self.add_new(steps, *place);
            }
        }
    }

    /// The steps that may be tried after this many: the likely ones, and where these are not
    /// enough the others. There are none if no way leads to what the call asks for.
    pub fn steps_after(&self, tried: usize) -> Vec<usize> {
        let mut steps = self.likely_steps();
        let is_blocked = steps.is_empty() && self.goal().is_some();
        if steps.len() <= tried && !is_blocked {
            self.add_others(&mut steps);
        }
        steps
    }
}
