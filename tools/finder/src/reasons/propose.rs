//! The search for reasons: the patterns, the smallest first, and each made smaller.

use super::cells::{cell_patterns, rare_cell_patterns};
use super::containers::{container_patterns, lost_patterns};
use super::numbers::number_patterns;
use super::shrink::Judge;
use super::value_pairs::value_pairs_of;
use super::wholes::wholes_of;
use super::{Candidate, Form, Pattern, Plan, Reason, Trial};
use crate::cuts::{Cut, part_by};
use crate::history::ObjectHistory;
use crate::kinds::Family;
use crate::search::TryFirst;
use crate::timeline::Timeline;
use std::cell::Cell;

/// A reason, with the pattern that led to it, and at a map the key that the pattern is about.
pub struct Proposal {
    pub reason: Reason,
    pub pattern: Pattern,
    pub key: Option<i64>,
}

/// The most candidates that are tried.
const MOST: usize = 24;

/// A part of this many operations is small enough.
const FEW: usize = 3;

/// As many proposals are compared.
const ENOUGH: usize = 6;

/// A candidate of this weight is small as it is.
const LIGHT: usize = 8;

/// The most operations that a search of what was done with two values tries.
const STEPS_OF_A_PAIR: u64 = 2_000;

/// The most calls that are kept for a part to begin at.
const MOST_STARTS: usize = 64;

/// A part in which a plan is made smaller, its cuts, and the call at which it begins.
struct Base {
    part: ObjectHistory,
    cuts: Vec<Cut>,
    from: Option<u32>,
}

/// A candidate that was made smaller, the part in which it was, and the number of operations that
/// are left.
struct Shrunk {
    candidate: Candidate,
    base: Base,
    size: usize,
}

/// A proposal that holds, and the number of operations of its part.
struct Confirmed {
    proposal: Proposal,
    size: usize,
}

/// An object's history in which reasons are looked for, the most steps of a search of one part, and
/// those that are left for all searches by which plans are made smaller.
struct Proposer<'a> {
    history: &'a ObjectHistory,
    steps: u64,
    budget: Cell<u64>,
}

impl Proposer<'_> {
    /// The candidates by patterns, the lightest first.
    fn patterns(&self, timeline: &Timeline) -> Vec<Candidate> {
        let mut candidates = match &self.history.kind.family {
            Family::Container(container) => container_patterns(container, timeline),
            Family::Cells(_) => cell_patterns(timeline),
            Family::Holdable(held) => (held.patterns)(timeline),
            Family::Number(_) => number_patterns(timeline),
        };
        candidates.sort_by_key(|candidate| candidate.weight);
        candidates
    }

    /// The candidates by patterns that take longer to be found, the lightest first.
    fn rare_patterns(&self, timeline: &Timeline) -> Vec<Candidate> {
        let mut candidates = match &self.history.kind.family {
            Family::Container(_) | Family::Number(_) => Vec::new(),
            Family::Cells(_) => rare_cell_patterns(timeline),
            Family::Holdable(held) => (held.rare_patterns)(timeline),
        };
        candidates.sort_by_key(|candidate| candidate.weight);
        candidates
    }

    /// The last calls that find nothing and return before this number, at which a part may begin.
    fn starts(&self, until: u32) -> impl Iterator<Item = u32> {
        let starts = self.history.ops.iter().rev().filter(move |o| {
            o.returned().is_some_and(|at| at < until)
                && o.reply().is_some_and(|reply| o.op.tells(reply))
        });
        starts.map(|o| o.number).take(MOST_STARTS)
    }

    /// The cuts of the part in which a plan is made smaller. Where that of a queue, stack or heap
    /// is not small the calls stay at which it may begin.
    fn base_cuts(&self, candidate: &Candidate) -> Vec<Cut> {
        let plan = &candidate.plan;
        let mut cuts = Vec::new();
        match &plan.form {
            Form::Container(chosen) if candidate.weight <= LIGHT => {
                chosen.push_cuts(self.history, &mut cuts);
            }
            Form::Container(chosen) => {
                let starts = self.starts(plan.until.unwrap_or(u32::MAX));
                chosen.with(starts).push_cuts(self.history, &mut cuts);
            }
            Form::Window { .. } | Form::LoneCell(_) | Form::Keys(_) | Form::Entry { .. } => {
                plan.push_cuts(self.history, &mut cuts);
            }
        }
        cuts
    }

    /// The candidate made smaller, if its part has no valid order. If the part begins at a call
    /// the plan does so no more.
    fn shrink(&self, mut candidate: Candidate) -> Option<Shrunk> {
        let cuts = self.base_cuts(&candidate);
        let from = candidate.plan.from.take();
        let base = Base { part: part_by(self.history, &cuts)?, cuts, from };
        let mut judge = Judge::new(&base.part, self.steps, &self.budget);
        if !judge.shrink(&mut candidate.plan) {
            return None;
        }
        Some(Shrunk { size: judge.size, candidate, base })
    }

    /// The reason, if it is true.
    fn checked(&self, reason: Reason) -> Option<Reason> {
        let search = Trial { first: TryFirst::Number, steps: self.steps };
        reason.part_shown(self.history, search).is_some().then_some(reason)
    }

    /// The reason of a plan that holds in a part which begins at a call: by the plan's cuts alone
    /// where they serve for the whole, and else by those after the part's.
    fn reason_of(&self, base: Base, mut plan: Plan) -> Option<Reason> {
        let Base { part, mut cuts, from } = base;
        let own = plan.from;
        plan.from = own.or(from);
        plan.from.into_iter().for_each(|number| plan.form.add(number));
        self.checked(plan.reason(self.history)).or_else(|| {
            plan.from = own;
            plan.push_cuts(&part, &mut cuts);
            self.checked(Reason { cuts, count: plan.count() })
        })
    }

    /// The proposal of a candidate that was made smaller, if its reason holds in the whole history.
    fn confirm(&self, shrunk: Shrunk) -> Option<Confirmed> {
        let Shrunk { candidate: Candidate { pattern, key, plan, .. }, base, size } = shrunk;
        let reason = self.reason_of(base, plan)?;
        Some(Confirmed { proposal: Proposal { reason, pattern, key }, size })
    }

    /// The next candidates made smaller: until one is small or there are enough to be compared. The
    /// smallest comes first.
    fn next_shrunk(&self, candidates: &mut impl Iterator<Item = Candidate>) -> Vec<Shrunk> {
        let mut next = Vec::new();
        for shrunk in candidates.filter_map(|candidate| self.shrink(candidate)) {
            let is_small = shrunk.size <= FEW;
            next.push(shrunk);
            if is_small || next.len() >= ENOUGH {
                break;
            }
        }
        next.sort_by_key(|shrunk| shrunk.size);
        next
    }

    /// The smallest reason among those of the first candidates, if one of them holds.
    fn best_of(&self, candidates: Vec<Candidate>) -> Option<Confirmed> {
        let mut candidates = candidates.into_iter().take(MOST);
        loop {
            let next = self.next_shrunk(&mut candidates);
            if next.is_empty() {
                return None;
            }
            if let Some(confirmed) = next.into_iter().find_map(|shrunk| self.confirm(shrunk)) {
                return Some(confirmed);
            }
        }
    }

    /// The smallest reason to which the patterns of a map's keys from one to another lead, if they
    /// lead to one.
    fn best_on(&self, first: i64, last: i64) -> Option<Confirmed> {
        let is_on = |key: i64| first <= key && key <= last;
        let ops = self.history.ops.iter().filter(|o| o.op.key().is_some_and(is_on));
        self.best_of(self.patterns(&Timeline::of(ops)))
    }

    /// A reason to which the patterns of a map's keys from this one on lead. The others are looked
    /// at only if this one has no reason that is small enough.
    fn propose_from(&self, key: i64) -> Option<Proposal> {
        let own = self.best_on(key, key);
        if own.as_ref().is_some_and(|own| own.size <= FEW) {
            return own.map(|own| own.proposal);
        }
        let other = key.checked_add(1).and_then(|next| self.best_on(next, i64::MAX));
        let smallest = own.into_iter().chain(other).min_by_key(|confirmed| confirmed.size);
        smallest.map(|confirmed| confirmed.proposal)
    }

    /// The smallest reason to which the patterns of the object lead, if they lead to one. Where it
    /// is not small values are looked for that a container lost, and at a mutex or lock the
    /// patterns that are rare.
    fn best_by_patterns(&self, timeline: &Timeline) -> Option<Confirmed> {
        let best = self.best_of(self.patterns(timeline));
        if best.as_ref().is_some_and(|best| best.size <= FEW) {
            return best;
        }
        let others = match &self.history.kind.family {
            Family::Container(container) => lost_patterns(container.gives, timeline),
            Family::Holdable(_) => self.rare_patterns(timeline),
            Family::Cells(_) | Family::Number(_) => Vec::new(),
        };
        best.into_iter().chain(self.best_of(others)).min_by_key(|confirmed| confirmed.size)
    }

    fn propose(&self, open_key: Option<i64>) -> Option<Proposal> {
        if let Some(proposal) = open_key.and_then(|key| self.propose_from(key)) {
            return Some(proposal);
        }
        let timeline = Timeline::of(&self.history.ops);
        let mut best = None;
        if open_key.is_none() {
            best = self.best_by_patterns(&timeline);
        }
        let best = best
            .or_else(|| self.best_of(self.rare_patterns(&timeline)))
            .or_else(|| self.best_of(wholes_of(self.history.kind, &timeline)));
        best.map(|confirmed| confirmed.proposal)
    }
}

/// A small reason why no order of the object's operations is valid, if a pattern leads to one, or
/// if there are few operations. The open key of a map is one for whose operations no order was
/// found, while one was found for each lesser key: it is looked at first, and the greater ones only
/// if it has no reason that is small enough. The search for an order of one part takes at most
/// this many steps.
pub fn propose(history: &ObjectHistory, open_key: Option<i64>, steps: u64) -> Option<Proposal> {
    propose_within(history, open_key, steps, u64::MAX)
}

/// The same, where plans are made smaller by at most `budget` steps in all.
pub fn propose_within(
    history: &ObjectHistory,
    open_key: Option<i64>,
    steps: u64,
    budget: u64,
) -> Option<Proposal> {
    Proposer { history, steps, budget: Cell::new(budget) }.propose(open_key)
}

/// The same of what was done with two values of a queue, stack or heap in which values repeat.
pub fn propose_by_pairs(history: &ObjectHistory, steps: u64) -> Option<Proposal> {
    let budget = Cell::new(u64::MAX);
    let proposer = Proposer { history, steps: steps.min(STEPS_OF_A_PAIR), budget };
    let candidates = value_pairs_of(history.kind, &Timeline::of(&history.ops));
    let shrunk = candidates.into_iter().filter_map(|candidate| proposer.shrink(candidate));
    let confirmed = shrunk.into_iter().find_map(|shrunk| proposer.confirm(shrunk));
    confirmed.map(|confirmed| confirmed.proposal)
}
