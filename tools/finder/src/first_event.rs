//! The first event by which an object has no valid order, as far as a few prefixes of its history
//! show it. The smallest reason may be of a late moment, but someone who reads the log of a store
//! needs the first one.
//!
//! Prefixes are tried that end at a return: of 8 returns, of 16, and so on until one has no valid
//! order, and then by halves in the last step, which takes some two looks for each bit of the
//! answer (Bentley and Yao, "An Almost Optimal Algorithm for Unbounded Searching", Information
//! Processing Letters 5, 1976). They have together, those of all objects, at most two million
//! operations, so that this takes a second or two; or half as many as their object, if that is
//! more.

use crate::cuts::{Cut, part_by};
use crate::decide::by_search;
use crate::evidence::Evidence;
use crate::history::ObjectHistory;
use crate::orders::{Quick, is_slow, quick_order};
use crate::reasons::{FirstEvent, FoundReason, Trial, find_within};
use crate::search::TryFirst;

/// The returns of the first prefix.
const FEWEST: usize = 8;

/// How many operations the prefixes of all objects may have, and those of one object at least.
const ALL_BUDGETS: usize = 2_000_000;
const LEAST_BUDGET: usize = 20_000;

/// How many operations the prefixes of an object may have, if there are this many objects.
fn budget(history: &ObjectHistory, objects: usize) -> usize {
    LEAST_BUDGET.max(history.ops.len() / 2).max(ALL_BUDGETS / objects.max(1))
}

/// How many steps the search for an order of one part of a reason may try, and all those of one
/// prefix; and then a search of the whole prefix.
const STEPS_OF_A_PART: u64 = 2_000;
const STEPS_OF_A_PREFIX: u64 = 10_000;

/// What is found of a prefix.
enum Prefix {
    Ordered,
    Refuted(Box<FoundReason>),
    Open,
}

/// A history of which prefixes are tried.
struct Prefixes<'a> {
    history: &'a ObjectHistory,
    /// The numbers of the returns, in rising order.
    returns: Vec<u32>,
    /// How many operations further prefixes may have.
    budget: usize,
    /// How many returns a prefix has that is known to have an order, at most.
    ordered: usize,
    /// The shortest prefix that is known to have none: its returns, and the reason.
    refuted: Option<(usize, FoundReason)>,
}

impl<'a> Prefixes<'a> {
    /// If the reason holds for what was before its end, that is the shortest prefix so far.
    fn of(history: &'a ObjectHistory, reason: &FoundReason, budget: usize) -> Prefixes<'a> {
        let mut returns: Vec<u32> = history.ops.iter().filter_map(|o| o.returned()).collect();
        returns.sort_unstable();
        let end = reason.until();
        let count = returns.partition_point(|at| *at < end);
        let refuted = reason.clone().in_whole(history, end).map(|reason| (count, reason));
        Prefixes { history, returns, budget, ordered: 0, refuted }
    }

    /// The cut after this many returns.
    fn cut(&self, count: usize) -> Cut {
        Cut::Until(self.returns[count - 1] + 1)
    }

    fn found_of(part: &ObjectHistory) -> Prefix {
        let quick = if is_slow(part) { Quick::Open { key: None } } else { quick_order(part) };
        let key = match quick {
            Quick::Order(_) => return Prefix::Ordered,
            Quick::Open { key } => key,
        };
        if let Some(reason) = find_within(part, key, STEPS_OF_A_PART, STEPS_OF_A_PREFIX) {
            return Prefix::Refuted(Box::new(reason));
        }
        match by_search(part, Trial { first: TryFirst::Return, steps: STEPS_OF_A_PREFIX }) {
            Some(Evidence::Order(_)) => Prefix::Ordered,
            Some(Evidence::Reason(reason)) => Prefix::Refuted(Box::new(reason)),
            _ => Prefix::Open,
        }
    }

    /// Tries the prefix of this many returns. Whether it is known to have no valid order.
    /// `None`: no budget is left.
    fn is_refuted(&mut self, count: usize) -> Option<bool> {
        let part = part_by(self.history, &[self.cut(count)])?;
        self.budget = self.budget.checked_sub(part.ops.len())?;
        match Self::found_of(&part) {
            Prefix::Ordered => self.ordered = self.ordered.max(count),
            Prefix::Refuted(reason) => {
                self.refuted = Some((count, *reason));
                return Some(true);
            }
            Prefix::Open => {}
        }
        Some(false)
    }

    /// Tries prefixes. `None`: no budget is left for more.
    fn search(&mut self) -> Option<()> {
        // All operations have no order.
        let all = self.refuted.as_ref().map_or(self.returns.len(), |(count, _)| *count);
        let (mut low, mut high) = (0, FEWEST);
        while high < all && !self.is_refuted(high)? {
            (low, high) = (high, 2 * high);
        }
        high = high.min(all);
        while low + 1 < high {
            let middle = low + (high - low) / 2;
            match self.is_refuted(middle)? {
                true => high = middle,
                false => low = middle,
            }
        }
        Some(())
    }
}

/// The reason, or one of an earlier event that is as small, and the first event by which the
/// object, one of this many, has no valid order, as far as it is known.
pub fn earlier(history: &ObjectHistory, reason: FoundReason, objects: usize) -> FoundReason {
    let mut prefixes = Prefixes::of(history, &reason, budget(history, objects));
    if prefixes.returns.is_empty() {
        return reason;
    }
    // What was found until the budget was spent is returned.
    let _ = prefixes.search();
    let Prefixes { returns, ordered, refuted, .. } = prefixes;
    let by = refuted.as_ref().map_or(returns.len(), |(count, _)| *count);
    let event = |count: usize| returns[count - 1];
    let first = FirstEvent { least: event(by.min(ordered + 1)), most: event(by) };
    let early = refuted.and_then(|(count, early)| early.in_whole(history, event(count) + 1));
    let chosen = match early {
        Some(early)
            if reason.until() > first.most + 1 && early.size(history) <= reason.size(history) =>
        {
            early
        }
        _ => reason,
    };
    chosen.with_first(first)
}
