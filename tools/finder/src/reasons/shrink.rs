//! Plans made smaller, each step confirmed by the check of reasons: by halves, as delta debugging
//! does (Zeller and Hildebrandt, IEEE Transactions on Software Engineering 28, 2002).

use super::{Plan, Trial};
use crate::history::ObjectHistory;
use crate::search::TryFirst;
use std::cell::Cell;

/// The most steps that are tried of one plan.
const MOST_STEPS: u32 = 400;

/// The most rounds of steps.
const MOST_ROUNDS: usize = 4;

/// The most times that values and operations are left out of a plan, some at a time, in one round.
const MOST_PASSES: usize = 64;

/// A history in which plans are tried, and how much may still be tried.
pub struct Judge<'a> {
    base: &'a ObjectHistory,
    search: Trial,
    left: u32,
    /// How many steps all searches may still take.
    budget: &'a Cell<u64>,
    /// The number of operations of the last part that was confirmed to have no valid order.
    pub size: usize,
}

impl<'a> Judge<'a> {
    pub fn new(base: &'a ObjectHistory, steps: u64, budget: &'a Cell<u64>) -> Judge<'a> {
        let search = Trial { first: TryFirst::Number, steps };
        Judge { base, search, left: MOST_STEPS, budget, size: 0 }
    }

    /// Whether the plan's part is confirmed to have no valid order.
    fn holds(&mut self, plan: &Plan) -> bool {
        if self.left == 0 || self.budget.get() == 0 {
            return false;
        }
        self.left -= 1;
        let checked = plan.reason(self.base).check(self.base, self.search);
        let steps = checked.searched.map_or(0, |searched| searched.steps);
        self.budget.set(self.budget.get().saturating_sub(steps));
        let Some(part) = checked.part else {
            return false;
        };
        self.size = part.ops.len();
        true
    }

    /// Ends the plan as early as it holds.
    fn end_early(&mut self, plan: &mut Plan) {
        let most = plan.until.unwrap_or(u32::MAX);
        let ends = self.base.ops.iter().filter_map(|o| o.returned()).map(|at| at + 1);
        let mut ends: Vec<u32> = ends.filter(|until| *until < most).collect();
        ends.sort_unstable();
        let (mut low, mut high) = (0, ends.len());
        while low < high {
            let middle = low + (high - low) / 2;
            let before = plan.until.replace(ends[middle]);
            if self.holds(plan) {
                high = middle;
            } else {
                plan.until = before;
                low = middle + 1;
            }
        }
    }

    /// Begins the plan as late as it holds.
    fn begin_late(&mut self, plan: &mut Plan) {
        let least = plan.from.unwrap_or(0);
        let most = plan.until.unwrap_or(u32::MAX);
        let beginnings = self.base.ops.iter().filter(|o| {
            o.number > least
                && o.returned().is_some_and(|at| at < most)
                && o.reply().is_some_and(|reply| o.op.tells(reply))
        });
        let beginnings: Vec<u32> = beginnings.map(|o| o.number).collect();
        let (mut low, mut high) = (0, beginnings.len());
        while low < high {
            let middle = low + (high - low) / 2;
            if self.begin_at(plan, beginnings[middle]) {
                low = middle + 1;
            } else {
                high = middle;
            }
        }
    }

    /// Begins the plan with this operation, if it holds.
    fn begin_at(&mut self, plan: &mut Plan, number: u32) -> bool {
        let before = (plan.from.replace(number), plan.form.clone());
        plan.form.add(number);
        let holds = self.holds(plan);
        if !holds {
            (plan.from, plan.form) = before;
        }
        holds
    }

    /// Leaves out this many values and operations at a time, wherever the plan holds without them.
    /// Whether some are left out.
    fn leave_out(&mut self, plan: &mut Plan, step: usize) -> bool {
        let before = plan.form.size();
        let mut at = 0;
        while at < plan.form.size() {
            let end = (at + step).min(plan.form.size());
            let less = plan.form.without(&(at..end));
            let all = std::mem::replace(&mut plan.form, less);
            if !self.holds(plan) {
                plan.form = all;
                at = end;
            }
        }
        plan.form.size() < before
    }

    /// Leaves out values and operations by halves, and in the end one by one, until none can go.
    fn keep_few(&mut self, plan: &mut Plan) {
        let mut step = plan.form.size().div_ceil(2).max(1);
        for _ in 0..MOST_PASSES {
            let less = self.leave_out(plan, step);
            if step == 1 && !less {
                return;
            }
            if !less || step > plan.form.size() {
                step = (step / 2).max(1);
            }
        }
    }

    /// Makes the plan smaller. False if it does not hold to begin with.
    pub fn shrink(&mut self, plan: &mut Plan) -> bool {
        if !self.holds(plan) {
            return false;
        }
        for _ in 0..MOST_ROUNDS {
            let before = (plan.from, plan.until, plan.form.size());
            if !plan.keeps_beginning() {
                self.begin_late(plan);
            }
            self.end_early(plan);
            self.keep_few(plan);
            if (plan.from, plan.until, plan.form.size()) == before {
                break;
            }
        }
        true
    }
}
