//! Narrow windows of a part that a search refuted: what begins at a call that tells what it left,
//! and ends soon after the furthest return that the search passed. A store fails at some moment,
//! and what was before that few calls reveal, so that most of a long history shows nothing. The
//! windows begin at the last such call, the second, the fourth, and so on, as a search by doubling
//! does (Bentley and Yao, "An Almost Optimal Algorithm for Unbounded Searching", Information
//! Processing Letters 5, 1976). One that has no valid order is made smaller by patterns, or step by
//! step.

use super::propose::{Proposal, propose_within};
use super::reason::CheckedReason;
use super::{Pattern, Reason, Trial};
use crate::cuts::{Cut, part_by};
use crate::history::ObjectHistory;
use crate::search::{Outcome, Searched, TryFirst, search};

/// A part of this many operations is small enough.
const FEW: usize = 12;

/// How many steps may be taken at least after a search that checked a part.
const LEAST_BUDGET: u64 = 20_000;

/// A part that a count refuted is made smaller if it has at most this many operations.
const MOST_COUNTED: usize = 1000;

/// The most steps of a search by which a window is made smaller, and how many steps may be taken at
/// least after a count.
const STEPS_OF_A_PART: u64 = 2_000;

/// At how many calls a window may begin.
const MOST_STARTS: usize = 4096;

/// How many returns a window ends after the furthest one that was passed.
const ENDS: [usize; 6] = [0, 1, 3, 7, 15, 31];

/// A part that a search refuted, and how many steps may still be taken.
struct Narrowing<'a> {
    part: &'a ObjectHistory,
    by: Trial,
    left: u64,
    /// The first numbers after the returns, in rising order, from the furthest one that was passed
    /// on.
    ends: Vec<u32>,
    /// The calls that returned and tell what they left: their numbers and returns.
    starts: Vec<(u32, u32)>,
}

impl<'a> Narrowing<'a> {
    fn new(part: &'a ObjectHistory, by: Trial, searched: &Searched) -> Narrowing<'a> {
        let returns = part.ops.iter().filter_map(|o| o.returned());
        let mut ends: Vec<u32> =
            returns.filter(|at| *at >= searched.passed).map(|at| at + 1).collect();
        ends.sort_unstable();
        let starts = part.ops.iter().filter_map(|o| {
            let (at, reply) = (o.returned()?, o.reply()?);
            o.op.tells(reply).then_some((o.number, at))
        });
        let starts = starts.collect();
        let least =
            if searched.outcome == Outcome::Impossible { LEAST_BUDGET } else { STEPS_OF_A_PART };
        Narrowing { part, by, left: least.max(searched.steps / 3), ends, starts }
    }

    /// Whether the window has no valid order. What it takes to cut it out is counted too.
    fn is_refuted(&mut self, window: &[Cut]) -> bool {
        self.left = self.left.saturating_sub(self.part.ops.len() as u64 / 64);
        let by = Trial { first: self.by.first, steps: self.by.steps.min(self.left) };
        let reason = Reason { cuts: window.to_vec(), count: None };
        let checked = reason.check(self.part, by);
        self.left =
            self.left.saturating_sub(checked.searched.as_ref().map_or(0, |search| search.steps));
        checked.part.is_some()
    }

    /// The windows that end so that begin at a call: the shortest first.
    fn windows(&self) -> Vec<Vec<Cut>> {
        let ends: Vec<u32> = ENDS.iter().filter_map(|k| self.ends.get(*k)).copied().collect();
        let doubling = std::iter::successors(Some(1), |back: &usize| back.checked_mul(2));
        let backs = doubling.take_while(|back| *back <= MOST_STARTS.min(2 * self.starts.len()));
        let windows = backs.flat_map(|back| ends.iter().map(move |until| (back, *until)));
        windows
            .filter_map(|(back, until)| {
                let count = self.starts.partition_point(|(number, _)| *number < until);
                let before = self.starts[..count].iter().rev().filter(|(_, at)| *at < until);
                let from = before.map(|(number, _)| *number).take(back).last()?;
                Some(vec![Cut::From(from), Cut::Until(until)])
            })
            .collect()
    }

    /// A window that has no valid order: one that begins at a call, or else at the beginning.
    fn window(&mut self) -> Option<Vec<Cut>> {
        let ends: Vec<u32> = ENDS.iter().filter_map(|k| self.ends.get(*k)).copied().collect();
        let prefixes = ends.into_iter().map(|until| vec![Cut::Until(until)]);
        let windows: Vec<Vec<Cut>> = self.windows().into_iter().chain(prefixes).collect();
        windows.into_iter().find(|window| self.left > 0 && self.is_refuted(window))
    }
}

/// A reason for a smaller part than that of these cuts, which a search or a count refuted, if one
/// is found in a third of the steps that the search took.
pub fn narrowed(
    history: &ObjectHistory,
    cuts: &[Cut],
    checked: &CheckedReason,
    by: Trial,
) -> Option<(Proposal, ObjectHistory)> {
    let part = checked.part.as_ref().filter(|part| part.ops.len() > FEW)?;
    let own;
    let searched = match &checked.searched {
        Some(searched) => searched,
        None if part.ops.len() > MOST_COUNTED => return None,
        None => {
            own = search(part, TryFirst::Return, STEPS_OF_A_PART);
            &own
        }
    };
    let mut narrowing = Narrowing::new(part, by, searched);
    let window = narrowing.window()?;
    let small = part_by(part, &window)?;
    let proposal = propose_within(&small, None, STEPS_OF_A_PART, narrowing.left);
    let is_smaller = |reason: Reason| {
        let smaller = reason.part_shown(history, by)?;
        (smaller.ops.len() < part.ops.len()).then_some((reason, smaller))
    };
    // The cuts of a proposal mostly name the window too.
    let proposed = proposal.and_then(|Proposal { reason, pattern, key }| {
        let alone = Reason { cuts: [cuts, &reason.cuts].concat(), ..reason };
        let in_window = Reason { cuts: [cuts, &window, &reason.cuts].concat(), ..reason };
        let (reason, smaller) = is_smaller(alone)
            .filter(|(_, smaller)| smaller.ops.len() <= small.ops.len())
            .or_else(|| is_smaller(in_window))?;
        Some((Proposal { reason, pattern: pattern.in_window(), key }, smaller))
    });
    proposed.or_else(|| {
        let (reason, smaller) = is_smaller(Reason { cuts: [cuts, &window].concat(), count: None })?;
        Some((Proposal { reason, pattern: Pattern::General, key: None }, smaller))
    })
}
