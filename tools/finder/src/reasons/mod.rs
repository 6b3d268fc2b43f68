//! Reasons why no order of an object's operations is valid: small parts of its history that have no
//! valid order. They are looked for by patterns, facts about the whole history that no valid order
//! allows, as a value that is taken twice and put in once, and made smaller step by step. The
//! patterns do not find each reason. Only reasons that were checked are returned.

mod cells;
mod containers;
mod facts;
mod lost;
mod narrow;
mod numbers;
mod one_value;
mod pattern;
mod plan;
mod propose;
mod reason;
mod sentence;
mod shrink;
mod value_pairs;
mod wholes;

pub use cells::{Absent, CountExceeded, Crossing, NotHolder, Refused};
pub(crate) use cells::{lock_patterns, rare_lock_patterns};
pub(crate) use cells::{mutex_patterns, rare_mutex_patterns};
pub(crate) use containers::{Interval, Runs, extracts, queue_pairs, stack_pairs};
pub use containers::{SurelyNotEmpty, UnderSmaller, WrongPair};
pub use facts::{Facts, Undone, WhyUndone};
pub use lost::{Lost, LostValue};
pub use numbers::WrongNumber;
pub use one_value::OneValue;
pub use pattern::Pattern;
pub(crate) use plan::Candidate;
pub use reason::{CheckedReason, FoundReason, Reason, Shown, Trial};
pub use sentence::{FirstEvent, FirstOperation, Sentence};

use crate::cuts::{Cut, Values};
use crate::history::ObjectHistory;
use crate::search::{Searched, TryFirst};
use narrow::narrowed;
use plan::{Chosen, Form, KeptValue, Plan, ShownBy};
use propose::Proposal;
use std::collections::BTreeSet;

/// The proposal, if it is a reason, where its part is searched so.
fn confirm(history: &ObjectHistory, proposal: Proposal, by: Trial) -> Option<FoundReason> {
    let checked = proposal.reason.check(history, by);
    found(history, proposal, checked, by)
}

/// The proposal whose part was refuted, or one for a smaller part.
fn found(
    history: &ObjectHistory,
    proposal: Proposal,
    checked: CheckedReason,
    by: Trial,
) -> Option<FoundReason> {
    let narrower = narrowed(history, &proposal.reason.cuts, &checked, by);
    let (proposal, part) = match narrower {
        Some((narrower, part)) => {
            let key = narrower.key.or(proposal.key);
            (Proposal { key, ..narrower }, part)
        }
        None => (proposal, checked.part?),
    };
    Some(as_found(history, proposal, &part, by))
}

/// The proposal, which was shown by this part.
fn as_found(
    history: &ObjectHistory,
    proposal: Proposal,
    part: &ObjectHistory,
    by: Trial,
) -> FoundReason {
    let Proposal { reason, pattern, key } = proposal;
    let lost = Lost::by(history, part, &reason);
    let pattern = lost.map_or(pattern, Pattern::Lost);
    let shown = reason.count.map_or(Shown::BySearch(by), Shown::ByCount);
    let beginning = FirstOperation::of(history, &reason.cuts, part);
    let facts = Facts::of(history, part, key, &pattern);
    let sentence = Sentence { kind: history.kind, key, pattern, facts, beginning, first: None };
    FoundReason { cuts: reason.cuts, shown, sentence }
}

/// How a part is searched in the end.
fn by_return(steps: u64) -> Trial {
    Trial { first: TryFirst::Return, steps }
}

/// The reason that all operations have no valid order, as this search showed, or a smaller one.
pub fn reason_of_all(
    history: &ObjectHistory,
    by: Trial,
    searched: Searched,
) -> Option<FoundReason> {
    let reason = Reason { cuts: Vec::new(), count: None };
    let checked = CheckedReason { part: Some(history.clone()), searched: Some(searched) };
    let proposal = Proposal { reason, pattern: Pattern::General, key: None };
    found(history, proposal, checked, by)
}

/// A small reason why no order of the object's operations is valid, by patterns. The open key of a
/// map, where it is given, is one for whose operations no order was found, while one was found for
/// each lesser key: it is looked at first. The search for an order of one part takes at most this
/// many steps.
pub fn find_by_patterns(
    history: &ObjectHistory,
    open_key: Option<i64>,
    steps: u64,
) -> Option<FoundReason> {
    let proposal = propose::propose(history, open_key, steps)?;
    confirm(history, proposal, by_return(steps))
}

/// The same, where reasons are made smaller by at most `budget` steps in all.
pub fn find_within(
    history: &ObjectHistory,
    open_key: Option<i64>,
    steps: u64,
    budget: u64,
) -> Option<FoundReason> {
    let proposal = propose::propose_within(history, open_key, steps, budget)?;
    let part = proposal.reason.part_shown(history, by_return(steps))?;
    Some(as_found(history, proposal, &part, by_return(steps)))
}

/// The same in what was done with two values of a queue, stack or heap in which values repeat.
pub fn find_by_pairs(history: &ObjectHistory, steps: u64) -> Option<FoundReason> {
    let proposal = propose::propose_by_pairs(history, steps)?;
    confirm(history, proposal, by_return(steps))
}

/// The reason that the operations on one key of a map have no valid order, if a search of at most
/// this many steps shows it.
pub fn find_on(history: &ObjectHistory, key: i64, steps: u64) -> Option<FoundReason> {
    let on_key = history.ops.iter().filter(|o| !o.has_failed() && o.op.key() == Some(key));
    let cut = Cut::Keep {
        values: Values::Only(BTreeSet::from([key])),
        numbers: on_key.map(|o| o.number).collect(),
    };
    let reason = Reason { cuts: vec![cut], count: None };
    confirm(
        history,
        Proposal { reason, pattern: Pattern::General, key: Some(key) },
        by_return(steps),
    )
}
