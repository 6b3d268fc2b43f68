//! The decision on each object.

use crate::evidence::{Decision, Evidence};
use crate::first_event::earlier;
use crate::history::{History, ObjectHistory};
use crate::orders::{Quick, open_keys, order_by_contents, quick_order};
use crate::reasons::{Trial, find_by_pairs, find_by_patterns, find_on, reason_of_all};
use crate::search::{Outcome, TryFirst, search};
use std::panic::{AssertUnwindSafe, catch_unwind};
use std::sync::atomic::{AtomicUsize, Ordering};
use std::sync::{Mutex, PoisonError};
use std::thread;

/// How objects are decided.
#[derive(Clone, Copy, Debug)]
pub struct Options {
    /// The most steps of a search of all operations that is handed over. `None`: 1,000,000, or 100
    /// for each operation that did not fail if that is more.
    pub steps: Option<u64>,
    /// How many threads decide objects side by side.
    pub workers: usize,
}

impl Default for Options {
    fn default() -> Options {
        Options { steps: None, workers: 1 }
    }
}

/// How many operations the search for an order of one part of a reason may try.
const STEPS_OF_A_PART: u64 = 10_000;

/// How many steps the last search has of an object of few operations, if no number is given.
const DEFAULT_STEPS: u64 = 1_000_000;

/// How many steps the last search has for each operation, if that is more than `DEFAULT_STEPS`.
const STEPS_OF_A_CALL: u64 = 100;

/// How many steps of the last search are tried here at most, so that an order need not be searched
/// for again, and a reason can be made smaller.
const MOST_OWN_STEPS: u64 = 1_000_000;

/// With at most this many operations the last search tries the least number first. With more it
/// tries the least return first, since it then looks only at operations that can come next.
const MOST_BY_NUMBER: usize = 4096;

/// The first search of all operations, which is short.
fn first_search(history: &ObjectHistory) -> Trial {
    Trial { first: TryFirst::Return, steps: 20_000 + 20 * history.ops.len() as u64 }
}

/// The last search of all operations. It is left to `verify`.
fn last_search(history: &ObjectHistory, steps: Option<u64>) -> Trial {
    let calls = history.call_count();
    let first = if calls > MOST_BY_NUMBER { TryFirst::Return } else { TryFirst::Number };
    let default = DEFAULT_STEPS.max(STEPS_OF_A_CALL * calls as u64);
    Trial { first, steps: steps.unwrap_or(default) }
}

/// Looks for an order of an object, or for a reason why it has none. It tries in turn:
///
/// 1. the quick methods that are made for its kind;
/// 2. reasons by patterns, of a map first at the key at which these methods stopped;
/// 3. for an order, a search over all possible contents of a queue or stack;
/// 4. reasons in two values;
/// 5. at a map, a search of each open key;
/// 6. a first search of 20,000 steps and 20 more for each operation, which tries operations by
///    their returns;
/// 7. a million steps of the last search.
///
/// If nothing decides, the last search is left to `verify`.
fn decide_object(history: &ObjectHistory, steps: Option<u64>) -> Evidence {
    let open_key = match quick_order(history) {
        Quick::Order(order) => return Evidence::Order(order),
        Quick::Open { key } => key,
    };
    if let Some(reason) = find_by_patterns(history, open_key, STEPS_OF_A_PART) {
        return Evidence::Reason(reason);
    }
    if let Some(order) = order_by_contents(history) {
        return Evidence::Order(order);
    }
    let first = first_search(history);
    let reason = find_by_pairs(history, STEPS_OF_A_PART).or_else(|| {
        open_keys(history).into_iter().find_map(|key| find_on(history, key, first.steps))
    });
    if let Some(reason) = reason {
        return Evidence::Reason(reason);
    }
    let last = last_search(history, steps);
    let own = Trial { steps: last.steps.min(MOST_OWN_STEPS), ..last };
    let found = by_search(history, first).or_else(|| by_search(history, own));
    found.unwrap_or(Evidence::Search(last))
}

/// What a search of all operations finds: an order, or a reason; nothing if it runs out of steps.
pub(crate) fn by_search(history: &ObjectHistory, by: Trial) -> Option<Evidence> {
    let mut searched = search(history, by.first, by.steps);
    match std::mem::replace(&mut searched.outcome, Outcome::Impossible) {
        Outcome::Order(order) => Some(Evidence::Order(order)),
        Outcome::Impossible => reason_of_all(history, by, searched).map(Evidence::Reason),
        Outcome::OutOfSteps => None,
    }
}

/// The evidence for one of `objects` objects, with a reason of an earlier event if one is as small.
fn decide_early(history: &ObjectHistory, steps: Option<u64>, objects: usize) -> Evidence {
    match decide_object(history, steps) {
        Evidence::Reason(reason) => Evidence::Reason(earlier(history, reason, objects)),
        evidence => evidence,
    }
}

/// A fault in the search for evidence leaves the object open, and the others decided.
fn decide_or_leave(history: &ObjectHistory, steps: Option<u64>, objects: usize) -> Decision {
    let evidence = catch_unwind(AssertUnwindSafe(|| decide_early(history, steps, objects)));
    Decision { object: history.object, evidence: evidence.unwrap_or(Evidence::Open) }
}

/// Looks for evidence for each object of a history. The decisions are taken as they come, in any
/// order of the objects; they are the same for any number of workers.
pub fn decide_each(history: &History, options: Options, take: impl Fn(Decision) + Sync) {
    let objects = &history.objects;
    let next = AtomicUsize::new(0);
    let work = || {
        while let Some(object) = objects.get(next.fetch_add(1, Ordering::Relaxed)) {
            take(decide_or_leave(object, options.steps, objects.len()));
        }
    };
    let workers = options.workers.min(objects.len());
    if workers <= 1 {
        work();
    } else {
        thread::scope(|scope| (0..workers).for_each(|_| drop(scope.spawn(work))));
    }
}

/// The decisions in rising object number.
pub fn decide(history: &History, options: Options) -> Vec<Decision> {
    let decisions = Mutex::new(Vec::with_capacity(history.objects.len()));
    decide_each(history, options, |decision| {
        decisions.lock().unwrap_or_else(PoisonError::into_inner).push(decision);
    });
    let mut decisions = decisions.into_inner().unwrap_or_else(PoisonError::into_inner);
    decisions.sort_unstable_by_key(|decision| decision.object);
    decisions
}

#[cfg(test)]
mod tests {
    use super::*;
    use crate::content::Content;
    use crate::cuts::{Cut, part_by};
    use crate::history::Operation;
    use crate::kinds::KINDS;
    use crate::small::{Random, containers, has_order};

    fn has_some_order(history: &ObjectHistory) -> bool {
        let calls = history.ops.iter().filter(|o| !o.has_failed());
        let calls: Vec<Operation> = calls.copied().collect();
        has_order(&calls, &Content::empty(history.kind))
    }

    /// The first return by which there is no order, by trial of all orders.
    fn first_without_order(history: &ObjectHistory) -> Option<u32> {
        let mut returns: Vec<u32> = history.ops.iter().filter_map(|o| o.returned()).collect();
        returns.sort_unstable();
        returns.into_iter().find(|at| {
            let beginning = part_by(history, &[Cut::Until(at + 1)]);
            !has_some_order(&beginning.expect("a part"))
        })
    }

    /// Whether the object has a valid order, which the answer on it must fit, and the first event
    /// that it names.
    fn has_order_as_found(history: &ObjectHistory) -> bool {
        let has_order = has_some_order(history);
        match decide_early(history, None, 1) {
            Evidence::Order(_) => assert!(has_order, "{history:?}"),
            Evidence::Reason(reason) => {
                assert!(!has_order, "{history:?}");
                let said = reason.sentence.first.expect("a first event");
                let first = first_without_order(history).expect("an event");
                assert!((said.least..=said.most).contains(&first), "{first}: {said}: {history:?}");
            }
            evidence => panic!("{evidence:?}: {history:?}"),
        }
        has_order
    }

    #[test]
    fn what_is_found_of_small_histories_is_so() {
        let mut random = Random::new(0x2545_f491_4f6c_dd1d);
        let mut found = [0; 2];
        for kind in KINDS.iter().copied() {
            for _ in 0..2_000 {
                let history = random.history(kind);
                let has_order = has_order_as_found(&history);
                let searched = search(&history, TryFirst::Number, 1_000_000);
                assert_eq!(matches!(searched.outcome, Outcome::Order(_)), has_order, "{history:?}");
                found[usize::from(has_order)] += 1;
            }
        }
        assert!(found.iter().all(|count| *count > 2_000), "{found:?}");
    }

    #[test]
    fn what_is_found_of_small_crashes_is_so() {
        let mut random = Random::new(0x9e37_79b9_7f4a_7c15);
        let mut found = [0; 2];
        for kind in containers() {
            for _ in 0..1_000 {
                found[usize::from(has_order_as_found(&random.crash(kind)))] += 1;
            }
        }
        assert!(found.iter().all(|count| *count > 300), "{found:?}");
    }
}
