//! Patterns of one value in a queue, stack or heap: it is taken more often, or earlier, than it is
//! put in.

use super::chains::{FEW_CALLS, plan_of_runs};
use super::runs::{Run, Runs};
use crate::cuts::{Count, Counted};
use crate::reasons::{Candidate, OneValue, Pattern, ShownBy};
use crate::timeline::Call;

/// The most candidates of this kind.
const MOST: usize = 8;

/// The first removal, in the order of their ends, that returns when fewer puts have begun than
/// removals have ended, and how many had ended before it.
fn excess<'a>(runs: &'a Runs, run: &Run) -> Option<(usize, &'a Call)> {
    let puts = runs.puts(run);
    let mut removals: Vec<&Call> = runs.removals(run).iter().collect();
    removals.sort_unstable_by_key(|call| call.end);
    let mut removals = removals.into_iter().enumerate();
    removals.find(|(before, removal)| puts.get(*before).is_none_or(|put| put.begin > removal.end))
}

/// How often a value is put in by other runs than the one at this place.
fn puts_elsewhere(runs: &Runs, at: usize) -> usize {
    let places = runs.places_of(runs.runs[at].value).filter(|place| *place != at);
    places.map(|place| runs.runs[place].put_count()).sum()
}

/// The run at this place. If it has no put it comes after the one before it, if that is short: it
/// has the puts and removals of the value that came right before.
fn chain_with_puts(runs: &Runs, place: usize) -> Vec<usize> {
    let run = &runs.runs[place];
    let before = place.checked_sub(1).filter(|_| run.put_count() == 0 && run.since.is_some());
    let before = before.filter(|before| runs.runs[*before].size() < FEW_CALLS);
    before.into_iter().chain([place]).collect()
}

/// What is wrong with a value that is put in `puts` times in all, when `taken` removals of it have
/// returned, one more than puts have begun.
fn pattern_of(value: i64, puts: usize, taken: usize) -> OneValue {
    match (puts, taken) {
        (0, _) => OneValue::NeverSet(value),
        (_, 1) => OneValue::TooEarly(value),
        (1, 2) => OneValue::TakenTwice(value),
        _ => OneValue::TakenTooOften { value, taken, set: taken - 1 },
    }
}

/// The values that are taken more often than they are put in. A count shows it.
pub fn singles(runs: &Runs) -> Vec<Candidate> {
    let candidates = runs.runs.iter().enumerate().filter_map(|(place, run)| {
        let (before, removal) = excess(runs, run)?;
        let elsewhere = puts_elsewhere(runs, place);
        let pattern = pattern_of(run.value, elsewhere + run.put_count(), elsewhere + before + 1);
        let chain = chain_with_puts(runs, place);
        let size: usize = runs.weight_of(&chain);
        let mut plan = plan_of_runs(runs, &chain, &[], removal.until());
        let count = Count { counted: Counted::Value(run.value), from: 0 };
        plan.shown_by = ShownBy::Count { count, keeps_beginning: size <= FEW_CALLS };
        Some(Candidate::without_key(Pattern::OneValue(pattern), plan, size))
    });
    candidates.take(MOST).collect()
}
