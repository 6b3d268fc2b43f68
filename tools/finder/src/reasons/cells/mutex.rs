//! Mutexes: in a window of time one is acquired, or released, more often than it can have been
//! free, or held.

use super::takers::CountExceeded;
use super::windows::{shortest_window, starts_in, takers_in};
use crate::cuts::{Count, Counted};
use crate::reasons::{Candidate, Form, Pattern, Plan, ShownBy};
use crate::timeline::{Call, Timeline};

/// The candidates of a window in which the takers take the content away too often.
fn window(takers: &[Call], setters: &[Call], counted: Counted) -> Vec<Candidate> {
    let is_there_at_first = counted == Counted::Free;
    let Some(window) = shortest_window(takers, setters, is_there_at_first) else {
        return Vec::new();
    };
    let inside = takers_in(takers, window);
    let candidates = starts_in(&inside, window).into_iter().map(|start| {
        let plan = Plan {
            form: Form::Window { operations: Vec::new() },
            from: start.part,
            until: inside.iter().map(Call::until).max(),
            shown_by: ShownBy::count(Count { counted, from: start.count }),
        };
        let pattern = Pattern::CountExceeded(CountExceeded(counted));
        Candidate::without_key(pattern, plan, 2 * inside.len())
    });
    candidates.collect()
}

/// The acquires and the releases.
fn split(timeline: &Timeline) -> (Vec<Call>, Vec<Call>) {
    timeline.calls.iter().partition(|call| call.op.holds() == Some(true))
}

/// The candidate that begins before a release, at the last acquire that returned before it, so that
/// its part has both releases.
fn with_acquire(candidate: Candidate, acquires: &[Call], releases: &[Call]) -> Option<Candidate> {
    let from = candidate.plan.from?;
    let first = releases.iter().find(|call| call.number == from)?;
    let before = acquires.iter().filter(|call| call.end < first.begin);
    let acquire = before.max_by_key(|call| call.begin)?;
    let shown_by = candidate.plan.shown_by.keeping_beginning();
    let plan = Plan { from: Some(acquire.number), shown_by, ..candidate.plan };
    Some(Candidate { plan, weight: candidate.weight + 1, ..candidate })
}

/// The windows in which a mutex is acquired, or released, too often. One of releases begins with an
/// acquire.
pub fn mutex_patterns(timeline: &Timeline) -> Vec<Candidate> {
    let (acquires, releases) = split(timeline);
    let mut candidates = window(&acquires, &releases, Counted::Free);
    let held = window(&releases, &acquires, Counted::Held).into_iter();
    candidates.extend(held.filter_map(|window| with_acquire(window, &acquires, &releases)));
    candidates
}

/// The windows in which a mutex is released too often, from a release on.
pub fn rare_mutex_patterns(timeline: &Timeline) -> Vec<Candidate> {
    let (acquires, releases) = split(timeline);
    window(&releases, &acquires, Counted::Held)
}
