//! Pairs of values of a queue, stack or heap in which values repeat. If no pattern leads to a
//! reason all that was done with two values is kept, and is made smaller if it has no valid order.

use super::{Candidate, Chosen, Form, KeptValue, Pattern, Plan};
use crate::kinds::Kind;
use crate::timeline::Timeline;
use std::collections::BTreeSet;

/// The most calls of an object whose pairs are tried.
const MOST_CALLS: usize = 5_000;

/// The fewest calls for each value, on average.
const FEWEST_CALLS: usize = 8;

/// The most pairs that are tried.
const MOST_PAIRS: usize = 600;

/// The candidates of some pairs: those that are next to each other in rising order, then those of
/// which one is between, and so on. There are none of an object of many calls, or of few for each
/// value.
pub fn value_pairs_of(kind: Kind, timeline: &Timeline) -> Vec<Candidate> {
    let calls = &timeline.calls;
    if !kind.is_container() || calls.len() > MOST_CALLS {
        return Vec::new();
    }
    let values: BTreeSet<i64> = calls.iter().filter_map(|call| call.op.puts()).collect();
    let values: Vec<i64> = values.into_iter().collect();
    let count = values.len();
    if count < 2 || count * FEWEST_CALLS > calls.len() {
        return Vec::new();
    }
    (1..=count / 2)
        .flat_map(|apart| (0..count).map(move |place| (place, (place + apart) % count)))
        .take(MOST_PAIRS)
        .map(|(one, other)| {
            let pair = [one, other].map(|place| KeptValue::whole(values[place]));
            let chosen = Chosen { values: pair.to_vec(), operations: Vec::new() };
            Candidate::without_key(Pattern::General, Plan::of(Form::Container(chosen)), 2)
        })
        .collect()
}
