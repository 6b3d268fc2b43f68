//! Chains: the plans that keep the values of some runs.

use super::runs::{Run, Runs};
use crate::reasons::{Chosen, Form, KeptValue, Plan};
use crate::timeline::Call;

/// A value with at most this many calls is kept whole.
pub const FEW_CALLS: usize = 8;

/// The number before which what was done with the value of a run is left out; none if the run is
/// its first, or the value has few calls.
fn since_of(runs: &Runs, run: &Run) -> Option<u32> {
    run.since.filter(|_| runs.calls_of(run.value) > FEW_CALLS)
}

/// The values of runs, in rising order, each once, and since when.
fn kept_of(runs: &Runs, chain: &[usize]) -> Vec<(i64, Option<u32>)> {
    let chain = chain.iter().map(|place| &runs.runs[*place]);
    let mut kept: Vec<_> = chain.map(|run| (run.value, since_of(runs, run))).collect();
    kept.sort_unstable();
    kept.dedup_by_key(|(value, _)| *value);
    kept
}

/// The values of runs, in rising order.
pub fn values_of(runs: &Runs, chain: &[usize]) -> Vec<i64> {
    kept_of(runs, chain).into_iter().map(|(value, _)| value).collect()
}

/// The plan that keeps the values of these runs and these optional operations, until a number. What
/// was done with a value before the first of its runs is left out.
pub fn plan_of_runs(runs: &Runs, chain: &[usize], optional: &[Call], until: u32) -> Plan {
    let values = kept_of(runs, chain).into_iter();
    let values = values.map(|(value, since)| KeptValue { value, since }).collect();
    let operations = optional.iter().map(|call| call.number).collect();
    let form = Form::Container(Chosen { values, operations });
    Plan { until: Some(until), ..Plan::of(form) }
}
