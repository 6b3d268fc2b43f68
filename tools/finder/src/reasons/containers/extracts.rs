//! Extracts of a heap under smaller values: at each moment at which the value can have been taken a
//! smaller one definitely is in.

use super::chains::{plan_of_runs, values_of};
use super::intervals::Interval;
use super::runs::Runs;
use crate::kinds::Kind;
use crate::reasons::pattern::Says;
use crate::reasons::{Candidate, Facts, Pattern};
use crate::timeline::Call;
use crate::trees::{Mark, Marks};

/// A value is extracted from a heap while a smaller one definitely is in it.
#[derive(Clone, Copy, Debug, PartialEq, Eq)]
pub enum UnderSmaller {
    /// It is this one all the time.
    One { taken: i64, smaller: i64 },
    /// At each moment it is some.
    Several { taken: i64 },
}

impl Says for UnderSmaller {
    fn sentence(&self, kind: Kind, _: Facts) -> String {
        let (word, seen) = (kind.word, kind.words.seen);
        let (taken, smaller) = match *self {
            UnderSmaller::One { taken, smaller } => (taken, format!("the smaller value {smaller}")),
            UnderSmaller::Several { taken } => (taken, "some smaller value".to_owned()),
        };
        format!("value {taken} was {seen} while {smaller} was definitely in the {word}")
    }
}

/// The most candidates.
const MOST: usize = 4;

/// The most extracts that are looked at for the smallest reasons.
const MOST_FOUND: usize = 1000;

/// An extract, and the runs of which some value definitely is in at each moment, with its own.
struct Covered<'a> {
    weight: usize,
    value: i64,
    call: &'a Call,
    chain: Vec<usize>,
}

/// The runs of smaller values of which at each moment from this one to the end of the call a value
/// definitely is in, after the call's own run. `None`: there is a moment of which that is not
/// known.
fn chain_over(cover: &Marks, own: usize, from: u32, end: u32) -> Option<Vec<usize>> {
    let mut chain = vec![own];
    let mut at = from;
    while at < end {
        let mark = cover.greatest(0, at as usize + 1);
        if mark.at <= at {
            return None;
        }
        chain.push(mark.place);
        at = mark.at;
    }
    Some(chain)
}

/// The extracts under smaller values, by a sweep over the runs in rising value; the fewest calls
/// first.
fn find_covered<'a>(runs: &'a Runs, intervals: &[Interval]) -> Vec<Covered<'a>> {
    let mut cover = Marks::new(runs.end as usize);
    let mut intervals = intervals.iter().peekable();
    let mut found = Vec::new();
    let mut first = 0; // the first run of the value
    for (place, run) in runs.runs.iter().enumerate() {
        if runs.runs[first].value != run.value {
            first = place;
        }
        while let Some(interval) = intervals.next_if(|interval| interval.run < first) {
            cover.raise(interval.from as usize, Mark { at: interval.to, place: interval.run });
        }
        let Some(put) = runs.puts(run).first() else {
            continue;
        };
        for call in runs.removals(run) {
            let from = call.begin.max(put.begin);
            if from >= call.end || found.len() >= MOST_FOUND {
                continue;
            }
            if let Some(chain) = chain_over(&cover, place, from, call.end) {
                let weight = runs.weight_of(&chain);
                found.push(Covered { weight, value: run.value, call, chain });
            }
        }
    }
    found.sort_by_key(|covered| covered.weight);
    found
}

/// The extracts of a heap while at each moment some smaller value definitely is in.
pub fn extracts(runs: &Runs, intervals: &[Interval]) -> Vec<Candidate> {
    let covered = find_covered(runs, intervals).into_iter().take(MOST);
    let candidates = covered.map(|Covered { weight, value: taken, call, chain }| {
        let pattern = Pattern::UnderSmaller(match values_of(runs, &chain)[..] {
            [smaller, _] => UnderSmaller::One { taken, smaller },
            _ => UnderSmaller::Several { taken },
        });
        let plan = plan_of_runs(runs, &chain, &[], call.until());
        Candidate::without_key(pattern, plan, weight)
    });
    candidates.collect()
}
