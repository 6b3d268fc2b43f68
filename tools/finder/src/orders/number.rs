//! Orders of the calls on a number that may be valid. What a call found says where it comes: after
//! a call that left that number. If no call did, pending additions must have, and they are
//! chosen so that their sum fills the gap. Then each call asks for a number and leaves one, as a
//! call on a cell does.

use super::cells::searched_order;
use crate::accesses::{Access, NOTHING, Need};
use crate::splitmix::NumberTable;
use crate::timeline::{Call, Timeline};
use std::collections::BTreeMap;

/// The most sums of pending additions that are tried for one gap.
const MOST_SUMS: usize = 2_000;

/// A call with the number that it found, and the one that it left.
struct Step {
    call: Call,
    before: i64,
    after: i64,
}

/// The end of a run of calls, or the beginning of one: a number, and when it is there.
#[derive(Clone, Copy)]
struct Loose {
    number: i64,
    at: u32,
}

/// The runs of calls, of which each but the first begins where no call ended.
#[derive(Default)]
struct Runs {
    ends: Vec<Loose>,
    begins: Vec<Loose>,
}

/// How often a number is left, and found by a call that changes it, and when.
#[derive(Default)]
struct Visits {
    left: Vec<u32>,
    found: Vec<u32>,
    /// When calls see it that do not change it.
    seen: Vec<u32>,
}

/// The visits of each number that calls found or left. A number is 0 at first.
fn visits_of(steps: &[Step]) -> BTreeMap<i64, Visits> {
    let mut visits: BTreeMap<i64, Visits> = BTreeMap::new();
    visits.entry(0).or_default().left.push(0);
    for Step { call, before, after } in steps {
        if before == after {
            visits.entry(*before).or_default().seen.push(call.end);
        } else {
            visits.entry(*before).or_default().found.push(call.end);
            visits.entry(*after).or_default().left.push(call.begin);
        }
    }
    visits
}

impl Runs {
    fn of(steps: &[Step], is_rising: bool) -> Runs {
        let mut runs = Runs::default();
        for (number, mut visits) in visits_of(steps) {
            let loose = |at: u32| Loose { number, at };
            visits.left.sort_unstable();
            visits.found.sort_unstable();
            let (left, found) = (visits.left.len(), visits.found.len());
            if left == 0 && found == 0 {
                let first = visits.seen.iter().min().map(|at| loose(*at));
                runs.begins.extend(first);
                runs.ends.extend(first);
            }
            let ends = visits.left.iter().rev().take(left.saturating_sub(found));
            runs.ends.extend(ends.map(|at| loose(*at)));
            let begins = visits.found.iter().take(found.saturating_sub(left));
            runs.begins.extend(begins.map(|at| loose(*at)));
        }
        if !is_rising {
            runs.ends.sort_by_key(|loose| loose.at);
            runs.begins.sort_by_key(|loose| loose.at);
        }
        runs
    }
}

/// Additions that have not returned, by their amounts, each with those that were invoked first at
/// the front.
struct Pending {
    by_amount: Vec<(i64, Vec<Call>)>,
    /// How many of each amount are placed.
    placed: Vec<usize>,
}

impl Pending {
    fn of(timeline: &Timeline) -> Pending {
        let mut by_amount: BTreeMap<i64, Vec<Call>> = BTreeMap::new();
        let pending = timeline.calls.iter().filter(|call| call.is_pending());
        for call in pending {
            if let Some(amount) = call.op.adds().filter(|amount| *amount != 0) {
                by_amount.entry(amount).or_default().push(*call);
            }
        }
        let by_amount: Vec<(i64, Vec<Call>)> = by_amount.into_iter().rev().collect();
        Pending { placed: vec![0; by_amount.len()], by_amount }
    }

    /// How many of this amount were invoked by a moment and have no place.
    fn left(&self, kind: usize, by: u32) -> usize {
        let calls = &self.by_amount[kind].1[self.placed[kind]..];
        calls.partition_point(|call| call.begin < by)
    }

    /// How many additions of each amount, from this one on, sum up to the rest.
    fn sum(&self, kind: usize, rest: i64, by: u32, steps: &mut usize) -> Option<Vec<usize>> {
        if rest == 0 {
            return Some(vec![0; self.by_amount.len()]);
        }
        *steps = steps.checked_sub(1)?;
        let (amount, _) = self.by_amount.get(kind)?;
        let fits = |count: &usize| {
            let sum = i64::try_from(*count).ok()?.checked_mul(*amount)?;
            rest.checked_sub(sum)
        };
        let most = match rest.checked_div(*amount) {
            Some(most @ 0..) => usize::try_from(most).unwrap_or(usize::MAX),
            Some(_) | None => 0,
        };
        // Amounts of both signs can go beyond the rest and come back.
        let has_both = self.by_amount.first()?.0 > 0 && self.by_amount.last()?.0 < 0;
        let most = if has_both { usize::MAX } else { most }.min(self.left(kind, by));
        (0..=most).rev().find_map(|count| {
            let mut counts = self.sum(kind + 1, fits(&count)?, by, steps)?;
            counts[kind] = count;
            Some(counts)
        })
    }

    /// Additions with the sum that leads from one number to another, which begin by a moment, each
    /// with what it finds and leaves. `None`: none were found.
    fn fill(&mut self, from: i64, to: i64, by: u32) -> Option<Vec<Step>> {
        let counts = self.sum(0, to.checked_sub(from)?, by, &mut MOST_SUMS.clone())?;
        let mut before = from;
        let mut steps = Vec::new();
        for (kind, count) in counts.into_iter().enumerate() {
            let (amount, calls) = &self.by_amount[kind];
            let first = self.placed[kind];
            for call in &calls[first..first + count] {
                let after = before.checked_add(*amount)?;
                steps.push(Step { call: *call, before, after });
                before = after;
            }
            self.placed[kind] += count;
        }
        Some(steps)
    }
}

/// The calls that returned, with what they found and left.
fn steps_of(timeline: &Timeline) -> Option<Vec<Step>> {
    let returned = timeline.calls.iter().filter_map(|call| Some((call, call.reply?)));
    let steps = returned.map(|(call, reply)| {
        let (before, after) = call.op.steps(reply)?;
        Some(Step { call: *call, before, after })
    });
    steps.collect()
}

/// The steps as calls on a cell that contains the number.
fn accesses_of(mut steps: Vec<Step>) -> Vec<Access> {
    steps.sort_unstable_by_key(|step| step.call.begin);
    let mut numbers: NumberTable<i64, usize> = NumberTable::default();
    numbers.insert(0, NOTHING);
    let mut number = |value: i64| {
        let next = numbers.len();
        *numbers.entry(value).or_insert(next)
    };
    let accesses = steps.into_iter().map(|Step { call, before, after }| {
        let (before, after) = (number(before), number(after));
        Access { call, need: Need::Is(before), sets: (before != after).then_some(after) }
    });
    accesses.collect()
}

/// An order of the calls that may be valid.
pub fn number_order(timeline: &Timeline) -> Option<Vec<u32>> {
    let mut steps = steps_of(timeline)?;
    let is_rising =
        timeline.calls.iter().all(|call| call.op.adds().is_some_and(|amount| amount >= 0));
    let Runs { ends, begins } = Runs::of(&steps, is_rising);
    if ends.len() != begins.len() + 1 {
        return None;
    }
    let mut pending = Pending::of(timeline);
    for (end, begin) in ends.iter().zip(&begins) {
        steps.extend(pending.fill(end.number, begin.number, begin.at)?);
    }
    let accesses = accesses_of(steps);
    let order = searched_order(&accesses)?;
    Some(order.into_iter().map(|place| accesses[place].call.number).collect())
}
