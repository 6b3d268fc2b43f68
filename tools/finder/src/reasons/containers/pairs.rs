//! Two values of a queue or stack in the wrong order, each put in once.

use super::chains::plan_of_runs;
use super::runs::Runs;
use crate::kinds::{Gives, Kind, Words};
use crate::reasons::pattern::Says;
use crate::reasons::{Candidate, Facts, Pattern};
use crate::timeline::PENDING;
use crate::trees::{Mark, Marks};

/// The first value is put in before the second one, and they leave in the wrong order.
#[derive(Clone, Copy, Debug, PartialEq, Eq)]
pub enum WrongPair {
    /// A queue gives the second before the first, a stack the first before the second, which was
    /// pushed on it.
    Order { first: i64, second: i64 },
    /// A queue gives the second, and the first is not taken by any call that is invoked by then.
    LeftBehind { first: i64, second: i64 },
    /// A stack gives the first, and the second is not taken by any call that is invoked by then.
    LeftAbove { first: i64, second: i64 },
}

impl Says for WrongPair {
    fn sentence(&self, kind: Kind, _: Facts) -> String {
        let Words { put, seen, .. } = kind.words;
        let word = kind.word;
        match *self {
            WrongPair::Order { first, second } if kind.gives() == Some(Gives::Last) => {
                format!("value {first} was {seen} before value {second}, which was {put} on it")
            }
            WrongPair::Order { first, second } => {
                format!("value {first} was {put} before value {second} and {seen} after it")
            }
            WrongPair::LeftBehind { first, second } => {
                let first = format!("value {first}, which was {put} before it");
                format!("value {second} was {seen} while {first}, was still in the {word}")
            }
            WrongPair::LeftAbove { first, second } => {
                let second = format!("value {second}, which was {put} on it");
                format!("value {first} was {seen} while {second}, was still in the {word}")
            }
        }
    }
}

/// The most candidates of one pattern.
const MOST: usize = 8;

/// A value that is put in once, and taken at most once.
struct Pair {
    /// The place of its run.
    place: usize,
    value: i64,
    put_begin: u32,
    put_end: u32,
    /// The begin of its removal, or of the first that can be.
    leaves: u32,
    /// The end of its removal, or `PENDING`.
    gone: u32,
    /// The first number of the history after its removal.
    until: u32,
}

/// The values that are put in once, and taken at most once.
fn pairs_of(runs: &Runs) -> Vec<Pair> {
    let pairs = runs.runs.iter().enumerate().filter_map(|(place, run)| {
        let ([put], [] | [_]) = (runs.puts(run), runs.removals(run)) else {
            return None;
        };
        let removal = runs.removals(run).first();
        Some(Pair {
            place,
            value: run.value,
            put_begin: put.begin,
            put_end: put.end,
            leaves: removal.map_or(runs.first_pending(), |removal| removal.begin),
            gone: removal.map_or(PENDING, |removal| removal.end),
            until: removal.map_or(PENDING, |removal| removal.until()),
        })
    });
    pairs.collect()
}

/// The times of the pairs that have one, each with the place of the pair, in rising order.
fn by_time(pairs: &[Pair], time: impl Fn(&Pair) -> Option<u32>) -> Vec<(u32, usize)> {
    let times = pairs.iter().map(time).enumerate();
    let mut times: Vec<_> = times.filter_map(|(place, at)| Some((at?, place))).collect();
    times.sort_unstable();
    times
}

fn if_returned(at: u32) -> Option<u32> {
    (at != PENDING).then_some(at)
}

/// The candidate of two values, of which the second is taken too early from a queue.
fn queue_candidate(runs: &Runs, one: &Pair, other: &Pair) -> Candidate {
    let plan = plan_of_runs(runs, &[one.place, other.place], &[], other.until);
    let (first, second) = (one.value, other.value);
    let pattern = match if_returned(one.gone) {
        None => WrongPair::LeftBehind { first, second },
        Some(_) => WrongPair::Order { first, second },
    };
    Candidate::without_key(Pattern::WrongPair(pattern), plan, 4)
}

/// The candidate of two values, of which the first is taken too early from a stack.
fn stack_candidate(runs: &Runs, one: &Pair, other: &Pair) -> Candidate {
    let plan = plan_of_runs(runs, &[one.place, other.place], &[], one.until);
    let (first, second) = (one.value, other.value);
    let pattern = match if_returned(other.gone) {
        None => WrongPair::LeftAbove { first, second },
        Some(_) => WrongPair::Order { first, second },
    };
    Candidate::without_key(Pattern::WrongPair(pattern), plan, 4)
}

/// Two values of a queue, of which the second is put in after the first and taken before it: of
/// those whose put has returned when the second is put in, the first is the one that leaves last.
pub fn queue_pairs(runs: &Runs) -> Vec<Candidate> {
    let pairs = pairs_of(runs);
    let mut ended = by_time(&pairs, |pair| if_returned(pair.put_end)).into_iter().peekable();
    let mut latest = Mark::NONE;
    let begun = by_time(&pairs, |pair| Some(pair.put_begin)).into_iter();
    let candidates = begun.filter_map(|(begin, place)| {
        while let Some((_, place)) = ended.next_if(|(end, _)| *end <= begin) {
            latest = latest.greater(Mark { at: pairs[place].leaves, place });
        }
        let (first, second) = (&pairs[latest.place], &pairs[place]);
        (second.gone <= latest.at && first.value != second.value)
            .then(|| queue_candidate(runs, first, second))
    });
    candidates.take(MOST).collect()
}

/// Two values of a stack, of which the second is put on the first, and the first is taken before
/// the second: of those whose put has returned when the first leaves, the second is the one that
/// leaves last.
pub fn stack_pairs(runs: &Runs) -> Vec<Candidate> {
    let pairs = pairs_of(runs);
    let end = runs.end as usize;
    let mut ended = by_time(&pairs, |pair| if_returned(pair.put_end)).into_iter().peekable();
    let mut pushed = Marks::new(end); // by the begins of their puts
    let leaving = by_time(&pairs, |pair| if_returned(pair.gone).map(|_| pair.leaves)).into_iter();
    let candidates = leaving.filter_map(|(leaves, place)| {
        while let Some((_, place)) = ended.next_if(|(end, _)| *end <= leaves) {
            let pair = &pairs[place];
            pushed.raise(pair.put_begin as usize, Mark { at: pair.leaves, place });
        }
        let first = &pairs[place];
        let latest = pushed.greatest(first.put_end as usize, end);
        let second = &pairs[latest.place];
        (latest.at >= first.gone && first.value != second.value)
            .then(|| stack_candidate(runs, first, second))
    });
    candidates.take(MOST).collect()
}
