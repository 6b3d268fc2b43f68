//! Times in which a value definitely is in a queue, stack or heap, and calls that find nothing
//! though at each moment of theirs some value definitely is in.

use super::chains::plan_of_runs;
use super::runs::{Run, Runs};
use crate::kinds::Kind;
use crate::reasons::pattern::Says;
use crate::reasons::{Candidate, Facts, Pattern};
use crate::timeline::Call;
use crate::trees::Mark;

/// The operation of this number finds nothing, and at each moment of it some value definitely is in
/// the object.
#[derive(Clone, Copy, Debug, PartialEq, Eq)]
pub struct SurelyNotEmpty {
    pub number: u32,
}

impl Says for SurelyNotEmpty {
    fn sentence(&self, kind: Kind, _: Facts) -> String {
        let (word, number) = (kind.word, self.number);
        format!("the {word} was definitely not empty when event {number} found nothing")
    }
}

/// The most candidates of one pattern.
const MOST: usize = 4;

/// The most values that are chained in all.
const MOST_LINKS: usize = 4_000_000;

/// From one moment to another a value of a run definitely is in.
#[derive(Clone, Copy)]
pub struct Interval {
    pub from: u32,
    pub to: u32,
    pub run: usize,
}

/// What happens to a run at a moment.
#[derive(Clone, Copy)]
enum Step {
    PutBegins,
    PutEnds,
    TakingBegins,
    TakingEnds,
}

/// How many puts and removals of a run have begun and ended.
#[derive(Default)]
struct Counts {
    begun: usize,
    put: usize,
    leaving: usize,
    gone: usize,
}

impl Counts {
    fn note(&mut self, step: Step) {
        *match step {
            Step::PutBegins => &mut self.begun,
            Step::PutEnds => &mut self.put,
            Step::TakingBegins => &mut self.leaving,
            Step::TakingEnds => &mut self.gone,
        } += 1;
    }

    /// How many definitely are in, if some are. Where as many removals as puts have begun nothing
    /// is known.
    fn definitely_in(&self) -> usize {
        if self.leaving >= self.begun {
            return 0;
        }
        self.put.max(self.gone).saturating_sub(self.leaving)
    }
}

/// What happens to a run, in the order of time.
fn steps_of(runs: &Runs, run: &Run) -> Vec<(u32, Step)> {
    let puts = runs.puts(run).iter().map(|call| (call, Step::PutBegins, Step::PutEnds));
    let takings =
        runs.removals(run).iter().map(|call| (call, Step::TakingBegins, Step::TakingEnds));
    let mut steps = Vec::new();
    for (call, begins, ends) in puts.chain(takings) {
        steps.push((call.begin, begins));
        if !call.is_pending() {
            steps.push((call.end, ends));
        }
    }
    steps.sort_unstable_by_key(|(at, _)| *at);
    steps
}

/// The moment up to which this many values of a run definitely are in, of which nothing is known
/// before this moment: pending removals can take those that no other call takes.
fn known_until(runs: &Runs, run: &Run, many: usize, until: u32) -> u32 {
    if many + runs.removals(run).len() > run.put_count() {
        return until;
    }
    runs.pending.get(many - 1).map_or(until, |call| call.begin.min(until))
}

/// The times in which values definitely are in, by runs.
pub fn intervals_of(runs: &Runs) -> Vec<Interval> {
    let mut intervals: Vec<Interval> = Vec::new();
    for (place, run) in runs.runs.iter().enumerate() {
        let steps = steps_of(runs, run);
        let mut counts = Counts::default();
        for (k, (from, step)) in steps.iter().enumerate() {
            counts.note(*step);
            let many = counts.definitely_in();
            if many == 0 {
                continue;
            }
            let next = steps.get(k + 1).map_or(runs.end, |step| step.0);
            let interval =
                Interval { from: *from, to: known_until(runs, run, many, next), run: place };
            match intervals.last_mut() {
                _ if interval.from >= interval.to => {}
                Some(last) if last.run == place && last.to == interval.from => {
                    last.to = interval.to;
                }
                _ => intervals.push(interval),
            }
        }
    }
    intervals
}

/// For each moment the greatest end of an interval that has begun by then, with its run.
fn reach_of(intervals: &[Interval], end: u32) -> Vec<Mark> {
    let mut reach = vec![Mark::NONE; end as usize + 1];
    for interval in intervals {
        let at = &mut reach[interval.from as usize];
        *at = at.greater(Mark { at: interval.to, place: interval.run });
    }
    let mut greatest = Mark::NONE;
    for mark in &mut reach {
        greatest = greatest.greater(*mark);
        *mark = greatest;
    }
    reach
}

/// The runs of which at each moment of the call a value definitely is in, each as long as can be.
/// `None`: there is a moment of which that is not known.
fn chain_over(reach: &[Mark], call: &Call, links: &mut usize) -> Option<Vec<usize>> {
    let mut chain = Vec::new();
    let mut at = call.begin;
    while at < call.end {
        let mark = reach.get(at as usize).filter(|mark| mark.at > at)?;
        chain.push(mark.place);
        *links += 1;
        at = mark.at;
    }
    Some(chain)
}

/// The calls that find nothing while at each moment some value definitely is in, the fewest values
/// first.
pub fn empties(runs: &Runs, intervals: &[Interval]) -> Vec<Candidate> {
    if runs.empties.is_empty() {
        return Vec::new();
    }
    let reach = reach_of(intervals, runs.end);
    let mut links = 0;
    let mut covered = Vec::new();
    for (place, call) in runs.empties.iter().enumerate() {
        if links > MOST_LINKS {
            break;
        }
        if let Some(chain) = chain_over(&reach, call, &mut links) {
            covered.push((runs.weight_of(&chain), place));
        }
    }
    covered.sort_unstable();
    let candidates = covered.into_iter().take(MOST).filter_map(|(weight, place)| {
        let call = runs.empties[place];
        let chain = chain_over(&reach, &call, &mut links)?;
        let plan = plan_of_runs(runs, &chain, &[call], call.until());
        let pattern = Pattern::SurelyNotEmpty(SurelyNotEmpty { number: call.number });
        Some(Candidate::without_key(pattern, plan, weight + 1))
    });
    candidates.collect()
}
