//! Patterns of a number in which no order is valid: two calls, of which the later one finds what
//! can't be there any more, or not yet. A part has all additions of its time.

use super::pattern::Says;
use super::{Candidate, Facts, Form, Pattern, Plan};
use crate::kinds::Kind;
use crate::timeline::{Call, Timeline};
use std::collections::HashSet;

/// The most calls that find a wrong number, and the most calls at which a part may begin for each.
const MOST: usize = 8;
const MOST_STARTS: usize = 32;

/// How many calls before one are looked at, of those at which its part may begin.
const MOST_SEEN: usize = 256;

/// What a number cannot have been.
#[derive(Clone, Copy, Debug, PartialEq, Eq)]
pub enum WrongNumber {
    /// A number is found after a greater one was there, and nothing is subtracted.
    Fell { found: i64, was: i64 },
    /// Two additions find the same number, and nothing is subtracted.
    FoundTwice(i64),
    /// A number is found that no addition can have left by then.
    NotReached(i64),
}

impl Says for WrongNumber {
    fn sentence(&self, kind: Kind, _: Facts) -> String {
        let (word, seen) = (kind.word, kind.words.seen);
        match *self {
            WrongNumber::Fell { found, was } => {
                format!(
                    "the {word} was {found} after it had been {was}, and nothing was subtracted"
                )
            }
            WrongNumber::FoundTwice(number) => {
                format!(
                    "two additions {seen} the {word} to be {number}, and nothing was subtracted"
                )
            }
            WrongNumber::NotReached(number) => {
                format!("the {word} was {seen} to be {number}, which it cannot have been by then")
            }
        }
    }
}

/// A call that returned, with the number that it found, and the one that it left.
#[derive(Clone, Copy)]
struct Step {
    call: Call,
    before: i64,
    after: i64,
}

struct Scene<'a> {
    timeline: &'a Timeline,
    /// By their ends.
    steps: Vec<Step>,
    /// For each step the greatest number left by those up to it.
    most: Vec<i64>,
    /// Whether nothing is subtracted.
    is_rising: bool,
}

impl<'a> Scene<'a> {
    fn of(timeline: &'a Timeline) -> Scene<'a> {
        let steps = timeline.calls.iter().filter_map(|call| {
            let (before, after) = call.op.steps(call.reply?)?;
            Some(Step { call: *call, before, after })
        });
        let mut steps: Vec<Step> = steps.collect();
        steps.sort_unstable_by_key(|step| step.call.end);
        let most = steps.iter().scan(i64::MIN, |most, step| {
            *most = step.after.max(*most);
            Some(*most)
        });
        let mut amounts = timeline.calls.iter().filter_map(|call| call.op.adds());
        Scene {
            most: most.collect(),
            is_rising: amounts.all(|amount| amount >= 0),
            timeline,
            steps,
        }
    }

    /// The steps that were over before this moment.
    fn before(&self, moment: u32) -> &[Step] {
        &self.steps[..self.steps.partition_point(|step| step.call.end < moment)]
    }

    /// How many calls a part has that begins with this call, and ends with that one.
    fn weight(&self, first: Option<&Call>, last: &Call) -> usize {
        let begin = first.map_or(0, |first| first.begin);
        let calls = self.timeline.calls.iter();
        calls
            .filter(|call| call.end > begin && call.begin < last.end && call.op.adds() != Some(0))
            .count()
    }

    /// The candidate of these calls, of which the last one to return ends the part, which begins
    /// with the first one.
    fn candidate(
        &self,
        pattern: WrongNumber,
        first: Option<&Call>,
        calls: &[Call],
    ) -> Option<Candidate> {
        let last = calls.iter().max_by_key(|call| call.end)?;
        let operations = first.into_iter().chain(calls).map(|call| call.number).collect();
        let plan = Plan {
            from: first.map(|first| first.number),
            until: Some(last.until()),
            ..Plan::of(Form::Window { operations })
        };
        let weight = self.weight(first, last);
        Some(Candidate::without_key(Pattern::WrongNumber(pattern), plan, weight))
    }

    /// The candidates of calls that have no valid order after one of the last calls which were over
    /// before them and of which this is so; the smallest first.
    fn candidates(
        &self,
        pattern: WrongNumber,
        calls: &[Call],
        is_start: impl Fn(&Step) -> bool,
    ) -> Vec<Candidate> {
        let Some(begin) = calls.iter().map(|call| call.begin).min() else {
            return Vec::new();
        };
        let before = self.before(begin).iter().rev().take(MOST_SEEN);
        let mut starts: Vec<&Step> = before.filter(|step| is_start(step)).collect();
        starts.sort_by_key(|step| std::cmp::Reverse(step.call.begin));
        let starts = starts.into_iter().take(MOST_STARTS);
        let candidates = starts.filter_map(|step| self.candidate(pattern, Some(&step.call), calls));
        let mut candidates: Vec<Candidate> = candidates.collect();
        candidates.sort_by_key(|candidate| candidate.weight);
        candidates.truncate(2);
        if candidates.is_empty() {
            candidates.extend(self.candidate(pattern, None, calls));
        }
        candidates
    }

    /// A call finds less than another one that was over before it had left.
    fn fallen(&self) -> Vec<Candidate> {
        let candidates = self.steps.iter().filter_map(|step| {
            let count = self.before(step.call.begin).len();
            let was = *self.most[..count].last()?;
            let found = step.before;
            (was > found).then(|| {
                let pattern = WrongNumber::Fell { found, was };
                self.candidates(pattern, &[step.call], |start| start.after > found)
            })
        });
        candidates.take(MOST).flatten().collect()
    }

    /// Two additions find the same number.
    fn found_twice(&self) -> Vec<Candidate> {
        let mut adding: Vec<&Step> =
            self.steps.iter().filter(|step| step.before != step.after).collect();
        adding.sort_by_key(|step| step.before);
        let candidates =
            adding.windows(2).filter(|pair| pair[0].before == pair[1].before).map(|pair| {
                let calls = [pair[0].call, pair[1].call];
                self.candidates(WrongNumber::FoundTwice(pair[0].before), &calls, |_| true)
            });
        candidates.take(MOST).flatten().collect()
    }

    /// A call finds a number that no other call left.
    fn not_reached(&self) -> Vec<Candidate> {
        let adding = self.steps.iter().filter(|step| step.before != step.after);
        let left: HashSet<i64> = adding.map(|step| step.after).chain([0]).collect();
        let candidates =
            self.steps.iter().filter(|step| !left.contains(&step.before)).map(|step| {
                self.candidates(WrongNumber::NotReached(step.before), &[step.call], |_| true)
            });
        candidates.take(MOST).flatten().collect()
    }
}

/// The candidates of a number.
pub fn number_patterns(timeline: &Timeline) -> Vec<Candidate> {
    let scene = Scene::of(timeline);
    let mut candidates = Vec::new();
    if scene.is_rising {
        candidates.extend(scene.fallen());
        candidates.extend(scene.found_twice());
    }
    candidates.extend(scene.not_reached());
    candidates
}
