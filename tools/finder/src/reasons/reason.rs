//! Reasons, and their check.

use super::{Facts, FirstEvent, Lost, Pattern, Sentence};
use crate::cuts::{Count, Cut, is_exceeded, part_by};
use crate::history::ObjectHistory;
use crate::search::{Outcome, Searched, TryFirst, search};

/// An order of trial, and the most steps of a search.
#[derive(Clone, Copy, Debug, PartialEq, Eq)]
pub struct Trial {
    pub first: TryFirst,
    pub steps: u64,
}

/// The cuts that make a part of an object's history, one after another, and a count that shows that
/// the part has no valid order. Without a count a search is to show it. It need not be true.
pub struct Reason {
    pub cuts: Vec<Cut>,
    pub count: Option<Count>,
}

impl Reason {
    /// Checks the reason: whether the part that it names has no valid order, by its count or by
    /// such a search.
    pub fn check(&self, history: &ObjectHistory, by: Trial) -> CheckedReason {
        let Some(part) = part_by(history, &self.cuts) else {
            return CheckedReason { part: None, searched: None };
        };
        let (shown, searched) = match self.count {
            Some(count) => (is_exceeded(&part, count), None),
            None => {
                let searched = search(&part, by.first, by.steps);
                (searched.outcome == Outcome::Impossible, Some(searched))
            }
        };
        CheckedReason { part: shown.then_some(part), searched }
    }

    /// The part, if the reason holds.
    pub fn part_shown(&self, history: &ObjectHistory, by: Trial) -> Option<ObjectHistory> {
        self.check(history, by).part
    }
}

/// A reason that was checked: the part, if it is shown to have no valid order, and the search of
/// it, if one was needed.
pub struct CheckedReason {
    pub part: Option<ObjectHistory>,
    pub searched: Option<Searched>,
}

/// What shows that a part has no valid order.
#[derive(Clone, Copy, Debug, PartialEq, Eq)]
pub enum Shown {
    ByCount(Count),
    BySearch(Trial),
}

impl Shown {
    /// The count, and how a part is searched if there is none.
    fn parts(self) -> (Option<Count>, Trial) {
        match self {
            Shown::ByCount(count) => (Some(count), Trial { first: TryFirst::Return, steps: 0 }),
            Shown::BySearch(search) => (None, search),
        }
    }
}

/// A reason that was checked, and a sentence that says what is wrong.
#[derive(Clone, Debug)]
pub struct FoundReason {
    pub cuts: Vec<Cut>,
    pub shown: Shown,
    /// It is a guess: the pattern that led to the reason.
    pub sentence: Sentence,
}

impl FoundReason {
    /// How many operations its part has.
    pub fn size(&self, history: &ObjectHistory) -> usize {
        part_by(history, &self.cuts).map_or(0, |part| part.ops.len())
    }

    /// The number before which all its operations were invoked.
    pub fn until(&self) -> u32 {
        let untils = self.cuts.iter().filter_map(|cut| match cut {
            Cut::Until(number) => Some(*number),
            _ => None,
        });
        untils.min().unwrap_or(u32::MAX)
    }

    /// The same reason, which is of what was invoked before this number, as one of the whole
    /// history, if it is one.
    pub fn in_whole(self, history: &ObjectHistory, until: u32) -> Option<FoundReason> {
        let FoundReason { mut cuts, shown, sentence } = self;
        if cuts.last() == Some(&Cut::Until(until)) {
            cuts.pop();
        }
        cuts.insert(0, Cut::Until(until));
        let (count, by) = shown.parts();
        let reason = Reason { cuts, count };
        let part = reason.part_shown(history, by)?;
        let lost = Lost::by(history, &part, &reason).map(Pattern::Lost);
        let pattern = lost.unwrap_or_else(|| sentence.pattern.of_whole(history));
        let facts = Facts::of(history, &part, sentence.key, &pattern);
        let sentence = Sentence { pattern, facts, ..sentence };
        Some(FoundReason { cuts: reason.cuts, shown, sentence })
    }

    pub fn with_first(self, first: FirstEvent) -> FoundReason {
        FoundReason { sentence: Sentence { first: Some(first), ..self.sentence }, ..self }
    }
}
