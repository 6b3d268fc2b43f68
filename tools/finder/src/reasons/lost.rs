//! What was lost, in a sentence: the values that were put in before a removal and were not taken by
//! any call that returned, how many of them other removals can have taken, and what became of them.

use super::pattern::Says;
use super::{Facts, Reason};
use crate::cuts::{Ahead, Counted};
use crate::history::ObjectHistory;
use crate::kinds::{Gives, Kind};
use std::collections::BTreeMap;
use std::fmt::{self, Display, Formatter};

/// The most values that are named, and the most removals of one.
const MOST_NAMED: usize = 12;

/// A value that was ahead of what a removal found.
#[derive(Clone, Debug, PartialEq, Eq)]
pub struct LostValue {
    pub value: i64,
    /// How many of it were put in and not taken by a call that returned.
    pub times: usize,
    /// The numbers of as many removals of it as there are, that were invoked later.
    pub later: Vec<u32>,
    /// Whether an equal value was taken too.
    pub is_repeated: bool,
}

/// What a removal did not find.
#[derive(Clone, Debug, PartialEq, Eq)]
pub struct Lost {
    /// The number of the removal.
    pub number: u32,
    /// What it found.
    pub found: Option<i64>,
    /// How many of the values other removals can have taken before it.
    pub most: usize,
    pub values: Vec<LostValue>,
}

impl Lost {
    /// What the removal of this number did not find, where puts count from a number on, by a part
    /// of the history that shows it. `None`: the part shows nothing of that kind.
    pub fn of(
        history: &ObjectHistory,
        part: &ObjectHistory,
        number: u32,
        from: u32,
    ) -> Option<Lost> {
        let ahead = Ahead::of(part, number, from)?;
        let mut surplus: BTreeMap<i64, isize> = BTreeMap::new();
        let mut most = 0;
        for o in &part.ops {
            if let Some(value) = o.op.puts().filter(|_| ahead.is_ahead(o)) {
                *surplus.entry(value).or_default() += 1;
            }
            if ahead.may_precede(o) {
                match o.takes().filter(|value| ahead.found != Some(*value)) {
                    Some(value) => *surplus.entry(value).or_default() -= 1,
                    None => most += 1,
                }
            }
        }
        let values = surplus.into_iter().filter(|(_, surplus)| *surplus > 0);
        let values = values.map(|(value, times)| {
            let times = times.unsigned_abs();
            let is_repeated = history.ops.iter().any(|o| o.takes() == Some(value));
            LostValue { value, times, later: ahead.later(history, value, times), is_repeated }
        });
        let lost = Lost { number, found: ahead.found, most, values: values.collect() };
        (lost.count() > most).then_some(lost)
    }

    /// What is lost in the part of a reason by a count, or of one in which a removal finds nothing
    /// while a single value definitely is in.
    pub fn by(history: &ObjectHistory, part: &ObjectHistory, reason: &Reason) -> Option<Lost> {
        match (reason.count.map(|count| (count.counted, count.from)), &part.ops[..]) {
            (Some((Counted::Ahead(number), from)), _) => Lost::of(history, part, number, from),
            (None, [_, removal]) if part.kind.is_container() => {
                let lost = Lost::of(history, part, removal.number, 0)?;
                lost.found.is_none().then_some(lost)
            }
            _ => None,
        }
    }

    /// How many values were not taken by calls that returned.
    pub fn count(&self) -> usize {
        self.values.iter().map(|lost| lost.times).sum()
    }

    /// Where the values were, and when.
    fn place(&self, kind: Kind) -> String {
        let (word, number) = (kind.word, self.number);
        let (put, seen) = (kind.words.put, kind.words.seen);
        let Some((found, gives)) = self.found.zip(kind.gives()) else {
            return format!("in the {word} before event {number} found nothing");
        };
        match gives {
            Gives::First => format!("{put} before value {found}, which event {number} {seen}"),
            Gives::Last => format!("{put} on value {found}, which event {number} {seen}"),
            Gives::Least => {
                format!("in the {word} and less than value {found} before event {number} {seen} it")
            }
        }
    }

    /// The values, each with what became of it; those together that were never taken.
    fn named(&self, kind: Kind) -> String {
        let values = self.values.iter().take(MOST_NAMED);
        let is_together =
            |lost: &&LostValue| lost.later.is_empty() && lost.times == 1 && !lost.is_repeated;
        let (never, others): (Vec<_>, Vec<_>) = values.partition(is_together);
        let names: Vec<String> = never.iter().map(|lost| lost.value.to_string()).collect();
        let word = if names.len() == 1 { "value" } else { "values" };
        let never = never.first().map(|lost| (word, listed(&names), lost.fate(kind)));
        let never = never.map(|(word, names, fate)| format!("{word} {names} ({fate})"));
        let others = others.into_iter().map(|lost| format!("{lost} ({})", lost.fate(kind)));
        let rest = self.values.len().saturating_sub(MOST_NAMED);
        let rest = (rest > 0).then(|| format!("{rest} more"));
        never.into_iter().chain(others).chain(rest).collect::<Vec<String>>().join(", ")
    }
}

impl Says for Lost {
    fn sentence(&self, kind: Kind, _: Facts) -> String {
        if let (None, 0, [lost @ LostValue { times: 1, .. }]) =
            (self.found, self.most, &self.values[..])
        {
            let (word, number, fate) = (kind.word, self.number, lost.fate(kind));
            let find =
                format!("the {word} was definitely not empty when event {number} found nothing");
            return format!("{find}: {lost} was in it ({fate})");
        }
        let were = if self.count() == 1 { "value was" } else { "values were" };
        let most = match (self.most, self.count()) {
            (0, 1) => "it cannot".to_owned(),
            (0, _) => "none of them can".to_owned(),
            (most, _) => format!("at most {most} of them can"),
        };
        let (count, place, seen) = (self.count(), self.place(kind), kind.words.seen);
        let values = self.named(kind);
        format!("{count} {were} {place}, and {most} have been {seen} by then: {values}")
    }
}

impl LostValue {
    /// What became of the value.
    fn fate(&self, kind: Kind) -> String {
        let seen = kind.words.seen;
        let numbers = self.later.iter().take(MOST_NAMED).map(u32::to_string);
        let numbers: Vec<String> = numbers.collect();
        let events = match numbers.len() {
            0 if self.is_repeated => return format!("not {seen} after that"),
            0 => return format!("never {seen}"),
            1 => "event",
            _ => "events",
        };
        let rest = if self.later.len() < self.times { ", the rest never" } else { "" };
        format!("{seen} later, by {events} {}{rest}", listed(&numbers))
    }
}

impl Display for LostValue {
    fn fmt(&self, f: &mut Formatter<'_>) -> fmt::Result {
        match self.times {
            1 => write!(f, "value {}", self.value),
            times => write!(f, "value {}, {times} times", self.value),
        }
    }
}

impl Ahead {
    /// The numbers of the first removals of a value that were invoked after the removal returned,
    /// at most this many.
    fn later(&self, history: &ObjectHistory, value: i64, most: usize) -> Vec<u32> {
        let later = history.ops.iter().filter(|o| o.number > self.at && o.takes() == Some(value));
        later.take(most).map(|o| o.number).collect()
    }
}

/// Some texts with commas between them, and `and` before the last.
fn listed(texts: &[String]) -> String {
    match texts {
        [rest @ .., last] if !rest.is_empty() => format!("{} and {last}", rest.join(", ")),
        _ => texts.concat(),
    }
}
