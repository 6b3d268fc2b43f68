//! Facts of a history by which a sentence is worded: what found a value, and which operations would
//! have put it in and did not.

use super::cells::Absent;
use super::{OneValue, Pattern};
use crate::history::{ObjectHistory, Operation};
use crate::kinds::{Function, Kind, Op, Reply};

/// Operations that would have put a value in, or set it, and did not: all failed, or all were
/// refused.
#[derive(Clone, Copy, Debug, PartialEq, Eq)]
pub struct Undone {
    /// The number of the first one's invocation.
    pub first: u32,
    pub count: u32,
    pub why: WhyUndone,
}

/// Why operations did not take place.
#[derive(Clone, Copy, Debug, PartialEq, Eq)]
pub enum WhyUndone {
    Failed,
    /// The object contained something else than they ask for. All are of this function, if it is
    /// one.
    Refused(Option<&'static Function>),
}

/// What a sentence says beside its pattern.
#[derive(Clone, Copy, Debug, Default, PartialEq, Eq)]
pub struct Facts {
    /// Whether the value was found by accepted compare-and-sets, and by no read.
    pub is_by_swap: bool,
    /// Of a value that was never put in, or too late: what would have put it in.
    pub undone: Option<Undone>,
}

/// Whether the operation would put this value in, or set it, under this key at a map.
fn would_put(op: Op, key: Option<i64>, value: i64) -> bool {
    op.new_value() == Some(value) && (key.is_none() || key == op.key())
}

impl Undone {
    fn of(history: &ObjectHistory, key: Option<i64>, value: i64) -> Option<Undone> {
        let would = |o: &&Operation| would_put(o.op, key, value);
        let all = |is_undone: fn(&Operation) -> bool| {
            history.ops.iter().filter(would).filter(move |o| is_undone(o))
        };
        let failed = all(Operation::has_failed);
        let is_refused = |o: &Operation| o.reply().is_some_and(Reply::is_refusal);
        let refused = all(is_refused).filter(|_| history.kind.has_values_in_cells());
        let mut undone = failed.clone().chain(refused.clone());
        let first = undone.next()?;
        // A history has fewer maps than that.
        let undone = |count, why| Undone { first: first.number, count: count as u32, why };
        let count = failed.count();
        if count > 0 {
            return Some(undone(count, WhyUndone::Failed));
        }
        let function = first.op.function;
        let is_one = refused.clone().all(|o| o.op.function == function);
        Some(undone(refused.count(), WhyUndone::Refused(is_one.then_some(function))))
    }

    /// Those that alone would have put the value in.
    pub(super) fn text(self) -> String {
        let Undone { first, count, why } = self;
        match (count, why) {
            (1, WhyUndone::Failed) => format!("event {first}, which failed"),
            (1, WhyUndone::Refused(function)) => {
                let of = function
                    .map_or(String::new(), |function| format!("the :{} of ", function.name));
                format!("{of}event {first}, which was refused")
            }
            (_, WhyUndone::Failed) => {
                format!("{count} operations that failed, the first of them event {first}")
            }
            (_, WhyUndone::Refused(function)) => {
                let those = function.map(|function| format!(":{}", function.name));
                let those = those.unwrap_or_else(|| "operations".to_owned());
                format!("{count} {those} that were refused, the first of them event {first}")
            }
        }
    }
}

/// A value that was seen and cannot have been there.
struct Seen {
    value: i64,
    /// Whether it was never set, or not by then.
    is_unset: bool,
}

impl Seen {
    /// The value of which a pattern says that it was seen, if it is a pattern of that sort.
    fn by(pattern: &Pattern) -> Option<Seen> {
        match *pattern {
            Pattern::OneValue(OneValue::NeverSet(value) | OneValue::TooEarly(value)) => {
                Some(Seen { value, is_unset: true })
            }
            Pattern::Absent(Absent::Stale(Some(value))) => Some(Seen { value, is_unset: false }),
            Pattern::OneValue(OneValue::TakenTwice(_) | OneValue::TakenTooOften { .. }) => None,
            Pattern::Absent(Absent::Stale(None)) => None,
            Pattern::Absent(Absent::DoneOverValue { .. } | Absent::Repeated { .. }) => None,
            Pattern::SurelyNotEmpty(_) | Pattern::UnderSmaller(_) | Pattern::WrongPair(_) => None,
            Pattern::Lost(_) | Pattern::Crossing(_) | Pattern::Refused(_) => None,
            Pattern::NotHolder(_) | Pattern::CountExceeded(_) | Pattern::WrongNumber(_) => None,
            Pattern::General => None,
        }
    }
}

impl Facts {
    /// The facts on a pattern of this history, at a map under this key, which this part shows.
    pub fn of(
        history: &ObjectHistory,
        part: &ObjectHistory,
        key: Option<i64>,
        pattern: &Pattern,
    ) -> Facts {
        let Some(seen) = Seen::by(pattern) else {
            return Facts::default();
        };
        let value = seen.value;
        let looked =
            |o: &Operation| o.op.only_looks() && o.reply() == Some(Reply::Value(Some(value)));
        let swapped = |o: &Operation| {
            matches!(o.reply(), Some(Reply::Swapped(..))) && o.op.argument.expected() == Some(value)
        };
        Facts {
            is_by_swap: history.kind.is_lone_cell()
                && part.ops.iter().any(swapped)
                && !part.ops.iter().any(looked),
            undone: match seen.is_unset {
                true => Undone::of(history, key, value),
                false => None,
            },
        }
    }

    /// The word for what was done with a value that was seen.
    pub(super) fn seen(&self, kind: Kind) -> String {
        match self.is_by_swap {
            true => format!("expected by an accepted :{}", kind.swap_name()),
            false => kind.words.seen.to_owned(),
        }
    }
}
