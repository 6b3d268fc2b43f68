//! Patterns: what is wrong in a history. Each is found, and said, in a file of its own.

use super::cells::{Absent, CountExceeded, Crossing, NotHolder, Refused};
use super::containers::{SurelyNotEmpty, UnderSmaller, WrongPair};
use super::numbers::WrongNumber;
use super::one_value::OneValue;
use super::{Facts, Lost};
use crate::history::ObjectHistory;
use crate::kinds::Kind;

/// A fact about an object's whole history that no valid order allows. At a map the values are those
/// under one key. A number is that of an operation's invocation.
#[derive(Clone, Debug, PartialEq, Eq)]
pub enum Pattern {
    /// A value is taken, or seen, earlier or more often than it is put in, or set.
    OneValue(OneValue),
    SurelyNotEmpty(SurelyNotEmpty),
    UnderSmaller(UnderSmaller),
    WrongPair(WrongPair),
    /// More values definitely were ahead of what a removal found than can have been taken out
    /// before.
    Lost(Lost),
    Absent(Absent),
    Crossing(Crossing),
    Refused(Refused),
    NotHolder(NotHolder),
    CountExceeded(CountExceeded),
    WrongNumber(WrongNumber),
    /// No pattern: a part was found that has no valid order.
    General,
}

/// What is wrong with an object, in words.
pub trait Says {
    /// The sentence for an object of this kind, by these facts.
    fn sentence(&self, kind: Kind, facts: Facts) -> String;
}

/// What is wrong with one element of a set, which is the key of a cell without values.
pub trait SaysOfElement {
    /// The sentence for this element of an object of this kind, by these facts.
    fn sentence_of_element(&self, element: i64, kind: Kind, facts: Facts) -> String;
}

/// What is said if there is no pattern, or none that has words for the object.
pub struct General;

impl Says for General {
    fn sentence(&self, _: Kind, _: Facts) -> String {
        "the following operations have no valid order".to_owned()
    }
}

impl SaysOfElement for General {
    fn sentence_of_element(&self, element: i64, _: Kind, _: Facts) -> String {
        format!("the following operations on value {element} have no valid order")
    }
}

impl Pattern {
    /// What says the sentence of the pattern.
    pub(super) fn says(&self) -> &dyn Says {
        match self {
            Pattern::OneValue(pattern) => pattern,
            Pattern::SurelyNotEmpty(pattern) => pattern,
            Pattern::UnderSmaller(pattern) => pattern,
            Pattern::WrongPair(pattern) => pattern,
            Pattern::Lost(pattern) => pattern,
            Pattern::Absent(pattern) => pattern,
            Pattern::Crossing(pattern) => pattern,
            Pattern::Refused(pattern) => pattern,
            Pattern::NotHolder(pattern) => pattern,
            Pattern::CountExceeded(pattern) => pattern,
            Pattern::WrongNumber(pattern) => pattern,
            Pattern::General => &General,
        }
    }

    /// What says the sentence of the pattern on one element of a set. Those that no set has, and
    /// those of two values or of a refusal, have no words for one.
    pub(super) fn says_of_element(&self) -> &dyn SaysOfElement {
        match self {
            Pattern::OneValue(pattern) => pattern,
            Pattern::Absent(pattern) => pattern,
            Pattern::CountExceeded(pattern) => pattern,
            Pattern::Crossing(_) | Pattern::Refused(_) => &General,
            Pattern::SurelyNotEmpty(_) | Pattern::UnderSmaller(_) => &General,
            Pattern::WrongPair(_) | Pattern::Lost(_) => &General,
            Pattern::NotHolder(_) | Pattern::WrongNumber(_) => &General,
            Pattern::General => &General,
        }
    }

    /// The pattern of a beginning of a history as one of the whole, of which it says how often
    /// something was done.
    pub(super) fn of_whole(self, history: &ObjectHistory) -> Pattern {
        match self {
            Pattern::OneValue(pattern) => {
                pattern.of_whole(history).map_or(Pattern::General, Pattern::OneValue)
            }
            Pattern::Crossing(_) | Pattern::General => Pattern::General,
            Pattern::SurelyNotEmpty(_) | Pattern::UnderSmaller(_) => self,
            Pattern::WrongPair(_) | Pattern::Lost(_) => self,
            Pattern::Absent(_) | Pattern::Refused(_) | Pattern::NotHolder(_) => self,
            Pattern::CountExceeded(_) | Pattern::WrongNumber(_) => self,
        }
    }

    /// The pattern of a window of a history as one of the whole. One that says how often something
    /// was done in all is not true of it.
    pub(super) fn in_window(self) -> Pattern {
        match self {
            Pattern::Absent(_) | Pattern::Refused(_) | Pattern::NotHolder(_) => self,
            Pattern::CountExceeded(_) => self,
            Pattern::WrongNumber(WrongNumber::Fell { .. } | WrongNumber::FoundTwice(_)) => self,
            Pattern::WrongNumber(WrongNumber::NotReached(_)) => Pattern::General,
            Pattern::OneValue(_) | Pattern::Crossing(_) => Pattern::General,
            Pattern::SurelyNotEmpty(_) | Pattern::UnderSmaller(_) => Pattern::General,
            Pattern::WrongPair(_) | Pattern::Lost(_) | Pattern::General => Pattern::General,
        }
    }
}
