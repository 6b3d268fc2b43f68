//! Sentences as their spans.

use crate::timeline::operations::DrawnOperation;
use finder::{Kind, Reply, Value};

/// A part of a sentence.
#[derive(Clone, Copy)]
pub enum Span {
    Text(&'static str),
    /// The number of a map or an entry.
    Number(u64),
    /// An object, by its name if it has one, and else by its number.
    Object(u32),
    /// An operation, by the number of its invocation alone.
    Event(u32),
    /// The number of an entry of an order, which may be any.
    Entry(i64),
    /// How many.
    Count(usize),
    Value(Value),
    Kind(Kind),
    /// An operation: its number and its label.
    Operation(DrawnOperation),
    /// What the object contains before the entry that is refused.
    Content,
    /// What a text has at its fault.
    Quoted,
    /// A certificate of this object, as an example.
    Certificate(u32),
    Command(&'static str),
    /// The option by which only this object is drawn.
    OnlyObject(u32),
    /// In small letters.
    Aside(&'static str),
}

/// A sentence, or a part of one.
pub type Spans = Vec<Span>;

/// The spans that these parts are.
macro_rules! spans {
    ($($part:expr),* $(,)?) => {
        vec![$($crate::timeline::Span::from($part)),*]
    };
}
pub(crate) use spans;

impl Span {
    /// The place of an entry of an order, from 1.
    pub fn rank(place: usize) -> Span {
        Span::Number(place as u64 + 1)
    }
}

impl From<&'static str> for Span {
    fn from(text: &'static str) -> Span {
        Span::Text(text)
    }
}

impl From<u32> for Span {
    fn from(number: u32) -> Span {
        Span::Number(u64::from(number))
    }
}

impl From<u64> for Span {
    fn from(number: u64) -> Span {
        Span::Number(number)
    }
}

impl From<usize> for Span {
    fn from(count: usize) -> Span {
        Span::Count(count)
    }
}

impl From<i64> for Span {
    fn from(value: i64) -> Span {
        Span::Value(Value::Int(value))
    }
}

impl From<Reply> for Span {
    fn from(reply: Reply) -> Span {
        Span::Value(reply.value())
    }
}

impl From<Kind> for Span {
    fn from(kind: Kind) -> Span {
        Span::Kind(kind)
    }
}

impl From<DrawnOperation> for Span {
    fn from(operation: DrawnOperation) -> Span {
        Span::Operation(operation)
    }
}
