//! What is found of an object, and its text.

use crate::cuts::{Count, Counted, Cut, Values};
use crate::reasons::{FoundReason, Shown, Trial};
use crate::search::TryFirst;
use std::collections::BTreeSet;
use std::fmt::{self, Display, Formatter};

/// What is found of an object.
#[derive(Clone, Debug)]
pub enum Evidence {
    /// A valid order: the numbers of the invocations.
    Order(Vec<u32>),
    /// No order is valid, for this reason.
    Reason(FoundReason),
    /// A search of all operations is to decide.
    Search(Trial),
    /// Nothing: the search for evidence failed.
    Open,
}

/// An object, and what is found of it. Its text is the line of evidence that the proved program
/// reads; that of an open object is a comment.
#[derive(Clone, Debug)]
pub struct Decision {
    pub object: u32,
    pub evidence: Evidence,
}

/// A text as a string of EDN.
struct Quoted<'a>(&'a str);

impl Display for Quoted<'_> {
    fn fmt(&self, f: &mut Formatter<'_>) -> fmt::Result {
        write!(f, "\"{}\"", self.0.replace('\\', "\\\\").replace('"', "\\\""))
    }
}

/// The elements with a space between them.
struct Spaced<I>(I);

impl<I: Clone + IntoIterator<Item: Display>> Display for Spaced<I> {
    fn fmt(&self, f: &mut Formatter<'_>) -> fmt::Result {
        for (place, element) in self.0.clone().into_iter().enumerate() {
            if place > 0 {
                f.write_str(" ")?;
            }
            element.fmt(f)?;
        }
        Ok(())
    }
}

/// The numbers of operations, if there are some.
struct Numbers<'a>(&'a BTreeSet<u32>);

impl Display for Numbers<'_> {
    fn fmt(&self, f: &mut Formatter<'_>) -> fmt::Result {
        if self.0.is_empty() { Ok(()) } else { write!(f, ", :numbers [{}]", Spaced(self.0)) }
    }
}

impl Display for Values {
    fn fmt(&self, f: &mut Formatter<'_>) -> fmt::Result {
        match self {
            Values::All => f.write_str(":all"),
            Values::Only(values) => write!(f, "[{}]", Spaced(values)),
        }
    }
}

impl Display for Cut {
    fn fmt(&self, f: &mut Formatter<'_>) -> fmt::Result {
        match self {
            Cut::From(number) => write!(f, "{{:from {number}}}"),
            Cut::Until(number) => write!(f, "{{:until {number}}}"),
            Cut::Without { value, before } => write!(f, "{{:without {value}, :before {before}}}"),
            Cut::Keep { values, numbers } => write!(f, "{{:keep {values}{}}}", Numbers(numbers)),
            Cut::Cell { key, values, other, numbers } => {
                write!(f, "{{:cell {values}")?;
                if let Some(key) = key {
                    write!(f, ", :key {key}")?;
                }
                write!(f, ", :other {other}{}}}", Numbers(numbers))
            }
        }
    }
}

impl Display for Count {
    fn fmt(&self, f: &mut Formatter<'_>) -> fmt::Result {
        match self.counted {
            Counted::Value(value) => write!(f, "{{:value {value}")?,
            Counted::Entry { key, value } => write!(f, "{{:key {key}, :value {value}")?,
            Counted::NoEntry(key) => write!(f, "{{:key {key}")?,
            Counted::Held => f.write_str("{:held true")?,
            Counted::Free => f.write_str("{:free true")?,
            Counted::Ahead(number) if self.from == 0 => return write!(f, "{{:ahead {number}}}"),
            Counted::Ahead(number) => write!(f, "{{:ahead {number}")?,
        }
        write!(f, ", :from {}}}", self.from)
    }
}

impl Display for Trial {
    fn fmt(&self, f: &mut Formatter<'_>) -> fmt::Result {
        let first = match self.first {
            TryFirst::Number => "number",
            TryFirst::Return => "return",
        };
        write!(f, "{{:first :{first}, :steps {}}}", self.steps)
    }
}

impl Display for FoundReason {
    /// What follows the object in its line.
    fn fmt(&self, f: &mut Formatter<'_>) -> fmt::Result {
        write!(f, ":cuts [{}]", Spaced(&self.cuts))?;
        match self.shown {
            Shown::ByCount(count) => write!(f, ", :count {count}")?,
            Shown::BySearch(search) => write!(f, ", :search {search}")?,
        }
        write!(f, ", :note {}", Quoted(&self.sentence.to_string()))
    }
}

impl Display for Decision {
    fn fmt(&self, f: &mut Formatter<'_>) -> fmt::Result {
        let object = self.object;
        match &self.evidence {
            Evidence::Order(order) => {
                write!(f, "{{:object {object}, :order [{}]}}", Spaced(order))
            }
            Evidence::Reason(reason) => {
                write!(f, "{{:object {object}, {reason}}}")
            }
            Evidence::Search(search) => write!(f, "{{:object {object}, :search {search}}}"),
            Evidence::Open => write!(f, "; object {object}: open"),
        }
    }
}

#[cfg(test)]
mod tests {
    use super::*;

    #[test]
    fn quotes_what_a_string_needs() {
        assert_eq!(Quoted(r#"a "b" \ c"#).to_string(), r#""a \"b\" \\ c""#);
    }
}
