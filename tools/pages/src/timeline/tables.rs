//! The table of an order, and that of the orders that were tried.

use crate::timeline::operations::DrawnOperation;
use finder::Reply;

/// How an entry is to the fault of the order.
#[derive(Clone, Copy, PartialEq, Eq)]
pub enum Entry {
    /// It is valid where it is.
    Valid,
    /// It is refused.
    Refused,
    /// It comes after the refused one.
    NotLookedAt,
}

/// A row of the table of an order.
pub enum Row {
    /// An entry with its place in the order, from 1. The content is what the object contains after
    /// it.
    Entry {
        rank: usize,
        number: i64,
        operation: Option<DrawnOperation>,
        content: Option<String>,
        entry: Entry,
    },
    /// The number of entries that are not shown here.
    Skipped(usize),
}

/// Why an operation does not fit.
#[derive(Clone, Copy)]
pub enum Failure {
    NotPossible,
    /// It gives this, and returned that.
    Gives(Reply, Reply),
}

/// An order up to an operation that does not fit: what comes before it, and what the object
/// contains there.
pub struct Attempt {
    pub before: Vec<DrawnOperation>,
    pub content: String,
    pub next: DrawnOperation,
    pub failure: Failure,
}

/// The ways to begin, and how many more there are.
pub struct Tried {
    pub attempts: Vec<Attempt>,
    pub more: usize,
    /// Whether all ways were tried.
    pub is_complete: bool,
    /// The operation at which each way ends, where that is the same one.
    pub last: Option<DrawnOperation>,
    /// The value that stands for all that the part does not keep, if one does.
    pub other: Option<i64>,
}
