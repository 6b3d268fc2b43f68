//! Which operations put a value in, and take it out.

use crate::timeline::{DrawnOperation, Role, State};
use finder::Reply;

/// The value that a reply tells was there.
pub fn wanted(reply: Reply) -> Option<i64> {
    match reply {
        Reply::Value(value) => value,
        Reply::Swapped(expected, _) => Some(expected),
        Reply::NotSwapped | Reply::Flag(_) => None,
    }
}

/// The value that an operation that may have happened puts in, or sets.
pub fn value_put(operation: &DrawnOperation) -> Option<i64> {
    if operation.state() == State::Failed {
        return None;
    }
    let is_refused = operation.reply().is_some_and(Reply::is_refusal);
    operation.op().new_value().filter(|_| !is_refused)
}

/// Whether the operation puts this value in, under this key of a map.
pub fn puts(operation: &DrawnOperation, key: Option<i64>, value: i64) -> bool {
    value_put(operation) == Some(value) && operation.op().key() == key
}

/// Whether the operation returned this value, and took it out.
pub fn takes(operation: &DrawnOperation, value: i64) -> bool {
    operation.role() == Role::Take && operation.reply() == Some(Reply::Value(Some(value)))
}
