//! Imports a history from a Jepsen store or from lines of JSON: writes a text that `fcbench`
//! judges, and a table of names, with which `judge` prints its answer in the words of the history.
//!
//! What an operation says is taken as it is. If it is not plain, such as a `:cas` that replies nil,
//! nothing is assumed: the history is refused, and the operation is named with its line.

mod changes;
mod convert;
pub mod edn;
mod events;
mod failures;
mod form;
mod functions;
mod holding;
mod initial;
mod json;
mod names;
mod numbering;
mod operations;
mod reading;
mod renaming;
mod times;
mod visible;
mod writing;

pub use convert::{Imported, Options, form_of, import};
pub use failures::Replies;
pub use form::Form;
pub use names::Names;
pub use operations::Refused;
pub use renaming::with_names;
pub use visible::visible;
