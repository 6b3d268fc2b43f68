//! What an object contains along an order of its operations: as boxes, as rows of a table, and
//! where an order cannot go on.

mod boxes;
mod content;
mod longest;
mod orders;
mod sources;
mod tried;

pub use boxes::boxes_of;
pub use content::Content;
pub use longest::longest_order;
pub use orders::{rows_of, walk_along};
pub use sources::{puts, takes, value_put, wanted};
pub use tried::{try_orders, with_other_contents};
