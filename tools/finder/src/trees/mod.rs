//! Trees over lists: the least number of a range, the first place of a range that is not covered,
//! the greatest of the marks of a range, and the last of the counts that is large enough. Each
//! change and each question takes some log n steps.

mod counts;
mod least;
mod marks;
mod most;

pub use counts::Counts;
pub use least::{ABSENT, Least};
pub use marks::{Mark, Marks};
pub use most::Most;
