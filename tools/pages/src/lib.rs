//! Draws a history of concurrent objects, and what was found of it, as one page of HTML with SVG,
//! which has no script and loads nothing. Nothing here is trusted: what a page shows was judged by
//! the proved program.

mod asides;
mod contents;
mod drawing;
mod elements;
mod faults;
mod figures;
mod judged_page;
mod page;
mod timeline;
mod words;

pub use asides::Asides;
pub use faults::{fault_lines, malformed_page, memory_page};
pub use judged_page::{Drawn, Options, Order, orders_in};
pub use words::Words;
