//! What a drawing of an object's history shows, as plain data: the operations, their bars, the
//! points of an order, the sentences and the tables. All coordinates are whole numbers.

mod boxes;
mod figure;
mod objects;
mod operations;
mod points;
mod spans;
mod strip;
mod tables;

pub use boxes::{BoxKind, ContentBox};
pub use figure::{Arrow, Band, Bar, Cross, Figure, Gap, Lane, Line, Mark, NemesisMark, Tick};
pub use objects::{DrawnStretch, Extent, ObjectDrawing};
pub use operations::{DrawnOperation, Role, State, operation_at, operations_of};
pub use points::{Point, sound_points};
pub(crate) use spans::spans;
pub use spans::{Span, Spans};
pub use strip::{COLUMNS, Strip};
pub use tables::{Attempt, Entry, Failure, Row, Tried};
