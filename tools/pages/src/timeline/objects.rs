//! The drawing of an object: sentences, figures, and the table of an order.

use crate::timeline::boxes::ContentBox;
use crate::timeline::figure::Figure;
use crate::timeline::operations::DrawnOperation;
use crate::timeline::spans::Spans;
use crate::timeline::strip::Strip;
use crate::timeline::tables::{Row, Tried};
use finder::Kind;

/// What a figure leaves out: operations of processes that have no lane, and those processes; and of
/// all operations how many it shows.
#[derive(Clone, Copy, Default)]
pub struct Extent {
    pub operations: usize,
    pub drawn: usize,
    pub without_lane: usize,
    pub processes: usize,
}

/// Another stretch of an object's history: the events of the maps from one on, and before one.
pub struct DrawnStretch {
    pub from: u32,
    pub to: u32,
    pub figure: Figure,
    pub extent: Extent,
}

/// The drawing of an object.
pub struct ObjectDrawing {
    pub object: u32,
    pub kind: Kind,
    pub sentences: Vec<Spans>,
    /// Why an entry is refused, in a few words.
    pub because: Spans,
    /// What the object contains before the entry that is refused.
    pub content: Option<String>,
    /// The same as boxes.
    pub boxes: Vec<ContentBox>,
    /// The operations that the sentence speaks of, alone.
    pub zoom: Option<Figure>,
    pub figure: Figure,
    /// Other stretches, from left to right.
    pub stretches: Vec<DrawnStretch>,
    pub extent: Extent,
    /// The whole history, where the figure leaves some of it out.
    pub strip: Option<Strip>,
    /// Whether the order is only the longest that was found.
    pub is_open: bool,
    /// The table of the order, if there is one.
    pub rows: Vec<Row>,
    /// The orders of a reason's operations that were tried.
    pub tried: Option<Tried>,
    /// How many operations the reason has, of which the figure of it may leave some out.
    pub reason: usize,
    /// How many operations that did not fail the object has, if there is a reason.
    pub live: usize,
    /// The number at which a reason begins, if that is not the beginning.
    pub from: Option<u32>,
    /// The operations of a reason that returned, and of which it counts no return: they may have
    /// taken effect outside of it.
    pub outside: Vec<DrawnOperation>,
}

impl ObjectDrawing {
    /// Its figures.
    pub fn figures(&self) -> impl Iterator<Item = &Figure> {
        let others = self.stretches.iter().map(|stretch| &stretch.figure);
        self.zoom.iter().chain([&self.figure]).chain(others)
    }
}
