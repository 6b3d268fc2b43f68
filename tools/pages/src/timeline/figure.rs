//! A figure: lines of lanes with bars and points. Coordinates are whole numbers, from the left and
//! from the top of the line.

use crate::timeline::operations::DrawnOperation;
use crate::timeline::points::Point;

/// What a bar is to the sentence.
#[derive(Clone, Copy, PartialEq, Eq)]
pub enum Mark {
    /// It is as any other.
    Plain,
    /// The sentence speaks of another.
    Dim,
    /// The sentence is about this operation.
    Fault,
    /// It put what the object gives.
    Giver,
    /// It put, or took, what was returned.
    Source,
    /// The order leaves it out.
    LeftOut,
    /// The sentence names it.
    Named,
}

/// The bar of an operation, or its part in a line.
pub struct Bar {
    pub operation: DrawnOperation,
    pub from: u32,
    pub to: u32,
    pub top: u32,
    pub height: u32,
    /// Whether it goes on to the left, or to the right.
    pub open_left: bool,
    pub open_right: bool,
    /// As much of the label as has room.
    pub label: String,
    pub mark: Mark,
    /// Whether no line before has a part of it.
    pub is_first: bool,
    /// Where the `:info` of a pending one is.
    pub info: Option<u32>,
}

/// An event: the number of its map, and its time if it has one.
pub struct Tick {
    pub number: u32,
    pub x: u32,
    /// Whether the number and the time have room.
    pub is_shown: bool,
    /// Whether the sentence speaks of it.
    pub is_focus: bool,
    pub time: Option<String>,
}

/// Maps that are left out, around a middle.
#[derive(Clone, Copy)]
pub struct Gap {
    pub x: u32,
    pub width: u32,
    pub count: u32,
    /// How many operations of the object were invoked there and have no bar.
    pub operations: usize,
}

/// A map of a nemesis.
pub struct NemesisMark {
    pub x: u32,
    pub title: String,
    /// As much of what it does as has room.
    pub label: String,
}

/// The part in a line of the time from where a nemesis began something to where it ended that.
pub struct Band {
    pub from: u32,
    pub to: u32,
    pub title: String,
}

#[derive(Clone, Copy)]
pub struct Lane {
    pub process: u64,
    pub top: u32,
    pub height: u32,
}

/// From the return of an operation to the invocation of one that began later.
#[derive(Clone, Copy)]
pub struct Arrow {
    pub from: (u32, u32),
    pub to: (u32, u32),
    pub earlier: DrawnOperation,
    pub later: DrawnOperation,
}

/// The faulty map of a text that is no history: its number, the number of the fault after the
/// letter H, and its type and function as words.
pub struct Cross {
    pub number: u32,
    pub fault: u8,
    pub x: u32,
    pub y: u32,
    pub label: String,
}

/// A line of a figure. The ranks of its points rise from left to right, and each point, except one
/// that is refused, is within the bar of its operation.
pub struct Line {
    /// The room for the names of its lanes.
    pub left: u32,
    pub width: u32,
    pub height: u32,
    pub lanes: Vec<Lane>,
    pub gaps: Vec<Gap>,
    pub ticks: Vec<Tick>,
    /// The top of the row of the nemesis.
    pub nemesis_top: u32,
    pub nemeses: Vec<NemesisMark>,
    pub bands: Vec<Band>,
    pub bars: Vec<Bar>,
    pub points: Vec<Point>,
    pub arrows: Vec<Arrow>,
    pub crosses: Vec<Cross>,
}

/// A figure, and how many operations that are open all through it leaves out.
pub struct Figure {
    pub lines: Vec<Line>,
    pub left_out: usize,
    /// Whether it is drawn at one and a half.
    pub is_large: bool,
}
