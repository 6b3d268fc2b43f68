//! The whole history of an object in one strip.

use std::ops::RangeInclusive;

/// How many columns a strip has at most.
pub const COLUMNS: u32 = 480;

/// The history of an object, cut into columns of equally many maps: how many of its operations run
/// at once in each, and which columns have what is drawn, what the sentence speaks of, and maps of
/// a nemesis.
pub struct Strip {
    /// How many maps the history has.
    pub maps: u32,
    /// For each column the most operations that run at once.
    pub heights: Vec<u32>,
    pub drawn: Vec<RangeInclusive<u32>>,
    /// Other stretches, by their places.
    pub others: Vec<RangeInclusive<u32>>,
    pub marked: Vec<u32>,
    pub nemeses: Vec<u32>,
    /// What nemeses began, until they ended it.
    pub bands: Vec<RangeInclusive<u32>>,
}

impl Strip {
    /// The most operations that run at once.
    pub fn most(&self) -> u32 {
        self.heights.iter().copied().max().unwrap_or(0)
    }
}
