//! Points: the entries of an order in a figure.

use crate::timeline::figure::Bar;
use crate::timeline::operations::DrawnOperation;

/// The point of an entry of an order, with its place in the order from 1.
pub struct Point {
    pub rank: u32,
    pub operation: DrawnOperation,
    pub x: u32,
    pub y: u32,
    pub is_refused: bool,
    /// Where its bar ends, where a refused one is beyond that.
    pub tether: Option<u32>,
    /// What the object contains after it, or before it where it is refused.
    pub content: String,
}

/// Whether the point is within the bar of its operation.
fn is_on_bar(point: &Point, bars: &[Bar]) -> bool {
    let number = point.operation.number();
    bars.iter()
        .any(|bar| bar.operation.number() == number && bar.from <= point.x && point.x <= bar.to)
}

/// The points, if their ranks rise from left to right, and each that is not refused is within its
/// bar; else none, so that no figure shows an order that it is not.
pub fn sound_points(bars: &[Bar], points: Vec<Point>) -> Vec<Point> {
    let are_rising = points.is_sorted_by(|one, next| one.rank < next.rank && one.x < next.x);
    let are_on_bars = points.iter().all(|point| point.is_refused || is_on_bar(point, bars));
    if are_rising && are_on_bars { points } else { Vec::new() }
}
