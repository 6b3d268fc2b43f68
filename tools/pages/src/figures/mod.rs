//! Where a figure of a history has its events, bars and points: the window of events that is drawn,
//! their columns, the lines and the lanes.

mod columns;
mod labels;
mod lines;
mod moments;
mod near;
mod nemeses;
mod numbers;
mod placing;
mod scene;
mod segments;
mod strip;
mod ticks;
mod window;

pub use labels::{characters, count_text, fit, label};
pub use lines::figure_of;
pub use moments::{Moment, moments_of};
pub use near::near_to;
pub use numbers::{CHARACTER, LANE_LENGTH, SMALL, SMALL_CHARACTER, digits, point_room};
pub use scene::{FaultyMap, Placed, Scene};
pub use strip::strip_of;
pub use window::{Stretch, WithoutLane, choose, drawn_places, narrow};
