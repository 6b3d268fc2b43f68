//! The drawing of an object's history: what it shows, and why.

mod faulty;
mod objects;
mod reasons;
mod refusals;

pub use faulty::{Faulty, FaultyDrawing, draw_up_to};
pub use objects::{
    DrawnPart, Subject, draw_impossible, draw_open, draw_refused, draw_uncertified, draw_valid,
};
