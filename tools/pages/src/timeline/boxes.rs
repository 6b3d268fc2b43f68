//! What an object contains, as boxes.

/// What a box shows.
#[derive(Clone, Copy, PartialEq, Eq)]
pub enum BoxKind {
    Plain,
    /// What the object gives.
    Gives,
    /// What was returned, and is in the object at another place.
    Returned,
    /// What was returned.
    Absent,
    /// How many are not shown.
    Skip,
}

/// A box: its text, the words under it, and where it is.
pub struct ContentBox {
    pub kind: BoxKind,
    pub text: String,
    pub under: [&'static str; 2],
    /// The operation that put it there, or that holds a mutex.
    pub by: Option<u32>,
    pub x: u32,
    pub width: u32,
}
