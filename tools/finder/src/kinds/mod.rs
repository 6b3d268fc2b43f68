//! The kinds of objects. A kind has one room, the file of its name here. The room says what the
//! functions of the kind ask of a content and leave there, and has the words for it. It names the
//! methods that find its orders and reasons, which are files of `orders` and `reasons`. All other
//! code works by what a room says, or by the family of the kind: a container, cells, what is held
//! or free, or a number.
//!
//! A new kind is a room, and its lines in this file, the only one that lists the kinds.

mod cells;
mod containers;
mod op;
mod room;
#[cfg(test)]
mod tests;

mod counter;
mod heap;
mod lock;
mod map;
mod mutex;
mod queue;
mod register;
mod set;
#[cfg(test)]
mod slot;
mod stack;

pub use cells::{Access, Cells, Effect, Need};
pub use containers::{Bag, Container, Gives};
pub use op::{Op, Reply, Role, Value};
pub use room::{Does, Family, Function, Holdable, Kind, OfNothing, Room, Shape, Words};

pub(crate) use containers::ContainerOrders;
/// A cell by itself, as which a part of an object that has cells is judged.
pub(crate) mod lone_cell {
    pub use super::register::{KIND, finding, replacing, setting};
}

/// The kinds, in the order in which messages list their functions.
pub static KINDS: &[Kind] = &[
    &queue::QUEUE,
    &stack::STACK,
    &heap::HEAP,
    &register::REGISTER,
    &map::MAP,
    &mutex::MUTEX,
    &set::SET,
    &counter::COUNTER,
    &lock::LOCK,
    #[cfg(test)]
    &slot::SLOT,
];

/// How many functions all kinds have together, in words.
pub const FUNCTION_COUNT: &str = "twenty-seven";

/// The functions of all kinds.
pub fn functions() -> impl Iterator<Item = &'static Function> {
    KINDS.iter().flat_map(|kind| kind.functions).copied()
}

/// The function that sets an object which is one cell, whatever it contains.
pub fn setting() -> &'static Function {
    lone_cell::setting(Some(0)).0.function
}

/// The names of the functions of all kinds, as a message lists them.
pub fn function_names() -> String {
    functions().map(|function| format!(":{}", function.name)).collect::<Vec<_>>().join(", ")
}

/// The function of this name.
pub fn function(name: &[u8]) -> Option<&'static Function> {
    functions().find(|function| function.name.as_bytes() == name)
}

/// The kind for whose objects this is the word.
pub fn kind(word: &str) -> Option<Kind> {
    KINDS.iter().copied().find(|kind| kind.word == word)
}
