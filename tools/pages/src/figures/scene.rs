//! What a figure is laid out from.

use super::labels::{characters, fit_label, label};
use super::moments::Moment;
use super::numbers::{LABEL_LENGTH, digits, label_room};
use crate::timeline::{DrawnOperation, Mark};
use crate::words::Words;
use finder::Nemesis;
use std::collections::{BTreeMap, BTreeSet};

/// An entry that is drawn: its place in the order from 1, the greatest invocation among the entries
/// up to it, and what the object contains after it, or before it where it is refused.
#[derive(Clone)]
pub struct Placed {
    pub rank: u32,
    pub operation: DrawnOperation,
    pub anchor: u32,
    pub is_refused: bool,
    pub content: String,
}

/// The operations of an object, its events with those that are drawn, the points of an order, and
/// what the sentence speaks of.
#[derive(Clone, Copy)]
pub struct Scene<'a> {
    pub operations: &'a [DrawnOperation],
    pub moments: &'a [Moment],
    /// The maps of nemeses, in rising number.
    pub nemeses: &'a [Nemesis],
    pub points: &'a [Placed],
    /// The operations that the sentence names, and what each is to it.
    pub focus: &'a BTreeMap<u32, Mark>,
    /// Pairs of operations of which the first returned before the second was invoked.
    pub arrows: &'a [(DrawnOperation, DrawnOperation)],
    /// Whether only the focus is drawn.
    pub is_zoom: bool,
    /// Whether the other operations are dimmed.
    pub dims: bool,
    /// How many maps the history has.
    pub maps: u32,
    /// Whether labels name the object.
    pub names_objects: bool,
    /// The operations of the window whose processes have no lane, by their numbers.
    pub without_lane: &'a BTreeSet<u32>,
    pub words: Words<'a>,
    /// The map that is faulty, after all that is drawn.
    pub faulty: Option<FaultyMap<'a>>,
}

/// A map that makes a text no history: its number, the number of the fault after the letter H, its
/// process if it has one, and its type and function as words.
#[derive(Clone, Copy)]
pub struct FaultyMap<'a> {
    pub number: u32,
    pub fault: u8,
    pub process: Option<u64>,
    pub words: &'a str,
}

impl Scene<'_> {
    pub fn operation(&self, moment: &Moment) -> Option<DrawnOperation> {
        moment.of(self.operations)
    }

    /// What the nemesis does at the event with this number.
    pub fn nemesis(&self, number: u32) -> Option<&Nemesis> {
        let place = self.nemeses.binary_search_by_key(&number, |nemesis| nemesis.number).ok()?;
        Some(&self.nemeses[place])
    }

    /// Whether an arrow begins at the event with this number.
    pub fn has_arrow_from(&self, number: u32) -> bool {
        self.arrows.iter().any(|(earlier, _)| earlier.returned() == Some(number))
    }

    /// The process of the faulty map.
    pub fn faulty_process(&self) -> Option<u64> {
        self.faulty?.process
    }

    /// Whether the event is the faulty map.
    pub fn is_faulty(&self, moment: &Moment) -> bool {
        self.faulty.is_some_and(|faulty| faulty.number == moment.number)
    }

    /// Whether the faulty map is of the operation's process.
    pub fn is_of_faulty(&self, operation: &DrawnOperation) -> bool {
        self.faulty_process() == Some(operation.process)
    }

    /// The characters of the longer one of an event's number and its time.
    pub fn tick_length(&self, number: u32) -> u32 {
        let time = self.words.time(number).map_or(0, |time| characters(&time));
        digits(u64::from(number)).max(time)
    }

    pub fn is_focus(&self, operation: &DrawnOperation) -> bool {
        self.focus.contains_key(&operation.number())
    }

    /// What the operation is to the sentence.
    pub fn mark(&self, operation: &DrawnOperation) -> Mark {
        let other = if self.dims { Mark::Dim } else { Mark::Plain };
        self.focus.get(&operation.number()).copied().unwrap_or(other)
    }

    /// The label of an operation, no longer than the longest. If operations of several objects
    /// are drawn, it ends with the object.
    pub fn label(&self, operation: &DrawnOperation) -> String {
        let mut text = label(operation, &self.words);
        if self.names_objects {
            text += &format!(" @{}", operation.object);
        }
        fit_label(&text, LABEL_LENGTH)
    }

    /// The room that the label needs.
    pub fn label_room(&self, operation: &DrawnOperation) -> u32 {
        label_room(characters(&self.label(operation)))
    }
}
