//! The words of a page: values, keys, processes and objects as the history that was imported names
//! them, and the times of its events.

use crate::asides::{Asides, seconds};
use import::Names;

/// The table of names, if the page has the names of an imported history, and what the text has
/// beside its operations.
#[derive(Clone, Copy, Default)]
pub struct Words<'a> {
    names: Option<&'a Names>,
    asides: Option<&'a Asides>,
}

impl<'a> Words<'a> {
    pub fn new(names: Option<&'a Names>, asides: &'a Asides) -> Words<'a> {
        Words { names, asides: Some(asides) }
    }

    /// A text of values and keys.
    pub fn values(&self, text: String) -> String {
        match self.names {
            Some(names) => names.of_values(&text),
            None => text,
        }
    }

    /// A sentence of the finder.
    pub fn sentence(&self, text: String) -> String {
        match self.names {
            Some(names) => names.of_sentence(&text),
            None => text,
        }
    }

    pub fn process(&self, process: u64) -> String {
        self.names
            .and_then(|names| names.of_process(process))
            .unwrap_or_else(|| process.to_string())
    }

    /// The name of a lane: as `p3`, or the name of the process.
    pub fn lane(&self, process: u64) -> String {
        let named = self.names.and_then(|names| names.of_process(process));
        named.unwrap_or_else(|| format!("p{process}"))
    }

    pub fn object(&self, object: u32) -> Option<String> {
        self.names.and_then(|names| names.of_object(object))
    }

    /// The name of an object, and its number if it has none.
    pub fn name_of(&self, object: u32) -> String {
        self.object(object).unwrap_or_else(|| object.to_string())
    }

    /// How many events of initial values are before the history.
    fn before(&self) -> u32 {
        self.names.map_or(0, |names| names.before)
    }

    /// Whether the event is of an initial value, and so none of the history.
    pub fn is_initial(&self, number: u32) -> bool {
        number < self.before()
    }

    /// Whether events have times.
    pub fn has_times(&self) -> bool {
        self.asides.is_some_and(Asides::has_times)
    }

    fn nanoseconds(&self, number: u32) -> Option<i64> {
        self.asides?.time(number)
    }

    /// The time of an event, as `1.204 s`, and with more digits.
    pub fn time(&self, number: u32) -> Option<String> {
        Some(seconds(self.nanoseconds(number)?, 3))
    }

    pub fn exact_time(&self, number: u32) -> Option<String> {
        Some(seconds(self.nanoseconds(number)?, 6))
    }

    pub fn nemesis_value(&self, number: u32) -> Option<&'a str> {
        self.asides?.value(number)
    }

    /// The number of an event in the history.
    pub fn event(&self, number: u32) -> String {
        match number.checked_sub(self.before()) {
            Some(number) => number.to_string(),
            None => "initial".into(),
        }
    }
}
