//! From operations as a tool wrote them to a text that `fcbench` judges.
//!
//! Each operation becomes one map, in its place, so that the numbers of events are those of the
//! operations. Of the nemesis, and of others whose process is a keyword, only the function and the
//! marks are written.

use crate::changes::Change;
use crate::edn::Reader;
use crate::events::{Entry, Event, Kind, Said};
use crate::failures::Replies;
use crate::form::Form;
use crate::initial::{NOTHING_WRITTEN, initial_events};
use crate::names::Names;
use crate::operations::{Refused, operations};
use crate::reading::{Events, events_of};
use crate::times::ordered;
use crate::writing::{MOST_OBJECTS, Numbering};
use finder::Shape;
use std::collections::HashSet;

/// How a history is to be read.
#[derive(Clone, Debug, Default, PartialEq, Eq)]
pub struct Options {
    /// Values are tuples `[key value]` of `jepsen.independent`. Without it they are, if they cannot
    /// be anything else.
    pub is_independent: bool,
    /// The errors by which a failed operation is a reply of nil, or of a `:cas` one of false.
    pub replies: Replies,
    /// A client is to release only what it has acquired, by the same owner.
    pub checks_owners: bool,
    /// The values of operations that acquire and release are owners, which are kept.
    pub has_owners: bool,
    /// Operations are sorted by their times.
    pub is_by_time: bool,
    /// What each register contains at first: one value for all, or a map with the values of
    /// objects.
    pub initial: Option<Form>,
}

/// A history that `fcbench` judges, what its numbers stand for, and what is not taken as the
/// history has it: `warnings` say what may make another verdict, and `notes` count the rest.
#[derive(Clone, Debug, PartialEq, Eq)]
pub struct Imported {
    pub text: String,
    pub names: Names,
    pub warnings: Vec<String>,
    pub notes: Vec<String>,
    /// Whether owners are left out.
    pub lacks_owners: bool,
    /// Whether a process that goes on after `:info` is another one.
    pub has_new_processes: bool,
}

/// The value that an event may put into its object.
fn put_in(event: &Event) -> Option<&Form> {
    match (event.function.argument, event.function.reply, &event.value) {
        (Shape::Value, Shape::Done, Said::One(value)) => Some(value),
        (Shape::Value, Shape::Flag, Said::One(value)) => Some(value),
        (Shape::Pair, _, Said::Two(_, value)) => Some(value),
        (Shape::Triple, _, Said::Three(_, _, value)) => Some(value),
        _ => None,
    }
}

/// Refuses a reply that nothing has put in, if values are not integers: it may be a message, such
/// as `:empty`, or another form of a value, such as the string of a keyword. In a history of
/// integers alone it is for `fcbench` to judge.
fn refuse_strange_replies(events: &[Entry]) -> Result<(), Refused> {
    let all = || events.iter().filter_map(Entry::client);
    let put: HashSet<&Form> =
        all().filter(|it| it.kind == Kind::Invoke).filter_map(put_in).collect();
    let replies = || all().filter(|it| it.kind == Kind::Ok && it.function.reply == Shape::Content);
    let is_name = |it: &&Form| !matches!(it, Form::Int(_));
    let has_names =
        put.iter().any(is_name) || replies().any(|it| it.value.values().any(|it| is_name(&it)));
    let strange = replies().find(|it| it.value.values().any(|value| !put.contains(value)));
    match strange.filter(|_| has_names) {
        Some(Event { value: Said::One(value), function, at: (line, place), .. }) => {
            let why = "but no operation puts that value in: it may be an error message, or the same value spelled differently";
            Err(Refused {
                line: *line,
                why: format!(
                    "operation {place}: {value} is the reply of :{}, {why}",
                    function.name
                ),
            })
        }
        _ => Ok(()),
    }
}

/// The one form that a word of the command line spells.
pub fn form_of(text: &str) -> Option<Form> {
    let mut reader = Reader::new(text);
    let form = reader.form().ok()??;
    (reader.form() == Ok(None)).then_some(form)
}

/// Imports a history.
pub fn import(text: &str, options: &Options) -> Result<Imported, Refused> {
    let (all, of_times) = ordered(operations(text)?, options.is_by_time)?;
    let Events { all: events, failures, changes } = events_of(&all, options)?;
    if events.iter().all(|it| it.client().is_none()) {
        return Err(Refused { line: 1, why: "no operation of a client".to_owned() });
    }
    let mut before = match &options.initial {
        Some(initial) => initial_events(initial, &events)?,
        None => Vec::new(),
    };
    let count = before.len() as u32;
    let mut warnings: Vec<String> = failures.warning(&options.replies).into_iter().collect();
    warnings.extend(changes.lines(true).chain(of_times));
    if options.initial.is_some() && before.is_empty() {
        warnings.push(NOTHING_WRITTEN.to_owned());
    }
    before.extend(events);
    refuse_strange_replies(&before)?;
    let numbers = Numbering::new(&before);
    let objects = numbers.objects.len();
    if objects > MOST_OBJECTS {
        warnings.push(format!("there are {objects} objects, more than judge takes: use split"));
    }
    Ok(Imported {
        text: numbers.text_of(&before),
        notes: changes.lines(false).chain(numbers.notes()).collect(),
        names: numbers.into_names(count),
        warnings,
        lacks_owners: changes.has(Change::Owner),
        has_new_processes: changes.has(Change::GoesOn),
    })
}
