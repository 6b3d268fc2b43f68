//! What registers contain at first, as events that are before all others.

use crate::events::{Entry, Event, Kind, Said};
use crate::form::Form;
use crate::functions::{is_value, shape_words};
use crate::operations::Refused;
use finder::{Shape, setting};
use std::collections::HashSet;

/// The warning that the option changes nothing.
pub const NOTHING_WRITTEN: &str =
    "--initial writes nothing: the history has no register that it names";

/// What an object contains at first: what a map says of it, or the one value if it is a register.
fn initial_of<'a>(initial: &'a Form, event: &Event) -> Option<&'a Form> {
    match initial {
        Form::Map(of) => of.iter().find(|(it, _)| *it == event.object).map(|(_, value)| value),
        value => event.function.kind.is_lone_cell().then_some(value),
    }
}

/// An object of which something is said, where the history has none of those: they may be spelled
/// otherwise.
fn unknown_object<'a>(initial: &'a Form, firsts: &[&Event]) -> Option<&'a Form> {
    let Form::Map(of) = initial else { return None };
    let known: HashSet<&Form> = firsts.iter().map(|it| &it.object).collect();
    let is_known = |(object, _): &(Form, Form)| known.contains(object);
    let (object, _) = of.first()?;
    (!known.is_empty() && !of.iter().any(is_known)).then_some(object)
}

/// The object and the initial value of each event that is the first of its object, if it has one.
fn initial_values<'a>(
    initial: &'a Form,
    events: &'a [Entry],
) -> Result<Vec<(&'a Form, &'a Form)>, Refused> {
    let mut seen = HashSet::new();
    let firsts = events.iter().filter_map(Entry::client).filter(|it| seen.insert(&it.object));
    let firsts: Vec<&Event> = firsts.collect();
    if let Some(unknown) = unknown_object(initial, &firsts) {
        let why = format!("--initial names {unknown}, and the history has no such object");
        return Err(Refused { line: 1, why });
    }
    let refused = |(line, place): (usize, usize), why: String| Refused {
        line,
        why: format!("operation {place}: {why}"),
    };
    let of_first = |event: &'a Event| {
        let object = &event.object;
        let value = initial_of(initial, event)?;
        Some(if !event.function.kind.is_lone_cell() {
            Err(refused(
                event.at,
                format!("object {object} has an initial value, but is not a register"),
            ))
        } else if is_value(value) {
            Ok((object, value))
        } else {
            let expected = shape_words(Shape::Value);
            Err(refused(
                event.at,
                format!("{value} cannot be an initial value, which is {expected}"),
            ))
        })
    };
    firsts.into_iter().filter_map(of_first).collect()
}

/// A write of each register's initial value, by a process that is in no other event.
pub fn initial_events(initial: &Form, events: &[Entry]) -> Result<Vec<Entry>, Refused> {
    let own: HashSet<&Form> =
        events.iter().filter_map(Entry::client).map(|it| &it.process).collect();
    let process =
        (0..).map(Form::Int).find(|it| !own.contains(it)).expect("fewer processes than integers");
    let event = |object: &Form, value: &Form, kind| {
        Entry::OfClient(Event {
            process: process.clone(),
            kind,
            function: setting(),
            value: Said::One(value.clone()),
            object: object.clone(),
            at: (1, 0),
            marks: Vec::new(),
        })
    };
    let both = |(object, value)| [Kind::Invoke, Kind::Ok].map(|kind| event(object, value, kind));
    Ok(initial_values(initial, events)?.into_iter().flat_map(both).collect())
}
