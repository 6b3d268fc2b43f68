//! Events of clients and of the nemesis, as they are read.

use crate::form::Form;
use finder::{Function, OfNothing};

/// What an event says of its operation.
#[derive(Clone, Copy, Debug, PartialEq, Eq)]
pub enum Kind {
    Invoke,
    Ok,
    Fail,
    Info,
}

impl Kind {
    pub fn read(form: &Form) -> Option<Kind> {
        let name = name_of(Some(form))?;
        [Kind::Invoke, Kind::Ok, Kind::Fail, Kind::Info].into_iter().find(|it| it.word() == name)
    }

    pub fn word(self) -> &'static str {
        match self {
            Kind::Invoke => "invoke",
            Kind::Ok => "ok",
            Kind::Fail => "fail",
            Kind::Info => "info",
        }
    }
}

/// An argument or a reply.
#[derive(Clone, Debug, PartialEq, Eq)]
pub enum Said {
    Nil,
    False,
    True,
    One(Form),
    Two(Form, Form),
    Three(Form, Form, Form),
}

impl Said {
    pub fn values(&self) -> impl Iterator<Item = &Form> + Clone {
        let values = match self {
            Said::Nil | Said::False | Said::True => [None, None, None],
            Said::One(value) => [Some(value), None, None],
            Said::Two(first, second) => [Some(first), Some(second), None],
            Said::Three(first, second, third) => [Some(first), Some(second), Some(third)],
        };
        values.into_iter().flatten()
    }

    /// The form that a text of fcbench has of it.
    pub fn form(&self) -> Form {
        match self {
            Said::Nil => Form::Nil,
            Said::False => Form::Bool(false),
            Said::True => Form::Bool(true),
            Said::One(value) => value.clone(),
            Said::Two(..) | Said::Three(..) => Form::Vector(self.values().cloned().collect()),
        }
    }
}

impl From<OfNothing> for Said {
    fn from(reply: OfNothing) -> Said {
        match reply {
            OfNothing::Nil => Said::Nil,
            OfNothing::False => Said::False,
        }
    }
}

/// An event of a client.
#[derive(Clone, Debug)]
pub struct Event {
    pub process: Form,
    pub kind: Kind,
    pub function: &'static Function,
    pub value: Said,
    pub object: Form,
    /// The line of the operation, and its place.
    pub at: (usize, usize),
    /// `:time` and `:index`, which are written as they are.
    pub marks: Vec<(&'static str, i64)>,
}

/// An event of a nemesis: its function, if that is a keyword, and its time.
pub struct NemesisEvent {
    pub function: Option<String>,
    pub marks: Vec<(&'static str, i64)>,
}

pub enum Entry {
    OfClient(Event),
    OfNemesis(NemesisEvent),
}

impl Entry {
    pub fn client(&self) -> Option<&Event> {
        match self {
            Entry::OfClient(event) => Some(event),
            Entry::OfNemesis(_) => None,
        }
    }
}

/// The name that a keyword or a string is.
pub fn name_of(form: Option<&Form>) -> Option<&str> {
    match form {
        Some(Form::Keyword(name)) => Some(name),
        Some(Form::Str(text)) => Some(text.strip_prefix(':').unwrap_or(text)),
        _ => None,
    }
}

/// The value of a key of a map, or nil.
pub fn said<'a>(map: &'a Form, key: &str) -> &'a Form {
    map.get(key).unwrap_or(&Form::Nil)
}

pub fn is_nemesis(process: &Form) -> bool {
    matches!(process, Form::Keyword(_))
        || matches!(process, Form::Str(name) if name == "nemesis" || name == ":nemesis")
}
