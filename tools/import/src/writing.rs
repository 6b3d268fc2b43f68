//! From events to a text that `fcbench` judges.

use crate::changes::brief;
use crate::events::{Entry, Event, Said};
use crate::form::Form;
use crate::names::Names;
use crate::numbering::Numbers;
use std::fmt::Write;

/// The most objects of a text that is judged as one. A history with more is for `split`.
pub const MOST_OBJECTS: usize = 65_536;

fn own_object(object: &Form) -> Option<i64> {
    match object {
        Form::Int(number) if (0..MOST_OBJECTS as i64).contains(number) => Some(*number),
        _ => None,
    }
}

fn own_integer(form: &Form) -> Option<i64> {
    match form {
        Form::Int(number) => Some(*number),
        _ => None,
    }
}

/// The numbers of a text.
pub struct Numbering {
    pub objects: Numbers,
    pub processes: Numbers,
    pub values: Numbers,
}

impl Numbering {
    pub fn new(events: &[Entry]) -> Numbering {
        let clients = events.iter().filter_map(Entry::client);
        Numbering {
            objects: Numbers::new(clients.clone().map(|it| &it.object), own_object),
            processes: Numbers::new(clients.clone().map(|it| &it.process), own_integer),
            values: Numbers::new(clients.flat_map(|it| it.value.values()), own_integer),
        }
    }

    /// The text of these events.
    pub fn text_of(&self, events: &[Entry]) -> String {
        let mut text = String::new();
        for event in events {
            write_entry(&mut text, event, self);
        }
        text
    }

    /// What numbers were given to, in a line for each sort.
    pub fn notes(&self) -> impl Iterator<Item = String> {
        let sorts = [
            ("objects", &self.objects),
            ("processes", &self.processes),
            ("values and keys of maps", &self.values),
        ];
        sorts.into_iter().filter_map(|(sort, numbers)| {
            let (count, first) = numbers.named()?;
            let first = brief(&first.to_string());
            Some(format!("numbered: {count} {sort}, such as {first}; --names FILE writes which number each has"))
        })
    }

    pub fn into_names(self, before: u32) -> Names {
        let table = |numbers: Numbers| numbers.into_named().into_iter().collect();
        Names {
            objects: table(self.objects),
            processes: table(self.processes),
            values: table(self.values),
            before,
        }
    }
}

fn write_marks(text: &mut String, marks: &[(&str, i64)]) {
    for (key, number) in marks {
        let _ = write!(text, ", :{key} {number}");
    }
    text.push_str("}\n");
}

fn write_entry(text: &mut String, entry: &Entry, numbers: &Numbering) {
    match entry {
        Entry::OfClient(event) => write_event(text, event, numbers),
        Entry::OfNemesis(event) => {
            text.push_str("{:process :nemesis");
            if let Some(function) = &event.function {
                let _ = write!(text, ", :f :{function}");
            }
            write_marks(text, &event.marks);
        }
    }
}

fn write_event(text: &mut String, event: &Event, numbers: &Numbering) {
    let number = |value: &Form| numbers.values.number(value);
    let value = match &event.value {
        Said::Nil => "nil".to_owned(),
        Said::False => "false".to_owned(),
        Said::True => "true".to_owned(),
        Said::One(value) => number(value).to_string(),
        Said::Two(first, second) => format!("[{} {}]", number(first), number(second)),
        Said::Three(first, second, third) => {
            format!("[{} {} {}]", number(first), number(second), number(third))
        }
    };
    let (process, object) =
        (numbers.processes.number(&event.process), numbers.objects.number(&event.object));
    let _ = write!(
        text,
        "{{:process {process}, :type :{}, :f :{}, :value {value}, :object {object}",
        event.kind.word(),
        event.function.name
    );
    write_marks(text, &event.marks);
}
