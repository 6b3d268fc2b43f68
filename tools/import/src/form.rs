//! Forms of EDN, all of them, and of JSON, as which a history to be imported comes.

use crate::visible::is_plain;
use std::collections::HashSet;
use std::fmt::{self, Display, Formatter, Write};

/// A form. Equal ones are the same, however they were spelled.
#[derive(Clone, Debug, PartialEq, Eq, Hash, PartialOrd, Ord)]
pub enum Form {
    Nil,
    Bool(bool),
    Int(i64),
    /// A number that is no integer of 64 bits, as it is spelled, or one such as `##NaN`.
    Number(String),
    Str(String),
    /// The text without the colon.
    Keyword(String),
    /// A symbol or a character.
    Symbol(String),
    /// A vector or a list.
    Vector(Vec<Form>),
    /// Its items in rising order.
    Set(Vec<Form>),
    /// Its entries in rising order of their keys.
    Map(Vec<(Form, Form)>),
    /// A tag without its `#`, and its form. A pattern has the tag "".
    Tagged(String, Box<Form>),
}

/// Whether a tag is the name of a class, as records have it.
pub fn is_class(tag: &str) -> bool {
    tag.contains('.') && !tag.contains('/')
}

impl Form {
    /// The key of an object of JSON: a keyword, or a string if it can be none.
    pub fn key(name: String) -> Form {
        let is_word = !name.contains(|it| ends_word(it) || !is_of_word(it));
        if is_word && is_name(&name) { Form::Keyword(name) } else { Form::Str(name) }
    }

    /// A set of these items.
    pub fn set(mut items: Vec<Form>) -> Form {
        items.sort_unstable();
        Form::Set(items)
    }

    /// A map of these entries, whose keys differ.
    pub fn map(mut entries: Vec<(Form, Form)>) -> Form {
        entries.sort_unstable();
        Form::Map(entries)
    }

    /// The form without the tag of a record, if it has one, such as `#jepsen.history.Op`.
    pub fn of_record(&self) -> &Form {
        match self {
            Form::Tagged(tag, form) if is_class(tag) => form,
            other => other,
        }
    }

    /// Whether two forms that are spelled so are equal. That is not known of those with a tag, and
    /// a `##NaN` is not equal to itself.
    pub fn has_equals(&self) -> bool {
        match self {
            Form::Tagged(..) => false,
            Form::Number(text) => !text.starts_with('#'),
            Form::Vector(items) | Form::Set(items) => items.iter().all(Form::has_equals),
            Form::Map(entries) => {
                entries.iter().all(|(key, value)| key.has_equals() && value.has_equals())
            }
            _ => true,
        }
    }

    /// The value of a key of a map, if this is one and has the key.
    pub fn get(&self, key: &str) -> Option<&Form> {
        let Form::Map(entries) = self else {
            return None;
        };
        entries
            .iter()
            .find(|(it, _)| matches!(it, Form::Keyword(name) if name == key))
            .map(|(_, value)| value)
    }

    /// The two items of a pair.
    pub fn as_pair(&self) -> Option<(&Form, &Form)> {
        match self.of_record() {
            Form::Vector(items) => match &items[..] {
                [first, second] => Some((first, second)),
                _ => None,
            },
            _ => None,
        }
    }
}

/// The entries of a map that is read.
#[derive(Default)]
pub struct Entries {
    all: Vec<(Form, Form)>,
    /// Their keys, if they are many.
    keys: HashSet<Form>,
}

/// From this number on, entries are many.
const MANY: usize = 32;

impl Entries {
    pub fn push(&mut self, key: Form, value: Form) {
        self.all.push((key, value));
        if self.all.len() == MANY {
            self.keys.extend(self.all.iter().map(|(key, _)| key.clone()));
        } else if self.all.len() > MANY {
            self.keys.extend(self.all.last().map(|(key, _)| key.clone()));
        }
    }

    /// Whether this key is there already.
    pub fn has(&self, key: &Form) -> bool {
        key.has_equals()
            && match self.all.len() {
                ..MANY => self.all.iter().any(|(it, _)| it == key),
                _ => self.keys.contains(key),
            }
    }

    pub fn into_map(self) -> Form {
        Form::map(self.all)
    }
}

fn write_all(f: &mut Formatter<'_>, open: &str, items: &[Form], close: &str) -> fmt::Result {
    f.write_str(open)?;
    for (place, item) in items.iter().enumerate() {
        write!(f, "{}{item}", if place == 0 { "" } else { " " })?;
    }
    f.write_str(close)
}

fn write_string(f: &mut Formatter<'_>, text: &str) -> fmt::Result {
    f.write_str("\"")?;
    for character in text.chars() {
        match character {
            '"' => f.write_str("\\\"")?,
            '\\' => f.write_str("\\\\")?,
            '\n' => f.write_str("\\n")?,
            '\r' => f.write_str("\\r")?,
            '\t' => f.write_str("\\t")?,
            other if is_plain(other) => f.write_char(other)?,
            hidden => write!(f, "\\u{:04x}", u32::from(hidden))?,
        }
    }
    f.write_str("\"")
}

/// Whether a character separates forms. Of other spaces Clojure takes some as parts of a word.
pub fn is_space(character: char) -> bool {
    character.is_ascii() && character.is_whitespace() || character == ','
}

/// Whether a character ends a word.
pub fn ends_word(character: char) -> bool {
    is_space(character) || "()[]{}\";".contains(character)
}

/// Whether a word may have this character: one that is shown, and is no space.
pub fn is_of_word(character: char) -> bool {
    is_plain(character) && !character.is_whitespace()
}

/// Whether a word can be the name of a symbol or keyword: it begins with no colon, has at most one
/// slash, between two parts, and no character that Clojure takes as the beginning of another form.
pub fn is_name(word: &str) -> bool {
    let has_parts = match word.split_once('/') {
        Some((space, name)) => !space.is_empty() && !name.is_empty() && !name.contains('/'),
        None => !word.is_empty(),
    };
    has_parts && !word.starts_with(':') && !word.contains(['^', '@', '`', '~', '\\'])
}

/// As EDN has it, in one line.
impl Display for Form {
    fn fmt(&self, f: &mut Formatter<'_>) -> fmt::Result {
        match self {
            Form::Nil => f.write_str("nil"),
            Form::Bool(is_true) => write!(f, "{is_true}"),
            Form::Int(number) => write!(f, "{number}"),
            Form::Number(text) | Form::Symbol(text) => f.write_str(text),
            Form::Str(text) => write_string(f, text),
            Form::Keyword(name) => write!(f, ":{name}"),
            Form::Vector(items) => write_all(f, "[", items, "]"),
            Form::Set(items) => write_all(f, "#{", items, "}"),
            Form::Map(entries) => {
                f.write_str("{")?;
                for (place, (key, value)) in entries.iter().enumerate() {
                    write!(f, "{}{key} {value}", if place == 0 { "" } else { ", " })?;
                }
                f.write_str("}")
            }
            Form::Tagged(tag, form) if tag.is_empty() => write!(f, "#{form}"),
            Form::Tagged(tag, form) => write!(f, "#{tag} {form}"),
        }
    }
}
