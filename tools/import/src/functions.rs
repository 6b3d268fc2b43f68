//! The functions that a history may name, and what their arguments and replies may be.

use crate::edn::begins_number;
use crate::form::Form;
use finder::{Function, Shape, functions};

/// What a message says of an argument or a reply.
pub fn shape_words(shape: Shape) -> &'static str {
    match shape {
        Shape::Value => "an integer, string or keyword",
        Shape::Number => "an integer of 64 bits",
        Shape::Pair => "a pair of integers, strings or keywords",
        Shape::Triple => "three integers, strings or keywords in a vector",
        Shape::Nothing => "nil",
        Shape::Done | Shape::Silent => "its argument, true, \"OK\" or nil",
        Shape::Content => "an integer, string or keyword, or nil",
        Shape::NumberOrNothing => "an integer of 64 bits, or nil",
        Shape::Flag => "true or false",
        Shape::Swapped => "true or its argument where it has set, and false where it has not",
        Shape::Owner => {
            "nil, true, \"OK\", or the owner: an integer above 0, a string, a UUID, or a map of these"
        }
    }
}

/// The function of this name. If there are owners, that of a kind whose operations name them.
pub fn function(name: &str, has_owners: bool) -> Option<&'static Function> {
    let named = functions().find(|it| it.name == name || it.other_names.contains(&name))?;
    let holds = named.holds().filter(|_| has_owners);
    let owning =
        functions().find(|it| it.kind.has_owner() && holds.is_some() && it.holds() == holds);
    Some(owning.unwrap_or(named))
}

/// Whether the function of this name keeps the owner that it names, also without --owners.
pub fn keeps_owner(name: &str) -> bool {
    functions().any(|it| it.name == name && it.kind.has_owner())
}

/// Whether a number is an integer past 64 bits. Equal ones are spelled the same; those of other
/// numbers may differ, as 1.5 and 1.50.
fn is_whole(number: &str) -> bool {
    !number.contains(['.', 'e', 'E', 'M', '/', '#'])
}

/// Whether equal forms with this tag, and a form that is the same, are spelled the same. Patterns
/// are not compared, and an instant has many spellings.
fn is_comparable(tag: &str) -> bool {
    !["", "inst"].contains(&tag)
}

/// Whether a form can be a value: an integer of 64 bits, or a name. Names are compared for
/// equality, and for nothing else.
pub fn is_value(form: &Form) -> bool {
    match form {
        Form::Int(_) | Form::Bool(_) | Form::Str(_) | Form::Keyword(_) => true,
        Form::Symbol(word) => !begins_number(word),
        Form::Number(text) => is_whole(text),
        Form::Tagged(tag, form) => is_comparable(tag) && is_value(form),
        _ => false,
    }
}

/// Whether a form can be an object: all but those with a part of which equal ones may be spelled
/// otherwise.
pub fn is_object(form: &Form) -> bool {
    match form {
        Form::Number(text) => is_whole(text),
        Form::Tagged(tag, form) => is_comparable(tag) && is_object(form),
        Form::Vector(items) | Form::Set(items) => items.iter().all(is_object),
        Form::Map(entries) => entries.iter().all(|(key, value)| is_object(key) && is_object(value)),
        _ => true,
    }
}

/// Whether an instant is in a form that is refused.
pub fn has_instant(form: &Form) -> bool {
    match form {
        Form::Tagged(tag, form) => tag == "inst" || has_instant(form),
        Form::Vector(items) | Form::Set(items) => items.iter().any(has_instant),
        Form::Map(entries) => {
            entries.iter().any(|(key, value)| has_instant(key) || has_instant(value))
        }
        _ => false,
    }
}

/// Whether a form says that a call was done.
pub fn is_done(form: &Form) -> bool {
    matches!(form, Form::Nil | Form::Bool(true))
        || matches!(form, Form::Str(text) if text == "OK")
        || matches!(form, Form::Keyword(name) if name == "ok")
}

/// Whether a form can be what a client notes of a lock that it has acquired or released.
pub fn is_owner(form: &Form) -> bool {
    match form {
        Form::Int(number) => *number > 0,
        Form::Str(_) => true,
        Form::Symbol(word) => !begins_number(word),
        Form::Tagged(tag, form) => is_comparable(tag) && is_value(form),
        Form::Map(entries) => {
            !entries.is_empty()
                && entries.iter().all(|(_, value)| *value != Form::Nil && is_owner(value))
        }
        other => is_done(other),
    }
}
