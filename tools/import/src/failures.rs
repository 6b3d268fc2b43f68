//! Failed operations that say that nothing was there, and failed `:cas`, which may say that there
//! was another value. A failed operation is not part of a history, so it cannot show that a store
//! is wrongly empty, or refuses wrongly. So either such operations are replies, as the user says,
//! or `import` warns how many there are.

use crate::form::Form;
use finder::{Function, OfNothing, Shape};
use std::collections::HashMap;
use std::fmt::Write;

/// The errors of a failed operation that is a reply. By default there are none.
#[derive(Clone, Debug, Default, PartialEq, Eq)]
pub struct Replies(Vec<Form>);

/// The word of a name: `:not-found`, `"not found"` and `NOT_FOUND` have the same.
fn word_of(name: &Form) -> Option<String> {
    let (Form::Keyword(text) | Form::Str(text) | Form::Symbol(text)) = name else {
        return None;
    };
    Some(text.trim_start_matches(':').to_lowercase().replace(['_', ' '], "-"))
}

/// The word of an error: of a vector or list, as `[:empty "jobs"]`, that of its first item.
fn word_of_error(error: &Form) -> Option<String> {
    match error.of_record() {
        Form::Vector(items) => word_of(items.first()?),
        other => word_of(other),
    }
}

impl Replies {
    /// `:empty` and `:not-found`.
    pub fn usual() -> Replies {
        Replies(["empty", "not-found"].map(|it| Form::Keyword(it.to_owned())).into())
    }

    /// This error, or the errors of this set. Nil stands for none.
    pub fn of(errors: Form) -> Replies {
        match errors {
            Form::Set(errors) => Replies(errors),
            error => Replies(vec![error]),
        }
    }

    /// Whether a failed operation with this error is a reply.
    pub fn has(&self, error: &Form) -> bool {
        let word = word_of_error(error);
        self.0.iter().any(|own| own == error || (word.is_some() && word_of(own) == word))
    }

    /// Whether a failed call of this function without an error is a reply. A read is written so if
    /// there was no answer.
    pub fn has_none(&self, function: &Function) -> bool {
        self.0.contains(&Form::Nil) && !function.only_looks()
    }
}

/// What a failed operation says of itself: its `:error`, or its value, such as `:exhausted`, if its
/// function takes none.
pub fn error_of<'a>(map: &'a Form, function: &Function, value: &'a Form) -> Option<&'a Form> {
    let error = map.get("error").filter(|error| **error != Form::Nil);
    let is_word = function.argument == Shape::Nothing && word_of(value).is_some();
    error.or_else(|| is_word.then_some(value))
}

/// Words of errors that mostly say that nothing was there.
const OF_NOTHING: [&str; 7] =
    ["empty", "not-found", "exhausted", "drained", "no-such", "nothing", "missing"];

/// Words of errors that mostly say that there was no answer.
const OF_NO_ANSWER: [&str; 9] = [
    "timeout",
    "timed-out",
    "connect",
    "closed",
    "socket",
    "network",
    "unreachable",
    "unavailable",
    "leader",
];

fn has_one_of(error: &Form, words: &[&str]) -> bool {
    let text = word_of(&Form::Str(error.to_string())).unwrap_or_default();
    words.iter().any(|word| text.contains(word))
}

/// Whether the store may have answered with this failure that nothing was there, or another value.
fn may_be_reply(function: &Function, error: &Form) -> bool {
    match function.of_nothing {
        None => false,
        Some(OfNothing::Nil) => has_one_of(error, &OF_NOTHING),
        Some(OfNothing::False) => !has_one_of(error, &OF_NO_ANSWER),
    }
}

/// Operations of a function that failed with an error, or nil if there was none.
struct Failure {
    function: &'static Function,
    error: Form,
    line: usize,
    count: usize,
}

/// What errors of the same sort have in common: the word, or the error if it has none.
#[derive(PartialEq, Eq, Hash)]
enum Sort {
    Word(String),
    Error(Form),
}

impl Sort {
    fn of(error: &Form) -> Sort {
        word_of_error(error).map_or_else(|| Sort::Error(error.clone()), Sort::Word)
    }
}

/// The failed operations that may be replies, and were not read as such.
#[derive(Default)]
pub struct Failures {
    all: Vec<Failure>,
    /// The places of functions and of sorts of errors among them.
    places: HashMap<(&'static str, Sort), usize>,
}

/// How many errors are named, and how many are distinguished.
const MOST_NAMED: usize = 5;
const MOST_KEPT: usize = 100;

impl Failures {
    /// Takes in a failed operation that is no reply.
    pub fn note(&mut self, function: &'static Function, error: &Form, line: usize) {
        if !may_be_reply(function, error) {
            return;
        }
        let key = (function.name, Sort::of(error));
        match self.places.get(&key) {
            Some(place) => self.all[*place].count += 1,
            None if self.all.len() == MOST_KEPT => {}
            None => {
                self.places.insert(key, self.all.len());
                self.all.push(Failure { function, error: error.clone(), line, count: 1 });
            }
        }
    }

    /// The option by which they are replies, beside those that are.
    fn option(&self, replies: &Replies) -> String {
        let mut errors = replies.0.clone();
        for Failure { error, .. } in self.all.iter().take(MOST_NAMED) {
            let error = match error {
                Form::Vector(items) if word_of_error(error).is_some() => &items[0],
                error => error,
            };
            if !errors.contains(error) {
                errors.push(error.clone());
            }
        }
        let usual = Replies::usual();
        if errors.iter().all(|error| usual.has(error)) {
            return "--fail-is-reply".to_owned();
        }
        let errors = match &errors[..] {
            [error] => error.clone(),
            _ => Form::Set(errors),
        };
        format!("--fail-is-reply='{}'", errors.to_string().replace('\'', "'\\''"))
    }

    /// The sentence for these failures, if there are some.
    pub fn warning(mut self, replies: &Replies) -> Option<String> {
        self.all.sort_by_key(|it| std::cmp::Reverse(it.count));
        let mut said = String::new();
        for Failure { function, error, line, count } in self.all.iter().take(MOST_NAMED) {
            let comma = if said.is_empty() { "" } else { ", " };
            let _ = write!(said, "{comma}{count} failed :{} ", function.name);
            let _ = match error {
                Form::Nil => write!(said, "without :error"),
                error => write!(said, "with {error}"),
            };
            let _ = write!(said, " (first in line {line})");
        }
        if self.all.len() > MOST_NAMED {
            let _ = write!(said, ", and others");
        }
        (!said.is_empty()).then(|| {
            format!(
                "left out: {said}. If this was the store's answer, use {}: it makes each a reply of nil (of a :cas: false), so that \
                 wrong ones are found",
                self.option(replies)
            )
        })
    }
}
