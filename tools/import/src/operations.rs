//! The operations of a file: maps of EDN, one after another or in one vector, as in `history.edn`
//! of a Jepsen store; or objects of JSON, one after another, as in lines, or in one array.

use crate::edn::{Malformed, Reader};
use crate::form::{Form, is_class};
use crate::json;
use std::fmt::{self, Display, Formatter};

/// Why a history is not imported, and at which line of the file.
#[derive(Clone, Debug, PartialEq, Eq)]
pub struct Refused {
    pub line: usize,
    pub why: String,
}

impl Display for Refused {
    fn fmt(&self, f: &mut Formatter<'_>) -> fmt::Result {
        write!(f, "line {}: {}", self.line, self.why)
    }
}

impl From<Malformed> for Refused {
    fn from(Malformed { line, why }: Malformed) -> Refused {
        Refused { line, why }
    }
}

/// An operation map, and the line at which it begins, counted from 1.
#[derive(Clone, Debug, PartialEq, Eq)]
pub struct Operation {
    pub line: usize,
    pub map: Form,
}

const EXPECTED: &str = "expected are maps as {:process 0, :type :invoke, :f :read, :value nil}, one after another or in one vector, \
as in history.edn of a Jepsen store, or objects of JSON with the same keys, one after another or in one array";

fn operation(line: usize, form: Form) -> Result<Operation, Refused> {
    match form {
        Form::Map(_) => Ok(Operation { line, map: form }),
        Form::Tagged(tag, map) if is_class(&tag) && matches!(*map, Form::Map(_)) => {
            Ok(Operation { line, map: *map })
        }
        other => Err(Refused { line, why: format!("no map: {other}; {EXPECTED}") }),
    }
}

fn of_json(text: &str) -> Result<Vec<Operation>, Refused> {
    let refused = |it: json::NoValue| Refused {
        line: it.line,
        why: it.why.unwrap_or_else(|| format!("no value of JSON; {EXPECTED}")),
    };
    let all = json::read_all(text).map_err(refused)?;
    all.into_iter().map(|(line, form)| operation(line, form)).collect()
}

/// The operations after a vector of them has ended: there may be none.
fn ended(reader: &mut Reader<'_>, all: Vec<Operation>) -> Result<Vec<Operation>, Refused> {
    match reader.form()? {
        None => Ok(all),
        Some(more) => Err(Refused {
            line: reader.line(),
            why: format!("after the vector of operations comes {more}; {EXPECTED}"),
        }),
    }
}

fn of_forms(text: &str) -> Result<Vec<Operation>, Refused> {
    let mut reader = Reader::new(text);
    let expected =
        |it: Malformed| Refused { line: it.line, why: format!("{}; {EXPECTED}", it.why) };
    reader.pass().map_err(expected)?;
    let close = reader.enter();
    let mut all = Vec::new();
    loop {
        reader.pass().map_err(expected)?;
        let line = reader.line();
        if close.is_some_and(|close| reader.leave(close)) {
            return ended(&mut reader, all);
        }
        match reader.form().map_err(expected)? {
            Some(form) => all.push(operation(line, form)?),
            None if close.is_some() => {
                return Err(Refused {
                    line,
                    why: "the text ends inside the vector of operations".to_owned(),
                });
            }
            None => return Ok(all),
        }
    }
}

/// The operations of a text.
pub fn operations(text: &str) -> Result<Vec<Operation>, Refused> {
    if text.starts_with('\u{feff}') {
        return Err(Refused { line: 1, why: "a byte order mark: remove it".to_owned() });
    }
    if json::is_json(text) { of_json(text) } else { of_forms(text) }
}
