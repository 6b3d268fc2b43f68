//! From operations to events: what each operation says, and what of it is not taken as it is.

use crate::changes::{Change, Changes};
use crate::convert::Options;
use crate::events::{Entry, Event, Kind, NemesisEvent, Said, is_nemesis, name_of, said};
use crate::failures::{Failures, error_of};
use crate::form::Form;
use crate::functions::{
    function, has_instant, is_done, is_object, is_owner, is_value, shape_words,
};
use crate::holding::{Holding, names_owner, owned_objects};
use crate::operations::{Operation, Refused};
use finder::{Function, Shape, function_names};
use std::collections::{HashMap, HashSet};

/// An operation that is outstanding.
struct Call {
    function: &'static Function,
    object: Form,
    argument: Said,
    /// The owner that it names, if it acquires or releases, or nil.
    owner: Form,
    place: usize,
}

/// What was read so far.
struct State<'a> {
    options: &'a Options,
    is_keyed: bool,
    /// The objects that keep their owners.
    owned: HashSet<Form>,
    open: HashMap<Form, Call>,
    /// The processes of which an operation has ended with `:info`.
    ended: HashMap<Form, Ended>,
    holding: Holding,
    failures: Failures,
    changes: Changes,
}

/// A process of which an operation has ended with `:info`: after it, it is another one.
struct Ended {
    /// How many processes of the text it has been.
    life: i64,
    /// Whether its last operation has ended so.
    is_now: bool,
}

/// An operation at its place, with its line.
#[derive(Clone, Copy)]
struct At<'a> {
    map: &'a Form,
    place: usize,
    line: usize,
}

/// The keys that are read. `:error` is that of a failed operation.
const KEYS: [&str; 8] = ["process", "type", "f", "value", "object", "time", "index", "error"];

/// Whether a keyword of this name is one of those that the other commands read.
fn is_readable(name: &str) -> bool {
    let is_part = |it: char| it.is_ascii_alphanumeric() || "-_.?!".contains(it);
    name.starts_with(|it: char| it.is_ascii_alphabetic())
        && name.len() <= 64
        && name.chars().all(is_part)
}

/// The sentence for an `:f` that is not one of the functions.
fn no_function(f: &Form) -> String {
    match f {
        Form::Nil => format!(":f is missing; it must be one of {}", function_names()),
        Form::Symbol(word) if function(word, false).is_some() => {
            format!("the symbol {word} cannot be an :f: write the keyword :{word}")
        }
        other => format!("{other} is not one of the functions {}", function_names()),
    }
}

fn argument_of(shape: Shape, form: &Form) -> Option<Said> {
    match (shape, form) {
        (Shape::Nothing, Form::Nil) => Some(Said::Nil),
        (Shape::Owner, owner) => is_owner(owner).then_some(Said::Nil),
        (Shape::Number, Form::Int(_)) => Some(Said::One(form.clone())),
        (Shape::Value, value) if is_value(value) => Some(Said::One(value.clone())),
        (Shape::Pair, pair) => {
            let (first, second) =
                pair.as_pair().filter(|(first, second)| is_value(first) && is_value(second))?;
            Some(Said::Two(first.clone(), second.clone()))
        }
        (Shape::Triple, Form::Vector(items)) => match &items[..] {
            [first, second, third] if items.iter().all(is_value) => {
                Some(Said::Three(first.clone(), second.clone(), third.clone()))
            }
            _ => None,
        },
        _ => None,
    }
}

fn reply_of(shape: Shape, form: &Form, argument: &Said) -> Option<Said> {
    match (shape, form) {
        (Shape::Done, done) if is_done(done) => Some(argument.clone()),
        (Shape::Done, value) => argument_of(Shape::Value, value).filter(|it| it == argument),
        (Shape::Content | Shape::NumberOrNothing, Form::Nil) => Some(Said::Nil),
        (Shape::Content, value) => argument_of(Shape::Value, value),
        (Shape::NumberOrNothing, value) => argument_of(Shape::Number, value),
        (Shape::Silent, done) if is_done(done) => Some(Said::Nil),
        (Shape::Silent, repeated) => {
            let shapes = [Shape::Value, Shape::Pair].into_iter();
            let mut repeats = shapes.filter_map(|shape| argument_of(shape, repeated));
            repeats.any(|it| it == *argument).then_some(Said::Nil)
        }
        (Shape::Flag, Form::Bool(flag)) => Some(if *flag { Said::True } else { Said::False }),
        (Shape::Flag, _) => None,
        (Shape::Swapped, Form::Bool(false)) => Some(Said::False),
        (Shape::Swapped, Form::Bool(true)) => Some(argument.clone()),
        (Shape::Swapped, pair) => argument_of(Shape::Pair, pair).filter(|it| it == argument),
        (shape, said) => argument_of(shape, said),
    }
}

/// Whether the values of a history can only be tuples `[key value]`: a function without an argument
/// has `[key nil]`, or one of a pair has `[key [a b]]`.
fn has_tuples(all: &[Operation]) -> bool {
    all.iter().any(|Operation { map, .. }| {
        let named = name_of(map.get("f"));
        let Some(function) = named.and_then(|name| function(name, false)) else {
            return false;
        };
        let is_invoked =
            name_of(map.get("type")) == Some("invoke") && !is_nemesis(said(map, "process"));
        let Some((_, second)) = said(map, "value").as_pair().filter(|_| is_invoked) else {
            return false;
        };
        match function.argument {
            Shape::Nothing | Shape::Owner => {
                *second == Form::Nil || function.argument == Shape::Owner
            }
            Shape::Pair => second.as_pair().is_some(),
            Shape::Triple => matches!(second, Form::Vector(items) if items.len() == 3),
            _ => false,
        }
    })
}

/// What the operation says that it is on, if it says that, and its value without the key.
pub fn object_and_value(map: &Form, is_keyed: bool) -> Result<(Option<Form>, &Form), String> {
    let (object, value) = (said(map, "object"), said(map, "value"));
    if !is_keyed {
        return Ok(((*object != Form::Nil).then(|| object.clone()), value));
    }
    if *object != Form::Nil {
        return Err("it has both a key and an :object".to_owned());
    }
    Ok(value.as_pair().map_or((None, value), |(key, value)| (Some(key.clone()), value)))
}

impl<'a> State<'a> {
    fn new(all: &[Operation], options: &'a Options) -> State<'a> {
        let is_keyed = options.is_independent || has_tuples(all);
        State {
            options,
            is_keyed,
            owned: owned_objects(all, is_keyed),
            open: HashMap::new(),
            ended: HashMap::new(),
            holding: Holding::default(),
            failures: Failures::default(),
            changes: Changes::default(),
        }
    }

    fn refuse_value(&self, value: &Form, function: &Function, shape: Shape, what: &str) -> String {
        let advice = if has_instant(value) {
            ". Equal instants may be spelled differently: record a string"
        } else if what == "argument" && function.kind.has_owner() && is_done(value) {
            ". It names no owner"
        } else if self.is_keyed || value.as_pair().is_none() {
            ""
        } else {
            ". If it is a tuple of jepsen.independent, use --independent"
        };
        format!(
            "{value} cannot be the {what} of :{}, which is {}{advice}",
            function.name,
            shape_words(shape)
        )
    }

    /// The function of this name on an object, or on one that keeps its owner.
    fn function(&mut self, at: At, keeps_owner: bool) -> Result<&'static Function, String> {
        let f = said(at.map, "f");
        let name = name_of(Some(f)).unwrap_or_default();
        let function = function(name, keeps_owner).ok_or_else(|| no_function(f))?;
        if function.name != name {
            let renamed = || format!(":{name}, which is :{} in the text", function.name);
            self.changes.note(Change::Function, at.line, renamed);
        }
        Ok(function)
    }

    /// The object of an invocation, and its value without the key.
    fn object_of<'m>(&mut self, at: At<'m>) -> Result<(Form, &'m Form), String> {
        let (object, value) = object_and_value(at.map, self.is_keyed)?;
        if self.is_keyed && object.is_some() {
            self.changes.note(Change::Tuple, at.line, || said(at.map, "value").to_string());
        }
        match object {
            Some(object) if is_object(&object) => Ok((object, value)),
            Some(object) => Err(format!(
                "{object} cannot be an object or key: it has a number, pattern or instant of which equal ones may be spelled differently"
            )),
            None if self.is_keyed => {
                Err(format!("{value} is not a tuple [key value], unlike other values"))
            }
            None => Ok((Form::Int(0), value)),
        }
    }

    /// The process as which this one goes on, if its last operation may still happen.
    fn going_on(&mut self, process: &Form, at: At) -> Form {
        if let Some(ended) = self.ended.get_mut(process).filter(|it| it.is_now) {
            ended.is_now = false;
            ended.life += 1;
            self.changes.note(Change::GoesOn, at.line, || process.to_string());
        }
        self.life_of(process)
    }

    /// The process of the text: after `:info` it is another one.
    fn life_of(&self, process: &Form) -> Form {
        match self.ended.get(process) {
            Some(Ended { life: life @ 2.., .. }) => {
                Form::Vector(vec![process.clone(), Form::Int(*life)])
            }
            _ => process.clone(),
        }
    }

    /// The argument of a call that acquires or releases, of an object that keeps its owner or of
    /// another one.
    fn argument_of_holder(&mut self, function: &Function, value: &Form, at: At) -> Option<Said> {
        if function.kind.has_owner() {
            return names_owner(value).then(|| Said::One(value.clone()));
        }
        let argument = argument_of(function.argument, value)?;
        let change = match value {
            Form::Nil => return Some(argument),
            owner if names_owner(owner) => Change::Owner,
            Form::Str(_) | Form::Keyword(_) => Change::NoOwner,
            _ => Change::Reply,
        };
        self.changes.note(change, at.line, || format!("{value} of :{}", function.name));
        Some(argument)
    }

    fn invocation(&mut self, process: &Form, at: At) -> Result<Event, String> {
        let (object, value) = self.object_of(at)?;
        let keeps_owner = self.options.has_owners || self.owned.contains(&object);
        let function = self.function(at, keeps_owner)?;
        let is_holder = function.holds().is_some();
        let argument = if is_holder {
            self.argument_of_holder(function, value, at)
        } else {
            argument_of(function.argument, value)
        };
        let argument = argument
            .ok_or_else(|| self.refuse_value(value, function, function.argument, "argument"))?;
        if self.options.checks_owners && function.holds() == Some(false) {
            self.holding.check_release(process, &object, value)?;
        }
        if self.open.contains_key(process) {
            return Err(format!("process {process} already has an operation outstanding"));
        }
        let owner = if is_holder { value.clone() } else { Form::Nil };
        let (value, of_call) = (argument.clone(), object.clone());
        self.open
            .insert(process.clone(), Call { function, object, argument, owner, place: at.place });
        Ok(Event {
            process: self.going_on(process, at),
            kind: Kind::Invoke,
            function,
            value,
            object: of_call,
            at: (at.line, at.place),
            marks: Vec::new(),
        })
    }

    /// What a failed operation replied, if it is a reply that nothing was there, or another
    /// content.
    fn reply_of_failure(
        &mut self,
        function: &'static Function,
        value: &Form,
        at: At,
    ) -> Option<Said> {
        let replies = &self.options.replies;
        let error = error_of(at.map, function, value);
        if error.map_or(replies.has_none(function), |error| replies.has(error)) {
            let reply = function.of_nothing.map(Said::from)?;
            self.changes.note(Change::FailedReply, at.line, || format!(":{}", function.name));
            return Some(reply);
        }
        self.failures.note(function, error.unwrap_or(&Form::Nil), at.line);
        None
    }

    /// A completion is on the object of its call, and in a history of tuples says so if it has a
    /// reply.
    fn check_object(
        &mut self,
        object: Option<Form>,
        value: &Form,
        kind: Kind,
        call: &Call,
        at: At,
    ) -> Result<(), String> {
        match object {
            None if self.is_keyed && kind == Kind::Ok => {
                Err(format!("{value} is not a tuple [key value], unlike other values"))
            }
            Some(object) if object != call.object && (kind == Kind::Ok || !self.is_keyed) => {
                Err(format!(
                    "{object} is not the object of its invocation, operation {}: {}",
                    call.place, call.object
                ))
            }
            None if !self.is_keyed && call.object != Form::Int(0) => {
                self.changes.note(Change::Object, at.line, || format!("one on {}", call.object));
                Ok(())
            }
            _ => Ok(()),
        }
    }

    /// The reply of a call.
    fn reply(&mut self, call: &Call, value: &Form, at: At) -> Result<Said, String> {
        let function = call.function;
        let is_holder = function.holds().is_some();
        let reply = if !is_holder {
            reply_of(function.reply, value, &call.argument)
        } else {
            (is_done(value) || is_owner(value) || *value == call.owner).then_some(Said::Nil)
        };
        let reply =
            reply.ok_or_else(|| self.refuse_value(value, function, function.reply, "reply"))?;
        let example = || format!("{value} of :{}", function.name);
        if is_holder && names_owner(value) && *value != call.owner {
            self.changes.note(Change::Token, at.line, example);
        } else if reply.form() != *value {
            self.changes.note(Change::Reply, at.line, example);
        }
        Ok(reply)
    }

    /// The value of a completion that has no reply, which is not judged. It mostly repeats the
    /// argument.
    fn value_without_reply(&mut self, call: &Call, value: &Form, at: At) -> Said {
        if ![&Form::Nil, &call.argument.form(), &call.owner].contains(&value) {
            self.changes.note(Change::Value, at.line, || value.to_string());
        }
        Said::Nil
    }

    /// Takes in that a call has ended: what its client holds then, and that its process may not go
    /// on.
    fn note_end(&mut self, process: &Form, kind: Kind, call: &Call, value: &Form) {
        match kind {
            Kind::Ok => {
                let owner = if names_owner(&call.owner) { &call.owner } else { value };
                self.holding.note(process, &call.object, call.function, owner.clone());
            }
            Kind::Info => {
                let first = Ended { life: 1, is_now: true };
                self.ended.entry(process.clone()).or_insert(first).is_now = true;
            }
            Kind::Invoke | Kind::Fail => {}
        }
    }

    fn completion(&mut self, process: &Form, kind: Kind, at: At) -> Result<Event, String> {
        let (said_object, value) = object_and_value(at.map, self.is_keyed)?;
        let call = self
            .open
            .remove(process)
            .ok_or_else(|| format!("process {process} has no operation to complete"))?;
        let function = self.function(at, call.function.kind.has_owner())?;
        if call.function != function {
            return Err(format!(
                ":{} cannot complete :{}, operation {}",
                function.name, call.function.name, call.place
            ));
        }
        self.check_object(said_object, value, kind, &call, at)?;
        let failed_reply = (kind == Kind::Fail).then(|| self.reply_of_failure(function, value, at));
        let (kind, reply) = match (kind, failed_reply.flatten()) {
            (_, Some(reply)) => (Kind::Ok, reply),
            (Kind::Ok, None) => (kind, self.reply(&call, value, at)?),
            (_, None) => (kind, self.value_without_reply(&call, value, at)),
        };
        self.note_end(process, kind, &call, value);
        Ok(Event {
            process: self.life_of(process),
            kind,
            function,
            value: reply,
            object: call.object,
            at: (at.line, at.place),
            marks: Vec::new(),
        })
    }

    /// The marks of a map that are written as they are.
    fn marks(&mut self, at: At) -> Vec<(&'static str, i64)> {
        let mut mark = |key: &'static str| match said(at.map, key) {
            Form::Int(number) => Some((key, *number)),
            Form::Nil => None,
            other => {
                self.changes.note(Change::Mark, at.line, || format!(":{key} {other}"));
                None
            }
        };
        ["time", "index"].into_iter().filter_map(&mut mark).collect()
    }

    /// Counts the keys of a map that are not read.
    fn note_keys(&mut self, at: At) {
        let Form::Map(entries) = at.map else { return };
        let is_read = |key: &Form| matches!(key, Form::Keyword(name) if KEYS.contains(&&name[..]));
        for (key, _) in entries.iter().filter(|(key, _)| !is_read(key)) {
            self.changes.note(Change::Key, at.line, || key.to_string());
        }
        if matches!(at.map.get("object"), Some(Form::Nil)) {
            self.changes.note(Change::NilObject, at.line, || "nil".to_owned());
        }
    }

    fn nemesis_event(&mut self, process: &Form, at: At) -> NemesisEvent {
        let f = said(at.map, "f");
        let function = name_of(Some(f)).filter(|name| is_readable(name));
        let value = said(at.map, "value");
        for (dropped, is_dropped) in [(f, function.is_none()), (value, true)] {
            if is_dropped && *dropped != Form::Nil {
                self.changes.note(Change::Nemesis, at.line, || dropped.to_string());
            }
        }
        let (change, is_noted) = match process {
            Form::Keyword(name) => (Change::NoClient, name != "nemesis"),
            _ => (Change::NemesisName, true),
        };
        if is_noted {
            self.changes.note(change, at.line, || process.to_string());
        }
        NemesisEvent { function: function.map(str::to_owned), marks: self.marks(at) }
    }

    fn event(&mut self, at: At) -> Result<Entry, String> {
        let process = said(at.map, "process");
        self.note_keys(at);
        if is_nemesis(process) {
            return Ok(Entry::OfNemesis(self.nemesis_event(process, at)));
        }
        if !matches!(process, Form::Int(0..) | Form::Str(_)) {
            return Err(format!(
                "{process} cannot be a :process, which is an integer of at least 0, a string, or a keyword"
            ));
        }
        let (f, kind) = (said(at.map, "f"), said(at.map, "type"));
        name_of(Some(f)).and_then(|name| function(name, false)).ok_or_else(|| no_function(f))?;
        let kind = Kind::read(kind).ok_or_else(|| {
            format!("{kind} cannot be a :type, which is :invoke, :ok, :fail or :info")
        })?;
        let event = match kind {
            Kind::Invoke => self.invocation(process, at)?,
            _ => self.completion(process, kind, at)?,
        };
        let marks = self.marks(at);
        Ok(Entry::OfClient(Event { marks, ..event }))
    }
}

/// What was read: the events, and what the user should know of them.
pub struct Events {
    pub all: Vec<Entry>,
    pub failures: Failures,
    pub changes: Changes,
}

/// The events of operations.
pub fn events_of(all: &[Operation], options: &Options) -> Result<Events, Refused> {
    let mut state = State::new(all, options);
    let mut event = |(place, Operation { line, map }): (usize, &Operation)| {
        let refused = |why| Refused { line: *line, why: format!("operation {place}: {why}") };
        state.event(At { map, place, line: *line }).map_err(refused)
    };
    let events = all.iter().enumerate().map(&mut event).collect::<Result<_, _>>()?;
    Ok(Events { all: events, failures: state.failures, changes: state.changes })
}
