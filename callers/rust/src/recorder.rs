//! Records the calls of threads on concurrent objects, as a history for fcbench. Copy this file.
//!
//! ```ignore
//! let recorder = Recorder::new();
//! let mut journals = [recorder.journal(), recorder.journal()]; // before the threads, one for each
//! // in a thread, which borrows its journal:
//! journal.call("enqueue", value, || queue.enqueue(value));
//! journal.call("dequeue", (), || queue.dequeue());
//! // after the threads have ended:
//! let text = recorder.history(&journals);
//! ```
//!
//! An atomic counter gives a ticket before each call and one after it. A thread writes into its own journal and takes no lock.
//! The events in the order of their tickets are the history: if it shows one call returning before another was invoked, that is
//! what happened. So a history that is not linearizable shows that the object is not.
//!
//! Calls that never overlap show no fault. So after one ticket of an invocation in eight the thread yields, which leaves room for
//! another thread: `Recorder::without_yields` turns this off. `overlap` says how much the calls of the journals overlapped.
//!
//! A journal that is dropped, or not handed to `history`, takes its calls with it: `history` panics then.
//!
//! The reply of `enqueue`, `push`, `insert` and `write` is their argument: if the call returns nothing, it is written. If it returns
//! anything else, such as a length, drop it by `|| { queue.push(v); }`: `history` panics at another reply.
//!
//! The reply of `put` and `del` is what was there before, or `None` if nothing was: a store that does not report it has `assoc` and
//! `dissoc`, whose reply is nothing. So is that of `clear`, `acquire`, `release`, `lock` and `unlock`. That of `add`, `remove`, `contains`,
//! `create`, `put-if-absent` and `replace` is a `bool`, and that of `fetch-add` the number before.
//!
//! What a call was may be known only when it has returned, as a put-if-absent that gives the value that it found, which is a `get` then.
//! `invoke` it as `put-if-absent`, since if it times out, it may have put, and end it with `returned_as`.
//!
//! An empty queue is a reply, not a failure: if `pop` gives a `Result`, record `journal.call("dequeue", (), || queue.pop().ok())`.
//!
//! A call that does not return, such as one that panics or times out, may have happened: its operation ends with `:info`, and the
//! journal goes on as a new process, as Jepsen's threads do. Use `failed` and an error of `try_call` only if the call definitely
//! did not happen: if a call that timed out is written as failed, a correct queue gets a no.
//!
//! Threads that are not scoped take a recorder that is leaked, a new one for each history:
//!
//! ```ignore
//! let recorder: &'static Recorder = Box::leak(Box::new(Recorder::new()));
//! ```

// A test that copies this file calls only some of it.
#![allow(dead_code)]

use std::collections::{BTreeMap, BTreeSet};
use std::fmt::{self, Display, Write};
use std::ptr;
use std::sync::atomic::{AtomicU64, Ordering};
use std::thread;

/// An argument or a reply.
#[derive(Clone, Copy, Debug, PartialEq, Eq)]
pub enum Value {
    /// No reply, as a call gives that returns `()`: it is enough for functions whose reply is known, as `enqueue` and `acquire`. As an
    /// argument it is nothing.
    NotGiven,
    /// Nothing, as the argument of `dequeue`, and its reply if the queue is empty.
    Nil,
    /// The reply of an operation that did not take place, as of a `cas` that found another value, or of a question that is not so.
    False,
    /// The reply of one that did, as of an `add`.
    True,
    /// What is enqueued, read, written and so on.
    Number(i64),
    /// The argument of `put`, a key and a value, and that of `cas`.
    Pair(i64, i64),
    /// The argument of `replace`: a key, what is expected and what is new.
    Triple(i64, i64, i64),
}

impl Value {
    /// A number of any type that may fit in `i64`.
    ///
    /// # Panics
    ///
    /// If the number does not fit.
    #[must_use]
    pub fn number(number: impl TryInto<i64>) -> Value {
        Value::Number(fitting(number))
    }

    /// The argument of `put`, a key and a value; or that of `cas`, what is expected and what is new.
    ///
    /// The reply of a `cas` is this pair if it swapped, or `true`, else `false`.
    ///
    /// # Panics
    ///
    /// If a number does not fit in `i64`.
    #[must_use]
    pub fn pair(first: impl TryInto<i64>, second: impl TryInto<i64>) -> Value {
        Value::Pair(fitting(first), fitting(second))
    }

    /// The argument of `replace`: a key, what is expected and what is new.
    ///
    /// # Panics
    ///
    /// If a number does not fit in `i64`.
    #[must_use]
    pub fn triple(key: impl TryInto<i64>, expected: impl TryInto<i64>, new: impl TryInto<i64>) -> Value {
        Value::Triple(fitting(key), fitting(expected), fitting(new))
    }
}

/// What a call gives, and the value that is written of it. Implement it for a type of your own, or use `call_as`.
///
/// The argument of a call is what `Value::from` takes, before the call. Implement `From<Job> for Value` for a type `Job` of your own that
/// is `Copy`; of another type pass a number.
pub trait Reply {
    /// The value that is written.
    fn value(&self) -> Value;
}

fn fitting(number: impl TryInto<i64>) -> i64 {
    number.try_into().unwrap_or_else(|_| panic!("a number does not fit in i64"))
}

// A number that does not fit in `i64` panics.
macro_rules! numbers {
    ($($number:ty)*) => { $(
        impl From<$number> for Value {
            fn from(number: $number) -> Value {
                Value::number(number)
            }
        }

        impl Reply for $number {
            fn value(&self) -> Value {
                Value::from(*self)
            }
        }
    )* };
}

numbers!(i8 i16 i32 i64 i128 isize u8 u16 u32 u64 u128 usize);

impl From<bool> for Value {
    fn from(is_so: bool) -> Value {
        if is_so { Value::True } else { Value::False }
    }
}

impl Reply for bool {
    fn value(&self) -> Value {
        Value::from(*self)
    }
}

impl From<()> for Value {
    fn from(_nothing: ()) -> Value {
        Value::NotGiven
    }
}

impl<T: Into<Value>> From<Option<T>> for Value {
    fn from(number: Option<T>) -> Value {
        number.map_or(Value::Nil, T::into)
    }
}

impl Reply for () {
    fn value(&self) -> Value {
        Value::NotGiven
    }
}

impl Reply for Value {
    fn value(&self) -> Value {
        *self
    }
}

impl<T: Reply> Reply for Option<T> {
    fn value(&self) -> Value {
        self.as_ref().map_or(Value::Nil, T::value)
    }
}

impl<T: Reply + ?Sized> Reply for &T {
    fn value(&self) -> Value {
        T::value(self)
    }
}

impl<T: Reply + ?Sized> Reply for Box<T> {
    fn value(&self) -> Value {
        T::value(self)
    }
}

impl Display for Value {
    fn fmt(&self, f: &mut fmt::Formatter) -> fmt::Result {
        match self {
            Value::Nil | Value::NotGiven => f.write_str("nil"),
            Value::False => f.write_str("false"),
            Value::True => f.write_str("true"),
            Value::Number(number) => write!(f, "{number}"),
            Value::Pair(first, second) => write!(f, "[{first} {second}]"),
            Value::Triple(first, second, third) => write!(f, "[{first} {second} {third}]"),
        }
    }
}

#[derive(Clone, Copy, Debug)]
enum Kind {
    Invoke,
    Ok,
    Fail,
    Info,
}

impl Display for Kind {
    fn fmt(&self, f: &mut fmt::Formatter) -> fmt::Result {
        f.write_str(match self {
            Kind::Invoke => "invoke",
            Kind::Ok => "ok",
            Kind::Fail => "fail",
            Kind::Info => "info",
        })
    }
}

#[derive(Clone, Copy, Debug)]
struct Event {
    ticket: u64,
    process: u64,
    object: u16,
    kind: Kind,
    function: &'static str,
    value: Value,
}

impl Event {
    /// Whether the reply of the function is its argument.
    fn is_put(&self) -> bool {
        matches!(self.function, "enqueue" | "push" | "insert" | "write")
    }

    /// Whether the reply of the function is nil.
    fn is_silent(&self) -> bool {
        matches!(self.function, "acquire" | "release" | "lock" | "unlock" | "assoc" | "dissoc" | "clear")
    }

    /// Whether the reply of the function is true or false.
    fn is_question(&self) -> bool {
        matches!(self.function, "add" | "remove" | "contains" | "create" | "put-if-absent" | "replace")
    }

    fn reply(&self, reply: Value) -> Value {
        let took_place = reply == Value::True && self.function == "cas";
        if took_place || matches!(reply, Value::Nil | Value::NotGiven) && self.is_put() {
            return self.value;
        }
        reply
    }
}

impl Display for Event {
    fn fmt(&self, f: &mut fmt::Formatter) -> fmt::Result {
        let Event { ticket: _, process, object, kind, function, value } = self;
        write!(f, "{{:process {process}, :type :{kind}, :f :{function}, :value {value}, :object {object}}}")
    }
}

/// Gives the tickets, and the numbers of processes. One recorder makes one history.
#[derive(Debug)]
pub struct Recorder {
    tickets: AtomicU64,
    processes: AtomicU64,
    yields: bool,
}

/// A thread yields after one ticket of an invocation in this many.
const CALLS_TO_A_YIELD: u64 = 8;

/// How much calls overlapped.
#[derive(Clone, Copy, Debug, PartialEq)]
pub struct Overlap {
    /// Which share of the calls overlapped another one, from 0 to 1. If it is small, the history could hardly have failed.
    pub share: f64,
    /// How many calls were outstanding at once at most.
    pub at_once: usize,
}

impl Default for Recorder {
    fn default() -> Recorder {
        Recorder::new()
    }
}

/// What one thread did.
///
/// Make the journals before the threads and lend each to its thread: a journal that is dropped takes its calls with it.
#[derive(Debug)]
pub struct Journal<'a> {
    recorder: &'a Recorder,
    process: u64,
    /// The invocation that is outstanding.
    outstanding: Option<Event>,
    events: Vec<Event>,
}

impl Recorder {
    /// A recorder that gave no ticket yet. It may be a `static`.
    #[must_use]
    pub const fn new() -> Recorder {
        Recorder { tickets: AtomicU64::new(0), processes: AtomicU64::new(0), yields: true }
    }

    /// The same, if no thread yields between the ticket of an invocation and the call.
    #[must_use]
    pub const fn without_yields() -> Recorder {
        Recorder { tickets: AtomicU64::new(0), processes: AtomicU64::new(0), yields: false }
    }

    /// A journal for one thread, or one task.
    #[must_use]
    pub fn journal(&self) -> Journal<'_> {
        Journal { recorder: self, process: next(&self.processes), outstanding: None, events: Vec::new() }
    }

    /// The history, after all threads have ended: each event at the place of its ticket.
    ///
    /// # Panics
    ///
    /// If it is not handed all journals of this recorder, also those of a history that it made before: without the calls of one of
    /// them a correct object could get a no. And if the reply of a call is to be its argument, and is not.
    #[must_use]
    pub fn history(&self, journals: &[Journal]) -> String {
        let is_own = journals.iter().all(|journal| ptr::eq(journal.recorder, self));
        assert!(is_own, "a journal of another recorder was handed in");
        let mut events: Vec<Event> = journals.iter().flat_map(|journal| journal.events.iter().copied()).collect();
        let missing = self.tickets.load(Ordering::SeqCst) - events.len() as u64;
        assert!(missing == 0, "{missing} events are missing: a journal is missing, or this recorder has already made a history");
        journals.iter().for_each(Journal::want_replies);
        events.sort_by_key(|event| event.ticket);
        let pending = journals.iter().filter_map(|journal| journal.outstanding);
        events.extend(pending.map(|call| Event { kind: Kind::Info, ..call }));
        let mut text = String::new();
        for event in events {
            let _ = writeln!(text, "{event}");
        }
        text
    }
}

/// How much the calls of these journals overlapped.
#[must_use]
pub fn overlap(journals: &[Journal]) -> Overlap {
    let mut events: Vec<&Event> = journals.iter().flat_map(|journal| &journal.events).collect();
    events.sort_by_key(|event| event.ticket);
    let (mut calls, mut at_once) = (0, 0);
    let (mut outstanding, mut overlapping) = (BTreeMap::new(), BTreeSet::new());
    for event in events {
        if !matches!(event.kind, Kind::Invoke) {
            outstanding.remove(&event.process);
            continue;
        }
        calls += 1;
        outstanding.insert(event.process, event.ticket);
        at_once = at_once.max(outstanding.len());
        match outstanding.len() {
            1 => {}
            2 => overlapping.extend(outstanding.values().copied()),
            _ => overlapping.extend([event.ticket]),
        }
    }
    let share = if calls == 0 { 0.0 } else { overlapping.len() as f64 / f64::from(calls) };
    Overlap { share, at_once }
}

impl Journal<'_> {
    /// Makes a call on object 0, and records it.
    pub fn call<R: Reply>(&mut self, function: &'static str, argument: impl Into<Value>, act: impl FnOnce() -> R) -> R {
        self.call_on(0, function, argument, act)
    }

    /// Makes a call on an object, and records it.
    pub fn call_on<R: Reply>(&mut self, object: u16, function: &'static str, argument: impl Into<Value>, act: impl FnOnce() -> R) -> R {
        self.call_as(object, function, argument, act, R::value)
    }

    /// Makes a call on an object, and records it with the reply that `value` makes of what the call gave.
    pub fn call_as<R>(
        &mut self,
        object: u16,
        function: &'static str,
        argument: impl Into<Value>,
        act: impl FnOnce() -> R,
        value: impl FnOnce(&R) -> Value,
    ) -> R {
        self.invoke(object, function, argument);
        let reply = act();
        self.end(Kind::Ok, value(&reply));
        reply
    }

    /// Makes a call on object 0 that may fail, and records it. `act` gives an error only if the call definitely did not happen.
    pub fn try_call<R: Reply, E>(
        &mut self,
        function: &'static str,
        argument: impl Into<Value>,
        act: impl FnOnce() -> Result<R, E>,
    ) -> Result<R, E> {
        self.try_call_on(0, function, argument, act)
    }

    /// Makes a call on an object that may fail, and records it. `act` gives an error only if the call definitely did not happen.
    pub fn try_call_on<R: Reply, E>(
        &mut self,
        object: u16,
        function: &'static str,
        argument: impl Into<Value>,
        act: impl FnOnce() -> Result<R, E>,
    ) -> Result<R, E> {
        self.invoke(object, function, argument);
        let reply = act();
        match &reply {
            Ok(value) => self.end(Kind::Ok, value.value()),
            Err(_) => self.failed(),
        }
        reply
    }

    /// Call it just before a call, if `call` does not suit, as in async code. Then call one of `returned`, `failed` and `gave_up`;
    /// if there is none before the next `invoke`, it is `gave_up`.
    pub fn invoke(&mut self, object: u16, function: &'static str, argument: impl Into<Value>) {
        if self.outstanding.is_some() {
            self.gave_up();
        }
        // The room is made before the ticket of an invocation is drawn.
        self.events.reserve(2);
        let (process, value) = (self.process, argument.into());
        let ticket = next(&self.recorder.tickets);
        let call = Event { ticket, process, object, kind: Kind::Invoke, function, value };
        self.events.push(call);
        self.outstanding = Some(call);
        if self.recorder.yields && mixed(ticket) % CALLS_TO_A_YIELD == 0 {
            thread::yield_now();
        }
    }

    /// Call it just after the call returned.
    ///
    /// # Panics
    ///
    /// If no call is outstanding.
    pub fn returned(&mut self, reply: impl Into<Value>) {
        self.end(Kind::Ok, reply.into());
    }

    /// Like `returned`, if it is known only now what the call was: its invocation is written with this function and argument.
    ///
    /// # Panics
    ///
    /// If no call is outstanding.
    pub fn returned_as(&mut self, function: &'static str, argument: impl Into<Value>, reply: impl Into<Value>) {
        let value = argument.into();
        let outstanding = self.outstanding.as_mut().expect("no call is outstanding");
        (outstanding.function, outstanding.value) = (function, value);
        self.end(Kind::Ok, reply.into());
        if let [.., call, _] = &mut self.events[..] {
            (call.function, call.value) = (function, value);
        }
    }

    /// Call it only if the call definitely did not happen: it is written with `:fail`. A timeout is `gave_up`.
    ///
    /// # Panics
    ///
    /// If no call is outstanding.
    pub fn failed(&mut self) {
        self.end(Kind::Fail, Value::Nil);
    }

    /// Call it if the call may have happened, or may still happen, as after a timeout: it is written with `:info`, and what
    /// follows is of another process.
    ///
    /// # Panics
    ///
    /// If no call is outstanding.
    pub fn gave_up(&mut self) {
        self.end(Kind::Info, Value::Nil);
        self.process = next(&self.recorder.processes);
    }

    /// Panics if the reply of a call is missing, or is to be its argument and is not.
    fn want_replies(&self) {
        for pair in self.events.windows(2) {
            let (call, end) = (&pair[0], &pair[1]);
            let is_missing = matches!(end.kind, Kind::Ok) && end.value == Value::NotGiven && !end.is_silent();
            assert!(!is_missing, "{} was given no reply: None says that nothing was there", end.function);
            let is_right = !matches!(end.kind, Kind::Ok) || !end.is_put() || end.value == call.value;
            let is_answered = !matches!(end.kind, Kind::Ok) || !end.is_question() || matches!(end.value, Value::True | Value::False);
            assert!(is_answered, "{} replied {}, and neither true nor false", end.function, end.value);
            let is_ok = matches!(end.kind, Kind::Ok);
            let is_nothing = matches!(end.value, Value::Nil | Value::NotGiven);
            assert!(
                !is_ok || !end.is_silent() || is_nothing,
                "{} replied {}, and its reply is nothing: one that did not take place is a call that failed",
                end.function,
                end.value
            );
            assert!(!is_ok || end.is_question() || end.value != Value::True, "{} replied true, which it cannot", end.function);
            assert!(is_right, "{} replied {} and not its argument {}: let the call give nothing", end.function, end.value, call.value);
        }
    }

    /// The ticket of a return is drawn first.
    fn end(&mut self, kind: Kind, reply: Value) {
        let call = self.outstanding.take().expect("no call is outstanding");
        let ticket = next(&self.recorder.tickets);
        let value = match kind {
            Kind::Ok => call.reply(reply),
            Kind::Fail => Value::Nil,
            Kind::Info | Kind::Invoke => call.value,
        };
        self.events.push(Event { ticket, kind, value, ..call });
    }
}

/// A number that looks drawn, for each ticket.
fn mixed(ticket: u64) -> u64 {
    ticket.wrapping_mul(0x9E37_79B9_7F4A_7C15) >> 32
}

fn next(counter: &AtomicU64) -> u64 {
    counter.fetch_add(1, Ordering::SeqCst)
}
