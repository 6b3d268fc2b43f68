//! The orders of a part's operations that were tried, each up to the operation that does not fit.

use super::content::{Content, value_reply};
use crate::timeline::{Attempt, DrawnOperation, Failure, Tried, operation_at};
use crate::words::Words;
use finder::{Kind, Op, Operation, Reply, Shape};
use std::collections::HashSet;

/// A part with more operations is not tried, and no more steps are taken.
const MOST_OPERATIONS: usize = 64;
const STEPS: usize = 2_000;

/// The most rows of the table.
const ROWS: usize = 24;

/// A way to begin: the places of operations of the part in their order, these as a set, and the
/// next one.
struct Way {
    before: Vec<usize>,
    placed: u64,
    next: usize,
}

/// Ways to begin, those that are still to be tried, and what was reached.
struct Trying<'a> {
    part: &'a [Operation],
    operations: &'a [DrawnOperation],
    kind: Kind,
    /// The operation before them all, if there is one.
    first: Option<DrawnOperation>,
    words: Words<'a>,
    ways: Vec<Way>,
    /// Which operations were placed, and with which values in the object.
    reached: HashSet<(u64, Vec<i64>)>,
    tried: Tried,
}

/// Why the operation does not fit where the object gives this; nothing if it fits.
fn failure_of(invocation: &Operation, gives: Option<Reply>) -> Option<Failure> {
    match (gives, invocation.reply()) {
        (None, _) => Some(Failure::NotPossible),
        (Some(gives), Some(reply)) if reply != gives => Some(Failure::Gives(gives, reply)),
        _ => None,
    }
}

/// The failure as the history has the operation, which a part may count as another one: as a cas
/// where it found a value and left another.
fn recorded_failure(failure: Failure, content: &Content, next: &DrawnOperation) -> Failure {
    let Failure::Gives(gives, returned) = failure else {
        return failure;
    };
    let gives = match (gives, next.op().function.reply) {
        (Reply::NotSwapped, Shape::Flag) => Reply::Flag(false),
        (Reply::NotSwapped, shape) if shape != Shape::Swapped => value_reply(content.lone_item()),
        _ => gives,
    };
    Failure::Gives(gives, next.reply().unwrap_or(returned))
}

impl Trying<'_> {
    /// What the object contains after these operations.
    fn content_after(&self, places: &[usize]) -> Content {
        let mut content = Content::empty(self.kind);
        for place in places {
            let invocation = &self.part[*place];
            content.apply(invocation.number, invocation.op);
        }
        content
    }

    /// The content as text, or that it is the value that stands for others.
    fn content_text(&self, content: &Content) -> String {
        match content.lone_item() {
            Some(item) if Some(item.value) == self.tried.other => "other".into(),
            _ => content.text(&self.words),
        }
    }

    fn as_recorded(&self, place: usize) -> DrawnOperation {
        let invocation = self.part[place];
        let unknown = DrawnOperation { invocation, object: 0, process: 0, ended: None };
        operation_at(self.operations, i64::from(invocation.number)).unwrap_or(unknown)
    }

    /// Whether an operation that is not placed returned before this one began.
    fn is_preceded(&self, placed: u64, next: &Operation) -> bool {
        self.part.iter().enumerate().any(|(place, other)| {
            placed & 1 << place == 0 && other.returned().is_some_and(|at| at < next.number)
        })
    }

    /// Adds the ways that go on after these operations, the first of them last.
    fn add_ways(&mut self, before: &[usize], placed: u64) {
        for (next, invocation) in self.part.iter().enumerate().rev() {
            if placed & 1 << next == 0 && !self.is_preceded(placed, invocation) {
                self.ways.push(Way { before: before.to_vec(), placed, next });
            }
        }
    }

    /// Notes that the operation does not fit after those of the way.
    fn fail(&mut self, way: &Way, content: &Content, next: DrawnOperation, failure: Failure) {
        let is_same = match self.tried.last {
            Some(last) => last.number() == next.number(),
            None => self.tried.attempts.is_empty(),
        };
        self.tried.last = is_same.then_some(next);
        if self.tried.attempts.len() >= ROWS {
            self.tried.more += 1;
            return;
        }
        let before = way.before.iter().map(|place| self.as_recorded(*place));
        let before = self.first.into_iter().chain(before).collect();
        let content = self.content_text(content);
        self.tried.attempts.push(Attempt { before, content, next, failure });
    }

    /// Goes on after an operation that fits, where that leads to something new.
    fn go_on(&mut self, way: &Way, mut content: Content) {
        let invocation = &self.part[way.next];
        let before = content.values();
        content.apply(invocation.number, invocation.op);
        let after = content.values();
        let is_needless = invocation.returned().is_none() && before == after;
        let placed = way.placed | 1 << way.next;
        if !is_needless && self.reached.insert((placed, after)) {
            let mut places = way.before.clone();
            places.push(way.next);
            self.add_ways(&places, placed);
        }
    }

    fn try_way(&mut self, way: &Way) {
        let invocation = &self.part[way.next];
        let content = self.content_after(&way.before);
        match failure_of(invocation, content.gives(invocation.op)) {
            Some(failure) => {
                let next = self.as_recorded(way.next);
                let failure = recorded_failure(failure, &content, &next);
                self.fail(way, &content, next, failure);
            }
            None => self.go_on(way, content),
        }
    }
}

/// The contents with which this operation on a token is not possible, in words.
fn other_contents(op: Op) -> &'static [&'static str] {
    match op.holds() {
        Some(true) => &["held"],
        Some(false) if op.kind().has_owner() => &["free", "held by another"],
        Some(false) => &["free"],
        None => &[],
    }
}

/// The same ways, and, for a part of a token, before them the contents before the part with which
/// its first operation is not possible.
pub fn with_other_contents(mut tried: Tried, first: Option<DrawnOperation>) -> Tried {
    let Some(next) = first.filter(|_| !tried.attempts.is_empty()) else {
        return tried;
    };
    let failure = Failure::NotPossible;
    let attempt = |content: &&str| Attempt {
        before: Vec::new(),
        content: content.to_string(),
        next,
        failure,
    };
    let attempts: Vec<Attempt> = other_contents(next.op()).iter().map(attempt).collect();
    tried.attempts.splice(0..0, attempts);
    tried.more += tried.attempts.len().saturating_sub(ROWS);
    tried.attempts.truncate(ROWS);
    tried
}

/// Tries the orders of the part's operations: each that no other precedes is tried next, in rising
/// number. What was reached before, and a pending operation that changes nothing, is not followed.
/// An operation that is not in the part may come first, which left the object empty, or free.
pub fn try_orders(
    operations: &[DrawnOperation],
    kind: Kind,
    part: &[Operation],
    first: Option<DrawnOperation>,
    other: Option<i64>,
    words: Words,
) -> Tried {
    let mut trying = Trying {
        part,
        operations,
        kind,
        first,
        words,
        ways: Vec::new(),
        reached: HashSet::new(),
        tried: Tried { attempts: Vec::new(), more: 0, is_complete: false, last: None, other },
    };
    if part.len() > MOST_OPERATIONS {
        return trying.tried;
    }
    trying.add_ways(&[], 0);
    for _ in 0..STEPS {
        let Some(way) = trying.ways.pop() else {
            break;
        };
        trying.try_way(&way);
    }
    trying.tried.is_complete = trying.ways.is_empty();
    trying.tried
}
