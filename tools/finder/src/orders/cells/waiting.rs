//! The calls of a cell that have begun and have no place in the order yet.

use crate::accesses::{Access, Need};
use std::collections::BTreeSet;

/// The most contents that a list of sources has.
const MOST_CONTENTS: usize = 100;

/// What a call does with a content.
#[derive(Clone, Copy, PartialEq, Eq, PartialOrd, Ord)]
pub enum Role {
    /// Sets one over whatever is there.
    Overwrites,
    /// Asks for it, and sets another one.
    Takes,
    /// Asks for it, and sets none.
    Sees,
    /// Asks that it is not there, and sets none.
    Refuses,
}

/// What the call does, and with which content. The content does not matter where it overwrites.
fn role_of(access: &Access) -> (Role, usize) {
    match (access.need, access.sets) {
        (Need::Any, _) => (Role::Overwrites, 0),
        (Need::Is(content), Some(_)) => (Role::Takes, content),
        (Need::Is(content), None) => (Role::Sees, content),
        (Need::IsNot(content), _) => (Role::Refuses, content),
    }
}

/// The content that a call takes away; none for one that overwrites.
fn source_of(access: &Access) -> Option<usize> {
    match access.need {
        Need::Is(content) => Some(content),
        Need::Any | Need::IsNot(_) => None,
    }
}

/// Calls by their places.
#[derive(Default)]
pub struct Waiting {
    /// All: their end, their place.
    pub by_end: BTreeSet<(u32, usize)>,
    /// All: what they do, with which content, their end, their place.
    by_role: BTreeSet<(Role, usize, u32, usize)>,
    /// Those that set a content: that, the one that they take away, their end, their place.
    by_target: BTreeSet<(usize, Option<usize>, u32, usize)>,
    /// Those that set a content and return: that, their place.
    returning: BTreeSet<(usize, usize)>,
}

impl Waiting {
    pub fn add(&mut self, place: usize, access: &Access) {
        let end = access.call.end;
        let (role, content) = role_of(access);
        self.by_end.insert((end, place));
        self.by_role.insert((role, content, end, place));
        if let Some(target) = access.sets {
            self.by_target.insert((target, source_of(access), end, place));
            if !access.call.is_pending() {
                self.returning.insert((target, place));
            }
        }
    }

    /// Takes a call out. False if it does not wait.
    pub fn remove(&mut self, place: usize, access: &Access) -> bool {
        let end = access.call.end;
        let (role, content) = role_of(access);
        if let Some(target) = access.sets {
            self.by_target.remove(&(target, source_of(access), end, place));
            self.returning.remove(&(target, place));
        }
        self.by_role.remove(&(role, content, end, place));
        self.by_end.remove(&(end, place))
    }

    /// The calls that do this with the content, in the order of their returns: their ends and
    /// places.
    pub fn all(&self, role: Role, content: usize) -> impl Iterator<Item = (u32, usize)> {
        let from = self.by_role.range((role, content, 0, 0)..);
        let own = from.take_while(move |call| (call.0, call.1) == (role, content));
        own.map(|(_, _, end, place)| (*end, *place))
    }

    /// Of the calls that do this with the content the first to return: its end and its place.
    pub fn first(&self, role: Role, content: usize) -> Option<(u32, usize)> {
        self.all(role, content).next()
    }

    /// Of the calls that take the source away, or overwrite, and set the target, the first to
    /// return: its end and its place.
    pub fn setter(&self, target: usize, source: Option<usize>) -> Option<(u32, usize)> {
        let first = self.by_target.range((target, source, 0, 0)..).next();
        let (sets, takes, end, place) = *first?;
        ((sets, takes) == (target, source)).then_some((end, place))
    }

    /// Whether another call than this one sets the content and returns. Those that are pending are
    /// kept for when nothing else helps.
    pub fn has_other_setter(&self, target: usize, place: usize) -> bool {
        let mut setters = self.returning.range((target, 0)..=(target, usize::MAX));
        setters.any(|(_, other)| *other != place)
    }

    /// Adds the contents that are not in the list and that a call takes away to set this one.
    pub fn add_sources(&self, target: usize, contents: &mut Vec<usize>) {
        let mut from = 0;
        while contents.len() < MOST_CONTENTS {
            match self.by_target.range((target, Some(from), 0, 0)..).next() {
                Some((sets, Some(source), _, _)) if *sets == target => {
                    from = source + 1;
                    if !contents.contains(source) {
                        contents.push(*source);
                    }
                }
                _ => return,
            }
        }
    }
}
