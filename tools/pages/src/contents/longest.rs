//! The longest order of an object's operations that a short search finds, for a page of an object
//! that stays open. Nothing depends on it.

use super::content::Content;
use crate::timeline::{DrawnOperation, State};
use finder::Kind;
use std::collections::HashSet;

/// Of an object with more operations one way alone is followed.
const FEW: usize = 400;
/// How many operations are looked at, at most.
const STEPS: usize = 200_000;

/// An order that may go on with none of the operations that may come next, by the places of all.
#[derive(Default)]
pub struct Longest {
    pub order: Vec<DrawnOperation>,
    /// Those that may come next, and do not fit. None: the order has all that returned.
    pub next: Vec<DrawnOperation>,
}

/// What was placed, what the object contains then, and the places that are to be tried next.
struct Reached {
    content: Content,
    ways: std::vec::IntoIter<usize>,
}

/// A search from the beginning.
struct Trying<'a> {
    /// Those that did not fail.
    operations: &'a [DrawnOperation],
    is_placed: Vec<bool>,
    order: Vec<usize>,
    /// All before this place are placed.
    low: usize,
    steps: usize,
    reached: HashSet<(Vec<usize>, Vec<i64>)>,
    best: Longest,
}

impl Trying<'_> {
    /// The places of the operations that may come next: no other one that is not placed returned
    /// before they began. Those that return first come first.
    fn ways(&mut self) -> Vec<usize> {
        while self.is_placed.get(self.low) == Some(&true) {
            self.low += 1;
        }
        let (mut end, mut ways) = (u32::MAX, Vec::new());
        for (place, operation) in self.operations.iter().enumerate().skip(self.low) {
            self.steps += 1;
            if operation.number() > end {
                break;
            }
            if !self.is_placed[place] {
                ways.push(place);
                end = end.min(operation.returned().unwrap_or(u32::MAX));
            }
        }
        ways.retain(|place| self.operations[*place].number() <= end);
        ways.sort_by_key(|place| self.operations[*place].returned().unwrap_or(u32::MAX));
        ways
    }

    /// Whether the operation fits there: it gives its reply, or, if it is pending, changes
    /// something.
    fn fits(operation: &DrawnOperation, content: &Content) -> bool {
        match (content.gives(operation.op()), operation.reply()) {
            (None, _) => false,
            (Some(gives), Some(reply)) => gives == reply,
            (Some(_), None) => true,
        }
    }

    /// Notes the order, if it is the longest up to now.
    fn note(&mut self, ways: &[usize]) {
        if self.order.len() > self.best.order.len() || self.best.order.is_empty() {
            let at = |place: &usize| self.operations[*place];
            self.best.order = self.order.iter().map(at).collect();
            self.best.next = ways.iter().map(at).collect();
        }
    }

    /// Puts the next of the ways that fits at the end.
    fn go_on(&mut self, state: &mut Reached, keeps: bool) -> Option<Reached> {
        for place in state.ways.by_ref() {
            let operation = &self.operations[place];
            if !Self::fits(operation, &state.content) {
                continue;
            }
            let is_pending = operation.state() == State::Pending;
            let mut content = state.content.clone();
            content.apply(operation.number(), operation.op());
            if is_pending && content.values() == state.content.values() {
                continue;
            }
            self.order.push(place);
            self.is_placed[place] = true;
            if keeps && !self.is_new(&content) {
                self.back();
                continue;
            }
            let ways = self.ways();
            self.note(&ways);
            return Some(Reached { content, ways: ways.into_iter() });
        }
        None
    }

    /// Whether these operations did not lead to this content before.
    fn is_new(&mut self, content: &Content) -> bool {
        let mut placed = self.order.clone();
        placed.sort_unstable();
        self.reached.insert((placed, content.values()))
    }

    /// Takes back the last operation.
    fn back(&mut self) {
        if let Some(place) = self.order.pop() {
            self.is_placed[place] = false;
            self.low = self.low.min(place);
        }
    }

    fn has_all(&self) -> bool {
        self.best.next.iter().all(|it| it.state() == State::Pending)
    }
}

/// The longest order that a short search finds of these operations of an object.
pub fn longest_order(operations: &[DrawnOperation], kind: Kind) -> Longest {
    let live: Vec<DrawnOperation> =
        operations.iter().filter(|it| it.state() != State::Failed).copied().collect();
    let keeps = live.len() <= FEW;
    let mut trying = Trying {
        operations: &live,
        is_placed: vec![false; live.len()],
        order: Vec::new(),
        low: 0,
        steps: 0,
        reached: HashSet::new(),
        best: Longest::default(),
    };
    let ways = trying.ways();
    trying.note(&ways);
    let mut states = vec![Reached { content: Content::empty(kind), ways: ways.into_iter() }];
    while let Some(state) = states.last_mut() {
        if trying.steps > STEPS || trying.has_all() {
            break;
        }
        match trying.go_on(state, keeps) {
            Some(next) if keeps => states.push(next),
            Some(next) => *state = next,
            None => {
                states.pop();
                trying.back();
            }
        }
    }
    trying.best.next.retain(|it| it.state() != State::Pending);
    trying.best
}
