//! The walk through the beginnings of orders.

use super::dead::{Dead, Pair};
use super::digest::Digest;
use super::not_done::NotDone;
use super::{Outcome, Searched, TryFirst};
use crate::content::{Content, Undo};
use crate::history::{ObjectHistory, Operation};
use crate::kinds::Reply;
use std::collections::BTreeSet;

/// A remembered pair lists all operations that are still to return, and at most this many.
const MOST_LISTED: usize = 4096;

/// The operations that did not fail, in the order in which they are tried.
struct Trials {
    items: Vec<Operation>,
    /// For each place the least number from there on.
    floors: Vec<u32>,
    /// The same of the operations that returned.
    return_floors: Vec<u32>,
    /// All operations below this place have returned.
    pending: usize,
}

/// For each place the least number from there on of the operations that count.
fn floors_of(items: &[Operation], counts: impl Fn(&Operation) -> bool) -> Vec<u32> {
    let mut floors = vec![u32::MAX; items.len()];
    let mut least = u32::MAX;
    for (floor, item) in floors.iter_mut().zip(items).rev() {
        if counts(item) {
            least = least.min(item.number);
        }
        *floor = least;
    }
    floors
}

impl Trials {
    fn new(history: &ObjectHistory, first: TryFirst) -> Trials {
        let tried = history.ops.iter().filter(|o| !o.has_failed());
        let mut items: Vec<Operation> = tried.copied().collect();
        if first == TryFirst::Return {
            items.sort_by_key(|o| o.returned().unwrap_or(u32::MAX));
        }
        let pending = items.iter().position(Operation::is_pending);
        Trials {
            floors: floors_of(&items, |_| true),
            return_floors: floors_of(&items, |o| o.returned().is_some()),
            pending: pending.unwrap_or(items.len()),
            items,
        }
    }
}

/// What can come next in an order.
#[derive(Clone, Copy)]
struct Window {
    /// The least return of the operations that are not in the order.
    least: u32,
    /// A place that is not in the order, or the end: each operation below it that is not in the
    /// order has returned.
    pending: usize,
}

/// One place of the order under way, with what undoes its operation, and what held before.
struct Level {
    place: usize,
    undo: Undo,
    window: Window,
    high: usize,
    digest: Digest,
}

/// Where a search is: the order that has begun, and the place that is looked at next.
pub(super) struct Walk {
    trials: Trials,
    levels: Vec<Level>,
    content: Content,
    not_done: NotDone,
    dead: Dead,
    digest: Digest,
    /// All places in the order are below.
    high: usize,
    at: usize,
    window: Window,
    /// How many operations returned and are not in the order.
    left: usize,
    /// How many operations were tried.
    steps: u64,
    /// The greatest of the least returns that there were.
    passed: u32,
}

impl Walk {
    pub fn new(history: &ObjectHistory, first: TryFirst) -> Walk {
        let trials = Trials::new(history, first);
        let keys: BTreeSet<i64> = (trials.items.iter())
            .filter(|o| o.op.new_value().is_some())
            .filter_map(|o| o.op.key())
            .collect();
        let mut walk = Walk {
            levels: Vec::new(),
            content: Content::empty(history.kind),
            not_done: NotDone::all(trials.items.len()),
            dead: Dead::new(keys.len()),
            digest: Digest::default(),
            high: 0,
            at: 0,
            window: Window { least: 0, pending: trials.pending },
            left: trials.items.iter().filter(|o| o.returned().is_some()).count(),
            steps: 0,
            passed: 0,
            trials,
        };
        walk.window.least = walk.least_return();
        walk.passed = walk.window.least;
        walk
    }

    /// The least return of the operations that are not in the order.
    fn least_return(&self) -> u32 {
        let mut least = u32::MAX;
        for place in self.not_done.below(self.trials.items.len()) {
            if self.trials.return_floors[place] > least {
                break;
            }
            let returned = self.trials.items[place].returned();
            least = least.min(returned.unwrap_or(u32::MAX));
        }
        least
    }

    /// Goes on to the next place.
    fn pass(&mut self) {
        self.at = self.not_done.after(self.at);
    }

    /// Puts the operation, which was done, into the order, if that leads to no pair that is dead;
    /// else undoes it. Whether the order is done.
    fn go_on(&mut self, reply: Reply, undo: Undo) -> bool {
        let place = self.at;
        let item = self.trials.items[place];
        let digest = self.digest.after(place, item.op, reply, undo);
        let high = self.high.max(place + 1);
        let pending = match self.window.pending {
            pending if pending == place => self.not_done.after(place),
            pending => pending,
        };
        self.not_done.take_out(place);
        if self.dead.holds(digest.hash(), high, &self.not_done, &self.content) {
            self.not_done.put_back(place);
            self.content.undo(undo);
            self.pass();
            return false;
        }
        self.levels.push(Level {
            place,
            undo,
            window: self.window,
            high: self.high,
            digest: self.digest,
        });
        self.left -= usize::from(item.returned().is_some());
        self.digest = digest;
        self.high = high;
        self.window = Window { least: self.least_return(), pending };
        self.passed = self.passed.max(self.window.least);
        self.at = self.not_done.first();
        self.left == 0
    }

    /// Remembers where the search is as dead, and goes back to the level before. Whether there is
    /// one. Once a pending operation is in the order, a pair lists all that are to return.
    fn come_back(&mut self) -> bool {
        let Some(level) = self.levels.pop() else {
            return false;
        };
        if self.high <= self.trials.pending || self.left <= MOST_LISTED {
            let pair = Pair::new(self.high, &self.not_done, &self.content);
            self.dead.remember(self.digest.hash(), pair);
        }
        self.content.undo(level.undo);
        self.not_done.put_back(level.place);
        self.left += usize::from(self.trials.items[level.place].returned().is_some());
        self.digest = level.digest;
        self.high = level.high;
        self.window = level.window;
        self.at = level.place;
        self.pass();
        true
    }

    /// Whether no operation from here on can come next, all having been invoked too late.
    fn is_over(&self) -> bool {
        self.trials.floors.get(self.at).is_none_or(|floor| *floor > self.window.least)
    }

    /// Goes on with orders, depth first, until one is done or none is left.
    pub fn run(mut self, limit: u64) -> Searched {
        let outcome = self.outcome(limit);
        Searched { outcome, steps: self.steps, passed: self.passed }
    }

    fn outcome(&mut self, limit: u64) -> Outcome {
        loop {
            if self.is_over() {
                if !self.come_back() {
                    return Outcome::Impossible;
                }
                continue;
            }
            let least = self.window.least;
            if self.at < self.window.pending && self.trials.return_floors[self.at] > least {
                self.at = self.window.pending;
                continue;
            }
            let item = self.trials.items[self.at];
            if item.number > least {
                self.pass();
                continue;
            }
            let Some((reply, undo)) = self.content.apply(item.op) else {
                self.pass();
                continue;
            };
            if self.steps == limit {
                return Outcome::OutOfSteps;
            }
            self.steps += 1;
            if item.reply().is_some_and(|own| own != reply) {
                self.content.undo(undo);
                self.pass();
            } else if self.go_on(reply, undo) {
                let places = self.levels.iter().map(|level| level.place);
                return Outcome::Order(
                    places.map(|place| self.trials.items[place].number).collect(),
                );
            }
        }
    }
}
