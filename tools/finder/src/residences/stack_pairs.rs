//! The pushes and pops of a stack, paired as they come.
//!
//! A pop takes its value when it returns: of those whose push has returned the last that can be on
//! top, or else one whose push runs. A value can be on top where each that definitely is above it
//! can be popped by a pop that runs, and these then are.

use super::{DefiniteCounts, NEVER, Residence, Transfer, Transfers};
use crate::timeline::Interval;
use std::collections::BTreeSet;

/// How many pushes of a value are looked at for one that can be on top.
const MOST_PUSHES: usize = 8;

/// How many of the last pairs are looked at for one that is given up.
const MOST_PAIRS: usize = 256;

/// How many values are popped at most before a call that finds nothing.
const MOST_GONE: usize = 1_000;

/// The return and the place of a call.
type Key = (u32, usize);

/// The pushes and pops of one value that have no partner.
#[derive(Default)]
struct Value {
    /// Pushes that have returned, in the order of their returns.
    open: Vec<usize>,
    /// Pushes that run, by their returns.
    running: BTreeSet<Key>,
    /// Pops that run, by their returns.
    waiting: BTreeSet<Key>,
    /// How many pending pops can take it: how many more pushes there are than pops, of those that
    /// are left.
    surplus: usize,
}

/// What happens to the stack.
#[derive(Clone, Copy)]
enum Event {
    Begins(usize),
    Returns(usize),
    /// A call finds nothing.
    FindsNone,
    /// A pop begins that is pending.
    PendingBegins,
}

/// What happens, in the order in which it does. A call that finds nothing does so at the first gap
/// in which the fewest values definitely are in the stack.
fn events_of(transfers: &Transfers, end: u32) -> Vec<Event> {
    // a gap is after the moment of the same number
    let mut events = Vec::new();
    for (place, transfer) in transfers.known.iter().enumerate() {
        events.push((transfer.call.begin, false, Event::Begins(place)));
        if !transfer.call.is_pending() {
            events.push((transfer.call.end, false, Event::Returns(place)));
        }
    }
    let pending = transfers.unknown.iter();
    events.extend(pending.map(|call| (call.begin, false, Event::PendingBegins)));
    if let Some(definite) = DefiniteCounts::new(&transfers.known, end) {
        let gaps =
            transfers.empties.iter().filter_map(|call| definite.fewest(call.begin, call.end));
        events.extend(gaps.map(|gap| (gap, true, Event::FindsNone)));
    }
    events.sort_by_key(|(at, is_gap, _)| (*at, *is_gap));
    events.into_iter().map(|(_, _, event)| event).collect()
}

/// The values without partners, the values in the stack, and the pairs.
struct Contents<'a> {
    transfers: &'a [Transfer],
    values: Vec<Value>,
    /// Of each call the place of its value.
    value_of: Vec<usize>,
    /// Pushes that have returned and are not popped; the one that begins last comes first.
    inside: BTreeSet<Key>,
    /// A push and a pop. Pops that are pending come after all other calls.
    pairs: Vec<(usize, usize)>,
    /// How many pending pops are used, and how many have begun.
    used: usize,
    begun: usize,
}

impl<'a> Contents<'a> {
    /// None of the calls, which are sorted by their values, has begun.
    fn new(transfers: &'a [Transfer]) -> Contents<'a> {
        let mut values = Vec::new();
        let mut value_of = Vec::new();
        for own in transfers.chunk_by(|one, other| one.value == other.value) {
            value_of.extend(own.iter().map(|_| values.len()));
            let pops = own.iter().filter(|transfer| transfer.takes).count();
            let surplus = (own.len() - pops).saturating_sub(pops);
            values.push(Value { surplus, ..Value::default() });
        }
        Contents {
            transfers,
            values,
            value_of,
            inside: BTreeSet::new(),
            pairs: Vec::new(),
            used: 0,
            begun: 0,
        }
    }

    fn value(&self, call: usize) -> &Value {
        &self.values[self.value_of[call]]
    }

    fn value_mut(&mut self, call: usize) -> &mut Value {
        &mut self.values[self.value_of[call]]
    }

    /// The key of a push by which the one that begins last comes first.
    fn inside_key(&self, put: usize) -> Key {
        (NEVER - self.transfers[put].call.begin, put)
    }

    /// The pushes of the values that definitely are above this one when the pop begins. `None`: not
    /// each of them can be popped by a pop that runs, or by one of `others` pending pops.
    fn above(&self, put: usize, take: usize, mut others: usize) -> Option<Vec<usize>> {
        let (put, take) = (&self.transfers[put], &self.transfers[take]);
        let mut above: Vec<usize> = Vec::new();
        let later = self.inside.iter().map(|(_, other)| *other);
        let later = later.take_while(|other| self.transfers[*other].call.begin >= put.call.end);
        for other in later.filter(|other| self.transfers[*other].call.end <= take.call.begin) {
            let value = self.value_of[other];
            let alike = above.iter().filter(|put| self.value_of[**put] == value).count();
            if self.values[value].waiting.len() <= alike {
                if self.values[value].surplus == 0 {
                    return None;
                }
                others = others.checked_sub(1)?;
            }
            above.push(other);
        }
        Some(above)
    }

    /// The last push of the pop's value that can be on top, if pending pops may pop this many
    /// values, and the pushes above it.
    fn on_top(&self, take: usize, others: usize) -> Option<(usize, Vec<usize>)> {
        let last = self.value(take).open.iter().rev().take(MOST_PUSHES).copied();
        let mut fitting = last.filter_map(|put| Some((put, self.above(put, take, others)?)));
        fitting.next()
    }

    /// Pairs a push that has returned with a pop.
    fn join(&mut self, put: usize, take: usize) {
        let open = &mut self.value_mut(put).open;
        if let Some(at) = open.iter().rposition(|other| *other == put) {
            open.remove(at);
        }
        self.inside.remove(&self.inside_key(put));
        self.pairs.push((put, take));
    }

    /// How many pending pops are left that have begun.
    fn spare(&self) -> usize {
        self.begun.saturating_sub(self.used)
    }

    /// Pairs a push that has returned with a pop that waits, or with one that is pending, if there
    /// is one.
    fn join_waiting(&mut self, put: usize) {
        let spare = self.spare();
        let value = self.value_mut(put);
        if let Some((_, take)) = value.waiting.pop_first() {
            self.join(put, take);
        } else if spare > 0 && value.surplus > 0 {
            value.surplus -= 1;
            let take = self.transfers.len() + self.used;
            self.used += 1;
            self.join(put, take);
        }
    }

    /// Pairs a pop with a push that can be on top, if pending pops may pop this many values.
    /// False if there is none.
    fn pop_top(&mut self, take: usize, others: usize) -> bool {
        let Some((put, above)) = self.on_top(take, others) else {
            return false;
        };
        above.into_iter().for_each(|other| self.join_waiting(other));
        self.join(put, take);
        true
    }

    /// Gives the pop the push of one that returns later, which waits again. False if there is
    /// none.
    fn take_over(&mut self, take: Key) -> bool {
        let value = self.value_of[take.1];
        let last = (0..self.pairs.len()).rev().take(MOST_PAIRS);
        // pops that are pending have no place of their own
        let own = last.filter(|k| self.value_of.get(self.pairs[*k].1) == Some(&value));
        let mut later = own.filter(|k| self.transfers[self.pairs[*k].1].call.end > take.0);
        let Some(k) = later.next() else {
            return false;
        };
        let other = std::mem::replace(&mut self.pairs[k].1, take.1);
        let end = self.transfers[other].call.end;
        self.values[value].waiting.insert((end, other));
        true
    }

    /// A pop returns. False if no push is left that it can have.
    fn take_returns(&mut self, take: Key) -> bool {
        if !self.value_mut(take.1).waiting.remove(&take) || self.pop_top(take.1, 0) {
            return true;
        }
        if let Some((_, put)) = self.value_mut(take.1).running.pop_first() {
            self.pairs.push((put, take.1));
            return true;
        }
        if self.pop_top(take.1, self.spare()) {
            return true;
        }
        match self.value(take.1).open.last().copied() {
            Some(put) => self.join(put, take.1),
            None => return self.take_over(take),
        }
        true
    }

    fn put_returns(&mut self, put: Key) {
        let value = self.value_mut(put.1);
        if value.running.remove(&put) {
            value.open.push(put.1);
            self.inside.insert(self.inside_key(put.1));
        }
    }

    /// What has been pushed must be gone.
    fn find_none(&mut self) {
        let gone: Vec<Key> = self.inside.iter().take(MOST_GONE).copied().collect();
        gone.into_iter().for_each(|(_, put)| self.join_waiting(put));
    }

    /// False if a pop has no push.
    fn happen(&mut self, event: Event) -> bool {
        match event {
            Event::FindsNone => self.find_none(),
            Event::PendingBegins => self.begun += 1,
            Event::Begins(place) => {
                let Transfer { takes, call, .. } = self.transfers[place];
                let value = self.value_mut(place);
                let own = if takes { &mut value.waiting } else { &mut value.running };
                own.insert((call.end, place));
            }
            Event::Returns(place) => {
                let Transfer { takes, call, .. } = self.transfers[place];
                if takes {
                    return self.take_returns((call.end, place));
                }
                self.put_returns((call.end, place));
            }
        }
        true
    }

    /// The values of the pairs, and those that are not popped. The pops that are pending come in
    /// the order of their begins.
    fn residences(&self, unknown: &[Interval]) -> Vec<Residence> {
        let residence = |put: usize, take: Option<Interval>| Residence {
            value: self.transfers[put].value,
            put: self.transfers[put].call,
            take,
        };
        let pop = |take: usize| match self.transfers.get(take) {
            Some(transfer) => Some(transfer.call),
            None => unknown.get(take - self.transfers.len()).copied(),
        };
        let pairs = self.pairs.iter().map(|(put, take)| residence(*put, pop(*take)));
        pairs.chain(self.inside.iter().map(|(_, put)| residence(*put, None))).collect()
    }
}

/// The values of a stack with their pushes and pops, which come sorted by their values, and how
/// many of the pending pops they have, the first ones. `None`: a pop has no push.
pub fn pair_on_top(transfers: &Transfers, end: u32) -> Option<(Vec<Residence>, usize)> {
    let mut contents = Contents::new(&transfers.known);
    let all = events_of(transfers, end).into_iter().all(|event| contents.happen(event));
    all.then(|| (contents.residences(&transfers.unknown), contents.used))
}
