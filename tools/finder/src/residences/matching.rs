//! The puts and removals of one value, paired as they come.
//!
//! A removal takes a value whose put has returned. If there is none it waits for the next put
//! that returns, and takes one that runs when it returns itself. So the value definitely is in the
//! object in few gaps.

use super::{Gaps, Removals, Residence, Transfer, pair_by_begins};
use crate::timeline::PENDING;
use std::collections::BTreeSet;

/// How many of the last pairs are looked at for one that is given up.
const MOST_PAIRS: usize = 64;

/// What happens at a gap, in the order in which it does.
#[derive(Clone, Copy, PartialEq, Eq, PartialOrd, Ord)]
enum Event {
    /// A value that is in must be gone.
    MustBeGone,
    TakeReturns,
    PutBegins,
    TakeBegins,
    /// All values that are in must be gone.
    MustAllBeGone,
    PutReturns,
}

/// What happens with the value: the gap, the event, and the place of the call. Where a gap can't be
/// used it happens at the next that can.
fn events_of(
    transfers: &[Transfer],
    gaps: &mut Gaps,
    removals: &Removals,
    demands: &[(i64, u32)],
) -> Vec<(u32, Event, usize)> {
    let mut events = Vec::new();
    for (place, transfer) in transfers.iter().enumerate() {
        let (begin, end) = (transfer.call.begin, transfer.call.end);
        let begins = if transfer.takes { Event::TakeBegins } else { Event::PutBegins };
        events.push((gaps.first_free(begin), begins, place));
        if transfer.call.is_pending() {
            continue;
        }
        if transfer.takes {
            events.push((gaps.first_free(end), Event::TakeReturns, place));
            continue;
        }
        events.push((gaps.first_free(end.saturating_sub(1)), Event::PutReturns, place));
        if let Some(due) = removals.due(end) {
            events.push((gaps.first_free(due), Event::MustBeGone, place));
        }
    }
    events.extend(demands.iter().map(|(_, gap)| (*gap, Event::MustAllBeGone, 0)));
    events.sort_unstable();
    events
}

/// The return and the place of a call.
type Key = (u32, usize);

/// The calls that have no partner, by their returns, and the pairs.
struct Matching {
    transfers: Vec<Transfer>,
    last_in: bool,
    /// Puts that run.
    running: BTreeSet<Key>,
    /// Puts that have returned.
    open: BTreeSet<Key>,
    /// Removals that run.
    waiting: BTreeSet<Key>,
    /// A put and a removal.
    pairs: Vec<(usize, usize)>,
}

impl Matching {
    fn end_of(&self, place: usize) -> u32 {
        self.transfers[place].call.end
    }

    fn begin_of(&self, place: usize) -> u32 {
        self.transfers[place].call.begin
    }

    fn put_returns(&mut self, put: Key) {
        if !self.running.remove(&put) {
            return;
        }
        if let Some((_, take)) = self.waiting.pop_first() {
            self.pairs.push((put.1, take));
        } else {
            self.open.insert(put);
        }
    }

    fn take_begins(&mut self, take: Key) {
        let put = if self.last_in { self.open.pop_last() } else { self.open.pop_first() };
        if let Some((_, put)) = put {
            self.pairs.push((put, take.1));
        } else {
            self.waiting.insert(take);
        }
    }

    /// False if no put is left that the removal can have.
    fn take_returns(&mut self, take: Key) -> bool {
        if !self.waiting.remove(&take) {
            return true;
        }
        match self.running.pop_first() {
            Some((_, put)) => self.pairs.push((put, take.1)),
            None => return self.take_over(take),
        }
        true
    }

    /// Of the last pairs whose removal returns after this moment the place of that whose put
    /// returns last; of several such the last.
    fn later_pair(&self, end: u32) -> Option<usize> {
        let last = (0..self.pairs.len()).rev().take(MOST_PAIRS);
        let later = last.filter(|k| self.end_of(self.pairs[*k].1) > end);
        later.max_by_key(|k| (self.end_of(self.pairs[*k].0), *k))
    }

    /// Gives the removal the put of one that returns later, which waits again. False if there is
    /// none.
    fn take_over(&mut self, take: Key) -> bool {
        let Some(k) = self.later_pair(take.0) else {
            return false;
        };
        let other = std::mem::replace(&mut self.pairs[k].1, take.1);
        self.waiting.insert((self.end_of(other), other));
        self.arrange(k);
        true
    }

    /// Pairs the puts and removals of the pairs from this place on in another way, if that can be:
    /// the first put to return with the first removal to begin.
    fn arrange(&mut self, from: usize) {
        let (mut puts, mut takes): (Vec<usize>, Vec<usize>) =
            self.pairs[from..].iter().copied().unzip();
        puts.sort_unstable_by_key(|put| (self.end_of(*put), *put));
        takes.sort_unstable_by_key(|take| (self.begin_of(*take), *take));
        let mut pairs = puts.iter().zip(&takes);
        if pairs.all(|(put, take)| self.begin_of(*put) < self.end_of(*take)) {
            self.pairs.truncate(from);
            self.pairs.extend(puts.into_iter().zip(takes));
        }
    }

    /// Gives pending removals that begin by this gap to all values that are in.
    fn give_all(&mut self, gap: u32, removals: &mut Removals) {
        while let Some(put) = self.open.first().copied() {
            if !self.give_before(put, gap + 1, removals) {
                return;
            }
        }
    }

    /// Gives a pending removal that begins before this moment to a value that is in. False where
    /// there is none.
    fn give_before(&mut self, put: Key, due: u32, removals: &mut Removals) -> bool {
        let Some(call) = removals.take(due) else {
            return false;
        };
        self.open.remove(&put);
        self.pairs.push((put.1, self.transfers.len()));
        self.transfers.push(Transfer { takes: true, call, ..self.transfers[put.1] });
        true
    }

    /// False if the removal has no put.
    fn happen(
        &mut self,
        (gap, event, place): (u32, Event, usize),
        removals: &mut Removals,
    ) -> bool {
        let call = (self.end_of(place), place);
        match event {
            Event::MustBeGone => {
                if let Some(due) = removals.due(call.0)
                    && self.open.contains(&call)
                {
                    self.give_before(call, due, removals);
                }
            }
            Event::MustAllBeGone => self.give_all(gap, removals),
            Event::TakeReturns => return self.take_returns(call),
            Event::PutBegins => {
                self.running.insert(call);
            }
            Event::TakeBegins => self.take_begins(call),
            Event::PutReturns => self.put_returns(call),
        }
        true
    }

    /// Pairs the removals that wait at the end: they are pending. One that no put is left for did
    /// not happen. False if one is not pending.
    fn pair_the_rest(&mut self) -> bool {
        while let Some((end, take)) = self.waiting.pop_first() {
            if end != PENDING {
                return false;
            }
            if let Some((_, put)) = self.running.pop_first() {
                self.pairs.push((put, take));
            }
        }
        true
    }

    /// The values of the pairs, and those that are not taken.
    fn residences(&self) -> Vec<Residence> {
        let residence = |put: usize, take: Option<usize>| Residence {
            value: self.transfers[put].value,
            put: self.transfers[put].call,
            take: take.map(|take| self.transfers[take].call),
        };
        let taken = self.pairs.iter().map(|(put, take)| residence(*put, Some(*take)));
        taken.chain(self.open.iter().map(|(_, put)| residence(*put, None))).collect()
    }
}

/// The residences of one value, whose puts come first, in gaps that can be used: a removal takes
/// the last value that is in, or the first. Pending removals are given to the value where it must
/// be gone. `None`: a removal has no put.
pub fn residences_of(
    transfers: &[Transfer],
    gaps: &mut Gaps,
    removals: &mut Removals,
    demands: &[(i64, u32)],
    last_in: bool,
) -> Option<Vec<Residence>> {
    match transfers {
        [_] if removals.is_empty() => return pair_by_begins(transfers),
        [_, second] if second.takes => return pair_by_begins(transfers),
        _ => {}
    }
    let events = events_of(transfers, gaps, removals, demands);
    let mut matching = Matching {
        transfers: transfers.to_vec(),
        last_in,
        running: BTreeSet::new(),
        open: BTreeSet::new(),
        waiting: BTreeSet::new(),
        pairs: Vec::new(),
    };
    let all = events.into_iter().all(|event| matching.happen(event, removals))
        && matching.pair_the_rest();
    all.then(|| matching.residences())
}
