//! The values, lined up one by one.

use super::distance::distance;
use super::empties::{Empties, Empty};
use super::room::Room;
use super::sides::{Call, Side};
use crate::orders::line::Line;
use crate::residences::{NEVER, Transfers};
use crate::timeline::Interval;

/// The places of a value's put and removal.
#[derive(Clone, Copy)]
struct Pair {
    put: usize,
    take: usize,
}

/// One step.
#[derive(Clone, Copy)]
enum Move {
    /// A call finds nothing.
    FindsNone(Empty),
    /// A call that finds nothing is moved on.
    Postpones(Empty, Empty),
    /// A value is lined up, in place of which another one may be.
    Value(Pair, Option<Pair>),
    /// A value that a pending removal takes.
    Lost(usize),
    /// A value that no removal takes.
    Stays(usize),
}

/// What can be next.
enum Next {
    Move(Move),
    Nothing,
    End,
}

/// A step, and how far the walks over the returns had come before.
struct Turn {
    step: Move,
    puts: usize,
    takes: usize,
}

/// What is left to be lined up, and what is lined up.
pub struct LineUp {
    puts: Side,
    takes: Side,
    room: Room,
    empties: Empties,
    /// Removals that are pending, in the order of their begins.
    unknown: Vec<Interval>,
    used: usize,
    /// Whether pending removals are used earlier, where the values that come then fit better.
    lavish: bool,
    turns: Vec<Turn>,
}

impl LineUp {
    /// `None`: a value is taken more often than it is put in.
    pub fn new(transfers: Transfers, end: u32, lavish: bool) -> Option<LineUp> {
        let puts = Side::new(&transfers.known, false);
        let takes = Side::new(&transfers.known, true);
        Some(LineUp {
            room: Room::new(&puts, &takes, transfers.repeat())?,
            empties: Empties::new(&transfers, end)?,
            puts,
            takes,
            unknown: transfers.unknown,
            used: 0,
            lavish,
            turns: Vec::new(),
        })
    }

    /// The put that returns first, and a removal that begins by this moment.
    fn by_put(&self, put: Option<(usize, Call)>, latest: u32) -> Option<Pair> {
        let (put, call) = put.filter(|(_, call)| !call.span.is_pending())?;
        let take = self.takes.ready(call.value, latest)?;
        let from = self.takes.places(call.value).start;
        self.room.is_left(from, take).then_some(Pair { put, take })
    }

    /// A put that begins by one moment, and the removal that returns first, if it begins by
    /// another.
    fn by_take(&self, take: Option<(usize, Call)>, put_latest: u32, latest: u32) -> Option<Pair> {
        let (take, call) = take.filter(|(_, call)| call.span.begin <= latest)?;
        Some(Pair { put: self.puts.ready(call.value, put_latest)?, take })
    }

    /// The value that is next of two that can be.
    fn better(&self, by_put: Pair, by_take: Pair) -> Move {
        if !self.takes.has_earlier(by_put.take) {
            Move::Value(by_put, None)
        } else if !self.puts.has_earlier(by_take.put) {
            Move::Value(by_take, None)
        } else {
            Move::Value(by_put, Some(by_take))
        }
    }

    /// The put that returns first, if a removal that is pending can be its partner.
    fn lost(&self, put: Option<(usize, Call)>, latest: u32) -> Option<usize> {
        let (put, call) = put?;
        let unknown = self.unknown.get(self.used)?;
        let places = self.takes.places(call.value);
        let fits = unknown.begin <= latest && self.room.is_left(places.start, places.end);
        fits.then_some(put)
    }

    /// The put that returns first, which a pending removal takes, or this value, if another put of
    /// it had better come first: whichever leaves puts and removals that belong together.
    fn lost_or(&self, put: Option<(usize, Call)>, latest: u32, by_take: Pair) -> Move {
        let value = Move::Value(by_take, None);
        let Some(put) = self.lost(put, latest) else {
            return value;
        };
        if !self.puts.has_earlier(by_take.put) {
            return value;
        }
        let puts = self.puts.upcoming();
        let takes = self.takes.upcoming();
        let without_put = distance(puts.get(1..).unwrap_or(&[]), &takes);
        let without_take = distance(&puts, takes.get(1..).unwrap_or(&[]));
        if without_put < without_take { Move::Lost(put) } else { value }
    }

    fn next(&mut self) -> Next {
        let put = self.puts.first();
        let take = self.takes.first();
        let put_end = put.map_or(NEVER, |(_, call)| call.span.end);
        let take_end = take.map_or(NEVER, |(_, call)| call.span.end);
        let gap = self.empties.first_gap();
        if let Some(empty) = self.empties.left.first()
            && gap < put_end.min(take_end)
        {
            return Next::Move(Move::FindsNone(*empty));
        }
        if take.is_none() && gap == NEVER {
            return match put {
                Some((place, call)) if !call.span.is_pending() => Next::Move(Move::Stays(place)),
                _ => Next::End,
            };
        }
        // no other call that is left has returned then
        let latest = take_end.saturating_sub(1).min(gap);
        let put_latest = put_end.saturating_sub(1).min(latest);
        let by_take = self.by_take(take, put_latest, latest);
        let put_is_first = put_end < take_end;
        let by_put = if put_is_first { self.by_put(put, latest) } else { None };
        let next = match (by_put, by_take) {
            (Some(by_put), Some(by_take)) => Some(self.better(by_put, by_take)),
            (None, Some(by_take)) if self.lavish && put_is_first => {
                Some(self.lost_or(put, latest, by_take))
            }
            (Some(pair), None) | (None, Some(pair)) => Some(Move::Value(pair, None)),
            (None, None) if put_is_first => self.lost(put, latest).map(Move::Lost),
            (None, None) => None,
        };
        next.map_or(Next::Nothing, Next::Move)
    }

    /// The first of the removals of the value of one.
    fn first_removal(&self, take: usize) -> usize {
        self.takes.places(self.takes.calls[take].value).start
    }

    fn add(&mut self, step: Move) {
        self.turns.push(Turn { step, puts: self.puts.next, takes: self.takes.next });
        match step {
            Move::FindsNone(empty) => {
                self.empties.left.remove(&empty);
            }
            Move::Postpones(from, to) => {
                self.empties.left.remove(&from);
                self.empties.left.insert(to);
            }
            Move::Value(Pair { put, take }, _) => {
                self.puts.remove(put);
                self.takes.remove(take);
                self.room.shrink(self.first_removal(take), take, 1);
                self.room.settle(take, 1);
            }
            Move::Lost(put) => {
                self.puts.remove(put);
                let places = self.takes.places(self.puts.calls[put].value);
                self.room.shrink(places.start, places.end, 1);
                self.used += 1;
            }
            Move::Stays(put) => self.puts.remove(put),
        }
    }

    /// Takes back what was lined up.
    fn undo(&mut self, turn: &Turn) {
        self.puts.next = turn.puts;
        self.takes.next = turn.takes;
        match turn.step {
            Move::FindsNone(empty) => {
                self.empties.left.insert(empty);
            }
            Move::Postpones(from, to) => {
                self.empties.left.remove(&to);
                self.empties.left.insert(from);
            }
            Move::Value(Pair { put, take }, _) => {
                self.puts.restore(put);
                self.takes.restore(take);
                self.room.shrink(self.first_removal(take), take, -1);
                self.room.settle(take, -1);
            }
            Move::Lost(put) => {
                self.puts.restore(put);
                let places = self.takes.places(self.puts.calls[put].value);
                self.room.shrink(places.start, places.end, -1);
                self.used -= 1;
            }
            Move::Stays(put) => self.puts.restore(put),
        }
    }

    /// Goes back to the last place where another value can be next, and lines that up. False where
    /// there is none.
    fn go_back(&mut self) -> bool {
        while let Some(turn) = self.turns.pop() {
            self.undo(&turn);
            if let Move::Value(_, Some(other)) = turn.step {
                self.add(Move::Value(other, None));
                return true;
            }
        }
        false
    }

    /// Lines up all. False if it can't be done.
    pub fn run(&mut self) -> bool {
        let calls = self.puts.calls.len() + self.empties.left.len();
        for _ in 0..8 * calls + 20_000 {
            match self.next() {
                Next::End => return true,
                Next::Move(step) => self.add(step),
                Next::Nothing => match self.empties.postponed() {
                    Some((from, to)) => self.add(Move::Postpones(from, to)),
                    None if self.go_back() => {}
                    None => return false,
                },
            }
        }
        false
    }

    /// The calls in line.
    pub fn line(&self) -> Line {
        let mut line = Line::default();
        let mut unknown = self.unknown.iter();
        for turn in &self.turns {
            match turn.step {
                Move::Postpones(..) => {}
                Move::FindsNone(empty) => line.find_none_in(empty.gap, empty.number),
                Move::Stays(put) => line.put(&self.puts.calls[put].span),
                Move::Value(Pair { put, take }, _) => {
                    line.put(&self.puts.calls[put].span);
                    line.take(&self.takes.calls[take].span);
                }
                Move::Lost(put) => {
                    line.put(&self.puts.calls[put].span);
                    unknown.next().into_iter().for_each(|call| line.take(call));
                }
            }
        }
        line
    }
}
