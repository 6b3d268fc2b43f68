//! Room for puts whose removals come later.

use super::sides::Side;
use crate::trees::Counts;

/// More than there are calls.
const PLENTY: i64 = 1 << 32;

/// For each removal how many more puts of its value begin before it returns than removals have to
/// be lined up by then.
pub struct Room {
    /// None if each value is put in once: then there is always room.
    counts: Option<Counts>,
}

/// How many puts of this value, which are numbered by rising value and begin, begin before this
/// moment.
fn puts_before(begins: &[(usize, u32)], value: usize, moment: u32) -> usize {
    let smaller = begins.partition_point(|put| put.0 < value);
    begins[smaller..].partition_point(|put| *put < (value, moment))
}

impl Room {
    /// `None`: a value is taken more often than it can have been put in.
    pub fn new(puts: &Side, takes: &Side, repeat: bool) -> Option<Room> {
        if !repeat {
            return Some(Room { counts: None });
        }
        let mut begins: Vec<_> = puts.calls.iter().map(|put| (put.value, put.span.begin)).collect();
        begins.sort_unstable();
        let rooms = takes.calls.iter().enumerate().map(|(place, take)| {
            let turn = place + 1 - takes.places(take.value).start;
            let room = puts_before(&begins, take.value, take.span.end).checked_sub(turn)?;
            Some(room as i64)
        });
        let rooms: Vec<i64> = rooms.collect::<Option<_>>()?;
        Some(Room { counts: Some(Counts::of(&rooms)) })
    }

    /// Whether there is room before each of these removals.
    pub fn is_left(&self, from: usize, to: usize) -> bool {
        self.counts.as_ref().is_none_or(|counts| counts.first_free(from, to).is_none())
    }

    /// Notes that a put went to another removal than these, or takes that back.
    pub fn shrink(&mut self, from: usize, to: usize, by: i64) {
        if let Some(counts) = &mut self.counts {
            counts.add(from, to, -by);
        }
    }

    /// Notes that a removal is lined up, and needs no room, or takes that back.
    pub fn settle(&mut self, take: usize, by: i64) {
        if let Some(counts) = &mut self.counts {
            counts.add(take, take + 1, by * PLENTY);
        }
    }
}
