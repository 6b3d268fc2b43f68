//! By when the calls of a cell that take a value away have taken effect.

use super::scene::{Scene, needed};
use crate::accesses::Access;
use crate::timeline::Call;

/// Of at most this many calls that need a value the first one is looked for.
const MOST_NEEDERS: usize = 8;

/// How often deadlines are made earlier by one another.
const MOST_ROUNDS: usize = 8;

/// The most calls of a chain, each of which needs what the one before it set.
const MOST_LINKS: usize = 16;

/// A call that needs a value, by its place in the cell.
#[derive(Clone, Copy)]
pub struct Needer {
    content: usize,
    begin: u32,
    end: u32,
    pub place: usize,
}

/// By when a call has taken effect: its end, or the deadline of the call at the place `by`, which
/// needs what this one set, and so on in a chain. `begin` is when the first call of the chain
/// begins. The deadline holds only in a part that begins at `since` or later: by then all calls are
/// over that began before and set the same value as a call of the chain.
///
/// A `:cas` from 1 to 2 that returns late, for example, has taken effect when a read of 2 returns,
/// if no other call can have set 2 for this read.
#[derive(Clone, Copy)]
pub struct Deadline {
    pub at: u32,
    pub since: u32,
    pub begin: u32,
    by: Option<usize>,
}

/// The deadlines of a cell's calls, by their places.
pub struct Deadlines<'a> {
    scene: &'a Scene<'a>,
    /// The calls that need values, by these, and then by their begins.
    needers: Vec<Needer>,
    deadlines: Vec<Deadline>,
}

impl<'a> Deadlines<'a> {
    pub fn of(scene: &'a Scene<'a>) -> Deadlines<'a> {
        let accesses = scene.cell.accesses.iter();
        let needers = accesses.clone().enumerate().filter_map(|(place, access)| {
            let Call { begin, end, .. } = access.call;
            Some(Needer { content: needed(access)?, begin, end, place })
        });
        let mut needers: Vec<Needer> = needers.collect();
        needers.sort_unstable_by_key(|needer| (needer.content, needer.begin));
        let deadlines = accesses.map(|access| {
            let Call { begin, end, .. } = access.call;
            Deadline { at: end, since: 0, begin, by: None }
        });
        let mut all = Deadlines { scene, needers, deadlines: deadlines.collect() };
        for _ in 0..MOST_ROUNDS {
            if !all.tighten() {
                break;
            }
        }
        all
    }

    pub fn at(&self, place: usize) -> Deadline {
        self.deadlines[place]
    }

    /// How many need a lesser value, or this one and begin before this moment.
    fn before(&self, content: usize, moment: u32) -> usize {
        self.needers.partition_point(|needer| (needer.content, needer.begin) < (content, moment))
    }

    /// Of the calls that need this value and have returned by this moment one that begins late.
    pub fn last_needer(&self, content: usize, moment: u32) -> Option<Needer> {
        let last = self.needers[..self.before(content, moment)].iter().rev().take(MOST_NEEDERS);
        last.copied().find(|needer| needer.content == content && needer.end <= moment)
    }

    /// The deadline that this call has by one that needs the value which it alone set by then.
    fn deadline_by(&self, setter: Call, since: u32, needer: &Needer) -> Option<Deadline> {
        let last = self.scene.setters.last_before(needer.content, needer.end)?;
        let own = self.at(needer.place);
        (last.begin == setter.begin).then(|| Deadline {
            at: own.at,
            since: since.max(own.since),
            begin: setter.begin.min(own.begin),
            by: Some(needer.place),
        })
    }

    /// The earliest deadline that a call has by those that need the value which it set.
    fn earliest(&self, access: &Access) -> Option<Deadline> {
        let call = access.call;
        let content = access.sets?;
        let before = self.scene.setters.last_before(content, call.begin);
        let since = before.map_or(0, |before| before.over);
        if since > call.begin {
            return None;
        }
        let needers = self.needers[self.before(content, since)..].iter().take(MOST_NEEDERS);
        let own = needers.take_while(|needer| needer.content == content);
        own.filter_map(|needer| self.deadline_by(call, since, needer)).min_by_key(|d| d.at)
    }

    /// Makes the deadlines earlier of calls that take a value away. Whether some become earlier.
    fn tighten(&mut self) -> bool {
        let mut is_tighter = false;
        for (place, access) in self.scene.cell.accesses.iter().enumerate() {
            if needed(access).is_none() {
                continue;
            }
            if let Some(earliest) = self.earliest(access)
                && earliest.at < self.deadlines[place].at
            {
                self.deadlines[place] = earliest;
                is_tighter = true;
            }
        }
        is_tighter
    }

    /// Adds the calls that show by when the call at this place has taken effect, and the values
    /// that they set and need.
    pub fn add_chain(&self, place: usize, contents: &mut Vec<usize>, calls: &mut Vec<Call>) {
        let chain = std::iter::successors(Some(place), |place| self.at(*place).by);
        for place in chain.take(MOST_LINKS) {
            let access = &self.scene.cell.accesses[place];
            calls.push(access.call);
            if let Some(content) = needed(access)
                && !contents.contains(&content)
            {
                contents.push(content);
            }
        }
    }
}
