//! What calls of a cell set and show, by time.

use super::greatest::{Greatest, Item};
use crate::accesses::Cell;
use crate::timeline::Call;

/// Of at most this many calls that set a content it is counted how many touch a time.
const MOST_COUNTED: usize = 64;

/// A call that sets a content: when it begins and ends, and when all calls that set the same and
/// begin no later are over.
#[derive(Clone, Copy)]
pub struct Setter {
    pub content: usize,
    pub begin: u32,
    end: u32,
    pub over: u32,
}

/// The calls that set, by content, and then by their begins.
pub struct Setters {
    setters: Vec<Setter>,
}

impl Setters {
    pub fn of(cell: &Cell) -> Setters {
        let setters = cell.accesses.iter().filter_map(|access| {
            let Call { begin, end, .. } = access.call;
            Some(Setter { content: access.sets?, begin, end, over: end })
        });
        let mut setters: Vec<Setter> = setters.collect();
        setters.sort_unstable_by_key(|setter| (setter.content, setter.begin));
        for same in setters.chunk_by_mut(|one, other| one.content == other.content) {
            let mut over = 0;
            for setter in same {
                over = over.max(setter.over);
                setter.over = over;
            }
        }
        Setters { setters }
    }

    /// How many set a lesser content, or this one and begin before this moment.
    fn before(&self, content: usize, moment: u32) -> usize {
        self.setters.partition_point(|setter| (setter.content, setter.begin) < (content, moment))
    }

    /// The last one that sets this content and begins before this moment.
    pub fn last_before(&self, content: usize, moment: u32) -> Option<Setter> {
        let last = self.setters[..self.before(content, moment)].last();
        last.copied().filter(|last| last.content == content)
    }

    /// The one that sets this content when `before` of them have begun before it.
    pub fn nth(&self, content: usize, before: usize) -> Option<Setter> {
        let setter = self.setters.get(self.before(content, 0) + before);
        setter.copied().filter(|setter| setter.content == content)
    }

    /// How many set this content, begin before `to`, and are not over by `from`; more than `most`
    /// if they are more, or are not counted to the end.
    pub fn touching(&self, content: usize, from: u32, to: u32, most: usize) -> usize {
        let mut many = 0;
        let mut setters = self.setters[..self.before(content, to)].iter().rev();
        for _ in 0..MOST_COUNTED {
            let setter = match setters.next() {
                Some(setter) if setter.content == content && setter.over > from => setter,
                _ => return many,
            };
            if many > most {
                return many;
            }
            many += usize::from(setter.end > from);
        }
        most + 1
    }

    /// How many set this content.
    pub fn count(&self, content: usize) -> usize {
        self.before(content + 1, 0) - self.before(content, 0)
    }
}

/// A call that shows what the cell contains after it, by its place in the cell.
#[derive(Clone, Copy)]
pub struct Sight {
    pub begin: u32,
    pub content: usize,
    pub place: usize,
}

impl Item for Sight {
    fn content(&self) -> usize {
        self.content
    }

    fn moment(&self) -> u32 {
        self.begin
    }
}

/// The calls that show what the cell contains, by their ends: for each end those that begin
/// last of the ones that return by then.
pub struct Sights {
    latest: Vec<(u32, Greatest<Sight>)>,
}

impl Sights {
    pub fn of(cell: &Cell) -> Sights {
        let returned = cell.accesses.iter().enumerate().filter(|(_, a)| !a.call.is_pending());
        let sights = returned.filter_map(|(place, access)| {
            let sight = Sight { begin: access.call.begin, content: access.shows()?, place };
            Some((access.call.end, sight))
        });
        let mut sights: Vec<(u32, Sight)> = sights.collect();
        sights.sort_unstable_by_key(|(end, _)| *end);
        let mut now = Greatest::new();
        let latest = sights.into_iter().map(|(end, sight)| {
            now.note(sight);
            (end, now)
        });
        Sights { latest: latest.collect() }
    }

    fn before(&self, moment: u32) -> Option<Greatest<Sight>> {
        let next = self.latest.partition_point(|(end, _)| *end < moment);
        self.latest[..next].last().map(|(_, latest)| *latest)
    }

    /// Of the calls that return before this moment the one that begins last.
    pub fn last_before(&self, moment: u32) -> Option<Sight> {
        self.before(moment)?.first
    }

    /// Of the calls that return before this moment and show another content than this the one that
    /// begins last.
    pub fn last_other(&self, content: usize, moment: u32) -> Option<Sight> {
        self.before(moment)?.other(content)
    }
}
