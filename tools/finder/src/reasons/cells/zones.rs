//! Two values of a cell that are set once each, and each of which definitely is there before the
//! other one is: the zones of Gibbons and Korach, "Testing Shared Memories", SIAM Journal on
//! Computing 26, 1997.

use super::MOST;
use super::greatest::{Greatest, Item};
use super::scene::Scene;
use crate::accesses::{Access, NOTHING, Need};
use crate::kinds::{Kind, Words};
use crate::reasons::pattern::Says;
use crate::reasons::{Candidate, Facts, Pattern};
use crate::timeline::Call;

/// Each of two values, which are set once, is seen before the other one is.
#[derive(Clone, Copy, Debug, PartialEq, Eq)]
pub struct Crossing {
    pub one: i64,
    pub other: i64,
}

impl Says for Crossing {
    fn sentence(&self, kind: Kind, _: Facts) -> String {
        let Words { put, seen, .. } = kind.words;
        let Crossing { one, other } = self;
        format!(
            "each of the values {one} and {other} was {seen} before the other, and each was {put} once"
        )
    }
}

/// Of the calls that need a content or set it the one that ends first, and the one that begins
/// last, with their places.
#[derive(Clone, Copy, Default)]
struct Zone {
    first: Option<(u32, usize)>,
    last: Option<(u32, usize)>,
}

impl Zone {
    fn note(&mut self, access: &Access, place: usize) {
        let (begin, end) = (access.call.begin, access.call.end);
        if !access.call.is_pending() && self.first.is_none_or(|first| end < first.0) {
            self.first = Some((end, place));
        }
        if self.last.is_none_or(|last| begin > last.0) {
            self.last = Some((begin, place));
        }
    }
}

/// The zone of each content.
fn zones_of(scene: &Scene) -> Vec<Zone> {
    let mut zones = vec![Zone::default(); scene.cell.content_count()];
    for (place, access) in scene.cell.accesses.iter().enumerate() {
        if let Need::Is(content) = access.need
            && !access.call.is_pending()
        {
            zones[content].note(access, place);
        }
        if let Some(content) = access.sets {
            zones[content].note(access, place);
        }
    }
    zones
}

/// A content that is there from one moment on and at another, later one: the moments, and the
/// content.
#[derive(Clone, Copy)]
struct Stay {
    from: u32,
    to: u32,
    content: usize,
}

/// The contents that are there at two moments. At a content that is set more than once nothing is
/// known.
fn stays_of(scene: &Scene, zones: &[Zone]) -> Vec<Stay> {
    let once = zones
        .iter()
        .enumerate()
        .filter(|(content, _)| *content != NOTHING && scene.setters.count(*content) == 1);
    let stays = once.filter_map(|(content, zone)| {
        Some(Stay { from: zone.first?.0, to: zone.last?.0, content })
    });
    stays.collect()
}

impl Item for Stay {
    fn content(&self) -> usize {
        self.content
    }

    fn moment(&self) -> u32 {
        self.to
    }
}

/// For each long stay, of which the end comes after the beginning, in rising order, when it begins,
/// and the longest of those that begin by then.
fn all_longest(stays: &[Stay]) -> Vec<(u32, Greatest<Stay>)> {
    let mut long: Vec<Stay> = stays.iter().filter(|stay| stay.from < stay.to).copied().collect();
    long.sort_by_key(|stay| stay.from);
    let mut now = Greatest::new();
    let longest = long.into_iter().map(|stay| {
        now.note(stay);
        (stay.from, now)
    });
    longest.collect()
}

/// A stay that begins before this one ends, and ends after it begins.
fn crossing(longest: &[(u32, Greatest<Stay>)], stay: &Stay) -> Option<Stay> {
    let next = longest.partition_point(|(from, _)| *from < stay.to);
    let (_, longest) = longest[..next].last()?;
    longest.other(stay.content).filter(|other| other.to > stay.from)
}

/// The number of the history by which a call has returned, or begun.
fn until_of(call: &Call) -> u32 {
    if call.is_pending() { call.number + 1 } else { call.until() }
}

/// The candidate of two contents that are each before the other.
fn candidate_of(scene: &Scene, zones: &[Zone], contents: [usize; 2]) -> Option<Candidate> {
    let [one, other] = contents.map(|content| scene.value(content));
    let pattern = Pattern::Crossing(Crossing { one: one?, other: other? });
    let ends = contents.into_iter().flat_map(|content| [zones[content].first, zones[content].last]);
    let calls: Vec<Call> = ends.flatten().map(|(_, place)| scene.call(place)).collect();
    let mut plan = scene.plan(&contents, &calls);
    plan.until = calls.iter().map(until_of).max();
    Some(scene.candidate(pattern, plan, 6))
}

/// The values of which each definitely is there before another one is, and after it.
pub fn crossing_zones(scene: &Scene) -> Vec<Candidate> {
    let zones = zones_of(scene);
    let stays = stays_of(scene, &zones);
    let longest = all_longest(&stays);
    let candidates = stays.iter().filter_map(|stay| {
        let other = crossing(&longest, stay)?;
        candidate_of(scene, &zones, [other.content, stay.content])
    });
    candidates.take(MOST).collect()
}
