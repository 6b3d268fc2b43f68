//! Values that are seen more often, each time after they definitely were taken away, than they can
//! have been set.

use super::MOST;
use super::asking::Absent;
use super::deadlines::Deadlines;
use super::scene::{Scene, needed};
use super::sights::Sight;
use crate::accesses::Access;
use crate::reasons::{Candidate, Pattern};
use crate::timeline::Call;

/// The most calls that take the value away before it is seen once more.
const MOST_TAKERS: usize = 3;

/// A call that takes a value away, by its place in the cell, by when it has, and what this takes.
struct Taker {
    content: usize,
    deadline: u32,
    since: u32,
    begin: u32,
    place: usize,
}

/// The calls that take values away, by these, and then by their deadlines.
fn takers_of(deadlines: &Deadlines, scene: &Scene) -> Vec<Taker> {
    let taking = scene.cell.accesses.iter().enumerate().filter(|(_, a)| a.sets.is_some());
    let takers = taking.filter_map(|(place, access)| {
        let content = needed(access)?;
        let deadline = deadlines.at(place);
        let (since, begin) = (deadline.since, deadline.begin);
        Some(Taker { content, deadline: deadline.at, since, begin, place })
    });
    let mut takers: Vec<Taker> = takers.collect();
    takers.sort_by_key(|taker| (taker.content, taker.deadline));
    takers
}

/// Where the story of a content begins.
#[derive(Clone, Copy)]
enum Start {
    Cell,
    Sight(Sight),
}

/// A cell, its calls that take values away, and by when they have.
struct Story<'a> {
    scene: &'a Scene<'a>,
    deadlines: Deadlines<'a>,
    takers: Vec<Taker>,
}

impl Story<'_> {
    /// Where the story of a content begins that no more than `most` calls can set by `end`: with
    /// the cell, which is empty, or with a call that shows another content before a moment, and
    /// begins when other calls are over.
    fn start_of(
        &self,
        content: usize,
        moment: u32,
        since: u32,
        end: u32,
        most: usize,
    ) -> Option<Start> {
        let is_set_by_few = |from| self.scene.setters.touching(content, from, end, most) <= most;
        if since == 0 && is_set_by_few(0) {
            return Some(Start::Cell);
        }
        let sight = self.scene.sights.last_other(content, moment)?;
        (since <= sight.begin && is_set_by_few(sight.begin)).then_some(Start::Sight(sight))
    }

    /// The candidate of a value, the first of these contents, that a call needs once more.
    fn candidate(
        &self,
        access: &Access,
        start: Start,
        contents: &[usize],
        mut calls: Vec<Call>,
    ) -> Candidate {
        let first = match start {
            Start::Cell => None,
            Start::Sight(sight) => Some(self.scene.call(sight.place)),
        };
        calls.extend(first);
        calls.push(access.call);
        let mut plan = self.scene.plan(contents, &calls);
        plan.from = first.map(|first| first.number);
        plan.until = Some(access.call.until());
        let pattern = Absent::Stale(self.scene.value(contents[0]));
        self.scene.candidate(Pattern::Absent(pattern), plan, 2 * calls.len())
    }

    /// What is wrong with a call that needs a value which these calls have taken away before it
    /// begins, if something is.
    fn after_takers(&self, access: &Access, content: usize, takers: &[Taker]) -> Option<Candidate> {
        let begin = takers.iter().map(|taker| taker.begin).min()?;
        let since = takers.iter().map(|taker| taker.since).max()?;
        let start = self.start_of(content, begin, since, access.call.end, takers.len())?;
        let mut contents = vec![content];
        let mut calls = Vec::new();
        for taker in takers {
            self.deadlines.add_chain(taker.place, &mut contents, &mut calls);
        }
        match start {
            Start::Sight(sight) if contents.contains(&sight.content) => None,
            _ => Some(self.candidate(access, start, &contents, calls)),
        }
    }

    /// The same, by the calls that take the value away last.
    fn after_last_takers(&self, access: &Access, content: usize) -> Option<Candidate> {
        let before = |moment| {
            self.takers.partition_point(|taker| (taker.content, taker.deadline) < (content, moment))
        };
        let takers = &self.takers[before(0)..before(access.call.begin)];
        let few = 1..=takers.len().min(MOST_TAKERS);
        few.into_iter()
            .find_map(|many| self.after_takers(access, content, &takers[takers.len() - many..]))
    }

    /// What is wrong with a call that needs a value which another call has seen and a third one has
    /// not, one after another, before it begins, if something is.
    fn after_sight(&self, access: &Access, content: usize) -> Option<Candidate> {
        let other = self.scene.sights.last_other(content, access.call.begin)?;
        let earlier = self.deadlines.last_needer(content, other.begin)?;
        let (earlier, shown) = (self.scene.call(earlier.place), self.scene.call(other.place));
        let start = self.start_of(content, earlier.begin, 0, access.call.end, 1)?;
        Some(self.candidate(access, start, &[content], vec![earlier, shown]))
    }

    /// What is wrong with a call, if something is.
    fn wrong_with(&self, access: &Access) -> Option<Candidate> {
        let content = needed(access)?;
        self.after_last_takers(access, content).or_else(|| self.after_sight(access, content))
    }
}

/// The values that are seen once more than they can have been set, after they were taken away.
pub fn seen_again(scene: &Scene) -> Vec<Candidate> {
    let deadlines = Deadlines::of(scene);
    let takers = takers_of(&deadlines, scene);
    let story = Story { scene, deadlines, takers };
    let candidates = scene.cell.accesses.iter().filter_map(|access| story.wrong_with(access));
    candidates.take(MOST).collect()
}
