//! Values that are seen though another one is there from before all calls that can have set them.

use super::MOST;
use super::greatest::{Greatest, Item};
use super::scene::{Scene, needed};
use crate::reasons::{Candidate, Pattern};
use crate::timeline::Call;

/// A value that is there from a moment on, since no call can have set it later, until a call begins
/// that needs it.
#[derive(Clone, Copy)]
struct Lasting {
    content: usize,
    from: u32,
    call: Call,
}

/// The values that last until calls begin that need them, by the moments from which they do.
fn lasting_of(scene: &Scene) -> Vec<Lasting> {
    let lasting = scene.cell.accesses.iter().filter_map(|access| {
        let (content, call) = (needed(access)?, access.call);
        let last = scene.setters.last_before(content, call.end)?;
        (last.over < call.begin).then_some(Lasting { content, from: last.over, call })
    });
    let mut lasting: Vec<Lasting> = lasting.collect();
    lasting.sort_by_key(|lasting| lasting.from);
    lasting
}

impl Item for Lasting {
    fn content(&self) -> usize {
        self.content
    }

    fn moment(&self) -> u32 {
        self.call.begin
    }
}

/// The candidate of two values of which both last at one moment.
fn candidate_of(scene: &Scene, one: &Lasting, other: &Lasting) -> Candidate {
    let mut calls = vec![one.call, other.call];
    let begin = one.call.begin.min(other.call.begin);
    let first = scene.sights.last_before(begin).map(|sight| scene.call(sight.place));
    calls.extend(first);
    let mut plan = scene.plan(&[one.content, other.content], &calls);
    plan.from = first.map(|first| first.number);
    plan.until = Some(one.call.until().max(other.call.until()));
    scene.candidate(Pattern::General, plan, 6)
}

/// The values of which two last at one moment.
pub fn lasting(scene: &Scene) -> Vec<Candidate> {
    let mut longest = Greatest::new();
    let candidates = lasting_of(scene).into_iter().filter_map(|lasting| {
        // another value that lasts until after this one begins to last
        let other = longest.other(lasting.content);
        let other = other.filter(|other: &Lasting| other.call.begin > lasting.from);
        longest.note(lasting);
        Some(candidate_of(scene, &lasting, &other?))
    });
    candidates.take(MOST).collect()
}
