//! Locks: one is locked while it has an owner, or unlocked by another one than its owner. A lock is
//! a cell that contains its owner, of which a part has all calls of a time.

use super::scene::Scene;
use super::takers::CountExceeded;
use super::{asking, takers};
use crate::accesses::{NOTHING, Need, owners_of};
use crate::cuts::Counted;
use crate::kinds::{Kind, Words};
use crate::reasons::pattern::Says;
use crate::reasons::{Candidate, Facts, Form, Pattern, Plan};
use crate::timeline::{Call, Timeline};

/// An owner acquires a lock, or releases it, while this holder has it.
#[derive(Clone, Copy, Debug, PartialEq, Eq)]
pub struct NotHolder {
    pub acquires: bool,
    pub owner: i64,
    pub holder: Option<i64>,
}

impl Says for NotHolder {
    fn sentence(&self, kind: Kind, _: Facts) -> String {
        let Words { put, taken, .. } = kind.words;
        let NotHolder { acquires, owner, holder } = *self;
        match (holder, acquires) {
            (Some(holder), true) => {
                format!("owner {owner} {put} what owner {holder} had {put}, and not {taken}")
            }
            (Some(holder), false) => format!("owner {owner} {taken} what owner {holder} had {put}"),
            (None, true) => format!("owner {owner} {put} what no owner had {put}"),
            (None, false) => format!("owner {owner} {taken} what no owner had {put}"),
        }
    }
}

/// The candidate whose part has all calls of its time.
fn of_time(candidate: Candidate) -> Candidate {
    let Plan { from, until, .. } = candidate.plan;
    let plan = Plan { from, until, ..Plan::of(Form::Window { operations: Vec::new() }) };
    Candidate { plan, ..candidate }
}

/// The pattern for the last call of a plan: the lock has another owner than the call needs, or no
/// owner.
fn pattern_of(scene: &Scene, plan: &Plan) -> Option<Pattern> {
    let access = scene.cell.accesses.iter().find(|own| Some(own.call.until()) == plan.until)?;
    let first = plan.from.and_then(|from| {
        scene.cell.accesses.iter().find(|access| access.call.number == from)?.shows()
    });
    let holder = first.and_then(|content| scene.value(content));
    let acquires = access.need == Need::Is(NOTHING);
    let owner = access.call.op.argument.last()?;
    Some(Pattern::NotHolder(NotHolder { acquires, owner, holder }))
}

/// The last call that was over before the last one of the plan began.
fn start_of(scene: &Scene, plan: &Plan) -> Option<u32> {
    let last = scene.cell.accesses.iter().find(|own| Some(own.call.until()) == plan.until)?;
    let sight = scene.sights.last_before(last.call.begin)?;
    Some(scene.call(sight.place).number)
}

/// Calls that ask for an owner that cannot be there.
pub fn lock_patterns(timeline: &Timeline) -> Vec<Candidate> {
    let cell = owners_of(&timeline.calls);
    let scene = Scene::of(&cell);
    let asking = asking::asking(&scene).into_iter().map(|mut candidate| {
        let plan = &mut candidate.plan;
        plan.from = plan.from.or_else(|| start_of(&scene, plan));
        candidate.pattern = pattern_of(&scene, &candidate.plan).unwrap_or(Pattern::General);
        of_time(candidate)
    });
    asking.collect()
}

/// Times in which a lock is locked more often than it can have been free, or unlocked by an owner
/// more often than it can have been locked.
pub fn rare_lock_patterns(timeline: &Timeline) -> Vec<Candidate> {
    let cell = owners_of(&timeline.calls);
    let pattern = |counted: Option<Counted>, _: &Call| {
        Pattern::CountExceeded(CountExceeded(counted.unwrap_or(Counted::Free)))
    };
    takers::windows(&Scene::of(&cell), pattern).into_iter().map(of_time).collect()
}
