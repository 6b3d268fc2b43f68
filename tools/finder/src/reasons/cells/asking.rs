//! Calls that ask for a content that cannot be there.

use super::scene::Scene;
use super::sights::Sight;
use super::{MOST, MOST_NAMED};
use crate::accesses::{Access, NOTHING, Need};
use crate::kinds::{Kind, Reply, Words};
use crate::reasons::pattern::{General, Says, SaysOfElement};
use crate::reasons::{Candidate, Facts, OneValue, Pattern};

/// A content that a call finds, and that is not there any more.
#[derive(Clone, Copy, Debug, PartialEq, Eq)]
pub enum Absent {
    /// The value, or nothing, is seen after another content was seen, and all that set it were over
    /// before.
    Stale(Option<i64>),
    /// An operation sets a value and finds none before it, while one definitely is there.
    DoneOverValue { name: &'static str, number: u32 },
    /// An element of a set is put there twice, and not taken away in between, or taken away twice.
    Repeated { sets: bool },
}

impl Says for Absent {
    fn sentence(&self, kind: Kind, facts: Facts) -> String {
        let Words { seen, out_of_date, .. } = kind.words;
        match *self {
            Absent::Stale(Some(value)) => {
                format!("value {value} was {} {out_of_date}", facts.seen(kind))
            }
            Absent::Stale(None) => {
                format!("nil was {seen} after another content had replaced it")
            }
            Absent::DoneOverValue { name, number } => {
                format!(
                    "a value was definitely there when the :{name} of event {number} found none"
                )
            }
            Absent::Repeated { .. } => General.sentence(kind, facts),
        }
    }
}

impl SaysOfElement for Absent {
    fn sentence_of_element(&self, element: i64, kind: Kind, facts: Facts) -> String {
        let Words { put, seen, taken, .. } = kind.words;
        let word = kind.word;
        match self {
            Absent::Repeated { sets } => {
                let (done, undone) = if *sets { (put, taken) } else { (taken, put) };
                format!("value {element} was {done} twice, and not {undone} in between")
            }
            Absent::Stale(Some(_)) => {
                let out = format!("after it had been out of the {word}");
                format!("value {element} was {seen} {out}, and not {put} in between")
            }
            Absent::Stale(None) => {
                let inside = format!("after it had been in the {word}");
                format!("value {element} was not {seen} {inside}, and not {taken} in between")
            }
            Absent::DoneOverValue { .. } => General.sentence_of_element(element, kind, facts),
        }
    }
}

/// Why a content cannot be there.
enum Wrong {
    /// No call set it before.
    Unset,
    /// After all calls were over that set it another one was shown.
    Stale(Sight),
}

/// What is wrong with a call that asks for a content, if something is.
fn wrong_with(scene: &Scene, access: &Access, content: usize) -> Option<Wrong> {
    if access.call.is_pending() {
        return None;
    }
    let last = scene.setters.last_before(content, access.call.end);
    if last.is_none() && content != NOTHING {
        return Some(Wrong::Unset);
    }
    let over = last.map_or(0, |last| last.over);
    let sight = scene.sights.last_other(content, access.call.begin)?;
    (over < access.call.begin && over <= sight.begin).then_some(Wrong::Stale(sight))
}

/// What asks for a value that no call set before.
fn unset(scene: &Scene, access: &Access, content: usize) -> Option<Candidate> {
    let value = scene.value(content)?;
    let pattern = match scene.setters.count(content) {
        0 => OneValue::NeverSet(value),
        _ => OneValue::TooEarly(value),
    };
    let mut plan = scene.plan(&[content], &[access.call]);
    plan.until = Some(access.call.until());
    Some(scene.candidate(Pattern::OneValue(pattern), plan, 1))
}

/// What asks for the first of these contents after another was shown. The others are kept too.
fn stale(scene: &Scene, access: &Access, contents: &[usize], sight: Sight) -> Candidate {
    let shown = scene.call(sight.place);
    // An object which is one cell keeps a value that is set if there is none.
    let new = access.sets.filter(|_| contents[0] == NOTHING && scene.cell.key.is_none());
    let kept: Vec<usize> = contents.iter().copied().chain(new).collect();
    let mut plan = scene.plan(&kept, &[shown, access.call]);
    plan.from = Some(shown.number);
    plan.until = Some(access.call.until());
    let pattern = stale_pattern(scene, access, contents[0], sight);
    scene.candidate(Pattern::Absent(pattern), plan, 2)
}

/// The pattern for a call that asks for this content after another was shown.
fn stale_pattern(scene: &Scene, access: &Access, content: usize, sight: Sight) -> Absent {
    let shown = &scene.cell.accesses[sight.place];
    let is_repeated = access.sets.is_some() && shown.sets == access.sets;
    let op = access.call.op;
    match (scene.cell.key, access.call.reply) {
        (Some(_), _) if !scene.has_values && is_repeated => {
            Absent::Repeated { sets: access.sets != Some(NOTHING) }
        }
        (_, Some(Reply::Flag(_))) if scene.has_values && content == NOTHING => {
            Absent::DoneOverValue { name: op.name(), number: access.call.number }
        }
        _ => Absent::Stale(scene.value(content)),
    }
}

/// The candidates of a call that asks for a content that cannot be there. A key of few calls that
/// was shown without a value is first kept whole, since its part then begins empty.
fn candidates_of(scene: &Scene, access: &Access) -> Option<Vec<Candidate>> {
    let Need::Is(content) = access.need else {
        return None;
    };
    let sight = match wrong_with(scene, access, content)? {
        Wrong::Unset => return Some(unset(scene, access, content).into_iter().collect()),
        Wrong::Stale(sight) => sight,
    };
    let mut candidates = Vec::new();
    let is_small = scene.cell.key.is_some() && scene.cell.accesses.len() <= MOST_NAMED;
    if sight.content == NOTHING && is_small {
        candidates.push(stale(scene, access, &[content, NOTHING], sight));
    }
    candidates.push(stale(scene, access, &[content], sight));
    Some(candidates)
}

/// The calls that ask for a content that cannot be there.
pub fn asking(scene: &Scene) -> Vec<Candidate> {
    let candidates = scene.cell.accesses.iter().filter_map(|access| candidates_of(scene, access));
    candidates.take(MOST).flatten().collect()
}
