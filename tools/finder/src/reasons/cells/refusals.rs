//! Calls that replace a content, and are refused while the content that they expect, a value or
//! nothing, definitely is there.

use super::MOST;
use super::scene::Scene;
use crate::accesses::{Access, Cell, NOTHING, Need};
use crate::kinds::Kind;
use crate::reasons::pattern::Says;
use crate::reasons::{Candidate, Chosen, Facts, Form, Pattern, Plan};
use crate::timeline::{Call, PENDING};

/// A call that is refused, and cannot have been.
#[derive(Clone, Copy, Debug, PartialEq, Eq)]
pub enum Refused {
    /// A swap is refused while the value that it expects definitely is there.
    UnderItsValue { value: i64, number: u32 },
    /// An operation that sets a value if there is none is refused, and definitely no value was
    /// there.
    WithoutValue { name: &'static str, number: u32 },
}

impl Says for Refused {
    fn sentence(&self, kind: Kind, _: Facts) -> String {
        match *self {
            Refused::UnderItsValue { value, number } => {
                let swap = format!("the :{} of event {number}, which expects it", kind.swap_name());
                format!("value {value} was definitely there when {swap}, was refused")
            }
            Refused::WithoutValue { name, number } => {
                format!("no value was there when the :{name} of event {number} was refused")
            }
        }
    }
}

/// A call that shows a content, and the one that begins last among those that show the same and
/// return no later.
#[derive(Clone, Copy)]
struct Shown {
    content: usize,
    end: u32,
    begin: u32,
    place: usize,
}

/// The calls that show a content, by it, and then by their ends.
fn all_shown(cell: &Cell) -> Vec<Shown> {
    let returned = cell.accesses.iter().enumerate().filter(|(_, a)| !a.call.is_pending());
    let shown = returned.filter_map(|(place, access)| {
        let (begin, end) = (access.call.begin, access.call.end);
        Some(Shown { content: access.shows()?, end, begin, place })
    });
    let mut all: Vec<Shown> = shown.collect();
    all.sort_unstable_by_key(|shown| (shown.content, shown.end));
    for same in all.chunk_by_mut(|one, other| one.content == other.content) {
        let mut last = same[0];
        for shown in same {
            if last.begin > shown.begin {
                (shown.begin, shown.place) = (last.begin, last.place);
            }
            last = *shown;
        }
    }
    all
}

/// When the calls are over that set contents and begin by a moment: all, and those that set another
/// content than the one that is over last.
#[derive(Clone, Copy, Default)]
struct Over {
    begin: u32,
    content: usize,
    end: u32,
    end_of_others: u32,
}

/// The calls that set contents, by their begins.
fn all_overs(cell: &Cell) -> Vec<Over> {
    let mut now = Over::default();
    let overs = cell.accesses.iter().filter_map(|access| {
        let (content, end) = (access.sets?, access.call.end);
        now.begin = access.call.begin;
        if content == now.content {
            now.end = now.end.max(end);
        } else if end > now.end {
            now = Over { content, end, end_of_others: now.end, ..now };
        } else {
            now.end_of_others = now.end_of_others.max(end);
        }
        Some(now)
    });
    overs.collect()
}

/// When the calls are over that set another content than this and begin before this moment.
fn others_over(overs: &[Over], content: usize, moment: u32) -> u32 {
    match overs[..overs.partition_point(|over| over.begin < moment)].last() {
        Some(over) if over.content == content => over.end_of_others,
        Some(over) => over.end,
        None => 0,
    }
}

/// The call that shows this content, returns before this moment, and begins last.
fn last_shown(shown: &[Shown], content: usize, moment: u32) -> Option<Shown> {
    let next = shown.partition_point(|shown| (shown.content, shown.end) < (content, moment));
    shown[..next].last().copied().filter(|last| last.content == content)
}

/// The call that shows, at or after this one, that the content is there last. If a content is
/// set once it stays until then.
fn last_sight(scene: &Scene, shown: &[Shown], first: Shown) -> Shown {
    if scene.setters.count(first.content) != 1 {
        return first;
    }
    last_shown(shown, first.content, PENDING).unwrap_or(first)
}

/// The calls that show that this content is there from before a call until it ends: the first and
/// the last one. There are none if the cell has been empty from the beginning. `None`: another
/// content may be there.
fn shown_around(
    scene: &Scene,
    shown: &[Shown],
    overs: &[Over],
    content: usize,
    call: &Call,
) -> Option<Vec<Call>> {
    let over = others_over(overs, content, call.end);
    let Some(first) = last_shown(shown, content, call.begin) else {
        return (content == NOTHING && over == 0).then(Vec::new);
    };
    let last = last_sight(scene, shown, first);
    let may_be_other = last.begin < call.end && over >= last.begin;
    (!may_be_other).then(|| vec![scene.call(first.place), scene.call(last.place)])
}

/// What is wrong with a refused swap, if something is.
fn candidate_of(
    scene: &Scene,
    shown: &[Shown],
    overs: &[Over],
    access: &Access,
) -> Option<Candidate> {
    let Need::IsNot(content) = access.need else {
        return None;
    };
    let around = shown_around(scene, shown, overs, content, &access.call)?;
    let calls = around.iter().take(1).chain([&access.call]).chain(around.iter().skip(1));
    let operations = calls.clone().map(|call| call.number).collect();
    let form = match scene.cell.key {
        None => Form::Window { operations },
        Some(key) => Form::Keys(Chosen { values: vec![key], operations }),
    };
    let plan = Plan {
        from: around.first().map(|first| first.number),
        until: calls.clone().map(Call::until).max(),
        ..Plan::of(form)
    };
    let number = access.call.number;
    let pattern = match scene.value(content) {
        Some(value) => Refused::UnderItsValue { value, number },
        None => Refused::WithoutValue { name: access.call.op.name(), number },
    };
    Some(scene.candidate(Pattern::Refused(pattern), plan, 2))
}

/// The calls that are refused while the content that they expect definitely is there.
pub fn refusals(scene: &Scene) -> Vec<Candidate> {
    let accesses = &scene.cell.accesses;
    if !accesses.iter().any(|access| matches!(access.need, Need::IsNot(_))) {
        return Vec::new();
    }
    let shown = all_shown(scene.cell);
    let overs = all_overs(scene.cell);
    let candidates =
        accesses.iter().filter_map(|access| candidate_of(scene, &shown, &overs, access));
    candidates.take(MOST).collect()
}
