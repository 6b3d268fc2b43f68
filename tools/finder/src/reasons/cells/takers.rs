//! Contents of a cell that are taken away more often than they are set.

use super::asking::Absent;
use super::scene::Scene;
use super::windows::{shortest_window, starts_in, takers_in};
use super::{MOST, MOST_NAMED};
use crate::accesses::{Access, NOTHING, Need};
use crate::cuts::{Count, Counted};
use crate::kinds::{Kind, Words};
use crate::reasons::pattern::{General, Says, SaysOfElement};
use crate::reasons::{Candidate, Facts, OneValue, Pattern, ShownBy};
use crate::timeline::Call;

/// A content is taken away in a time more often than it can have been there.
#[derive(Clone, Copy, Debug, PartialEq, Eq)]
pub struct CountExceeded(pub Counted);

impl Says for CountExceeded {
    fn sentence(&self, kind: Kind, facts: Facts) -> String {
        let Words { put, taken, .. } = kind.words;
        match self.0 {
            Counted::Value(owner) if kind.has_owner() => {
                format!("owner {owner} {taken} more often than it had {put}")
            }
            Counted::Value(value) | Counted::Entry { value, .. } => {
                format!("value {value} was {taken} more often than it can have been there")
            }
            Counted::NoEntry(_) => {
                "nil was seen more often than the key can have been without a value".to_owned()
            }
            Counted::Held => {
                format!("the lock was {taken} more often than it can have been held")
            }
            Counted::Free => format!("the lock was {put} more often than it can have been free"),
            // of this says more what was lost
            Counted::Ahead(_) => General.sentence(kind, facts),
        }
    }
}

impl SaysOfElement for CountExceeded {
    fn sentence_of_element(&self, element: i64, kind: Kind, facts: Facts) -> String {
        let Words { put, taken, .. } = kind.words;
        let word = kind.word;
        match self.0 {
            Counted::Entry { .. } => {
                format!(
                    "value {element} was {taken} more often than it can have been in the {word}"
                )
            }
            Counted::NoEntry(_) => {
                format!(
                    "value {element} was {put} more often than it can have been out of the {word}"
                )
            }
            // no set has these
            Counted::Value(_) | Counted::Held | Counted::Free | Counted::Ahead(_) => {
                General.sentence_of_element(element, kind, facts)
            }
        }
    }
}

/// What of a cell is counted. `None`: a register that contains nothing, which no call counts.
fn counted(scene: &Scene, content: usize) -> Option<Counted> {
    match (scene.cell.key, scene.value(content)) {
        (None, value) => value.map(Counted::Value),
        (Some(key), Some(value)) => Some(Counted::Entry { key, value }),
        (Some(key), None) => Some(Counted::NoEntry(key)),
    }
}

/// What shows that too much of this is counted from a number on, in the part of a cell's plan,
/// where a key of a map is a register. A search must show it of a cell without values, at which
/// nothing is counted.
fn shown_in_part(scene: &Scene, counted: Counted, from: u32) -> ShownBy {
    let counted = match counted {
        Counted::Entry { value, .. } => Counted::Value(value),
        _ => counted,
    };
    match scene.has_values {
        true => ShownBy::count(Count { counted, from }),
        false => ShownBy::Search,
    }
}

/// The content that a call takes away, by its reply.
fn taken_by(access: &Access) -> Option<usize> {
    match (access.need, access.sets) {
        (Need::Is(content), Some(_)) if !access.call.is_pending() => Some(content),
        _ => None,
    }
}

/// For each content the calls that take it away, or set it, by their ends.
fn by_content(scene: &Scene, content_of: impl Fn(&Access) -> Option<usize>) -> Vec<Vec<Call>> {
    let mut calls = vec![Vec::new(); scene.cell.content_count()];
    for access in &scene.cell.accesses {
        if let Some(content) = content_of(access) {
            calls[content].push(access.call);
        }
    }
    calls.iter_mut().for_each(|calls| calls.sort_by_key(|call: &Call| call.end));
    calls
}

/// How many of the takers, which come by their ends, have returned when fewer setters have begun.
/// `None`: there is no such moment.
fn excess(scene: &Scene, content: usize, takers: &[Call]) -> Option<usize> {
    let at_first = usize::from(content == NOTHING);
    let mut takers = (1..).zip(takers).skip(at_first);
    let (many, _) = takers.find(|(many, taker)| {
        let setter = scene.setters.nth(content, many - 1 - at_first);
        setter.is_none_or(|setter| setter.begin > taker.end)
    })?;
    Some(many)
}

/// Whether a put or a swap replaced this content by the same.
fn is_set_again(scene: &Scene, content: usize) -> bool {
    scene.cell.accesses.iter().any(|access| {
        access.need == Need::Is(content)
            && access.sets.is_none()
            && access.call.op.new_value().is_some()
    })
}

/// What these calls, one more than have set the content, are said to do.
fn excess_pattern(scene: &Scene, content: usize, taken: usize, counted: Counted) -> Pattern {
    match scene.value(content) {
        Some(_) if is_set_again(scene, content) => Pattern::CountExceeded(CountExceeded(counted)),
        Some(value) if taken == 2 && scene.setters.count(content) == 1 => {
            Pattern::OneValue(OneValue::TakenTwice(value))
        }
        Some(value) => Pattern::OneValue(OneValue::TakenTooOften { value, taken, set: taken - 1 }),
        None => Pattern::CountExceeded(CountExceeded(counted)),
    }
}

/// The contents that are taken away more often, from the beginning on, than they are set.
pub fn excesses(scene: &Scene) -> Vec<Candidate> {
    let takers = by_content(scene, taken_by);
    let candidates = takers.iter().enumerate().filter_map(|(content, takers)| {
        let counted = counted(scene, content)?;
        let taken = excess(scene, content, takers)?;
        if taken > MOST_NAMED || taken == 1 && content != NOTHING {
            return None;
        }
        let takers = &takers[..taken];
        let mut plan = scene.plan(&[content], takers);
        plan.until = takers.last().map(Call::until);
        plan.shown_by = shown_in_part(scene, counted, 0);
        let pattern = excess_pattern(scene, content, taken, counted);
        Some(scene.candidate(pattern, plan, 2 * taken))
    });
    candidates.take(MOST).collect()
}

/// The candidates of a content that is taken away in a window more often than it can have been
/// there.
fn window(
    scene: &Scene,
    content: usize,
    takers: &[Call],
    setters: &[Call],
    pattern: impl Fn(Option<Counted>, &Call) -> Pattern,
) -> Option<Vec<Candidate>> {
    let window = shortest_window(takers, setters, content == NOTHING)?;
    let inside = takers_in(takers, window);
    let counted = counted(scene, content);
    let pattern = pattern(counted, inside.last()?);
    // What sets a register that contains nothing is kept with what it sets.
    let new = inside.iter().filter(|_| counted.is_none()).filter_map(|call| scene.set_by(call));
    let contents: Vec<usize> = [content].into_iter().chain(new).collect();
    let candidates = starts_in(&inside, window).into_iter().map(|start| {
        let mut plan = scene.plan(&contents, &inside);
        plan.until = inside.last().map(Call::until);
        plan.shown_by = match counted {
            None => ShownBy::Search,
            Some(counted) => shown_in_part(scene, counted, start.count),
        };
        plan.from = match plan.shown_by {
            ShownBy::Search => sight_before(scene, &inside),
            ShownBy::Count { .. } => start.part,
        };
        scene.candidate(pattern.clone(), plan, 2 * inside.len())
    });
    Some(candidates.collect())
}

/// The pattern for calls, of which this is the last, that take away too often what is counted; a
/// register that contains nothing is not.
pub fn window_pattern(counted: Option<Counted>, last: &Call) -> Pattern {
    let (name, number) = (last.op.name(), last.number);
    match counted {
        Some(counted) => Pattern::CountExceeded(CountExceeded(counted)),
        None => Pattern::Absent(Absent::DoneOverValue { name, number }),
    }
}

/// The last call that shows a content and returns before all of these calls begin, so that a part
/// which begins with it has them.
fn sight_before(scene: &Scene, calls: &[Call]) -> Option<u32> {
    let begin = calls.iter().map(|call| call.begin).min()?;
    let sight = scene.sights.last_before(begin)?;
    Some(scene.call(sight.place).number)
}

/// The contents that are set more than once and in a window taken away more often than they can
/// have been there; the pattern of each follows from what is counted and the last call.
pub fn windows(
    scene: &Scene,
    pattern: impl Fn(Option<Counted>, &Call) -> Pattern,
) -> Vec<Candidate> {
    let takers = by_content(scene, taken_by);
    let setters = by_content(scene, |access| access.sets);
    let candidates =
        takers.iter().zip(&setters).enumerate().filter_map(|(content, (takers, setters))| {
            if takers.len() < 2 {
                return None;
            }
            window(scene, content, takers, setters, &pattern)
        });
    candidates.take(MOST).flatten().collect()
}
