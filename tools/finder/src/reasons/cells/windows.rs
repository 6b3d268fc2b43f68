//! Windows of time in which a content is taken away more often than it can have been there.

use crate::timeline::Call;
use crate::trees::Most;

/// What happens at a moment.
#[derive(Clone, Copy, PartialEq, Eq)]
enum Step {
    SetterBegins,
    SetterEnds,
    TakerEnds,
}

/// A step, and the begin of its call.
struct Change {
    at: u32,
    step: Step,
    begin: u32,
}

/// A window in which more takers begin and end than setters touch it, by the moments at which it
/// begins and ends. One from moment 0 on is a window from the first beginning.
#[derive(Clone, Copy)]
pub struct Window {
    from: u32,
    to: u32,
}

fn changes_of(takers: &[Call], setters: &[Call]) -> Vec<Change> {
    let end = |call: &Call, step| Change { at: call.end, step, begin: call.begin };
    let returned = |calls: &&Call| !calls.is_pending();
    let mut changes = Vec::new();
    changes.extend(takers.iter().filter(returned).map(|call| end(call, Step::TakerEnds)));
    changes.extend(setters.iter().filter(returned).map(|call| end(call, Step::SetterEnds)));
    let begin =
        |call: &Call| Change { at: call.begin, step: Step::SetterBegins, begin: call.begin };
    changes.extend(setters.iter().map(begin));
    changes.sort_unstable_by_key(|change| change.at);
    changes
}

/// The counts of takers less setters in the windows that begin at each start.
struct Balance {
    /// The begins of takers, at which a window may begin, in rising order; moment 0 before them.
    starts: Vec<u32>,
    counts: Most,
}

impl Balance {
    fn new(takers: &[Call], is_there_at_first: bool) -> Balance {
        let mut starts: Vec<u32> =
            std::iter::once(0).chain(takers.iter().map(|t| t.begin)).collect();
        starts.sort_unstable();
        let mut counts = Most::new(starts.len());
        if !is_there_at_first {
            counts.add_before(1, 1);
        }
        Balance { starts, counts }
    }

    fn note(&mut self, change: &Change) {
        match change.step {
            Step::TakerEnds => {
                let to = self.starts.partition_point(|start| *start <= change.begin);
                self.counts.add_before(to, 1);
            }
            Step::SetterBegins => self.counts.add(-1),
            Step::SetterEnds => {
                let from = self.starts.partition_point(|start| *start <= change.at);
                self.counts.add(1);
                self.counts.add_before(from, -1);
            }
        }
    }

    /// The last start of a window in which the content is taken away once more than it can have
    /// been there.
    fn last_exceeded_start(&self) -> Option<u32> {
        let place = self.counts.last_at_least(2)?;
        Some(self.starts[place])
    }
}

/// The shortest window in which a content, which there can be once, is taken away more often than
/// it can have been there; of several such the first.
pub fn shortest_window(
    takers: &[Call],
    setters: &[Call],
    is_there_at_first: bool,
) -> Option<Window> {
    let mut balance = Balance::new(takers, is_there_at_first);
    let windows = changes_of(takers, setters).into_iter().filter_map(|change| {
        balance.note(&change);
        if change.step != Step::TakerEnds {
            return None;
        }
        Some(Window { from: balance.last_exceeded_start()?, to: change.at })
    });
    windows.min_by_key(|window| window.to - window.from)
}

/// The takers that begin and end in the window.
pub fn takers_in(takers: &[Call], window: Window) -> Vec<Call> {
    let inside = takers.iter().filter(|call| call.begin >= window.from && call.end <= window.to);
    inside.copied().collect()
}

/// Where a count in a window begins: the call at which the part begins, if it begins at one, and
/// the number from which calls are counted in it.
pub struct CountStart {
    pub part: Option<u32>,
    pub count: u32,
}

/// How a count in a window with these takers can begin. A window from moment 0 on is counted from
/// the beginning. In another one the part begins with the first taker. If others overlap it,
/// which the part would not have, only the count can begin there.
pub fn starts_in(takers: &[Call], window: Window) -> Vec<CountStart> {
    let Some(first) = takers.iter().min_by_key(|taker| taker.begin) else {
        return Vec::new();
    };
    if window.from == 0 {
        return vec![CountStart { part: None, count: 0 }];
    }
    let mut starts = vec![CountStart { part: Some(first.number), count: 0 }];
    if takers.iter().filter(|taker| taker.begin < first.end).count() > 1 {
        starts.push(CountStart { part: None, count: first.number });
    }
    starts
}
