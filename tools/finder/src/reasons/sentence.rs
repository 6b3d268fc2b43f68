//! Sentences: what a reason says in words. The pattern says what is wrong; beside it are the
//! operation at which the part begins, and the first event that leaves no order.

use super::{Facts, Pattern};
use crate::cuts::Cut;
use crate::history::{ObjectHistory, Operation};
use crate::kinds::{Does, Kind, Need, Op, Reply};
use std::fmt::{self, Display, Formatter};

/// What an operation with this reply did that left its object empty, or free, or found it so.
fn left_empty(op: Op, reply: Reply) -> Option<(&'static str, &'static str)> {
    let found_nothing = ("found", "nothing");
    match op.function.does {
        Does::Takes => (reply == Reply::Value(None)).then_some(found_nothing),
        Does::Accesses(_) => {
            let effect = op.effect(Some(reply))?;
            let takes_away = match effect.need {
                Need::Any => ("left", "nothing"),
                _ if !op.kind().has_values_in_cells() => (op.kind().words.taken, "it"),
                _ => ("took", "the value away"),
            };
            let takes_away = (effect.sets == Some(None)).then_some(takes_away);
            takes_away.or((effect.need == Need::Is(None)).then_some(found_nothing))
        }
        Does::Releases => Some((op.kind().words.taken, "the lock")),
        Does::Puts | Does::Acquires | Does::Adds | Does::Counts => None,
    }
}

/// The operation at which a part begins, of which the part has nothing since it left the object
/// empty, or free: what was before it does not count.
#[derive(Clone, Copy, Debug, PartialEq, Eq)]
pub struct FirstOperation {
    /// The number of its invocation.
    pub number: u32,
    /// What it did, and with what.
    did: &'static str,
    what: &'static str,
}

impl FirstOperation {
    /// That of the part that these cuts leave of a history.
    pub(super) fn of(
        history: &ObjectHistory,
        cuts: &[Cut],
        part: &ObjectHistory,
    ) -> Option<FirstOperation> {
        let number = cuts.iter().rev().find_map(|cut| match cut {
            Cut::From(number) => Some(*number),
            _ => None,
        })?;
        let place = |ops: &[Operation]| ops.binary_search_by_key(&number, |o| o.number).ok();
        let own = &history.ops[place(&history.ops)?];
        let (did, what) = left_empty(own.op, own.reply()?)?;
        place(&part.ops).is_none().then_some(FirstOperation { number, did, what })
    }
}

impl Display for FirstOperation {
    fn fmt(&self, f: &mut Formatter<'_>) -> fmt::Result {
        write!(f, "before that, event {} {} {}", self.number, self.did, self.what)
    }
}

/// The first event by which there is no valid order: it is one from the least to the most.
#[derive(Clone, Copy, Debug, PartialEq, Eq)]
pub struct FirstEvent {
    pub least: u32,
    pub most: u32,
}

impl Display for FirstEvent {
    fn fmt(&self, f: &mut Formatter<'_>) -> fmt::Result {
        let FirstEvent { least, most } = self;
        match least == most {
            true => write!(f, "event {most} is the first that leaves no order"),
            false => write!(
                f,
                "the first event that leaves no order is one from event {least} to event {most}"
            ),
        }
    }
}

/// What a pattern says of an object of this kind; at a map, of this key; what is said beside it;
/// where the part begins that shows it; and what is the first event by which there is no order, if
/// that was looked for.
#[derive(Clone, Debug, PartialEq, Eq)]
pub struct Sentence {
    pub kind: Kind,
    pub key: Option<i64>,
    pub pattern: Pattern,
    pub facts: Facts,
    pub beginning: Option<FirstOperation>,
    pub first: Option<FirstEvent>,
}

impl Display for Sentence {
    fn fmt(&self, f: &mut Formatter<'_>) -> fmt::Result {
        let Sentence { kind, facts, .. } = *self;
        match self.key {
            Some(element) if !kind.has_values_in_cells() => {
                let pattern = self.pattern.says_of_element();
                f.write_str(&pattern.sentence_of_element(element, kind, facts))?;
            }
            key => {
                key.map_or(Ok(()), |key| write!(f, "key {key}: "))?;
                f.write_str(&self.pattern.says().sentence(kind, facts))?;
            }
        }
        self.beginning.map_or(Ok(()), |beginning| write!(f, "; {beginning}"))?;
        self.first.map_or(Ok(()), |first| write!(f, "; {first}"))
    }
}

impl Sentence {
    /// What a pattern says of an object of this kind, and nothing more.
    pub fn of_pattern(kind: Kind, key: Option<i64>, pattern: Pattern) -> Sentence {
        let facts = Facts::default();
        Sentence { kind, key, pattern, facts, beginning: None, first: None }
    }
}

#[cfg(test)]
mod tests {
    use super::*;
    use crate::cuts::part_by;
    use crate::read_history;

    /// The words for where the part begins that these cuts leave of one process's calls.
    fn beginning_of(calls: &[(&str, &str, &str)], cuts: &[Cut]) -> Option<String> {
        let events = calls.iter().map(|(function, argument, reply)| {
            let head = format!("{{:process 0, :f :{function}");
            format!("{head}, :type :invoke, :value {argument}}}{head}, :type :ok, :value {reply}}}")
        });
        let history = read_history(events.collect::<String>().as_bytes()).expect("a history");
        let history = &history.objects[0];
        let part = part_by(history, cuts).expect("a part");
        FirstOperation::of(history, cuts, &part).map(|beginning| beginning.to_string())
    }

    #[test]
    fn what_left_nothing_is_named() {
        let queue = [("enqueue", "1", "1"), ("dequeue", "nil", "1"), ("dequeue", "nil", "nil")];
        let beginning = beginning_of(&queue, &[Cut::From(4)]);
        assert_eq!(beginning.as_deref(), Some("before that, event 4 found nothing"));
        assert_eq!(beginning_of(&queue, &[Cut::Until(6)]), None);
        let lock = [("acquire", "nil", "nil"), ("release", "nil", "nil")];
        let beginning = beginning_of(&lock, &[Cut::From(2), Cut::Until(4)]);
        assert_eq!(beginning.as_deref(), Some("before that, event 2 released the lock"));
        assert_eq!(beginning_of(&lock, &[Cut::From(0)]), None);
        let map = [("put", "[5 1]", "nil"), ("del", "5", "1"), ("get", "5", "nil")];
        let beginning = beginning_of(&map, &[Cut::From(2)]);
        assert_eq!(beginning.as_deref(), Some("before that, event 2 took the value away"));
        let beginning = beginning_of(&map, &[Cut::From(4)]);
        assert_eq!(beginning.as_deref(), Some("before that, event 4 found nothing"));
    }
}
