//! Statistics of a history, which tell how much a yes says of it, and what is suspicious in it.

use crate::history::{End, History, ObjectHistory, Operation};
use crate::kinds::{Function, Reply, Shape, functions};
use crate::order_dependence::depends_on_order;
use crate::splitmix::NumberTable;
use std::collections::HashSet;
use std::fmt::{self, Display, Formatter};
use std::iter::Sum;

/// How many operations a history has, and how they overlap. Only operations on one object are
/// compared, since two objects share no order; of a map only those on one key, and of a set those
/// on one element.
#[derive(Clone, Copy, Debug, Default, PartialEq, Eq)]
pub struct Statistics {
    /// Those that did not fail.
    pub operations: usize,
    /// How many of them overlap another one.
    pub overlapping: usize,
    /// How many were outstanding at once at most.
    pub at_once: usize,
    pub pending: usize,
    pub failed: usize,
}

/// When the operation was over, as seen by the others.
fn end_of(operation: &Operation) -> u32 {
    operation.returned().unwrap_or(u32::MAX)
}

impl Statistics {
    /// Those of operations that are in the order of their invocations. None of them failed.
    fn of_operations(all: &[&Operation]) -> Statistics {
        let mut ends: Vec<u32> = all.iter().map(|operation| end_of(operation)).collect();
        ends.sort_unstable();
        let (mut latest_end, mut over) = (0, 0);
        let mut statistics = Statistics {
            operations: all.len(),
            pending: all.iter().filter(|operation| operation.is_pending()).count(),
            ..Statistics::default()
        };
        for (place, operation) in all.iter().enumerate() {
            over += ends[over..].iter().take_while(|end| **end < operation.number).count();
            statistics.at_once = statistics.at_once.max(place + 1 - over);
            let is_within = latest_end > operation.number;
            let has_next = all.get(place + 1).is_some_and(|next| next.number < end_of(operation));
            statistics.overlapping += usize::from(is_within || has_next);
            latest_end = latest_end.max(end_of(operation));
        }
        statistics
    }

    fn of_object(object: &ObjectHistory) -> Statistics {
        let done = || object.ops.iter().filter(|operation| !operation.has_failed());
        let mut keys = NumberTable::<i64, Vec<&Operation>>::default();
        for operation in done() {
            keys.entry(operation.op.key().unwrap_or(0)).or_default().push(operation);
        }
        let all = keys.values().map(|on_key| Statistics::of_operations(on_key)).sum();
        Statistics { failed: object.ops.len() - done().count(), ..all }
    }

    /// The statistics of all objects together.
    pub fn of(history: &History) -> Statistics {
        history.objects.iter().map(Statistics::of_object).sum()
    }

    /// Whether so few operations overlap that a race could hardly show.
    pub fn is_sequential(&self) -> bool {
        self.operations > 1 && self.overlapping * 20 < self.operations
    }
}

impl Sum for Statistics {
    fn sum<I: Iterator<Item = Statistics>>(all: I) -> Statistics {
        all.fold(Statistics::default(), |sum, it| Statistics {
            operations: sum.operations + it.operations,
            overlapping: sum.overlapping + it.overlapping,
            at_once: sum.at_once.max(it.at_once),
            pending: sum.pending + it.pending,
            failed: sum.failed + it.failed,
        })
    }
}

impl Display for Statistics {
    fn fmt(&self, f: &mut Formatter<'_>) -> fmt::Result {
        let Statistics { operations, overlapping, at_once, pending, failed } = *self;
        let share = (overlapping * 100).checked_div(operations).unwrap_or(0);
        let noun = if operations == 1 { "operation" } else { "operations" };
        write!(
            f,
            "{share} % of {operations} {noun} overlap another one, at most {at_once} at once; {pending} pending, {failed} failed"
        )
    }
}

/// Whether each put of a map replied that nothing was there, also of a key that was put before:
/// then the replies were not recorded.
fn puts_tell_nothing(object: &ObjectHistory) -> bool {
    let mut keys = HashSet::new();
    let mut has_second = false;
    for operation in &object.ops {
        let End::Returned { reply, .. } = operation.end else {
            continue;
        };
        let op = operation.op;
        let is_content = op.function.reply == Shape::Content;
        match (op.key(), op.sets()) {
            (Some(_), Some(Some(_))) if is_content && reply != Reply::Value(None) => return false,
            (Some(key), Some(Some(_))) if is_content => has_second |= !keys.insert(key),
            (Some(key), Some(Some(_))) if !reply.is_refusal() => _ = keys.insert(key),
            (Some(_), Some(Some(_))) => {}
            (Some(key), Some(None)) => _ = keys.remove(&key),
            (Some(_), None) | (None, _) => {}
        }
    }
    has_second
}

/// How many removals failed, and their function, if there are several and none returned.
fn failed_removals(history: &History) -> Option<(usize, &'static str)> {
    let of = |f: &'static Function| {
        let all = history.objects.iter().flat_map(|object| &object.ops);
        all.filter(move |operation| operation.op.removes() && operation.op.function == f)
    };
    functions()
        .map(|f| (of(f).count(), of(f).all(Operation::has_failed), f.name))
        .find_map(|(count, all_failed, f)| (count > 1 && all_failed).then_some((count, f)))
}

/// The one value that was seen in a register and that no operation puts in, if it was seen first
/// before any write returned: then the register may begin with it.
fn first_value(object: &ObjectHistory) -> Option<i64> {
    let mut put = HashSet::new();
    let mut first_set = u32::MAX;
    if !object.kind.is_lone_cell() {
        return None;
    }
    for operation in &object.ops {
        if let Some(value) = operation.op.new_value() {
            put.insert(value);
            if !operation.reply().is_some_and(Reply::is_refusal) {
                first_set = first_set.min(end_of(operation));
            }
        }
    }
    let seen = |operation: &Operation| match operation.reply()? {
        Reply::Value(value) if operation.op.only_looks() => value,
        Reply::Swapped(value, _) => Some(value),
        Reply::Value(_) | Reply::NotSwapped | Reply::Flag(_) => None,
    };
    let all = object.ops.iter();
    let all = all.filter_map(|operation| Some((operation.number, seen(operation)?)));
    let mut strange = all.filter(|(_, value)| !put.contains(value));
    let (number, first) = strange.next()?;
    (number < first_set && strange.all(|(_, value)| value == first)).then_some(first)
}

/// The value with which some registers seem to begin, if it is the same for all of them, and the
/// numbers of these registers.
fn first_values(history: &History) -> Option<(i64, Vec<u32>)> {
    let first = |object: &ObjectHistory| Some((first_value(object)?, object.object));
    let all: Vec<(i64, u32)> = history.objects.iter().filter_map(first).collect();
    let (value, _) = *all.first()?;
    let is_one = all.iter().all(|(first, _)| *first == value);
    is_one.then(|| (value, all.into_iter().map(|(_, object)| object).collect()))
}

/// The events of replies that are to be the argument, or its pair, and are not.
fn strange_replies(history: &History) -> Vec<u32> {
    let is_strange = |operation: &Operation| match (operation.op.function.reply, operation.reply())
    {
        (Shape::Done | Shape::Swapped, Some(reply)) => {
            reply != Reply::NotSwapped && reply.value() != operation.op.argument
        }
        _ => false,
    };
    let all = history.objects.iter().flat_map(|object| &object.ops);
    let strange = all.filter(|operation| is_strange(operation));
    let mut events: Vec<u32> = strange.filter_map(Operation::returned).collect();
    events.sort_unstable();
    events
}

/// The first of some objects or events, and how many more they are, in words.
fn named(word: &str, all: &[u32]) -> Option<String> {
    match all {
        [] => None,
        [first] => Some(format!("{word} {first}")),
        [first, more @ ..] => Some(format!("{word} {first} and {} more", more.len())),
    }
}

/// What a warning is about.
#[derive(Clone, Copy, Debug, PartialEq, Eq)]
pub enum WarningKind {
    NoOperations,
    FailedRemovals,
    /// A race could not have led to a no, or hardly.
    NoRace,
    StrangeReplies,
    /// Registers seem to begin with a value.
    FirstValue,
    /// The replies of puts were not recorded, so that a correct store may get a no.
    SilentPuts,
}

impl WarningKind {
    pub const ALL: [WarningKind; 6] = [
        WarningKind::NoOperations,
        WarningKind::FailedRemovals,
        WarningKind::NoRace,
        WarningKind::StrangeReplies,
        WarningKind::FirstValue,
        WarningKind::SilentPuts,
    ];

    /// Whether it matters with a yes, or else with another answer.
    pub fn matters(self, is_yes: bool) -> bool {
        match self {
            WarningKind::NoRace => is_yes,
            WarningKind::SilentPuts => !is_yes,
            WarningKind::NoOperations | WarningKind::FailedRemovals => true,
            WarningKind::StrangeReplies | WarningKind::FirstValue => true,
        }
    }
}

/// Something suspicious in a history: its kind, and words for it.
#[derive(Clone, Debug, PartialEq, Eq)]
pub struct Warning {
    pub kind: WarningKind,
    pub text: String,
}

/// Why a race could not have led to a no, or hardly.
fn race_warning(history: &History, statistics: &Statistics) -> Option<String> {
    let Statistics { operations, overlapping, .. } = *statistics;
    if operations > 0 && !depends_on_order(history) {
        let what = "no reply depends on the order of operations of different processes";
        Some(format!("{what}: a race cannot show in this history"))
    } else if !statistics.is_sequential() {
        None
    } else if overlapping == 0 {
        Some("no two operations overlap: a race cannot show in this history".to_owned())
    } else {
        Some(format!(
            "only {overlapping} of {operations} operations overlap another one: a race can hardly show in this history"
        ))
    }
}

/// The removals that failed, if none is judged.
fn removal_warning(history: &History) -> Option<String> {
    let (failed, f) = failed_removals(history)?;
    Some(format!(
        "all {failed} calls of :{f} failed, so none is judged. If they found nothing, record :ok with :value nil"
    ))
}

/// The replies that are not the argument.
fn reply_warning(history: &History) -> Option<String> {
    let event = named("event", &strange_replies(history))?;
    Some(format!(
        "the reply of {event} is not its argument: the recorder is probably wrong, not the store"
    ))
}

/// The registers that seem to begin with a value.
fn first_warning(history: &History) -> Option<String> {
    let (value, objects) = first_values(history)?;
    let objects = named("object", &objects)?;
    Some(format!(
        "{objects}: value {value} was read first, and no operation writes it. If registers begin with {value}: fcbench import --initial {value}"
    ))
}

/// The puts whose replies were not recorded.
fn put_warning(history: &History) -> Option<String> {
    let silent = history.objects.iter().filter(|object| puts_tell_nothing(object));
    let objects = named("object", &silent.map(|object| object.object).collect::<Vec<u32>>())?;
    Some(format!(
        "{objects}: every :put replied nil, which means that the key had no value, even after an earlier put. If your store \
         does not report the earlier value, record :assoc; for a put if absent, record :put-if-absent"
    ))
}

/// The words of a warning of this kind, if there is reason for one.
fn text_of(kind: WarningKind, history: &History, statistics: &Statistics) -> Option<String> {
    match kind {
        WarningKind::NoOperations => (statistics.operations == 0)
            .then(|| "the history has no operations, so a yes means nothing".to_owned()),
        WarningKind::FailedRemovals => removal_warning(history),
        WarningKind::NoRace => race_warning(history, statistics),
        WarningKind::StrangeReplies => reply_warning(history),
        WarningKind::FirstValue => first_warning(history),
        WarningKind::SilentPuts => put_warning(history),
    }
}

/// What is suspicious in a history.
pub fn warnings(history: &History) -> Vec<Warning> {
    let statistics = Statistics::of(history);
    let of_kind = |kind| Some(Warning { kind, text: text_of(kind, history, &statistics)? });
    WarningKind::ALL.into_iter().filter_map(of_kind).collect()
}

#[cfg(test)]
mod tests {
    use super::*;
    use crate::read_history;

    fn summary_of(text: &str) -> String {
        let history = read_history(text.as_bytes()).expect("a history");
        Statistics::of(&history).to_string()
    }

    fn warnings_of(text: &str) -> Vec<String> {
        let history = read_history(text.as_bytes()).expect("a history");
        warnings(&history).into_iter().map(|warning| warning.text).collect()
    }

    fn event(process: u32, kind: &str, call: &str, object: u32) -> String {
        format!("{{:process {process}, :type :{kind}, {call}, :object {object}}}\n")
    }

    fn call(process: u32, of: &str) -> String {
        event(process, "invoke", of, 0) + &event(process, "ok", of, 0)
    }

    #[test]
    fn nothing_overlaps() {
        let text = call(0, ":f :write, :value 1") + &answered(1, ":f :read", "1", 0);
        let wanted =
            "0 % of 2 operations overlap another one, at most 1 at once; 0 pending, 0 failed";
        assert_eq!(summary_of(&text), wanted);
        assert_eq!(
            warnings_of(&text),
            ["no two operations overlap: a race cannot show in this history"]
        );
    }

    const NO_ORDER: &str = "no reply depends on the order of operations of different processes: a race cannot show in this history";

    #[test]
    fn no_reply_depends_on_the_order() {
        for text in [
            call(0, ":f :enqueue, :value 1"),
            call(0, ":f :enqueue, :value 1") + &call(1, ":f :enqueue, :value 2"),
        ] {
            assert_eq!(warnings_of(&text), [NO_ORDER], "{text}");
        }
    }

    #[test]
    fn overlap_is_counted_for_each_key_and_each_element() {
        let both = |f: &str, one: &str, other: &str| {
            let call = |value: &str| format!(":f :{f}, :value {value}");
            let text = event(0, "invoke", &call(one), 0) + &event(1, "invoke", &call(other), 0);
            let statistics = Statistics::of(&read_history(text.as_bytes()).expect("a history"));
            (statistics.overlapping, statistics.at_once)
        };
        for (f, one, same, other) in
            [("assoc", "[1 5]", "[1 6]", "[2 6]"), ("get", "1", "1", "2"), ("add", "1", "1", "2")]
        {
            assert_eq!(both(f, one, same), (2, 2), "{f}");
            assert_eq!(both(f, one, other), (0, 1), "{f}");
        }
        assert_eq!(both("enqueue", "1", "2"), (2, 2));
    }

    #[test]
    fn some_overlap_on_one_object() {
        let text = event(0, "invoke", ":f :enqueue, :value 1", 0)
            + &event(1, "invoke", ":f :enqueue, :value 2", 0)
            + &event(2, "invoke", ":f :enqueue, :value 3", 1)
            + &event(0, "ok", ":f :enqueue, :value 1", 0)
            + &event(1, "info", ":f :enqueue, :value 2", 0)
            + &event(2, "ok", ":f :enqueue, :value 3", 1)
            + &event(3, "invoke", ":f :dequeue, :value nil", 1)
            + &event(3, "fail", ":f :dequeue, :value nil", 1);
        let wanted =
            "66 % of 3 operations overlap another one, at most 2 at once; 1 pending, 1 failed";
        assert_eq!(summary_of(&text), wanted);
        assert_eq!(warnings_of(&text), [NO_ORDER]);
    }

    #[test]
    fn few_overlap() {
        let mut text: String =
            (0..60).map(|value| call(0, &format!(":f :enqueue, :value {value}"))).collect();
        text += &(answered(2, ":f :dequeue", "0", 0)
            + &event(0, "invoke", ":f :enqueue, :value 98", 0)
            + &event(1, "invoke", ":f :enqueue, :value 99", 0));
        let wanted =
            "only 2 of 63 operations overlap another one: a race can hardly show in this history";
        assert_eq!(warnings_of(&text), [wanted]);
    }

    #[test]
    fn puts_without_replies() {
        let put = |process, value| {
            event(process, "invoke", &format!(":f :put, :value [1 {value}]"), 0)
                + &event(process, "ok", ":f :put, :value nil", 0)
        };
        let del =
            event(0, "invoke", ":f :del, :value 1", 0) + &event(0, "ok", ":f :del, :value 5", 0);
        let is_warned = |text: &str| {
            warnings_of(text)
                .iter()
                .any(|text| text.starts_with("object 0: every :put replied nil"))
        };
        assert!(is_warned(&(put(0, 5) + &put(1, 6))));
        assert!(!is_warned(&put(0, 5)));
        assert!(!is_warned(&(put(0, 5) + &del + &put(0, 6))));
        let replied = event(0, "invoke", ":f :put, :value [1 7]", 0)
            + &event(0, "ok", ":f :put, :value 6", 0);
        assert!(!is_warned(&(put(0, 5) + &put(1, 6) + &replied)));
    }

    fn answered(process: u32, of: &str, reply: &str, object: u32) -> String {
        let f = of.split(',').next().expect("a function");
        event(process, "invoke", of, object)
            + &event(process, "ok", &format!("{f}, :value {reply}"), object)
    }

    /// The one warning that has these words, or nothing.
    fn warned(text: &str, words: &str) -> String {
        let mut all = warnings_of(text);
        all.retain(|warning| warning.contains(words));
        assert!(all.len() < 2, "{all:?}");
        all.concat()
    }

    #[test]
    fn registers_that_begin_with_a_value() {
        let begins = |text: &str| warned(text, "If registers begin with ");
        let read = |value: &str, object| answered(0, ":f :read", value, object);
        let write =
            |value: &str, object| answered(1, &format!(":f :write, :value {value}"), value, object);
        let cas =
            |pair: &str, reply: &str| answered(1, &format!(":f :cas, :value {pair}"), reply, 0);
        let wanted = "object 0: value 0 was read first, and no operation writes it. If registers begin with 0: fcbench import --initial 0";
        assert_eq!(begins(&read("0", 0)), wanted);
        assert_eq!(
            begins(&(read("0", 0) + &write("1", 0) + &read("1", 0) + &read("0", 0))),
            wanted
        );
        assert_eq!(begins(&cas("[0 1]", "[0 1]")), wanted);
        assert_eq!(begins(&(cas("[5 6]", "false") + &read("0", 0))), wanted);
        let several = read("-1", 2) + &read("-1", 3) + &write("4", 5) + &read("-1", 7);
        assert!(begins(&several).starts_with("object 2 and 2 more: value -1 was read first"));
        for text in [
            read("nil", 0),
            read("0", 0) + &write("0", 0),
            write("1", 0) + &read("0", 0),
            read("0", 0) + &read("3", 0),
            read("0", 0) + &read("3", 1),
            cas("[0 1]", "false"),
        ] {
            assert_eq!(begins(&text), "", "{text}");
        }
    }

    #[test]
    fn replies_that_are_not_the_argument() {
        let warning =
            |text: &str| warned(text, "is not its argument: the recorder is probably wrong");
        for f in ["write", "enqueue", "push", "insert"] {
            let call = |reply: &str| answered(0, &format!(":f :{f}, :value 1"), reply, 0);
            assert_eq!(warning(&call("1")), "");
            assert!(warning(&call("2")).starts_with("the reply of event 1 is not "), "{f}");
            let text = call("1") + &call("2") + &call("3");
            assert!(warning(&text).starts_with("the reply of event 3 and 1 more is not "), "{f}");
        }
        let cas = |reply: &str| answered(0, ":f :cas, :value [1 2]", reply, 0);
        assert_eq!(warning(&(cas("[1 2]") + &cas("false"))), "");
        assert!(warning(&cas("[3 4]")).starts_with("the reply of event 1 is not "));
    }

    #[test]
    fn nothing_is_judged() {
        let warned =
            |text: &str, what| warnings_of(text).iter().any(|warning| warning.starts_with(what));
        assert!(warned("{:process :nemesis}", "the history has no operations"));
        let failed = event(1, "invoke", ":f :dequeue, :value nil", 0)
            + &event(1, "fail", ":f :dequeue, :value nil", 0);
        let put = call(0, ":f :enqueue, :value 1");
        let what = "all 2 calls of :dequeue failed";
        assert!(warned(&(put.clone() + &failed + &failed), what));
        assert!(!warned(&(put.clone() + &failed), what));
        let returned = event(1, "invoke", ":f :dequeue, :value nil", 0)
            + &event(1, "ok", ":f :dequeue, :value 1", 0);
        assert!(!warned(&(put + &failed + &returned), what));
    }

    #[test]
    fn many_objects_have_one_warning() {
        let put = |object, value| {
            event(0, "invoke", &format!(":f :put, :value [1 {value}]"), object)
                + &event(0, "ok", ":f :put, :value nil", object)
        };
        let text: String = (3..8).map(|object| put(object, 5) + &put(object, 6)).collect();
        let about_puts: Vec<_> =
            warnings_of(&text).into_iter().filter(|warning| warning.contains(":put")).collect();
        assert_eq!(about_puts.len(), 1);
        assert!(about_puts[0].starts_with("object 3 and 4 more: every :put replied nil"));
    }
}
