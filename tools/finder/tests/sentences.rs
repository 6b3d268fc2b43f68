//! The sentence of each pattern.

use finder::{
    Absent, CountExceeded, Counted, Crossing, Facts, FirstEvent, Kind, Lost, LostValue, NotHolder,
    OneValue, Pattern, Refused, Sentence, SurelyNotEmpty, UnderSmaller, Undone, WhyUndone,
    WrongNumber, WrongPair, function,
};

fn kind(word: &str) -> Kind {
    finder::kind(word).expect("a kind")
}

fn sentence(kind: Kind, pattern: Pattern) -> String {
    Sentence::of_pattern(kind, None, pattern).to_string()
}

#[test]
fn each_pattern_has_its_sentence() {
    let sentences = [
        (
            kind("queue"),
            Pattern::OneValue(OneValue::NeverSet(7)),
            "value 7 was dequeued and never enqueued",
        ),
        (
            kind("stack"),
            Pattern::OneValue(OneValue::TooEarly(-7)),
            "value -7 was popped before it was pushed",
        ),
        (
            kind("heap"),
            Pattern::OneValue(OneValue::TakenTwice(7)),
            "value 7 was inserted once and extracted twice",
        ),
        (
            kind("register"),
            Pattern::OneValue(OneValue::TakenTooOften { value: 7, taken: 2, set: 1 }),
            "value 7 was replaced by :cas 2 times and by then written once",
        ),
        (
            kind("stack"),
            Pattern::SurelyNotEmpty(SurelyNotEmpty { number: 9 }),
            "the stack was definitely not empty when event 9 found nothing",
        ),
        (
            kind("heap"),
            Pattern::UnderSmaller(UnderSmaller::One { taken: 7, smaller: 3 }),
            "value 7 was extracted while the smaller value 3 was definitely in the heap",
        ),
        (
            kind("heap"),
            Pattern::UnderSmaller(UnderSmaller::Several { taken: 7 }),
            "value 7 was extracted while some smaller value was definitely in the heap",
        ),
        (
            kind("stack"),
            Pattern::WrongPair(WrongPair::Order { first: 1, second: 2 }),
            "value 1 was popped before value 2, which was pushed on it",
        ),
        (
            kind("queue"),
            Pattern::WrongPair(WrongPair::Order { first: 1, second: 2 }),
            "value 1 was enqueued before value 2 and dequeued after it",
        ),
        (
            kind("queue"),
            Pattern::WrongPair(WrongPair::LeftBehind { first: 1, second: 2 }),
            "value 2 was dequeued while value 1, which was enqueued before it, was still in the queue",
        ),
        (
            kind("stack"),
            Pattern::WrongPair(WrongPair::LeftAbove { first: 1, second: 2 }),
            "value 1 was popped while value 2, which was pushed on it, was still in the stack",
        ),
        (
            kind("register"),
            Pattern::Absent(Absent::Stale(Some(7))),
            "value 7 was read after another content had replaced it",
        ),
        (
            kind("map"),
            Pattern::Absent(Absent::Stale(None)),
            "nil was seen after another content had replaced it",
        ),
        (
            kind("map"),
            Pattern::Crossing(Crossing { one: 1, other: 2 }),
            "each of the values 1 and 2 was seen before the other, and each was put once",
        ),
        (
            kind("register"),
            Pattern::Refused(Refused::UnderItsValue { value: 7, number: 9 }),
            "value 7 was definitely there when the :cas of event 9, which expects it, was refused",
        ),
        (
            kind("register"),
            Pattern::CountExceeded(CountExceeded(Counted::Value(7))),
            "value 7 was replaced by :cas more often than it can have been there",
        ),
        (
            kind("map"),
            Pattern::OneValue(OneValue::TakenTwice(7)),
            "value 7 was put once and replaced or removed twice",
        ),
        (
            kind("map"),
            Pattern::CountExceeded(CountExceeded(Counted::NoEntry(5))),
            "nil was seen more often than the key can have been without a value",
        ),
        (
            kind("mutex"),
            Pattern::CountExceeded(CountExceeded(Counted::Held)),
            "the lock was released more often than it can have been held",
        ),
        (
            kind("mutex"),
            Pattern::CountExceeded(CountExceeded(Counted::Free)),
            "the lock was acquired more often than it can have been free",
        ),
        (kind("queue"), Pattern::General, "the following operations have no valid order"),
    ];
    for (kind, pattern, text) in sentences {
        assert_eq!(sentence(kind, pattern), text);
    }
}

#[test]
fn facts_beside_a_pattern_are_said() {
    let sentence_of = |kind, pattern, facts| {
        Sentence { facts, ..Sentence::of_pattern(kind, None, pattern) }.to_string()
    };
    let undone =
        |count, why| Facts { undone: Some(Undone { first: 12, count, why }), ..Facts::default() };
    let refused = |name: &str| WhyUndone::Refused(function(name.as_bytes()));
    let never = || Pattern::OneValue(OneValue::NeverSet(7));
    for (kind, facts, wanted) in [
        (
            kind("register"),
            undone(1, WhyUndone::Failed),
            "value 7 was read and only written by event 12, which failed",
        ),
        (
            kind("queue"),
            undone(1, WhyUndone::Failed),
            "value 7 was dequeued and only enqueued by event 12, which failed",
        ),
        (
            kind("map"),
            undone(3, WhyUndone::Failed),
            "value 7 was seen and only put by 3 operations that failed, the first of them event 12",
        ),
        (
            kind("register"),
            undone(1, refused("cas")),
            "value 7 was read and only written by the :cas of event 12, which was refused",
        ),
        (
            kind("register"),
            undone(2, refused("cas")),
            "value 7 was read and only written by 2 :cas that were refused, the first of them event 12",
        ),
        (
            kind("register"),
            undone(1, refused("create")),
            "value 7 was read and only written by the :create of event 12, which was refused",
        ),
        (
            kind("register"),
            undone(2, WhyUndone::Refused(None)),
            "value 7 was read and only written by 2 operations that were refused, the first of them event 12",
        ),
    ] {
        assert_eq!(sentence_of(kind, never(), facts), wanted);
    }
    let swap = Facts { is_by_swap: true, undone: None };
    for (pattern, wanted) in [
        (never(), "value 7 was expected by an accepted :cas and never written"),
        (
            Pattern::OneValue(OneValue::TooEarly(7)),
            "value 7 was expected by an accepted :cas before it was written",
        ),
        (
            Pattern::Absent(Absent::Stale(Some(7))),
            "value 7 was expected by an accepted :cas after another content had replaced it",
        ),
    ] {
        assert_eq!(sentence_of(kind("register"), pattern, swap), wanted);
    }
}

/// What was lost: what event 9 found, how many other removals can have taken, and the values, each
/// with how often it was put in and the maps that took it later.
fn lost(found: Option<i64>, most: usize, values: &[(i64, usize, &[u32])]) -> Pattern {
    let values = values.iter().map(|(value, times, later)| LostValue {
        value: *value,
        times: *times,
        later: later.to_vec(),
        is_repeated: false,
    });
    Pattern::Lost(Lost { number: 9, found, most, values: values.collect() })
}

/// The same, where an equal value was taken too.
fn lost_again(most: usize, values: &[(i64, usize, &[u32])]) -> Pattern {
    let Pattern::Lost(mut lost) = lost(None, most, values) else { unreachable!() };
    lost.values.iter_mut().for_each(|value| value.is_repeated = true);
    Pattern::Lost(lost)
}

#[test]
fn the_first_event_is_named() {
    let sentence_of = |least, most| FirstEvent { least, most }.to_string();
    assert_eq!(sentence_of(31, 31), "event 31 is the first that leaves no order");
    let range = "the first event that leaves no order is one from event 20 to event 31";
    assert_eq!(sentence_of(20, 31), range);
}

#[test]
fn what_was_lost_is_named() {
    let sentences = [
        (
            kind("queue"),
            lost(None, 0, &[(7, 1, &[])]),
            "the queue was definitely not empty when event 9 found nothing: value 7 was in it \
             (never dequeued)",
        ),
        (
            kind("queue"),
            lost_again(0, &[(7, 1, &[])]),
            "the queue was definitely not empty when event 9 found nothing: value 7 was in it \
             (not dequeued after that)",
        ),
        (
            kind("stack"),
            lost(None, 0, &[(7, 1, &[30])]),
            "the stack was definitely not empty when event 9 found nothing: value 7 was in it \
             (popped later, by event 30)",
        ),
        (
            kind("stack"),
            lost(None, 1, &[(7, 1, &[]), (8, 1, &[])]),
            "2 values were in the stack before event 9 found nothing, and at most 1 of them can have \
             been popped by then: values 7 and 8 (never popped)",
        ),
        (
            kind("heap"),
            lost(Some(20), 2, &[(7, 1, &[]), (8, 3, &[30, 40]), (9, 2, &[50, 60])]),
            "6 values were in the heap and less than value 20 before event 9 extracted it, and at \
             most 2 of them can have been extracted by then: value 7 (never extracted), \
             value 8, 3 times (extracted later, by events 30 and 40, the rest never), \
             value 9, 2 times (extracted later, by events 50 and 60)",
        ),
        (
            kind("queue"),
            lost(Some(20), 0, &[(7, 1, &[])]),
            "1 value was enqueued before value 20, which event 9 dequeued, and it cannot have \
             been dequeued by then: value 7 (never dequeued)",
        ),
        (
            kind("stack"),
            lost(Some(20), 1, &[(7, 1, &[]), (8, 1, &[])]),
            "2 values were pushed on value 20, which event 9 popped, and at most 1 of them can have \
             been popped by then: values 7 and 8 (never popped)",
        ),
    ];
    for (kind, pattern, text) in sentences {
        assert_eq!(sentence(kind, pattern), text);
    }
}

#[test]
fn sets_locks_and_counters_have_their_words() {
    let of_element = |pattern| Sentence::of_pattern(kind("set"), Some(5), pattern).to_string();
    for (pattern, text) in [
        (
            Pattern::Absent(Absent::Repeated { sets: true }),
            "value 5 was added twice, and not removed in between",
        ),
        (
            Pattern::Absent(Absent::Repeated { sets: false }),
            "value 5 was removed twice, and not added in between",
        ),
        (Pattern::OneValue(OneValue::NeverSet(5)), "value 5 was found and never added"),
        (Pattern::OneValue(OneValue::TooEarly(5)), "value 5 was found before it was added"),
        (
            Pattern::Absent(Absent::Stale(Some(5))),
            "value 5 was found after it had been out of the set, and not added in between",
        ),
        (
            Pattern::Absent(Absent::Stale(None)),
            "value 5 was not found after it had been in the set, and not removed in between",
        ),
        (
            Pattern::CountExceeded(CountExceeded(Counted::NoEntry(5))),
            "value 5 was added more often than it can have been out of the set",
        ),
        (
            Pattern::CountExceeded(CountExceeded(Counted::Entry { key: 5, value: 5 })),
            "value 5 was removed more often than it can have been in the set",
        ),
        (Pattern::General, "the following operations on value 5 have no valid order"),
    ] {
        assert_eq!(of_element(pattern), text);
    }
    let holder = |acquires, holder| Pattern::NotHolder(NotHolder { acquires, owner: 3, holder });
    for (name, pattern, text) in [
        ("lock", holder(false, Some(2)), "owner 3 unlocked what owner 2 had locked"),
        ("lock", holder(false, None), "owner 3 unlocked what no owner had locked"),
        ("lock", holder(true, Some(2)), "owner 3 locked what owner 2 had locked, and not unlocked"),
        (
            "lock",
            Pattern::CountExceeded(CountExceeded(Counted::Value(3))),
            "owner 3 unlocked more often than it had locked",
        ),
        (
            "lock",
            Pattern::CountExceeded(CountExceeded(Counted::Free)),
            "the lock was locked more often than it can have been free",
        ),
        (
            "counter",
            Pattern::WrongNumber(WrongNumber::Fell { found: 5, was: 7 }),
            "the counter was 5 after it had been 7, and nothing was subtracted",
        ),
        (
            "counter",
            Pattern::WrongNumber(WrongNumber::FoundTwice(5)),
            "two additions found the counter to be 5, and nothing was subtracted",
        ),
        (
            "counter",
            Pattern::WrongNumber(WrongNumber::NotReached(5)),
            "the counter was found to be 5, which it cannot have been by then",
        ),
    ] {
        assert_eq!(sentence(kind(name), pattern), text);
    }
}

#[test]
fn new_functions_of_cells_have_their_words() {
    let sentence_of = |pattern| Sentence::of_pattern(kind("map"), Some(1), pattern).to_string();
    assert_eq!(
        sentence_of(Pattern::Absent(Absent::DoneOverValue { name: "put-if-absent", number: 9 })),
        "key 1: a value was definitely there when the :put-if-absent of event 9 found none"
    );
    assert_eq!(
        sentence_of(Pattern::Refused(Refused::WithoutValue { name: "put-if-absent", number: 9 })),
        "key 1: no value was there when the :put-if-absent of event 9 was refused"
    );
    assert_eq!(
        sentence_of(Pattern::Refused(Refused::UnderItsValue { value: 7, number: 9 })),
        "key 1: value 7 was definitely there when the :replace of event 9, which expects it, was refused"
    );
}
