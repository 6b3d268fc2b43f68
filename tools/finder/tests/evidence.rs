//! The lines of evidence, and what is decided of small histories.

use finder::{Count, Counted, Cut, Decision, Evidence, FoundReason, OneValue, Options, Pattern};
use finder::{Sentence, Shown, Values, decide, part_by, read_history};
use std::collections::BTreeSet;

/// A history in which process `p` does each call in turn: its function, argument and reply.
fn history_of(calls: &[(u32, &str, &str, &str)]) -> String {
    let events = calls.iter().map(|(process, function, argument, reply)| {
        let head = format!("{{:process {process}, :f :{function}");
        format!("{head}, :type :invoke, :value {argument}}}\n{head}, :type :ok, :value {reply}}}\n")
    });
    events.collect()
}

fn lines_of(text: &str) -> String {
    let history = read_history(text.as_bytes()).expect("a history");
    let decisions = decide(&history, Options::default());
    decisions.iter().map(|decision| format!("{decision}\n")).collect()
}

#[test]
fn an_order_is_a_line() {
    let text = history_of(&[(0, "enqueue", "1", "1"), (1, "dequeue", "nil", "1")]);
    assert_eq!(lines_of(&text), "{:object 0, :order [0 2]}\n");
}

#[test]
fn a_history_without_operations_has_an_empty_order() {
    assert_eq!(lines_of(""), "");
    let text = "{:process 0, :type :invoke, :f :pop} {:process 0, :type :fail, :f :pop}";
    assert_eq!(lines_of(text), "{:object 0, :order []}\n");
}

#[test]
fn objects_come_in_rising_number() {
    let text = "{:process 0, :type :invoke, :f :push, :value 1, :object 7}
                {:process 1, :type :invoke, :f :acquire, :object 2}
                {:process 1, :type :ok, :f :acquire, :object 2}";
    assert_eq!(lines_of(text), "{:object 2, :order [1]}\n{:object 7, :order []}\n");
}

#[test]
fn a_count_is_in_the_line() {
    let text = history_of(&[(0, "push", "1", "1"), (0, "pop", "nil", "1"), (0, "pop", "nil", "1")]);
    let lines = "{:object 0, :cuts [{:keep [1], :numbers [0 2 4]} {:until 6}], \
                 :count {:value 1, :from 0}, \
                 :note \"value 1 was pushed once and popped twice; \
                 event 5 is the first that leaves no order\"}\n";
    assert_eq!(lines_of(&text), lines);
}

#[test]
fn a_search_is_in_the_line() {
    let text =
        history_of(&[(0, "write", "1", "1"), (0, "write", "2", "2"), (0, "read", "nil", "1")]);
    let lines = lines_of(&text);
    let end = "], :search {:first :return, :steps 10000}, \
               :note \"value 1 was read after another content had replaced it; \
               event 5 is the first that leaves no order\"}\n";
    assert!(lines.ends_with(end), "{lines}");
}

/// Three values are lost while two removals do not return, and a third one finds nothing.
#[test]
fn what_was_lost_is_in_the_line() {
    let mut text =
        history_of(&[(0, "enqueue", "1", "1"), (0, "enqueue", "2", "2"), (0, "enqueue", "3", "3")]);
    for process in [1, 2] {
        text += &format!("{{:process {process}, :type :invoke, :f :dequeue}}\n");
    }
    text += &history_of(&[(3, "dequeue", "nil", "nil")]);
    let lines = "{:object 0, :cuts [{:keep [1 2 3], :numbers [0 2 4 6 7 8]} {:until 10}], \
                 :count {:ahead 8}, \
                 :note \"3 values were in the queue before event 8 found nothing, and at most 2 of \
                 them can have been dequeued by then: values 1, 2 and 3 (never dequeued); \
                 event 9 is the first that leaves no order\"}\n";
    assert_eq!(lines_of(&text), lines);
}

/// A register whose values repeat, and which gives an old one once, after many calls.
#[test]
fn what_a_search_refutes_is_cut_to_few_operations() {
    let values: Vec<String> = (0..400).map(|place| (place % 5).to_string()).collect();
    let mut calls: Vec<(u32, &str, &str, &str)> = Vec::new();
    for value in &values {
        calls.push((0, "write", value, value));
        calls.push((1, "read", "nil", value));
    }
    calls[701].3 = "3";
    let text = history_of(&calls);
    let history = read_history(text.as_bytes()).expect("a history");
    let decisions = decide(&history, Options::default());
    let Evidence::Reason(reason) = &decisions[0].evidence else {
        panic!("{}", decisions[0]);
    };
    let part = part_by(&history.objects[0], &reason.cuts).expect("a part");
    assert!(part.ops.len() <= 4, "{}", decisions[0]);
}

#[test]
fn what_is_not_decided_is_handed_over() {
    let text = include_str!("undecided.edn");
    assert_eq!(lines_of(text), "{:object 0, :search {:first :number, :steps 1000000}}\n");
    let history = read_history(text.as_bytes()).expect("a history");
    let decisions = decide(&history, Options { steps: Some(7), workers: 1 });
    assert_eq!(decisions[0].to_string(), "{:object 0, :search {:first :number, :steps 7}}");
}

#[test]
fn an_open_object_is_a_comment() {
    let decision = Decision { object: 3, evidence: Evidence::Open };
    assert_eq!(decision.to_string(), "; object 3: open");
}

#[test]
fn each_cut_has_its_form() {
    let numbers = |numbers: &[u32]| numbers.iter().copied().collect::<BTreeSet<u32>>();
    let values = Values::Only(BTreeSet::from([-1, 4]));
    let cuts = [
        (Cut::From(17), "{:from 17}"),
        (Cut::Until(120), "{:until 120}"),
        (Cut::Without { value: 7, before: 90 }, "{:without 7, :before 90}"),
        (Cut::Keep { values: Values::All, numbers: numbers(&[3]) }, "{:keep :all, :numbers [3]}"),
        (Cut::Keep { values: values.clone(), numbers: numbers(&[]) }, "{:keep [-1 4]}"),
        (
            Cut::Cell { key: None, values: values.clone(), other: 9, numbers: numbers(&[8, 2]) },
            "{:cell [-1 4], :other 9, :numbers [2 8]}",
        ),
        (
            Cut::Cell { key: Some(5), values, other: 9, numbers: numbers(&[]) },
            "{:cell [-1 4], :key 5, :other 9}",
        ),
    ];
    for (cut, text) in cuts {
        assert_eq!(cut.to_string(), text);
    }
}

#[test]
fn each_count_has_its_form() {
    let counts = [
        (Counted::Value(7), "{:value 7, :from 2}"),
        (Counted::Entry { key: 5, value: 7 }, "{:key 5, :value 7, :from 2}"),
        (Counted::NoEntry(5), "{:key 5, :from 2}"),
        (Counted::Held, "{:held true, :from 2}"),
        (Counted::Free, "{:free true, :from 2}"),
        (Counted::Ahead(9), "{:ahead 9, :from 2}"),
    ];
    for (counted, text) in counts {
        assert_eq!(Count { counted, from: 2 }.to_string(), text);
    }
    assert_eq!(Count { counted: Counted::Ahead(9), from: 0 }.to_string(), "{:ahead 9}");
}

#[test]
fn a_sentence_names_the_key() {
    let pattern = Pattern::OneValue(OneValue::TakenTooOften { value: 8, taken: 3, set: 1 });
    let sentence = Sentence::of_pattern(finder::kind("map").expect("a kind"), Some(2), pattern);
    let text = "key 2: value 8 was replaced or removed 3 times and by then put once";
    assert_eq!(sentence.to_string(), text);
    let shown = Shown::ByCount(Count { counted: Counted::Value(8), from: 0 });
    let reason = FoundReason { cuts: Vec::new(), shown, sentence };
    let decision = Decision { object: 1, evidence: Evidence::Reason(reason) };
    assert_eq!(
        decision.to_string(),
        format!("{{:object 1, :cuts [], :count {{:value 8, :from 0}}, :note \"{text}\"}}")
    );
}
