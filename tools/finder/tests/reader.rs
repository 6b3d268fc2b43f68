//! Which texts are histories.

use finder::{read_history, read_history_from};

fn is_history(text: &str) -> bool {
    read_history(text.as_bytes()).is_some()
}

const PUSH: &str = "{:process 0, :type :invoke, :f :push, :value 1}";

#[test]
fn reads_what_jepsen_writes() {
    assert!(is_history("{:process :nemesis, :type :info, :f :kill, :value {:n1 [1 2 {:a nil}]}}"));
    assert!(is_history("; a comment\n{:index 0, :time 12, :process 3, :type :invoke, :f :read}"));
    assert!(is_history("{:process 0, :type :invoke, :f :read, :error \"a \\\" b\", :value nil}"));
    assert!(is_history(&format!("{PUSH} {{:process 0, :type :info, :f :push, :value \"?\"}}")));
}

#[test]
fn refuses_maps_that_are_no_events() {
    for map in [
        "1",
        "[]",
        "{}",
        "{:process -1, :type :invoke, :f :read}",
        "{:process 0, :type :begin, :f :read}",
        "{:process 0, :type :invoke, :f 1}",
        "{:process 0, :type :invoke, :f :append, :value 1}",
        "{:process 0, :type :invoke, :f :read, :object 65536}",
        "{:process 0, :type :invoke, :f :read, :object -1}",
        "{:process 0, :type :invoke, :f :read, :value 1}",
        "{:process 0, :type :invoke, :f :cas, :value [1 2 3]}",
        "{:process 0, :type :ok, :f :read}",
    ] {
        assert!(!is_history(map), "{map}");
    }
}

#[test]
fn refuses_events_that_do_not_fit() {
    for later in [
        "{:process 1, :type :invoke, :f :enqueue, :value 1}",
        PUSH,
        "{:process 1, :type :ok, :f :push, :value 1}",
        "{:process 0, :type :ok, :f :pop, :value 1}",
        "{:process 0, :type :ok, :f :push, :value 1, :object 1}",
        "{:process 0, :type :ok, :f :push, :value nil}",
        "{:process 0, :type :info, :f :push} {:process 0, :type :invoke, :f :pop}",
    ] {
        assert!(!is_history(&format!("{PUSH} {later}")), "{later}");
    }
}

/// A call, in the order of keys that is read by its bytes, or in another one.
fn call(is_usual: bool, function: &str, argument: &str, reply: &str) -> String {
    let event = |of_type: &str, value: &str| match is_usual {
        true => format!("{{:process 0, :type :{of_type}, :f :{function}, :value {value}}}\n"),
        false => format!("{{:f :{function}, :value {value}, :process 0, :type :{of_type}}}\n"),
    };
    event("invoke", argument) + &event("ok", reply)
}

/// Whether a call of each function, with its argument and its reply, is a history.
fn assert_calls(are_histories: bool, calls: &[(&str, &str, &str)]) {
    for (function, argument, reply) in calls {
        for is_usual in [true, false] {
            let text = call(is_usual, function, argument, reply);
            assert_eq!(is_history(&text), are_histories, "{text}");
        }
    }
}

#[test]
fn reads_sets_counters_locks_and_new_functions() {
    assert_calls(
        true,
        &[
            ("clear", "nil", "nil"),
            ("create", "5", "true"),
            ("create", "5", "false"),
            ("put-if-absent", "[1 2]", "true"),
            ("replace", "[1 2 3]", "false"),
            ("assoc", "[1 2]", "nil"),
            ("dissoc", "1", "nil"),
            ("add", "-1", "true"),
            ("remove", "1", "false"),
            ("contains", "1", "true"),
            ("fetch-add", "-3", "9223372036854775807"),
            ("get-count", "nil", "0"),
            ("lock", "1", "nil"),
            ("unlock", "1", "nil"),
        ],
    );
}

#[test]
fn refuses_other_arguments_and_replies_of_new_functions() {
    assert_calls(
        false,
        &[
            ("clear", "1", "nil"),
            ("clear", "nil", "true"),
            ("create", "5", "5"),
            ("create", "nil", "true"),
            ("put-if-absent", "1", "true"),
            ("put-if-absent", "[1 2]", "nil"),
            ("replace", "[1 2]", "true"),
            ("replace", "[1 2 3 4]", "true"),
            ("replace", "[1 2 nil]", "true"),
            ("replace", "[1 2 3]", "[1 2 3]"),
            ("assoc", "[1 2]", "2"),
            ("dissoc", "[1 2]", "nil"),
            ("dissoc", "1", "1"),
            ("add", "1", "1"),
            ("add", "true", "true"),
            ("remove", "1", "nil"),
            ("contains", "nil", "true"),
            ("fetch-add", "1", "nil"),
            ("fetch-add", "nil", "1"),
            ("get-count", "nil", "nil"),
            ("get-count", "1", "1"),
            ("lock", "nil", "nil"),
            ("lock", "1", "true"),
            ("unlock", "1", "1"),
            ("cas", "[1 2]", "true"),
            ("write", "1", "true"),
        ],
    );
}

#[test]
fn refuses_texts_that_are_not_edn() {
    for text in ["{", "{:process", "{:process 0", "{:a \"", "{:a \"\\", "(", "{:a (}", "}", "{1 2}"]
    {
        assert!(!is_history(text), "{text}");
    }
    assert!(!is_history(&format!("{{:process :n, :a {}", "[".repeat(1_000_000))));
    assert!(!is_history(&"{:a ".repeat(1_000_000)));
}

#[test]
fn at_most_a_million_maps_are_read() {
    let map = "{:process :n}";
    assert!(is_history(&map.repeat(1_000_000)));
    assert!(!is_history(&map.repeat(1_000_001)));
}

/// A text of many operations, so that it is read in several pieces, with this between two maps.
fn long_text(between: &str) -> String {
    let event = |number: u32, of_type: &str| {
        format!("{{:process {}, :type :{of_type}, :f :push, :value {number}}}", number % 7)
    };
    (0..16_000)
        .map(|number| {
            [event(number, "invoke"), event(number, "ok")].map(|it| it + between).concat()
        })
        .collect()
}

/// What is read of a text from a source, by this many threads.
fn read_by(text: &str, workers: usize) -> String {
    let read = read_history_from(text.as_bytes(), workers).expect("a source that does not fail");
    format!("{read:?}")
}

#[test]
fn reads_the_same_by_any_number_of_threads() {
    let lines = long_text("\n");
    let cut_in_a_string = lines.replacen("7}", "7, :error \"\n{:process 0\"}", 9);
    let cut_in_a_map = lines.replace(", :type", ",\n :type");
    let with_comments = long_text(" ; {:process 0}\n; }\n\n");
    let with_a_nemesis = format!("{{:process :nemesis, :type :info, :f :kill}}\n{lines}");
    let long_map = format!("{{:process :n, :a [{}]}}\n{lines}", "1\n".repeat(1 << 20));
    let in_one_line = long_text(" ");
    let without_an_end = &lines[..lines.len() - 5];
    let twice = format!("{lines}{lines}{{:process 0, :type :ok, :f :push, :value 1}}\n");
    for text in [
        "",
        "\n; nothing",
        &lines,
        &cut_in_a_string,
        &cut_in_a_map,
        &with_comments,
        &with_a_nemesis,
        &long_map,
        &in_one_line,
        without_an_end,
        &twice,
    ] {
        let whole = format!("{:?}", read_history(text.as_bytes()));
        for workers in [1, 2, 4] {
            assert!(read_by(text, workers) == whole, "{workers}: {}", &text[..text.len().min(90)]);
        }
    }
    assert!(read_history(with_comments.as_bytes()).is_some());
    assert!(read_history(in_one_line.as_bytes()).is_some());
    assert!(read_history(long_map.as_bytes()).is_some());
    assert!(read_history(without_an_end.as_bytes()).is_none());
    assert!(read_history(twice.as_bytes()).is_none());
}
