//! Planted bugs of sets, counters, locks, and of the functions of registers and maps that reply
//! whether they were done, or nothing: the sentence for each, and how many operations show it.

use finder::{Evidence, Options, decide, read_history};

/// The maps of calls, each by the process of its number, or by several processes in turn. A call
/// begins at `+` and returns at `-`, and one without a sign does both.
fn text_of(calls: &[&str]) -> String {
    let mut text = String::new();
    for call in calls {
        let words: Vec<&str> = call.split(" | ").collect();
        let [processes, function, argument, reply] = words[..] else { panic!("{call}") };
        for process in processes.split(' ') {
            let (begins, returns) = (!process.starts_with('-'), !process.starts_with('+'));
            let head = format!("{{:process {}, :f :{function}", process.trim_matches(['+', '-']));
            if begins {
                text += &format!("{head}, :type :invoke, :value {argument}}}\n");
            }
            if returns {
                text += &format!("{head}, :type :ok, :value {reply}}}\n");
            }
        }
    }
    text
}

/// The sentence for the object, and how many operations its reason has.
fn found(calls: &[&str]) -> (String, usize) {
    let history = read_history(text_of(calls).as_bytes()).expect("a history");
    match &decide(&history, Options::default())[0].evidence {
        Evidence::Reason(reason) => {
            let said = reason.sentence.to_string();
            let said = said.split("; ").next().unwrap_or_default().to_owned();
            (said, reason.size(&history.objects[0]))
        }
        evidence => panic!("{evidence:?}"),
    }
}

fn assert_found(calls: &[&str], said: &str, size: usize) {
    assert_eq!(found(calls), (said.to_owned(), size));
}

#[test]
fn sets() {
    let twice = ["0 | add | 4 | true", "0 | add | 5 | true", "1 | add | 5 | true"];
    assert_found(&twice, "value 5 was added twice, and not removed in between", 2);
    let lost = ["0 | add | 5 | true", "1 | contains | 4 | false", "1 | contains | 5 | false"];
    let said = "value 5 was not found after it had been in the set, and not removed in between";
    assert_found(&lost, said, 2);
    let stale = ["0 | add | 5 | true", "1 | remove | 5 | true", "0 | contains | 5 | true"];
    let said = "value 5 was found after it had been out of the set, and not added in between";
    assert_found(&stale, said, 1);
    assert_found(&["0 | contains | 5 | true"], "value 5 was found and never added", 1);
    let removed = ["0 | add | 5 | true", "1 | remove | 5 | true", "0 | remove | 5 | true"];
    assert_found(&removed, "value 5 was removed twice, and not added in between", 1);
    let both = ["0 | remove | 5 | false", "+0 +1 -0 -1 | add | 5 | true"];
    assert_found(&both, "value 5 was added more often than it can have been out of the set", 2);
}

#[test]
fn counters() {
    let twice = ["0 | fetch-add | 1 | 0", "1 | fetch-add | 1 | 1", "0 | fetch-add | 1 | 1"];
    let said = "the counter was 1 after it had been 2, and nothing was subtracted";
    assert_found(&twice, said, 2);
    let stale = ["0 | fetch-add | 3 | 0", "1 | get-count | nil | 3", "0 | get-count | nil | 0"];
    let said = "the counter was 0 after it had been 3, and nothing was subtracted";
    assert_found(&stale, said, 2);
    let both = ["0 | fetch-add | 1 | 0", "+0 +1 -0 -1 | fetch-add | 1 | 1"];
    let said = "two additions found the counter to be 1, and nothing was subtracted";
    assert_found(&both, said, 3);
    let skipped = ["0 | fetch-add | 2 | 0", "0 | get-count | nil | 3"];
    let said = "the counter was found to be 3, which it cannot have been by then";
    assert_found(&skipped, said, 2);
}

#[test]
fn locks() {
    let two = ["0 | lock | 1 | nil", "1 | lock | 2 | nil"];
    assert_found(&two, "owner 2 locked what owner 1 had locked, and not unlocked", 2);
    let other = ["0 | lock | 2 | nil", "1 | unlock | 3 | nil"];
    assert_found(&other, "owner 3 unlocked what owner 2 had locked", 2);
    let twice = ["0 | lock | 2 | nil", "0 | unlock | 2 | nil", "1 | unlock | 2 | nil"];
    assert_found(&twice, "owner 2 unlocked what no owner had locked", 1);
}

#[test]
fn registers_and_maps() {
    let twice = ["0 | put-if-absent | [1 5] | true", "1 | put-if-absent | [1 6] | true"];
    let said = "key 1: a value was definitely there when the :put-if-absent of event 2 found none";
    assert_found(&twice, said, 2);
    let refused =
        ["0 | put | [1 5] | nil", "0 | dissoc | 1 | nil", "1 | put-if-absent | [1 6] | false"];
    let said = "key 1: no value was there when the :put-if-absent of event 4 was refused";
    assert_found(&refused, said, 1);
    let replaced = ["0 | assoc | [1 5] | nil", "1 | replace | [1 7 6] | true"];
    assert_found(&replaced, "key 1: value 7 was seen and never put", 1);
    let stale = ["0 | assoc | [1 5] | nil", "0 | assoc | [1 6] | nil", "1 | get | 1 | 5"];
    let said = "key 1: value 5 was seen after it had been replaced or removed";
    assert_found(&stale, said, 2);
    let removed = ["0 | assoc | [1 5] | nil", "0 | dissoc | 1 | nil", "1 | get | 1 | 5"];
    assert_found(&removed, said, 1);
    let cleared = ["0 | write | 5 | 5", "0 | clear | nil | nil", "1 | read | nil | 5"];
    let said = "value 5 was read after another content had replaced it";
    assert_found(&cleared, said, 1);
    let created = ["0 | create | 5 | true", "1 | create | 6 | true"];
    let said = "a value was definitely there when the :create of event 2 found none";
    assert_found(&created, said, 2);
    let kept = ["0 | write | 5 | 5", "0 | clear | nil | nil", "1 | create | 6 | false"];
    let said = "no value was there when the :create of event 4 was refused";
    assert_found(&kept, said, 1);
    let first = ["0 | get | 2 | nil", "0 | put-if-absent | [1 6] | false", "1 | put | [1 5] | nil"];
    let said = "key 1: no value was there when the :put-if-absent of event 2 was refused";
    assert_found(&first, said, 1);
}
