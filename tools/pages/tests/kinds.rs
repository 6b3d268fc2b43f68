//! Pages of sets, counters, locks, and of the functions of registers and maps that reply whether
//! they were done, or nothing.

use finder::{Options, decide, read_history};
use pages::{Drawn, orders_in};
use verdict::{Answer, Verdict};

/// The maps of calls of one process, one after another.
fn text_of(calls: &[&str]) -> String {
    let events = calls.iter().map(|call| {
        let words: Vec<&str> = call.split(" | ").collect();
        let [function, argument, reply] = words[..] else { panic!("{call}") };
        let head = format!("{{:process 0, :f :{function}");
        format!("{head}, :type :invoke, :value {argument}}}\n{head}, :type :ok, :value {reply}}}\n")
    });
    events.collect()
}

/// The page of these calls, checked by this order, or judged by what the finder finds, where this
/// is the answer. Tags are left out.
fn page(calls: &[&str], order: Option<&str>, lines: &str) -> String {
    let history = read_history(text_of(calls).as_bytes()).expect("a history");
    let drawn = Drawn {
        history: &history,
        name: "a.edn",
        certificates: order.map(|_| "b.edn"),
        lines,
        options: Default::default(),
        words: Default::default(),
    };
    let page = match (order, Verdict::read(lines).expect("a verdict")) {
        (None, Verdict::Yes { .. }) => {
            drawn.judged_page(&decide(&history, Options::default()), &[])
        }
        (None, _) => {
            let decisions = decide(&history, Options::default());
            drawn.judged_page(&decisions, &[(0, Answer::Impossible)])
        }
        (Some(order), verdict) => {
            let orders = orders_in(format!("{{:object 0, :order [{order}]}}").as_bytes());
            match verdict {
                Verdict::No(refusal) => drawn.checked_page(&orders, Some(&refusal)),
                _ => drawn.checked_page(&orders, None),
            }
        }
    };
    let mut is_text = true;
    let text = page.chars().filter(|it| {
        let was_text = is_text;
        is_text = if is_text { *it != '<' } else { *it == '>' };
        was_text && is_text
    });
    text.collect()
}

/// The page of these calls has each of these texts.
fn assert_says(calls: &[&str], order: Option<&str>, lines: &str, texts: &[&str]) {
    let page = page(calls, order, lines);
    for text in texts {
        assert!(page.contains(text), "{text}: {calls:?}");
    }
}

#[test]
fn labels_and_contents_of_an_order() {
    let yes = "yes: 3 operations, 1 objects";
    let says = |calls: &[&str], texts: &[&str]| assert_says(calls, None, yes, texts);
    says(
        &["add | 5 | true", "add | 4 | true", "remove | 5 | true"],
        &["#0 add 5 → true{5}", "#2 add 4 → true{4, 5}", "#4 remove 5 → true{4}"],
    );
    says(
        &["fetch-add | 2 | 0", "get-count | nil | 2", "fetch-add | -3 | 2"],
        &["number after", "#0 fetch-add 2 → 02", "#2 get-count → 22", "#4 fetch-add -3 → 2-1"],
    );
    says(
        &["lock | 3 | nil", "unlock | 3 | nil", "lock | 4 | nil"],
        &["owner after", "#0 lock 33", "#2 unlock 3free", "#4 lock 44"],
    );
    says(
        &["assoc | [1 5] | nil", "replace | [1 5 6] | true", "dissoc | 1 | nil"],
        &["#0 assoc [1 5]{1 5}", "#2 replace [1 5 6] → true{1 6}", "#4 dissoc 1{}"],
    );
    says(
        &["create | 5 | true", "clear | nil | nil", "create | 6 | true"],
        &["#0 create 5 → true5", "#2 clearnil", "#4 create 6 → true6"],
    );
}

#[test]
fn why_an_entry_is_refused() {
    let says = |calls: &[&str], lines: &str, texts: &[&str]| {
        assert_says(calls, Some("0 2"), lines, texts);
    };
    says(
        &["add | 5 | true", "contains | 5 | false"],
        "no: C6 object 0: 2 gives true",
        &["the set contains {5} there. The history says that it returned false.", "gives true"],
    );
    says(
        &["fetch-add | 2 | 0", "get-count | nil | 1"],
        "no: C6 object 0: 2 gives 2",
        &["the counter contains 2 there", "contains", "≠1returned"],
    );
    says(
        &["lock | 3 | nil", "unlock | 4 | nil"],
        "no: C9 object 0: 2 is not possible",
        &["the lock is held there, by #0 lock 3. A lock is unlocked only by its owner."],
    );
    says(
        &["put | [1 5] | nil", "replace | [1 7 6] | true"],
        "no: C6 object 0: 2 gives false",
        &["5 was put there by #0 put [1 5] → nil.", "1 5gives false"],
    );
    says(
        &["fetch-add | 9223372036854775807 | 0", "fetch-add | 1 | 9223372036854775807"],
        "no: C9 object 0: 2 is not possible",
        &["the counter contains 9223372036854775807 there, and the sum has more than 64 bits."],
    );
}

#[test]
fn contents_before_a_part_of_a_lock() {
    let calls = ["lock | 1 | nil", "unlock | 1 | nil", "unlock | 3 | nil"];
    let texts = [
        "All 3 ways to begin",
        "1free#2 unlock 1is not possible",
        "2held by another#2 unlock 1is not possible",
        "3#2 unlock 1free#4 unlock 3is not possible",
    ];
    assert_says(&calls, None, "; object 0: impossible", &texts);
}

#[test]
fn why_there_is_no_order() {
    let lines = "; object 0: impossible";
    let says = |calls: &[&str], text: &str| assert_says(calls, None, lines, &[text]);
    says(
        &["add | 5 | true", "contains | 5 | false"],
        "Value 5 was not found after it had been in the set, and not removed in between.",
    );
    says(&["lock | 3 | nil", "unlock | 4 | nil"], "Owner 4 unlocked what owner 3 had locked.");
    says(
        &["assoc | [1 5] | nil", "replace | [1 7 6] | true"],
        "#2 replace [1 7 6] → true could not return true.",
    );
    says(
        &["write | 5 | 5", "clear | nil | nil", "read | nil | 5"],
        "#4 read → 5 returned 5. But #2 clear left nothing and returned (event 3) before that",
    );
    says(
        &["assoc | [1 5] | nil", "dissoc | 1 | nil", "get | 1 | 5"],
        "#4 get 1 → 5 returned 5. But #2 dissoc 1 deleted key 1 and returned (event 3)",
    );
}
