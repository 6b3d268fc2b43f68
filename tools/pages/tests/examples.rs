//! The pages of examples/pages are those that the program draws.

use finder::{Options, decide, read_history};
use pages::{Drawn, malformed_page, orders_in};
use std::fs;
use verdict::{Answer, Verdict};

const EXAMPLES: &str = concat!(env!("CARGO_MANIFEST_DIR"), "/../../examples");

fn read(name: &str) -> String {
    fs::read_to_string(format!("{EXAMPLES}/{name}")).expect(name)
}

/// The lines that an expectation has, without that of the status.
fn lines_of(name: &str) -> String {
    let text = read(name);
    let (lines, _) = text.rsplit_once("\nstatus ").expect("a status");
    lines.into()
}

fn judged(name: &str) -> String {
    let file = format!("{name}.history.edn");
    let text = read(&file);
    let lines = lines_of(&format!("{name}.judged"));
    let verdict = Verdict::read(&lines).expect("a verdict");
    if let Verdict::Malformed(fault) = verdict {
        return malformed_page(&file, text.as_bytes(), fault, &lines);
    }
    let history = read_history(text.as_bytes()).expect("a history");
    let decisions = decide(&history, Options::default());
    let drawn = Drawn {
        history: &history,
        name: &file,
        certificates: None,
        lines: &lines,
        options: Default::default(),
        words: Default::default(),
    };
    match verdict {
        Verdict::Yes { .. } => drawn.judged_page(&decisions, &[]),
        Verdict::Judged(answers) => drawn.judged_page(&decisions, &answers),
        other => panic!("{other:?}"),
    }
}

fn checked(name: &str) -> String {
    let (file, certificates) = (format!("{name}.history.edn"), format!("{name}.certificates.edn"));
    let lines = lines_of(&format!("{name}.expected"));
    let history = read_history(read(&file).as_bytes()).expect("a history");
    let drawn = Drawn {
        history: &history,
        name: &file,
        certificates: Some(&certificates),
        lines: &lines,
        options: Default::default(),
        words: Default::default(),
    };
    let orders = orders_in(read(&certificates).as_bytes());
    match Verdict::read(&lines).expect("a verdict") {
        Verdict::Yes { .. } => drawn.checked_page(&orders, None),
        Verdict::No(refusal) => drawn.checked_page(&orders, Some(&refusal)),
        other => panic!("{other:?}"),
    }
}

#[test]
fn draws_the_examples() {
    for (name, page) in [
        ("after_info", judged("after_info")),
        ("not_in_order", checked("not_in_order")),
        ("overlapping", checked("overlapping")),
        ("postgres_queue", judged("postgres_queue")),
    ] {
        let wanted = read(&format!("pages/{name}.html"));
        assert!(page == wanted, "{name}");
    }
}

#[test]
fn draws_what_is_asked_for() {
    let history = read_history(read("two_queues.history.edn").as_bytes()).expect("a history");
    let decisions = decide(&history, Options::default());
    let page = |options| {
        let lines = "yes: 4 operations, 2 objects";
        let (name, certificates) = ("a<b.edn", None);
        let drawn = Drawn {
            history: &history,
            name,
            certificates,
            lines,
            options,
            words: Default::default(),
        };
        drawn.judged_page(&decisions, &[])
    };
    let all = page(pages::Options::default());
    assert!(all.contains("<title>yes: a&lt;b.edn</title>"));
    assert!(all.contains("id=\"object-0\"") && all.contains("id=\"object-1\""));
    let one = page(pages::Options { object: Some(1), ..Default::default() });
    assert!(!one.contains("id=\"object-0\"") && one.contains("id=\"object-1\""));
    assert!(one.contains("--object "));
    let none = page(pages::Options { object: Some(9), ..Default::default() });
    assert!(none.contains("The history has no object 9."));
}

#[test]
fn an_object_that_is_not_decided_is_open() {
    let history = read_history(read("queue.history.edn").as_bytes()).expect("a history");
    let drawn = Drawn {
        history: &history,
        name: "a.edn",
        certificates: None,
        lines: "; object 0: out of steps after 1",
        options: Default::default(),
        words: Default::default(),
    };
    for (answer, words) in [
        (Answer::OutOfSteps, ": out of steps. So the history is not decided."),
        (Answer::Open, ": open. So the history is not decided."),
        (Answer::OutOfMemory, ": out of memory. So the history is not decided."),
    ] {
        let page = drawn.judged_page(&[], &[(0, answer)]);
        assert!(page.contains("<body class=\"open\">") && page.contains(words), "{answer:?}");
    }
}
