//! The examples of this repository, with the answers beside them.

use finder::{Evidence, History, Options, decide, read_history};
use std::fs;
use std::path::{Path, PathBuf};

fn folder() -> PathBuf {
    Path::new(env!("CARGO_MANIFEST_DIR")).join("../../examples")
}

/// The names of the examples that have a history and a file of this ending.
fn names(ending: &str) -> Vec<String> {
    let files = fs::read_dir(folder()).expect("the examples").map(|file| file.expect("a file"));
    let names = files.map(|file| file.file_name().into_string().expect("a name"));
    let mut names: Vec<String> =
        names.filter_map(|name| Some(name.strip_suffix(".history.edn")?.to_owned())).collect();
    names.retain(|name| folder().join(format!("{name}.{ending}")).exists());
    names.sort();
    assert!(!names.is_empty());
    names
}

fn text(name: &str, ending: &str) -> String {
    fs::read_to_string(folder().join(format!("{name}.{ending}"))).expect(name)
}

fn history(name: &str) -> Option<History> {
    read_history(text(name, "history.edn").as_bytes())
}

#[test]
fn reads_each_history_that_is_not_malformed() {
    for name in names("expected") {
        let is_malformed = text(&name, "expected").starts_with("malformed history");
        assert_eq!(history(&name).is_none(), is_malformed, "{name}");
    }
}

#[test]
fn finds_an_order_where_the_certificates_are_one() {
    for name in names("expected") {
        if !text(&name, "expected").starts_with("yes") {
            continue;
        }
        let history = history(&name).expect(&name);
        for decision in decide(&history, Options::default()) {
            assert!(matches!(decision.evidence, Evidence::Order(_)), "{name}");
        }
    }
}

#[test]
fn finds_an_order_exactly_where_the_judgement_is_yes() {
    for name in names("judged") {
        let Some(history) = history(&name) else {
            continue;
        };
        let decisions = decide(&history, Options::default());
        let all_have_orders = decisions.iter().all(|d| matches!(d.evidence, Evidence::Order(_)));
        assert_eq!(all_have_orders, text(&name, "judged").starts_with("yes"), "{name}");
    }
}

/// The sentence and the reason of a judgement, as it prints them.
fn judged(name: &str) -> Option<(String, String)> {
    let text = text(name, "judged");
    let mut lines = text.lines();
    lines.next().filter(|line| line.ends_with(": impossible"))?;
    let sentence = lines.next().expect("a sentence");
    let reason = lines.find_map(|line| line.strip_prefix("; {")).expect("a reason");
    Some((sentence.to_owned(), format!("{{{reason}")))
}

#[test]
fn finds_the_reason_that_the_judgement_prints() {
    let mut found = 0;
    for name in names("judged") {
        let Some((sentence, reason)) = judged(&name) else {
            continue;
        };
        let history = history(&name).expect(&name);
        let decisions = decide(&history, Options::default());
        let [decision] = &decisions[..] else {
            panic!("{name}: {} objects", decisions.len());
        };
        assert!(
            matches!(decision.evidence, Evidence::Reason(_)),
            "{name}: {:?}",
            decision.evidence
        );
        let note = sentence.strip_prefix("; ").expect("a comment");
        let reason = reason.strip_suffix('}').expect("a map");
        assert_eq!(decision.to_string(), format!("{reason}, :note \"{note}\"}}"), "{name}");
        found += 1;
    }
    assert!(found >= 9);
}

#[test]
fn any_number_of_workers_finds_the_same() {
    for name in names("expected") {
        let Some(history) = history(&name) else {
            continue;
        };
        let lines = |workers| {
            let decisions = decide(&history, Options { workers, ..Options::default() });
            decisions.iter().map(|decision| format!("{decision}\n")).collect::<String>()
        };
        assert_eq!(lines(1), lines(4), "{name}");
    }
}

/// Each beginning of a history, and the history without a piece or with a changed byte, is read
/// without a fault, and each object is decided.
#[test]
fn damaged_histories_do_no_harm() {
    for name in ["jepsen", "heap", "map", "larger_first", "lost_put", "mutex", "stack"] {
        let text = text(name, "history.edn").into_bytes();
        for at in 0..text.len() {
            let mut changed = text.clone();
            changed[at] = b"0[}:\"\x80"[at % 6];
            let without = [&text[..at], &text[(at + 7).min(text.len())..]].concat();
            for damaged in [&text[..at], &changed, &without] {
                let Some(history) = read_history(damaged) else {
                    continue;
                };
                for decision in decide(&history, Options::default()) {
                    assert!(!matches!(decision.evidence, Evidence::Open), "{name} at {at}");
                }
            }
        }
    }
}
