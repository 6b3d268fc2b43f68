//! The output and the statuses of `find`.

use std::path::PathBuf;
use std::process::{Command, Output};

fn run(words: &[&str]) -> Output {
    Command::new(env!("CARGO_BIN_EXE_fcbench-tools")).args(words).output().expect("an output")
}

fn example(name: &str) -> String {
    let folder = PathBuf::from(env!("CARGO_MANIFEST_DIR")).join("../../examples");
    folder.join(format!("{name}.history.edn")).to_str().expect("a path").to_owned()
}

#[test]
fn each_object_with_an_order_is_status_0() {
    let output = run(&["find", &example("two_queues"), "--workers", "2"]);
    assert_eq!(output.status.code(), Some(0));
    let lines = String::from_utf8(output.stdout).expect("a text");
    assert_eq!(lines.lines().count(), 2);
    assert!(lines.lines().all(|line| line.contains(":order [")), "{lines}");
}

#[test]
fn an_object_without_an_order_is_status_3() {
    let output = run(&["find", &example("larger_first")]);
    assert_eq!(output.status.code(), Some(3));
    let lines = "{:object 0, :cuts [{:keep [3 5], :numbers [0 1 4 8]} {:until 7}], \
                 :search {:first :return, :steps 10000}, \
                 :note \"value 5 was extracted while the smaller value 3 was definitely in the heap; \
                 event 6 is the first that leaves no order\"}\n";
    assert_eq!(String::from_utf8_lossy(&output.stdout), lines);
}

#[test]
fn a_malformed_history_is_status_2() {
    let output = run(&["find", &example("after_info")]);
    assert_eq!(output.status.code(), Some(2));
    assert!(output.stdout.is_empty());
}

#[test]
fn a_file_that_is_not_there_is_status_4() {
    let output = run(&["find", &example("not_there")]);
    assert_eq!(output.status.code(), Some(4));
    assert!(output.stdout.is_empty());
}

#[test]
fn a_wrong_command_line_is_status_64() {
    for words in [&[][..], &["find"], &["other", "h.edn"], &["find", "h.edn", "--steps"]] {
        let output = run(words);
        assert_eq!(output.status.code(), Some(64), "{words:?}");
        let said = String::from_utf8(output.stderr).expect("a text");
        assert!(said.contains("\nUsage: fcbench "), "{words:?}: {said}");
    }
}

/// What `find` prints on standard error of an example with these options.
fn messages(options: &[&str]) -> Vec<String> {
    let output = run(&[&["find", &example("two_queues")], options].concat());
    let text = String::from_utf8(output.stderr).expect("a text");
    text.lines().map(str::to_owned).collect()
}

#[test]
fn a_summary_is_in_words_and_for_judge_in_edn() {
    let words = messages(&["--summary"]);
    assert!(!words.is_empty() && words.iter().all(|line| line.starts_with("; ")), "{words:?}");
    let lines = messages(&["--summary", "--for-judge"]);
    let begin = "{:fcbench-find 1, ";
    assert!(lines.iter().all(|line| line.starts_with(begin) && line.ends_with('}')), "{lines:?}");
    assert_eq!(lines.len(), words.len());
    assert!(messages(&["--for-judge"]).is_empty());
}

/// A file for one test, which is removed after it.
struct TestFile(PathBuf);

impl TestFile {
    fn new(name: &str, text: &str) -> TestFile {
        let name = format!("fcbench-tools-{}-{name}", std::process::id());
        let path = std::env::temp_dir().join(name);
        std::fs::write(&path, text).expect("a file");
        TestFile(path)
    }

    fn path(&self) -> &str {
        self.0.to_str().expect("a path")
    }
}

impl Drop for TestFile {
    fn drop(&mut self) {
        let _ = std::fs::remove_file(&self.0);
    }
}

#[test]
fn an_empty_history_has_no_evidence() {
    let empty = TestFile::new("empty.edn", "; nothing\n");
    let output = run(&["find", empty.path()]);
    assert_eq!(output.status.code(), Some(0));
    assert!(output.stdout.is_empty());
}

const SHARD: &str = "{:process 4, :type :invoke, :f :write, :value 1, :object 5}
{:process 4, :type :ok, :f :write, :value 1, :object 5}
";

#[test]
fn a_shard_has_the_numbers_of_the_whole() {
    let (shard, places) = (TestFile::new("5.edn", SHARD), TestFile::new("5.places", "17\n20\n"));
    let output = run(&["find", shard.path(), "--places", places.path()]);
    assert_eq!(output.status.code(), Some(0));
    assert_eq!(String::from_utf8_lossy(&output.stdout), "{:object 5, :order [17]}\n");
}

#[test]
fn a_table_that_is_no_table_of_the_shard_is_status_2() {
    let shard = TestFile::new("shard.edn", SHARD);
    for (table, said) in [
        ("17\n", "it has 1 places, and the history has 2 maps"),
        ("17\n17\n", "line 2 is no place after that of line 1"),
        ("x\n", "line 1 is no place"),
    ] {
        let places = TestFile::new("shard.places", table);
        let output = run(&["find", shard.path(), "--places", places.path()]);
        assert_eq!(output.status.code(), Some(2));
        assert!(output.stdout.is_empty());
        let said = format!("fcbench: malformed places: {}: {said}\n", places.path());
        assert_eq!(String::from_utf8_lossy(&output.stderr), said);
    }
}

#[test]
fn a_table_that_is_not_there_is_status_4() {
    let shard = TestFile::new("lone.edn", SHARD);
    let output = run(&["find", shard.path(), "--places", "not_there.places"]);
    assert_eq!(output.status.code(), Some(4));
    assert!(output.stdout.is_empty());
}
