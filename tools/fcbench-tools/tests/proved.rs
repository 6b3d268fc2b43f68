//! `judge` and `draw` with a stand-in for the verifier, which answers by a table.

use std::env;
use std::fs;
use std::os::unix::fs::PermissionsExt;
use std::path::{Path, PathBuf};
use std::process::{Command, Output, Stdio};

/// What the stand-in answers: of each history to one evidence alone. Everything else is open.
const STAND_IN: &str = r##"#!/bin/sh
say() { printf '%s\n' "$2"; exit "$1"; }
case "$1 $2" in
  verify*after_info*) say 2 'malformed history: H8 at map 2' ;;
  verify*) evidence=$(head -c 100000 "$3") ;;
  check*not_in_order*) say 1 'no: C5 object 0: 0 returned before 2 was invoked' ;;
  check*overlapping*) say 0 'yes: 3 operations, 1 objects
queue: 1 objects, 3 operations' ;;
  check*after_info*) say 2 'malformed history: H8 at map 2' ;;
esac
case "$2 $evidence" in
  *overlapping*'{:object 0, :order [1 0 4]}') say 0 'yes: 3 operations, 1 objects
queue: 1 objects, 3 operations' ;;
  *postgres_queue*'{:object 0, :cuts [{:keep [287], :numbers [677 743]} {:until 746}]'*) cat "$JUDGED"; exit 1 ;;
  *) say 3 '; object 0: open' ;;
esac
"##;

fn examples() -> PathBuf {
    PathBuf::from(env!("CARGO_MANIFEST_DIR")).join("../../examples")
}

fn example(name: &str) -> String {
    examples().join(name).to_str().expect("a path").to_owned()
}

/// A file of this test with this text, which can be run.
fn script(name: &str, text: &str) -> PathBuf {
    let folder = PathBuf::from(env!("CARGO_TARGET_TMPDIR")).join(name);
    fs::create_dir_all(&folder).expect("a folder");
    let path = folder.join("fcbench-verifier");
    fs::write(&path, text).expect("written");
    fs::set_permissions(&path, fs::Permissions::from_mode(0o755)).expect("a program");
    path
}

fn run(program: &PathBuf, words: &[&str]) -> Output {
    let judged = fs::read_to_string(example("postgres_queue.judged")).expect("lines");
    let lines = judged.rsplit_once("status").expect("a status").0;
    let path = program.with_file_name("judged");
    fs::write(&path, lines).expect("written");
    let mut tools = Command::new(env!("CARGO_BIN_EXE_fcbench-tools"));
    tools.env("FCBENCH", program).env("JUDGED", path).args(words).output().expect("an output")
}

fn said(output: &Output) -> (i32, String, String) {
    let text = |bytes: &[u8]| String::from_utf8_lossy(bytes).into_owned();
    (output.status.code().expect("a status"), text(&output.stdout), text(&output.stderr))
}

#[test]
fn judge_answers_what_the_proved_program_answers() {
    let program = script("answers", STAND_IN);
    let judged = |name| said(&run(&program, &["judge", &example(name)]));
    let yes = "yes: 3 operations, 1 objects\nqueue: 1 objects, 3 operations\n";
    assert_eq!(judged("overlapping.history.edn"), (0, yes.into(), String::new()));
    let malformed = "malformed history: H8 at map 2\n\
                     ; event 2, line 3: event 1 is the :info of process 0, which has no events after it: its thread goes on as another process\n\
                     ; event 2: {:process 0, :type :invoke, :f :enqueue, :value 2}\n";
    assert_eq!(judged("after_info.history.edn"), (2, malformed.into(), String::new()));
    let (status, lines, errors) = judged("postgres_queue.history.edn");
    assert_eq!((status, errors.as_str()), (1, ""));
    assert!(lines.starts_with("; object 0: impossible\n"), "{lines}");
    let open = "; object 0: open\n";
    assert_eq!(judged("stack.history.edn"), (3, open.into(), String::new()));
}

#[test]
fn judge_passes_steps_and_workers_on() {
    let says = "echo '; object 0: open'; printf '; %s\\n' \"$*\"";
    let program = script("steps", &format!("#!/bin/sh\ncat > /dev/null\n{says}\nexit 3\n"));
    let history = fs::canonicalize(example("queue.history.edn")).expect("a file");
    let history = history.to_str().expect("a path");
    let words = ["judge", history, "--steps", "17", "--workers", "3"];
    let (status, lines, _) = said(&run(&program, &words));
    let wanted =
        format!("; object 0: open\n; verify {history} /dev/stdin --workers 3 --steps 17\n");
    assert_eq!((status, lines), (3, wanted));
}

#[test]
fn a_proved_program_that_is_not_there_is_status_70() {
    let program = PathBuf::from(env!("CARGO_TARGET_TMPDIR")).join("not_there");
    for word in ["judge", "draw"] {
        let (status, lines, errors) = said(&run(&program, &[word, &example("queue.history.edn")]));
        assert_eq!((status, lines.as_str()), (70, ""), "{word}");
        assert!(errors.contains("cannot be started"), "{errors}");
    }
}

/// Runs the tools with this alone as FCBENCH, and with this folder first on the PATH.
fn judged_by(named: Option<&str>, folder: &Path) -> (i32, String, String) {
    let mut tools = Command::new(env!("CARGO_BIN_EXE_fcbench-tools"));
    let path = env::var("PATH").expect("a path");
    tools.env("PATH", format!("{}:{path}", folder.display())).env_remove("FCBENCH");
    tools.current_dir(env!("CARGO_TARGET_TMPDIR")).envs(named.map(|it| ("FCBENCH", it)));
    said(&tools.args(["judge", &example("overlapping.history.edn")]).output().expect("an output"))
}

#[test]
fn no_program_of_the_path_is_the_verifier() {
    let program = script("of_the_path", STAND_IN);
    let folder = program.parent().expect("a folder");
    for named in [None, Some("fcbench-verifier"), Some("true"), Some("")] {
        let (status, lines, errors) = judged_by(named, folder);
        assert_eq!((status, lines.as_str()), (70, ""), "{named:?}");
        assert!(errors.contains("the verifier cannot be started"), "{errors}");
    }
    let named = program.to_str().expect("a path");
    assert_eq!(judged_by(Some(named), folder).0, 0);
}

#[test]
fn draw_draws_the_examples() {
    let program = script("draws", STAND_IN);
    for (name, is_checked, wanted) in [
        ("overlapping", true, 0),
        ("not_in_order", true, 1),
        ("after_info", true, 2),
        ("postgres_queue", false, 1),
    ] {
        let history = example(&format!("{name}.history.edn"));
        let certificates = example(&format!("{name}.certificates.edn"));
        let words = ["draw", &history, &certificates];
        let words = if is_checked { &words[..] } else { &words[..2] };
        let (status, page, errors) = said(&run(&program, words));
        assert_eq!((status, errors.as_str()), (wanted, ""), "{name}");
        let page_of_example = example(&format!("pages/{name}.html"));
        assert!(page == fs::read_to_string(page_of_example).expect("a page"), "{name}");
    }
}

#[test]
fn draw_shows_what_is_not_decided_as_open() {
    let program = script("open", STAND_IN);
    let (status, page, errors) = said(&run(&program, &["draw", &example("stack.history.edn")]));
    assert_eq!((status, errors.as_str()), (3, ""));
    assert!(page.contains("<body class=\"open\">"), "{page}");
}

#[test]
fn draw_of_a_file_that_is_not_there_is_status_4() {
    let program = script("unreadable", STAND_IN);
    let (status, page, errors) = said(&run(&program, &["draw", "not_there"]));
    assert_eq!((status, page.as_str()), (4, ""));
    assert!(errors.starts_with("fcbench: cannot read not_there"), "{errors}");
}

#[test]
fn a_history_that_is_a_pipe_is_status_4() {
    let program = script("pipe", STAND_IN);
    for word in ["judge", "draw"] {
        let mut tools = Command::new(env!("CARGO_BIN_EXE_fcbench-tools"));
        let tools = tools.env("FCBENCH", &program).args([word, "/dev/stdin"]);
        let mut child =
            tools.stdin(Stdio::piped()).stderr(Stdio::piped()).spawn().expect("a child");
        drop(child.stdin.take());
        let (status, _, errors) = said(&child.wait_with_output().expect("an output"));
        assert_eq!(status, 4, "{word}");
        assert!(
            errors.contains("it is read twice, so it must be a file and not a pipe"),
            "{errors}"
        );
    }
}

#[test]
fn a_history_can_be_the_standard_input_where_that_is_a_file() {
    let program = script("input", STAND_IN);
    let history = fs::File::open(example("overlapping.history.edn")).expect("a file");
    let mut tools = Command::new(env!("CARGO_BIN_EXE_fcbench-tools"));
    let tools = tools.env("FCBENCH", &program).args(["judge", "/dev/stdin"]);
    let (status, lines, _) = said(&tools.stdin(history).output().expect("an output"));
    assert_eq!(status, 0, "{lines}");
}
