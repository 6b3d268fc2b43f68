//! The command that judges. The finder and the verifier are two processes, joined by a pipe.
//! The verifier reads the history while the finder works, and decides the answer and the
//! status. If the finder dies, the verifier judges by the evidence written so far.

use crate::answer::{Answer, answer_of};
use crate::command_line::{Find, Judge};
use crate::find::{bytes_of, read_with, remarks_on, require_returned};
use crate::finder_process::{Finder, finder};
use crate::import::names_in;
use crate::limit::Limit;
use crate::message::Remark;
use crate::program::{output, output_failed, path_for_both, put_out, say, start, verifier};
use crate::status::Status;
use crate::system::ignore_sigterm;
use crate::terminal::copy_shortened;
use ::import::{Names, with_names};
use finder::{count_returned, read_history, read_history_from};
use pages::fault_lines;
use std::fmt::Write as _;
use std::fs::{self, File};
use std::io::{self, IsTerminal, Read, Write};
use std::process::{Command, Stdio};
use verdict::{Asked, Fault, Verdict};

/// How the lines of an answer are printed.
struct Lines<'a> {
    /// The names of the imported history, if there are some.
    names: Option<&'a Names>,
    /// Whether a part has at most 200 operations, as on a terminal.
    is_shortened: bool,
}

impl Lines<'_> {
    /// Writes an answer to standard output.
    fn write(&self, answer: &str) -> io::Result<()> {
        let named = self.names.map(|names| with_names(names, answer));
        let lines = named.as_deref().unwrap_or(answer);
        let mut out = output()?;
        if self.is_shortened {
            copy_shortened(lines, &mut out)?;
        } else {
            out.write_all(lines.as_bytes())?;
        }
        out.flush()
    }
}

/// The answer to a judgement, and what the finder said of the history.
#[derive(Debug)]
struct Judgement {
    answer: Answer,
    remarks: Vec<Remark>,
}

/// Runs the two programs, the finder's output being the verifier's input. SIGTERM stops the finder
/// alone, as the limit does: the verifier then judges by what came.
fn run(
    verifier: io::Result<Command>,
    finder: io::Result<Command>,
    limit: Limit,
) -> Result<Judgement, Status> {
    let verifier = verifier.map(|mut verifier| {
        ignore_sigterm(&mut verifier);
        verifier
    });
    let mut verifier = start(verifier)?;
    let evidence = verifier.stdin.take().map_or_else(Stdio::null, Stdio::from);
    // The command has the pipe, which must be closed here, or the evidence never ends.
    let finder = finder.and_then(|mut finder| Finder::start(finder.stdout(evidence), limit));
    if let Err(error) = &finder {
        say(format_args!("the finder cannot be started, so there is no evidence: {error}"));
    }
    let answer = answer_of(&mut verifier, Asked::Verify);
    let remarks = finder.map(Finder::end).unwrap_or_default();
    Ok(Judgement { answer: answer?, remarks })
}

/// Prints the remarks on a history, if a summary is asked for, and the warnings that matter in any
/// case. On a terminal it prints how much the operations overlap too.
fn summarize(remarks: &[Remark], is_yes: bool, is_printed: bool) -> Result<(), Status> {
    if is_printed {
        return put_out(&remarks.iter().map(|remark| format!("; {remark}\n")).collect::<String>());
    }
    let is_on_terminal = io::stderr().is_terminal();
    let is_shown = |remark: &&Remark| match remark {
        Remark::Overlap(_) => is_on_terminal,
        Remark::Warning(warning) => warning.kind.matters(is_yes),
    };
    remarks.iter().filter(is_shown).for_each(|remark| say(format_args!("{remark}")));
    Ok(())
}

/// Longer malformed texts are not tried with `import`.
const LONGEST_IMPORTED: usize = 1 << 24;

/// Returns the `import` options that would make this text judgeable, if any: those that keep its
/// owners, if there are some. A process that goes on after `:info` is for the user to look at.
fn options_of_import(text: &[u8]) -> Option<&'static str> {
    let text = std::str::from_utf8(text).ok().filter(|text| text.len() <= LONGEST_IMPORTED)?;
    let imported = |(is_independent, has_owners, words)| {
        let options =
            ::import::Options { is_independent, has_owners, ..::import::Options::default() };
        let made = ::import::import(text, &options).ok().filter(|made| !made.has_new_processes)?;
        read_history(made.text.as_bytes()).map(|_| (words, made.lacks_owners))
    };
    let judged: Vec<_> = [
        (false, false, ""),
        (true, false, " --independent"),
        (false, true, " --owners"),
        (true, true, " --independent --owners"),
    ]
    .into_iter()
    .filter_map(imported)
    .collect();
    judged
        .iter()
        .find(|(_, lacks_owners)| !lacks_owners)
        .or(judged.first())
        .map(|(words, _)| *words)
}

/// A path as a word of a shell.
fn quoted(path: &str) -> String {
    let is_plain = |letter: char| letter.is_alphanumeric() || "/._-+=:,@%".contains(letter);
    if path.chars().all(is_plain) {
        path.to_owned()
    } else {
        format!("'{}'", path.replace('\'', "'\\''"))
    }
}

/// Reads the beginning of a file or folder, and reports the cause if that fails, which the verifier
/// does not. Pipes and other files are not read: what is read here would be missing there.
fn try_to_read(history: &str) -> Result<(), Status> {
    let is_other = fs::metadata(history).is_ok_and(|file| !file.is_file() && !file.is_dir());
    if is_other {
        return Ok(());
    }
    read_with(history, |mut file| file.read(&mut [0])).map(drop)
}

/// Says what to do if a search was out of steps.
fn advise(verdict: &Verdict) {
    if verdict.has(verdict::Answer::OutOfSteps) {
        say(format_args!(
            "out of steps: --steps N lets the search take longer; distinct values and fewer :info operations help too"
        ));
    }
}

/// What is wrong with a malformed history: the event, the key, the value, and what is expected; and
/// whether it can be imported.
fn explanation(history: &str, fault: Fault) -> Option<String> {
    if fault.is_of_length() {
        return fault_lines(&[], fault);
    }
    let text = File::open(history).and_then(bytes_of).ok()?;
    let mut lines = fault_lines(&text, fault)?;
    if let Some(options) = options_of_import(&text) {
        let history = quoted(history);
        let _ = writeln!(
            lines,
            "; it can be imported: fcbench import --names names.edn{options} {history} > judged.edn && \
             fcbench judge --names names.edn judged.edn"
        );
    }
    Some(lines)
}

/// Explains a malformed history.
fn explain(history: &str, verdict: &Verdict) -> Result<(), Status> {
    let Verdict::Malformed(fault) = *verdict else {
        return Ok(());
    };
    explanation(history, fault).map_or(Ok(()), |lines| put_out(&lines))
}

/// Reports why a yes, or that nothing is decided, is not printed: too few operations returned.
fn require_enough(command: &Judge, history: &str, answer: &Answer) -> Result<(), Status> {
    let least = command.at_least;
    require_returned(answer, least, || read_with(history, |file| count_returned(file, least)))
}

/// What is to be said of a history. With `--strict` a yes needs it from this program's own
/// reading, since a finder may die, or be another one that says nothing.
fn remarks_for(
    command: &Judge,
    history: &str,
    judgement: &Judgement,
) -> Result<Vec<Remark>, Status> {
    if !(command.is_strict && judgement.answer.status == Status::YES) {
        return Ok(judgement.remarks.clone());
    }
    let workers = command.find.workers;
    let read = read_with(history, |file| read_history_from(file, workers))?;
    read.as_ref().map(remarks_on).ok_or_else(|| {
        say(format_args!("cannot look for what --strict asks for"));
        Status::BROKEN
    })
}

/// Whether, with `--strict`, a warning is the reason that a yes is not printed.
fn is_withheld(command: &Judge, remarks: &[Remark], status: Status) -> bool {
    let is_reason = |remark: &Remark| match remark {
        Remark::Overlap(_) => false,
        Remark::Warning(warning) => warning.kind.matters(true),
    };
    command.is_strict && status == Status::YES && remarks.iter().any(is_reason)
}

/// Judges, and returns the status of the verifier, or that of what went wrong.
fn try_judge(command: &Judge) -> Result<Status, Status> {
    let limit = Limit::begin(command.find.seconds);
    let history = path_for_both(&command.find.history)?;
    try_to_read(&history)?;
    let names = command.names.as_deref().map(names_in).transpose()?;
    let find = Find { history, ..command.find.clone() };
    let verifier = verifier(&find.history, find.steps, find.workers);
    let judgement = run(verifier, finder(&find), limit)?;
    let remarks = remarks_for(command, &find.history, &judgement)?;
    let Answer { status, verdict, lines } = &judgement.answer;
    let are_enough = require_enough(command, &find.history, &judgement.answer);
    let is_withheld = is_withheld(command, &remarks, *status);
    let is_printed = are_enough.is_ok() && !is_withheld;
    if is_printed {
        let is_shortened = io::stdout().is_terminal() && !command.shows_all;
        Lines { names: names.as_ref(), is_shortened }.write(lines).map_err(output_failed)?;
    }
    summarize(&remarks, *status == Status::YES, find.summarizes && is_printed)?;
    are_enough?;
    if is_withheld {
        say(format_args!("--strict: it is a yes, which is not printed, with a warning"));
        return Err(Status::UNDECIDED);
    }
    advise(verdict);
    explain(&find.history, verdict)?;
    Ok(*status)
}

/// Judges a history: looks for evidence, and prints what the verifier decides by it.
pub fn judge(command: &Judge) -> Status {
    try_judge(command).unwrap_or_else(|status| status)
}

#[cfg(test)]
mod tests {
    use super::*;

    fn shell(script: &str) -> Command {
        let mut shell = Command::new("sh");
        shell.args(["-c", script]);
        shell
    }

    /// A verifier that answers yes to one evidence alone.
    fn verifier() -> Command {
        shell(
            "if test \"$(head -c 100)\" = '{:object 0, :order [1 0 4]}'
             then echo yes: 3 operations, 1 objects; else echo '; object 0: open'; exit 3; fi",
        )
    }

    fn run_of(verifier: Command, finder: io::Result<Command>, seconds: Option<u64>) -> Status {
        let judged = run(Ok(verifier), finder, Limit::begin(seconds));
        judged.map_or_else(|status| status, |judged| judged.answer.status)
    }

    fn judged(finder: &str) -> u8 {
        run_of(verifier(), Ok(shell(finder)), None).0
    }

    #[test]
    fn a_path_is_one_word_of_a_shell() {
        for (path, word) in
            [("a/b-1.edn", "a/b-1.edn"), ("a b.edn", "'a b.edn'"), ("it's", "'it'\\''s'")]
        {
            assert_eq!(quoted(path), word);
        }
    }

    #[test]
    fn a_good_finder_leads_to_a_yes() {
        assert_eq!(judged("echo '{:object 0, :order [1 0 4]}'"), 0);
    }

    #[test]
    fn a_bad_finder_leads_to_no_answer() {
        for finder in [
            "",
            "exit 101",
            "kill -9 $$",
            "echo '{:object 0, :order [1 0'; kill -9 $$",
            "printf '{:object 0, :ord'",
            "echo '{:object 1, :order [1 0 4]}'",
            "echo '{:object 0, :order [0 1 4]}'",
            "echo '{:object 0, :order [1 0 4]}'; echo '{:object 0, :order [0 1 4]}'",
            "head -c 10000 /dev/urandom",
            "yes '{:object 0, :order [1 0 4]}'",
            "cat /dev/zero",
            "exec >&-",
        ] {
            assert_eq!(judged(finder), 3, "{finder}");
        }
    }

    #[test]
    fn a_finder_that_never_ends_is_ended() {
        let verifier = shell("head -n 1 > /dev/null; echo '; object 0: open'; exit 3");
        let finder = Ok(shell("echo 1; exec sleep 1000"));
        assert_eq!(run_of(verifier, finder, None), Status::UNDECIDED);
    }

    #[test]
    fn a_finder_is_stopped_at_the_limit() {
        let order = "echo '{:object 0, :order [1 0 4]}'";
        let goes_on = "while :; do sleep 0.1; done";
        for script in [
            format!("{order}; exec sleep 1000"),
            format!("trap \"{order}; exit 3\" TERM; {goes_on}"),
            format!("{order}; trap '' TERM; {goes_on}"),
        ] {
            // If the machine is busy, the first limits may be over before the shell has begun.
            let is_yes = |limit| run_of(verifier(), Ok(shell(&script)), Some(limit)) == Status::YES;
            assert!([1, 4, 16].into_iter().any(is_yes), "{script}");
        }
    }

    #[test]
    fn a_finder_that_cannot_be_started_gives_no_evidence() {
        for finder in [Ok(Command::new("/not/there")), Err(io::Error::other("lost"))] {
            assert_eq!(run_of(verifier(), finder, None), Status::UNDECIDED);
        }
    }

    #[test]
    fn a_verifier_that_is_killed_answers_nothing() {
        let finder = || Ok(shell("echo '{:object 0, :order [1 0 4]}'"));
        for verifier in ["cat > /dev/null; kill -9 $$", "kill -9 $$"] {
            assert_eq!(run_of(shell(verifier), finder(), None), Status::UNDECIDED);
        }
        let missing = Command::new("/not/there");
        assert_eq!(run_of(missing, finder(), None), Status::BROKEN);
    }

    /// What a verifier prints, in words of printf, how it ends, and the status of the judgement.
    const ENDS: [(&str, &str, u8); 26] = [
        (r"yes: 3 operations, 1 objects\nqueue: 1 objects, 3 operations\n", "exit 0", 0),
        (r"yes: 3 operations, 1 objects\n", "exit 1", 70),
        (r"yes: 3 operations, 1 objects\n", "exit 3", 70),
        (r"yes: 3 operations, 1 objects\n", "exit 4", 4),
        (r"yes: 3 operations, 1 objects\n", "exit 64", 70),
        (r"yes: 3 operations, 1 objects\n", "exit 101", 70),
        (r"yes: 3 operations, 1 objects\n", "kill -9 $$", 3),
        (r"yes: 3 operations, 1 objects", "exit 0", 70),
        (r"yes: 3 opera", "exit 0", 70),
        (r"yes: 3 opera\n", "exit 0", 70),
        (r"\n", "exit 0", 70),
        ("", "exit 0", 70),
        ("", "exit 1", 70),
        ("", "exit 2", 70),
        ("", "exit 3", 70),
        ("", "exit 4", 4),
        (r"; object 0: impossible\n; {:object 0, :cuts []}\n", "exit 1", 1),
        (r"; object 0: impossible\n; {:object 0, :cuts []}\n", "exit 0", 70),
        (r"; object 0: impossible\n; {:object 0, :cuts []}\n", "exit 3", 70),
        (r"; object 0: impossible\n; {:object 0, :cu", "exit 1", 70),
        (r"; object 0: open\n", "exit 1", 70),
        (r"no: C1 object 0 has no certificate\n", "exit 1", 70),
        (r"malformed history: H8 at map 2\n", "exit 2", 2),
        (r"malformed evidence: E3 at byte 0\n", "exit 3", 3),
        (r"out of memory\n", "exit 3", 3),
        (r"\377\n", "exit 3", 70),
    ];

    #[test]
    fn lines_and_status_fit_or_there_is_no_answer() {
        for (lines, ends, wanted) in ENDS {
            let verifier = shell(&format!("printf '{lines}'; {ends}"));
            let judged = run(Ok(verifier), Ok(shell("cat /dev/zero")), Limit::begin(None));
            let status = match judged {
                Ok(judged) => judged.answer.status,
                Err(status) => status,
            };
            assert_eq!(status, Status(wanted), "{lines}, {ends}");
        }
    }
}
