//! The finder as a process of its own: how it is started, read, stopped at the limit, and ended.

use crate::command_line::Find;
use crate::limit::{BETWEEN_LIMIT_CHECKS, Limit};
use crate::message::{Message, Remark};
use crate::program::say;
use crate::status::Status;
use crate::system::{send_sigterm, tie};
use std::env;
use std::io::{self, BufRead, BufReader, IsTerminal, Read};
use std::path::PathBuf;
use std::process::{Child, ChildStderr, Command, ExitStatus, Stdio};
use std::sync::mpsc::{Receiver, RecvTimeoutError, Sender, channel};
use std::thread::{self, Builder, JoinHandle};
use std::time::{Duration, Instant};

/// How often, when the answer is there, it is checked whether the finder has ended, and the time
/// between two checks.
const EXIT_CHECKS: u32 = 100;
const BETWEEN_EXIT_CHECKS: Duration = Duration::from_millis(1);

/// How long a finder that was asked to end may write what it has.
const LAST_WORDS: Duration = Duration::from_secs(5);

/// How many bytes of its messages are read at most.
const MOST_OF_MESSAGES: u64 = 1 << 20;

/// The finder of evidence: the program that the environment variable FCBENCH_FINDER names,
/// otherwise this one. What it finds is checked, so any program may be named. It is started with
/// the arguments `find HISTORY --workers N [--steps N]`, and writes evidence to its standard
/// output. It is waited for until it closes that. At the limit it gets SIGTERM, and after five more
/// seconds it is killed. On Linux it is also killed when this program ends.
pub fn finder(command: &Find) -> io::Result<Command> {
    let named = env::var_os("FCBENCH_FINDER").map(PathBuf::from);
    let is_own = named.is_none();
    let mut finder = Command::new(named.map_or_else(env::current_exe, Ok)?);
    finder.args(["find", &command.history, "--workers", &command.workers.to_string()]);
    if let Some(steps) = command.steps {
        finder.args(["--steps", &steps.to_string()]);
    }
    // The verifier says what is wrong with a history. This program's own finder tells how far it
    // is, and what it says about the history, in lines for `judge`. What another one prints on
    // standard error is dropped.
    if is_own {
        finder.args(["--summary", "--for-judge"]);
        if io::stderr().is_terminal() {
            finder.arg("--progress");
        }
    }
    finder.stdin(Stdio::null()).stderr(if is_own { Stdio::piped() } else { Stdio::null() });
    tie(&mut finder);
    Ok(finder)
}

/// Whether a finder ended with a status of one that wrote all it found.
fn has_found(ended: ExitStatus) -> bool {
    let statuses = [Status::YES, Status::MALFORMED, Status::UNDECIDED, Status::FAILED];
    Status::of(ended).is_some_and(|status| statuses.contains(&status))
}

/// Returns how a finder ended, if it did so by itself: its output may be closed a moment before it
/// ends.
fn end_of(finder: &mut Child) -> Option<ExitStatus> {
    (0..EXIT_CHECKS).find_map(|look| {
        if look > 0 {
            thread::sleep(BETWEEN_EXIT_CHECKS);
        }
        finder.try_wait().ok().flatten()
    })
}

/// Ends a finder that still works when the answer is there, and says so if it failed before that.
fn end(finder: &mut Child, was_stopped: bool) {
    match end_of(finder) {
        Some(ended) if was_stopped || has_found(ended) => {}
        Some(ended) => {
            say(format_args!("the finder failed ({ended}); judging by what it found"));
        }
        None => {
            let _ = finder.kill();
            let _ = finder.wait();
        }
    }
}

/// Stops a finder at the limit, and ends it once the answer is there: then the channel is closed.
/// If its standard error has a reader, the finder itself reports there that it is stopped.
fn stop_at_limit(finder: &mut Child, has_reader: bool, limit: Limit, answer: &Receiver<()>) {
    let mut stopped = None;
    while answer.recv_timeout(BETWEEN_LIMIT_CHECKS) == Err(RecvTimeoutError::Timeout) {
        match stopped {
            None if limit.is_over() && send_sigterm(finder) => {
                if !has_reader {
                    say(format_args!("the finder is stopped"));
                }
                stopped = Some(Instant::now());
            }
            Some(at) if at.elapsed() >= LAST_WORDS => {
                let _ = finder.kill();
            }
            _ => {}
        }
    }
    end(finder, stopped.is_some());
}

/// Prints how far the finder is, and returns what it says about the history. Lines that are no
/// messages are passed over.
fn forward_messages(messages: ChildStderr) -> Vec<Remark> {
    let lines = BufReader::new(messages.take(MOST_OF_MESSAGES)).lines().map_while(Result::ok);
    let remark = |line: String| match Message::parse(&line)? {
        Message::OfHistory(remark) => Some(remark),
        Message::Progress(progress) => {
            say(format_args!("{progress}"));
            None
        }
    };
    lines.filter_map(remark).collect()
}

/// A running finder, with the thread that stops it and the one that reads its standard error.
pub struct Finder {
    answer: Sender<()>,
    keeper: JoinHandle<()>,
    reader: Option<JoinHandle<Vec<Remark>>>,
}

impl Finder {
    /// Starts a finder that works until the limit at most.
    pub fn start(command: &mut Command, limit: Limit) -> io::Result<Finder> {
        let mut finder = command.spawn()?;
        let reading =
            finder.stderr.take().map(|pipe| Builder::new().spawn(|| forward_messages(pipe)));
        let reader = reading.transpose()?;
        let has_reader = reader.is_some();
        let (answer, answered) = channel();
        let keeping = move || stop_at_limit(&mut finder, has_reader, limit, &answered);
        let keeper = Builder::new().spawn(keeping)?;
        Ok(Finder { answer, keeper, reader })
    }

    /// Ends it, since the answer is there. Returns what it said about the history.
    pub fn end(self) -> Vec<Remark> {
        drop(self.answer);
        let _ = self.keeper.join();
        self.reader.and_then(|reader| reader.join().ok()).unwrap_or_default()
    }
}
