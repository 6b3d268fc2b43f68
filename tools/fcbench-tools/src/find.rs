//! The command that writes evidence.

use crate::answer::Answer;
use crate::command_line::Find;
use crate::limit::{BETWEEN_LIMIT_CHECKS, Limit, ProgressTeller};
use crate::message::{Message, Remark};
use crate::program::{note, output, output_failed, say};
use crate::status::Status;
use finder::{
    Decision, Evidence, History, LONGEST, Options, Places, Statistics, decide_each,
    read_history_from, warnings,
};
use std::fs::File;
use std::io::{self, BufWriter, Read, Write};
use std::iter;
use std::sync::mpsc::{RecvTimeoutError, channel};
use std::thread::Builder;
use verdict::Verdict;

/// The result of reading a file, or why there is none. The file - is standard input.
pub fn read_with<T>(path: &str, read: impl FnOnce(File) -> io::Result<T>) -> Result<T, Status> {
    let file = if path == "-" { "/dev/stdin" } else { path };
    File::open(file).and_then(read).map_err(|error| {
        say(format_args!("cannot read {path}: {error}"));
        Status::FAILED
    })
}

/// Reports that fewer operations of a history returned than a yes needs, or an answer that decides
/// nothing; or that it is not known how many did. A no and a fault of the text need none. Of a yes
/// the verifier says how many did not fail, so no more have returned in the text that it read.
pub fn require_returned(
    answer: &Answer,
    least: u32,
    count: impl FnOnce() -> Result<Option<u32>, Status>,
) -> Result<(), Status> {
    let most = match answer.verdict {
        Verdict::Yes { operations } => u32::try_from(operations).unwrap_or(u32::MAX),
        _ if answer.status == Status::UNDECIDED => u32::MAX,
        _ => return Ok(()),
    };
    match count()?.map(|count| count.min(most)) {
        Some(count) if count >= least => return Ok(()),
        Some(0) if least == 1 => say(format_args!("no operation returned")),
        Some(count) => say(format_args!("{count} of at least {least} operations returned")),
        None => {
            say(format_args!("the operations that returned cannot be counted"));
            return Err(Status::BROKEN);
        }
    }
    Err(Status::UNDECIDED)
}

/// The bytes of a file, to one more than a text may have.
pub fn bytes_of(file: File) -> io::Result<Vec<u8>> {
    let mut bytes = Vec::new();
    file.take(LONGEST + 1).read_to_end(&mut bytes)?;
    Ok(bytes)
}

/// Writes a line for each decision.
pub fn write_evidence(decisions: &[Decision], out: impl Write) -> io::Result<()> {
    let mut out = BufWriter::new(out);
    decisions.iter().try_for_each(|decision| writeln!(out, "{decision}"))?;
    out.flush()
}

/// The decisions that are there at the limit, in rising object number. The threads that go on end
/// with the program.
fn decisions_by(limit: Limit, history: History, command: &Find) -> Vec<Decision> {
    let all = history.objects.len();
    let options = Options { steps: command.steps, workers: command.workers };
    let (sender, decided) = channel();
    let work = move || decide_each(&history, options, |decision| drop(sender.send(decision)));
    if let Err(error) = Builder::new().spawn(work) {
        say(format_args!("no thread can be started: {error}"));
    }
    let mut progress = ProgressTeller::new(limit, command.reader, all, command.shows_progress);
    let mut decisions = Vec::with_capacity(all);
    while !limit.is_over() {
        match decided.recv_timeout(BETWEEN_LIMIT_CHECKS) {
            Ok(decision) => decisions.push(decision),
            Err(RecvTimeoutError::Timeout) => {}
            Err(RecvTimeoutError::Disconnected) => break,
        }
        progress.tell_in_time(decisions.len());
    }
    decisions.extend(decided.try_iter());
    progress.tell_at_the_end(decisions.len());
    decisions.sort_unstable_by_key(|decision| decision.object);
    decisions
}

/// Gives each map of the history its number in the full history, from this table.
fn with_places(history: History, path: &str) -> Result<History, Status> {
    let table = read_with(path, bytes_of)?;
    let placed = Places::read(&table).and_then(|places| history.with_places(&places));
    placed.map_err(|fault| {
        say(format_args!("malformed places: {path}: {fault}"));
        Status::MALFORMED
    })
}

/// Reads the history to find evidence for.
fn history_of(command: &Find) -> Result<History, Status> {
    let path = &command.history;
    let history = read_with(path, |file| read_history_from(file, command.workers))?;
    let Some(history) = history else {
        say(format_args!("malformed history: fcbench judge {path} says what is wrong"));
        return Err(Status::MALFORMED);
    };
    match &command.places {
        Some(places) => with_places(history, places),
        None => Ok(history),
    }
}

/// How much the operations of a history overlap, and what is suspicious in it.
pub fn remarks_on(history: &History) -> Vec<Remark> {
    let overlap = Remark::Overlap(Statistics::of(history));
    iter::once(overlap).chain(warnings(history).into_iter().map(Remark::Warning)).collect()
}

/// Writes evidence for a history to standard output.
pub fn find(command: &Find) -> Status {
    let limit = Limit::begin(command.seconds);
    let history = match history_of(command) {
        Ok(history) => history,
        Err(status) => return status,
    };
    if command.summarizes {
        for remark in remarks_on(&history) {
            note(format_args!("{}", Message::OfHistory(remark).line_for(command.reader)));
        }
    }
    let all = history.objects.len();
    let decisions = decisions_by(limit, history, command);
    match output().and_then(|out| write_evidence(&decisions, out)) {
        Ok(()) => status_of(&decisions, all),
        Err(error) => output_failed(error),
    }
}

/// Reports for which objects the search for evidence failed, and returns whether any did.
pub fn say_failures(decisions: &[Decision]) -> bool {
    let has_failed = |decision: &&Decision| matches!(decision.evidence, Evidence::Open);
    let objects = decisions.iter().filter(has_failed).map(|decision| decision.object);
    objects.map(|object| say(format_args!("the finder failed on object {object}"))).count() > 0
}

/// Returns how a search ended that decided these of `all` objects.
fn status_of(decisions: &[Decision], all: usize) -> Status {
    let is_order = |decision: &Decision| matches!(decision.evidence, Evidence::Order(_));
    if say_failures(decisions) {
        Status::BROKEN
    } else if decisions.len() == all && decisions.iter().all(is_order) {
        Status::YES
    } else {
        Status::UNDECIDED
    }
}

#[cfg(test)]
mod tests {
    use super::*;

    #[test]
    fn a_search_that_failed_is_status_70() {
        let decision = |evidence| Decision { object: 1, evidence };
        let order = || decision(Evidence::Order(Vec::new()));
        assert_eq!(status_of(&[], 0), Status::YES);
        assert_eq!(status_of(&[order()], 1), Status::YES);
        assert_eq!(status_of(&[order(), decision(Evidence::Open)], 2), Status::BROKEN);
    }

    #[test]
    fn an_object_that_was_not_reached_is_status_3() {
        let order = Decision { object: 1, evidence: Evidence::Order(Vec::new()) };
        assert_eq!(status_of(&[], 1), Status::UNDECIDED);
        assert_eq!(status_of(&[order], 2), Status::UNDECIDED);
    }
}
