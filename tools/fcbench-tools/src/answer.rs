//! The answer of the verifier. Its lines are passed on only if it ended by itself, with the status
//! that belongs to them: so the printed lines always agree with the exit status, and no other
//! program's status is taken for a verdict.

use crate::program::say;
use crate::status::Status;
use std::io::{self, Read};
use std::process::{Child, ChildStdout, ExitStatus};
use verdict::{Asked, Verdict};

/// What the verifier said: its lines, what they say, and the status that belongs to them.
#[derive(Debug)]
pub struct Answer {
    pub status: Status,
    pub verdict: Verdict,
    pub lines: String,
}

/// Returns the status of the verifier. One that was killed by a signal has no answer.
fn status_of(ended: io::Result<ExitStatus>) -> Result<Status, Status> {
    match ended.map(|ended| (ended, Status::of(ended))) {
        Ok((_, Some(status))) => Ok(status),
        Ok((ended, None)) => {
            say(format_args!("the verifier was killed: {ended}"));
            Err(Status::UNDECIDED)
        }
        Err(error) => {
            say(format_args!("cannot wait for the verifier: {error}"));
            Err(Status::UNDECIDED)
        }
    }
}

/// Reads what a program prints, to its end.
fn read_whole(mut printed: ChildStdout) -> Result<Vec<u8>, Status> {
    let mut lines = Vec::new();
    match printed.read_to_end(&mut lines) {
        Ok(_) => Ok(lines),
        Err(error) => {
            say(format_args!("cannot read the answer of the verifier: {error}"));
            Err(Status::FAILED)
        }
    }
}

/// The answer that these lines are, if it is one, the last line is whole, and this status belongs
/// to it.
fn fitting(asked: Asked, status: Status, lines: Vec<u8>) -> Option<Answer> {
    let lines = String::from_utf8(lines).ok().filter(|lines| lines.ends_with('\n'))?;
    let verdict = Verdict::read(&lines)?;
    (verdict.status(asked) == Some(status.0)).then_some(Answer { status, verdict, lines })
}

/// Reads what the verifier prints of what it is asked, and waits for its end.
///
/// # Errors
///
/// The status of this program, if the verifier has no answer.
pub fn answer_of(program: &mut Child, asked: Asked) -> Result<Answer, Status> {
    let lines = program.stdout.take().map_or(Ok(Vec::new()), read_whole);
    let status = status_of(program.wait())?;
    if status == Status::FAILED {
        return Err(Status::FAILED);
    }
    fitting(asked, status, lines?).ok_or_else(|| {
        let status = status.0;
        say(format_args!(
            "the verifier ended with status {status} and without the lines of such an answer: is it fcbench?"
        ));
        Status::BROKEN
    })
}
