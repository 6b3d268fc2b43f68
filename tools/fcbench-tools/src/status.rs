//! Exit statuses.

use std::process::{ExitCode, ExitStatus};

/// How a program ends.
#[derive(Clone, Copy, Debug, Default, PartialEq, Eq)]
pub struct Status(pub u8);

impl Status {
    /// Yes; or each object has an order.
    pub const YES: Status = Status(0);
    /// The text is malformed.
    pub const MALFORMED: Status = Status(2);
    /// It is not decided.
    pub const UNDECIDED: Status = Status(3);
    /// A file could not be read, or the output failed.
    pub const FAILED: Status = Status(4);
    /// The command line is wrong.
    pub const USAGE: Status = Status(64);
    /// The verifier could not be started or did not answer, or the finder or the drawing failed.
    pub const BROKEN: Status = Status(70);

    /// That of a program that ended by itself. `None`: a signal ended it.
    pub fn of(ended: ExitStatus) -> Option<Status> {
        ended.code().map(|code| Status(u8::try_from(code).unwrap_or(u8::MAX)))
    }
}

impl From<Status> for ExitCode {
    fn from(status: Status) -> ExitCode {
        ExitCode::from(status.0)
    }
}
