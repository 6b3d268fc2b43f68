//! The judge of fcbench, for tests of concurrent objects, and a recorder of what threads do.
//!
//! ```ignore
//! let history = recorder.history(&journals);
//! let answer = fcbench::judge(&history);
//! assert!(answer.is_yes(), "{answer}");
//! ```
#![warn(missing_docs)]

mod fits;
pub mod recorder;

use fits::Function;
use std::fmt::{self, Display};

/// The program's default number of steps: 1,000,000. For a judgement: 1,000,000, or 100 for each operation of the
/// object, whichever is more.
pub const STEPS: u32 = u32::MAX;

/// How much room there is for lines at first.
const CAPACITY: usize = 512;

mod c {
    extern "C" {
        pub fn fcbench_check(
            history: *const u8,
            history_length: usize,
            certificates: *const u8,
            certificates_length: usize,
            out: *mut u8,
            capacity: usize,
            needed: *mut usize,
        ) -> u32;
        pub fn fcbench_judge(
            history: *const u8,
            history_length: usize,
            steps: u32,
            out: *mut u8,
            capacity: usize,
            needed: *mut usize,
        ) -> u32;
        pub fn fcbench_find(
            history: *const u8,
            history_length: usize,
            out: *mut u8,
            capacity: usize,
            needed: *mut usize,
        ) -> u32;
        pub fn fcbench_refute(
            history: *const u8,
            history_length: usize,
            reasons: *const u8,
            reasons_length: usize,
            steps: u32,
            out: *mut u8,
            capacity: usize,
            needed: *mut usize,
        ) -> u32;
        pub fn fcbench_verify(
            history: *const u8,
            history_length: usize,
            evidence: *const u8,
            evidence_length: usize,
            steps: u32,
            out: *mut u8,
            capacity: usize,
            needed: *mut usize,
        ) -> u32;
    }
}

/// The answer for a history.
#[derive(Clone, Copy, Debug, PartialEq, Eq)]
pub enum Verdict {
    /// The history is linearizable, which is proved.
    Yes,
    /// Of `judge`, `refute` and `verify`: the history is not linearizable, which is proved. Of `check`: the certificates are refused.
    No,
    /// A text is malformed.
    Malformed,
    /// An object stays open, or an allocation failed.
    Undecided,
}

impl Verdict {
    fn of(status: u32) -> Option<Verdict> {
        Some(match status {
            0 => Verdict::Yes,
            1 => Verdict::No,
            2 => Verdict::Malformed,
            3 => Verdict::Undecided,
            _ => return None,
        })
    }
}

impl Display for Verdict {
    fn fmt(&self, f: &mut fmt::Formatter) -> fmt::Result {
        f.write_str(match self {
            Verdict::Yes => "yes",
            Verdict::No => "no",
            Verdict::Malformed => "malformed",
            Verdict::Undecided => "undecided",
        })
    }
}

/// A verdict, and the lines that say why.
#[derive(Clone, Debug, PartialEq, Eq)]
#[must_use]
pub struct Answer {
    /// The answer itself.
    pub verdict: Verdict,
    /// The lines of the program's command.
    pub lines: String,
}

impl Answer {
    /// Whether the verdict is `Verdict::Yes`.
    #[must_use]
    pub fn is_yes(&self) -> bool {
        self.verdict == Verdict::Yes
    }

    /// Whether the verdict is `Verdict::No`.
    #[must_use]
    pub fn is_no(&self) -> bool {
        self.verdict == Verdict::No
    }

    /// The reasons among the lines, as `refute` reads them: of each line that begins with `; {` what follows the `; `.
    #[must_use]
    pub fn reasons(&self) -> String {
        let lines = self.lines.lines().filter(|line| line.starts_with("; {"));
        lines.map(|line| format!("{}\n", &line[2..])).collect()
    }
}

/// The verdict in a line, and then the lines.
impl Display for Answer {
    fn fmt(&self, f: &mut fmt::Formatter) -> fmt::Result {
        write!(f, "{}\n{}", self.verdict, self.lines)
    }
}

/// Judges a history: certificates are found, or a reason why there are none. The last search takes at most `STEPS` steps for each object.
pub fn judge(history: impl AsRef<[u8]>) -> Answer {
    judge_with_steps(history, STEPS)
}

/// Judges a history, with at most `steps` steps of the last search for each object.
pub fn judge_with_steps(history: impl AsRef<[u8]>, steps: u32) -> Answer {
    whole(|out| judge_into(history.as_ref(), steps, out))
}

/// Judges a history, with at most `steps` steps of the last search for each object, and writes the lines into `out`. If it is
/// too small they are cut. Also gives how long all lines are.
#[must_use]
pub fn judge_into(history: &[u8], steps: u32, out: &mut [u8]) -> (Verdict, usize) {
    // SAFETY: each pointer is of a slice that is lent for the call, with its length.
    answered(Function::Judge, out, |at, capacity, needed| unsafe {
        c::fcbench_judge(history.as_ptr(), history.len(), steps, at, capacity, needed)
    })
}

/// Judges a history by certificates: `Verdict::No` says that these are refused.
pub fn check(history: impl AsRef<[u8]>, certificates: impl AsRef<[u8]>) -> Answer {
    whole(|out| check_into(history.as_ref(), certificates.as_ref(), out))
}

/// Judges a history by certificates, and writes the lines into `out`. If it is too small they are cut. Also gives how long all lines
/// are.
#[must_use]
pub fn check_into(history: &[u8], certificates: &[u8], out: &mut [u8]) -> (Verdict, usize) {
    let (orders, length) = (certificates.as_ptr(), certificates.len());
    // SAFETY: as above.
    answered(Function::Check, out, |at, capacity, needed| unsafe {
        c::fcbench_check(history.as_ptr(), history.len(), orders, length, at, capacity, needed)
    })
}

/// Finds certificates: if it is a yes, the lines are their text.
pub fn find(history: impl AsRef<[u8]>) -> Answer {
    whole(|out| find_into(history.as_ref(), out))
}

/// Finds certificates, and writes their text into `out`. If it is too small they are cut. Also gives how long the text is.
#[must_use]
pub fn find_into(history: &[u8], out: &mut [u8]) -> (Verdict, usize) {
    // SAFETY: as above.
    answered(Function::Find, out, |at, capacity, needed| unsafe {
        c::fcbench_find(history.as_ptr(), history.len(), at, capacity, needed)
    })
}

/// Checks reasons why a history is not linearizable. It never answers yes. The search of a part takes at most `STEPS` steps.
pub fn refute(history: impl AsRef<[u8]>, reasons: impl AsRef<[u8]>) -> Answer {
    refute_with_steps(history, reasons, STEPS)
}

/// Checks reasons why a history is not linearizable, with at most `steps` steps of the search of a part.
pub fn refute_with_steps(history: impl AsRef<[u8]>, reasons: impl AsRef<[u8]>, steps: u32) -> Answer {
    whole(|out| refute_into(history.as_ref(), reasons.as_ref(), steps, out))
}

/// Checks reasons why a history is not linearizable, with at most `steps` steps of the search of a part, and writes the lines into
/// `out`. If it is too small they are cut. Also gives how long all lines are.
#[must_use]
pub fn refute_into(history: &[u8], reasons: &[u8], steps: u32, out: &mut [u8]) -> (Verdict, usize) {
    let (first, length) = (reasons.as_ptr(), reasons.len());
    // SAFETY: as above.
    answered(Function::Refute, out, |at, capacity, needed| unsafe {
        c::fcbench_refute(history.as_ptr(), history.len(), first, length, steps, at, capacity, needed)
    })
}

/// Checks evidence from any source, and judges a history by what it shows.
pub fn verify(history: impl AsRef<[u8]>, evidence: impl AsRef<[u8]>) -> Answer {
    verify_with_steps(history, evidence, STEPS)
}

/// Checks evidence from any source, and judges a history by what it shows. A search for which the evidence names no number of steps takes
/// at most `steps` steps.
pub fn verify_with_steps(history: impl AsRef<[u8]>, evidence: impl AsRef<[u8]>, steps: u32) -> Answer {
    whole(|out| verify_into(history.as_ref(), evidence.as_ref(), steps, out))
}

/// Checks evidence from any source, judges a history by what it shows, and writes the lines into `out`. If it is too small they are cut.
/// Also gives how long all lines are.
#[must_use]
pub fn verify_into(history: &[u8], evidence: &[u8], steps: u32, out: &mut [u8]) -> (Verdict, usize) {
    let (first, length) = (evidence.as_ptr(), evidence.len());
    // SAFETY: as above.
    answered(Function::Verify, out, |at, capacity, needed| unsafe {
        c::fcbench_verify(history.as_ptr(), history.len(), first, length, steps, at, capacity, needed)
    })
}

/// # Panics
///
/// If the lines do not fit the status: then the library is not libfcbench, or not as it was built.
fn answered(
    function: Function,
    out: &mut [u8],
    call: impl FnOnce(*mut u8, usize, *mut usize) -> u32,
) -> (Verdict, usize) {
    let mut needed = 0;
    let status = call(out.as_mut_ptr(), out.len(), &mut needed);
    let lines = &out[..needed.min(out.len())];
    match Verdict::of(status).filter(|_| function.fits(status, lines, needed)) {
        Some(verdict) => (verdict, needed),
        None => {
            let lines = String::from_utf8_lossy(lines);
            panic!("the library gave no answer to {function:?}: status {status} and these lines: {lines:?}")
        }
    }
}

/// Calls with more room until all lines fit.
fn whole(mut call: impl FnMut(&mut [u8]) -> (Verdict, usize)) -> Answer {
    let mut lines = vec![0; CAPACITY];
    loop {
        let (verdict, needed) = call(&mut lines);
        if needed <= lines.len() {
            lines.truncate(needed);
            // Lines are ASCII.
            let lines = String::from_utf8_lossy(&lines).into_owned();
            return Answer { verdict, lines };
        }
        lines.resize(needed, 0);
    }
}
