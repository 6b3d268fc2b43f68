//! The statuses of include/fcbench.h, and the lines that belong to each.

use verdict::{Asked, Verdict, can_begin};

pub const YES: u32 = 0;
pub const MALFORMED: u32 = 2;
pub const UNDECIDED: u32 = 3;
/// The proved half did not answer.
pub const BROKEN: u32 = 70;

/// The status that belongs to the lines of an answer, by the table of docs/commands.md.
fn status_of(lines: &[u8]) -> Option<u32> {
    let lines = str::from_utf8(lines).ok().filter(|lines| lines.ends_with('\n'))?;
    Verdict::read(lines)?.status(Asked::Verify).map(u32::from)
}

/// Whether these lines are those of an answer with this status. They are the first of `needed`
/// bytes, and as many as there was room for.
pub fn fits(status: u32, lines: &[u8], needed: usize) -> bool {
    if lines.len() == needed {
        return status_of(lines) == Some(status);
    }
    u8::try_from(status).is_ok_and(|status| can_begin(status, lines, needed))
}

#[cfg(test)]
mod tests {
    use super::*;

    const NO: u32 = 1;
    const YES_LINES: &[u8] = b"yes: 1 operations, 1 objects\nqueue: 1 objects, 1 operations\n";
    const NO_LINES: &[u8] = b"; object 0: open\n; object 3: impossible\n; {:object 3, :cuts []}\n";

    fn whole(status: u32, lines: &[u8]) -> bool {
        fits(status, lines, lines.len())
    }

    #[test]
    fn an_answer_fits_its_status_alone() {
        let answers: [(u32, &[u8]); 7] = [
            (YES, YES_LINES),
            (NO, NO_LINES),
            (MALFORMED, b"malformed history: H8 at map 2\n"),
            (UNDECIDED, b"; object 0: open\n"),
            (UNDECIDED, b"; object 0: out of steps after 10\n"),
            (UNDECIDED, b"malformed evidence: E3 at byte 0\n"),
            (UNDECIDED, b"out of memory\n"),
        ];
        for ((of, lines), status) in answers.iter().flat_map(|it| (0..=70).map(move |at| (it, at)))
        {
            assert_eq!(whole(status, lines), *of == status, "{status}");
            let cut = &lines[..lines.len() - 1];
            assert!(!whole(status, cut), "{status}");
        }
        assert!((0..=70).all(|status| !whole(status, b"")));
    }

    #[test]
    fn as_far_as_there_is_room() {
        for room in 0..YES_LINES.len() {
            let (shown, needed) = (&YES_LINES[..room], YES_LINES.len());
            assert!(fits(YES, shown, needed), "{room}");
            assert!(!fits(MALFORMED, shown, needed) || room == 0, "{room}");
        }
        assert!(fits(NO, &NO_LINES[..10], NO_LINES.len()));
        assert!(!fits(YES, b"", 0));
    }
}
