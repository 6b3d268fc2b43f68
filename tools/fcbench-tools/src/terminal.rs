//! Shortens an answer for a terminal: shows the first operations of a long part, and the beginning
//! of a long reason, and says how much is left out.

use std::io::{self, Write};
use verdict::Line;

/// How many operations of an object are shown.
const MOST_OPERATIONS: usize = 200;

/// How many bytes of a line are shown.
const LONGEST_LINE: usize = 2_000;

/// Says how many operations were left out, if there were some.
fn say_left_out(count: usize, out: &mut impl Write) -> io::Result<()> {
    match count.saturating_sub(MOST_OPERATIONS) {
        0 => Ok(()),
        1 => writeln!(out, "; 1 more operation: --all shows it"),
        left_out => writeln!(out, "; {left_out} more operations: --all shows them"),
    }
}

/// Copies a line, or its beginning if it is a reason that is too long.
fn copy_line(line: &str, is_reason: bool, out: &mut impl Write) -> io::Result<()> {
    if !is_reason || line.len() < LONGEST_LINE {
        return writeln!(out, "{line}");
    }
    // A reason has characters of ASCII alone.
    out.write_all(&line.as_bytes()[..LONGEST_LINE])?;
    writeln!(out, " ..\n; the reason has {} characters: --all shows them", line.len())
}

/// Copies the lines of an answer, without the operations of an object that are too many.
pub fn copy_shortened(lines: &str, mut out: impl Write) -> io::Result<()> {
    let mut count = 0;
    for line in lines.split_terminator('\n') {
        let read = Line::read(line);
        if matches!(read, Some(Line::Operation(_))) {
            count += 1;
        } else {
            say_left_out(count, &mut out)?;
            count = 0;
        }
        if count <= MOST_OPERATIONS {
            copy_line(line, matches!(read, Some(Line::Reason(_))), &mut out)?;
        }
    }
    say_left_out(count, &mut out)?;
    out.flush()
}

#[cfg(test)]
mod tests {
    use super::*;

    fn shortened(text: &str) -> String {
        let mut out = Vec::new();
        copy_shortened(text, &mut out).expect("a vector takes all");
        String::from_utf8(out).expect("a text")
    }

    fn part(count: usize) -> String {
        let line = |number| format!("; event {number}: process 0, :dequeue nil, pending\n");
        (0..count).map(line).collect()
    }

    #[test]
    fn a_small_part_is_shown_whole() {
        let text = format!("; object 0: impossible\n{}; {{:object 0}}\n", part(200));
        assert_eq!(shortened(&text), text);
    }

    #[test]
    fn of_a_long_reason_the_beginning_is_shown() {
        let short = format!("; {{{}}}\n", "1".repeat(1_995));
        assert_eq!(shortened(&short), short);
        let long = format!("; {{{}}}\n", "1".repeat(75_000));
        let wanted =
            format!("{} ..\n; the reason has 75004 characters: --all shows them\n", &long[..2_000]);
        assert_eq!(shortened(&long), wanted);
        let sentence = format!("; {}\n", "a".repeat(3_000));
        assert_eq!(shortened(&sentence), sentence);
    }

    #[test]
    fn of_a_large_part_the_first_operations_are_shown() {
        let last = "; events 1 and 2: process 0, :enqueue 1, :ok 1";
        let text = format!("; a\n{}; b\n{last}\n", part(203));
        let wanted =
            format!("; a\n{}; 3 more operations: --all shows them\n; b\n{last}\n", part(200));
        assert_eq!(shortened(&text), wanted);
        let wanted = format!("{}; 1 more operation: --all shows it\n", part(200));
        assert_eq!(shortened(&part(201)), wanted);
    }
}
