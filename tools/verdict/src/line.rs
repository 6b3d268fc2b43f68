//! The lines of the verifier, one by one.

use crate::{Answer, Fault, Refusal, Which};

/// What a line says.
#[derive(Clone, Debug, PartialEq, Eq)]
pub enum Line<'a> {
    /// As `yes: 4 operations, 1 objects`, of the operations that did not fail.
    Yes {
        operations: u64,
    },
    /// As `queue: 1 objects, 4 operations`, of one kind.
    Kind,
    /// As `no: C1 object 3 has no certificate`.
    No(Refusal),
    /// As `malformed history: H8 at map 2`.
    Malformed(Fault),
    MalformedEvidence,
    NoMemory,
    /// As `; object 3: impossible`, and the same without the `; `.
    Object {
        object: u32,
        answer: Answer,
        text: &'a str,
    },
    /// Of the part that shows that an object is impossible.
    Operation(OperationLine<'a>),
    /// A reason, which is EDN, as `; {:object 0, :cuts []}`.
    Reason(&'a str),
    /// Another comment, without the `; `: a sentence.
    Sentence(&'a str),
}

/// As `; events 4 and 9: process 2, :write 7, :ok 7, counted as :write 0, :ok 0`.
#[derive(Clone, Copy, Debug, PartialEq, Eq)]
pub struct OperationLine<'a> {
    /// `event` or `events`.
    pub word: &'a str,
    /// One number, or two, of which this is the first.
    pub numbers: &'a str,
    pub first: u32,
    pub process: &'a str,
    /// What was called and returned.
    pub call: &'a str,
    /// What it counts as in the part, if that is something else.
    pub counted: Option<&'a str>,
}

impl<'a> OperationLine<'a> {
    fn read(text: &'a str) -> Option<OperationLine<'a>> {
        let (word, rest) = text.split_once(' ')?;
        if !["event", "events"].contains(&word) {
            return None;
        }
        let (numbers, rest) = rest.split_once(": process ")?;
        let (process, call) = rest.split_once(", ")?;
        let first = numbers.split(' ').next()?.parse().ok()?;
        let (call, counted) = match call.split_once(", counted as ") {
            Some((call, counted)) => (call, Some(counted)),
            None => (call, None),
        };
        Some(OperationLine { word, numbers, first, process, call, counted })
    }
}

/// What a line says about an object, as `object 3: out of steps after 10`.
fn answer_in(text: &str) -> Option<Line<'_>> {
    let (object, words) = text.strip_prefix("object ")?.split_once(": ")?;
    let answer = match words {
        "impossible" => Answer::Impossible,
        "out of memory" => Answer::OutOfMemory,
        "open" => Answer::Open,
        _ => {
            let _steps: u64 = words.strip_prefix("out of steps after ")?.parse().ok()?;
            Answer::OutOfSteps
        }
    };
    Some(Line::Object { object: object.parse().ok()?, answer, text })
}

/// The first of two counts with these nouns, as `3 operations, 1 objects`, if these words are such.
fn first_count(words: &str, first: &str, second: &str) -> Option<u64> {
    let count = |words: &str, noun: &str| words.strip_suffix(noun)?.strip_suffix(' ')?.parse().ok();
    let (one, other) = words.split_once(", ")?;
    let _other: u64 = count(other, second)?;
    count(one, first)
}

impl<'a> Line<'a> {
    /// Reads what follows `; `.
    fn of_comment(text: &'a str) -> Line<'a> {
        if text.starts_with('{') {
            return Line::Reason(text);
        }
        let operation = || OperationLine::read(text).map(Line::Operation);
        answer_in(text).or_else(operation).unwrap_or(Line::Sentence(text))
    }

    /// Reads a line. `None`: the verifier prints no such line.
    pub fn read(line: &'a str) -> Option<Line<'a>> {
        if let Some(text) = line.strip_prefix("; ") {
            return Some(Line::of_comment(text));
        }
        let (before, words) = line.split_once(": ").unwrap_or((line, ""));
        match before {
            "yes" => {
                let operations = first_count(words, "operations", "objects")?;
                Some(Line::Yes { operations })
            }
            "no" => Refusal::read(words).map(Line::No),
            "out of memory" => Some(Line::NoMemory),
            "malformed history" => Fault::read(Which::History, words).map(Line::Malformed),
            "malformed certificates" => {
                Fault::read(Which::Certificates, words).map(Line::Malformed)
            }
            "malformed evidence" => Some(Line::MalformedEvidence),
            _ => first_count(words, "objects", "operations").map(|_| Line::Kind),
        }
    }
}

#[cfg(test)]
mod tests {
    use super::*;

    #[test]
    fn reads_the_lines_of_an_impossible_object() {
        let text = "object 3: impossible";
        let object = Line::Object { object: 3, answer: Answer::Impossible, text };
        let operation = OperationLine {
            word: "events",
            numbers: "4 and 9",
            first: 4,
            process: "2",
            call: ":write 7, :ok 7",
            counted: Some(":write 0, :ok 0"),
        };
        let pending = OperationLine {
            word: "event",
            numbers: "4",
            first: 4,
            process: "2",
            call: ":write 7, pending",
            counted: None,
        };
        for (line, wanted) in [
            ("; object 3: impossible", object),
            (
                "; events 4 and 9: process 2, :write 7, :ok 7, counted as :write 0, :ok 0",
                Line::Operation(operation),
            ),
            ("; event 4: process 2, :write 7, pending", Line::Operation(pending)),
            ("; {:object 3, :cuts []}", Line::Reason("{:object 3, :cuts []}")),
            ("; value 7 was read early", Line::Sentence("value 7 was read early")),
            ("; object 3: imposs", Line::Sentence("object 3: imposs")),
            ("; event x: process 2, a", Line::Sentence("event x: process 2, a")),
        ] {
            assert_eq!(Line::read(line), Some(wanted), "{line}");
        }
    }

    #[test]
    fn reads_no_other_line() {
        for line in ["", ";", "yes", "yes: 3 opera", "queue: 1 objects", "hello", "object 0: open"]
        {
            assert_eq!(Line::read(line), None, "{line}");
        }
        assert_eq!(Line::read("queue: 1 objects, 2 operations"), Some(Line::Kind));
    }
}
