//! What the verifier said of the texts.

use crate::Line;
use finder::Reply;
use std::str::Lines;

/// What is wrong with a text that spells no forms.
#[derive(Clone, Copy, Debug, PartialEq, Eq)]
pub enum TextFaultKind {
    /// E1: it is not UTF-8.
    BadUtf8,
    /// E2: it ends too early.
    Unfinished,
    /// E3
    BadToken,
    /// E4: an integer is out of range.
    NumberRange,
    /// E5
    DuplicateKey,
    /// E6: a key has no value.
    OddMap,
    /// E7: a key is no keyword.
    KeyKind,
    /// E8: too many brackets are open.
    TooDeep,
    /// E9
    NotInProfile,
    /// E10
    TooLong,
}

/// What is wrong with a map of a history.
#[derive(Clone, Copy, Debug, PartialEq, Eq)]
pub enum MapFaultKind {
    /// H1: it is no map, or its process, type, function or object is not as it must be.
    NotAnOperation,
    /// H2
    UnknownFunction,
    /// H3: its value has not the shape of the argument or of the reply.
    BadValue,
    /// H4: its function is of another kind than those of the object's earlier maps.
    MixedKinds,
    /// H5: an invocation of a process that has an operation outstanding.
    Busy,
    /// H6: a completion of a process that has nothing outstanding.
    Stray,
    /// H7: a completion with another function or object than the outstanding operation.
    Mismatch,
    /// H8: its process had an operation of which nothing is known.
    AfterInfo,
    /// H9: too many maps are before it.
    TooMany,
}

/// What is wrong with a form of certificates.
#[derive(Clone, Copy, Debug, PartialEq, Eq)]
pub enum FormFaultKind {
    /// K1
    NoCertificate,
    /// K2: an earlier one is for the same object.
    TwoForOneObject,
}

/// A text of those that are judged.
#[derive(Clone, Copy, Debug, PartialEq, Eq)]
pub enum Which {
    History,
    Certificates,
}

impl Which {
    pub fn word(self) -> &'static str {
        match self {
            Which::History => "history",
            Which::Certificates => "certificates",
        }
    }
}

/// The fault of a malformed text, and where it is.
#[derive(Clone, Copy, Debug, PartialEq, Eq)]
pub enum Fault {
    Text { which: Which, kind: TextFaultKind, byte: usize },
    Map { kind: MapFaultKind, map: usize },
    Form { kind: FormFaultKind, form: usize },
}

impl Fault {
    /// Whether a text is too long, so that nothing in it is at fault.
    pub fn is_of_length(&self) -> bool {
        matches!(self, Fault::Text { kind: TextFaultKind::TooLong, .. })
    }
}

/// What is wrong with an order of an object's operations.
#[derive(Clone, Copy, Debug, PartialEq, Eq)]
pub enum OrderFault {
    /// C3: the entry is the number of no operation of the object, or of one that failed.
    UnknownOperation { op: i64 },
    /// C4: the entry is in the order before.
    Repeated { op: i64 },
    /// C5: the operation returned before the greatest invocation among the earlier entries.
    TooLate { op: i64, by: u32 },
    /// C9: the operation is not possible there.
    NotPossible { op: i64 },
    /// C6: the operation returned another reply than this one, which it has there.
    WrongReply { op: i64, gives: Reply },
    /// C7: the operation returned and is not in the order.
    Omitted { op: u32 },
}

/// Why certificates are refused.
#[derive(Clone, Copy, Debug, PartialEq, Eq)]
pub enum Refusal {
    /// C1
    NoCertificate {
        object: u32,
    },
    /// C2: the object has a certificate and is not in the history.
    StrangeObject {
        object: u32,
    },
    BadOrder {
        object: u32,
        fault: OrderFault,
    },
}

/// The answer for an object that has no order.
#[derive(Clone, Copy, Debug, PartialEq, Eq)]
pub enum Answer {
    Impossible,
    OutOfSteps,
    OutOfMemory,
    /// It was not decided.
    Open,
}

impl Answer {
    pub fn word(self) -> &'static str {
        match self {
            Answer::Impossible => "impossible",
            Answer::OutOfSteps => "out of steps",
            Answer::OutOfMemory => "out of memory",
            Answer::Open => "open",
        }
    }
}

/// What the proved program said.
#[derive(Clone, Debug, PartialEq, Eq)]
pub enum Verdict {
    /// Each object has a valid order. These many operations did not fail.
    Yes {
        operations: u64,
    },
    No(Refusal),
    /// These objects have no order.
    Judged(Vec<(u32, Answer)>),
    Malformed(Fault),
    /// The evidence denotes no claims, so nothing is decided.
    MalformedEvidence,
    NoMemory,
}

/// The command of the proved program that said it.
#[derive(Clone, Copy, Debug, PartialEq, Eq)]
pub enum Asked {
    /// Of a history and evidence, which `verify` judges.
    Verify,
    /// Of a history and certificates, which `check` judges.
    Check,
}

impl TextFaultKind {
    /// The number after the letter E.
    pub fn number(self) -> u8 {
        self as u8 + 1
    }

    fn numbered(number: u8) -> Option<TextFaultKind> {
        use TextFaultKind::*;
        let kinds = [
            BadUtf8,
            Unfinished,
            BadToken,
            NumberRange,
            DuplicateKey,
            OddMap,
            KeyKind,
            TooDeep,
            NotInProfile,
            TooLong,
        ];
        kinds.into_iter().find(|kind| kind.number() == number)
    }
}

impl MapFaultKind {
    /// The number after the letter H.
    pub fn number(self) -> u8 {
        self as u8 + 1
    }

    fn numbered(number: u8) -> Option<MapFaultKind> {
        use MapFaultKind::*;
        let kinds = [
            NotAnOperation,
            UnknownFunction,
            BadValue,
            MixedKinds,
            Busy,
            Stray,
            Mismatch,
            AfterInfo,
            TooMany,
        ];
        kinds.into_iter().find(|kind| kind.number() == number)
    }
}

impl FormFaultKind {
    /// The number after the letter K.
    pub fn number(self) -> u8 {
        self as u8 + 1
    }

    fn numbered(number: u8) -> Option<FormFaultKind> {
        let kinds = [FormFaultKind::NoCertificate, FormFaultKind::TwoForOneObject];
        kinds.into_iter().find(|kind| kind.number() == number)
    }
}

impl Fault {
    /// `E4 at byte 19`, `H8 at map 2` or `K1 at form 0`.
    pub(crate) fn read(which: Which, words: &str) -> Option<Fault> {
        let (code, place) = words.split_once(" at ")?;
        let (letter, number) = code.split_at_checked(1)?;
        let number = number.parse().ok()?;
        let (unit, place) = place.split_once(' ')?;
        let place = place.parse().ok()?;
        Some(match (letter, unit) {
            ("E", "byte") => {
                Fault::Text { which, kind: TextFaultKind::numbered(number)?, byte: place }
            }
            ("H", "map") => Fault::Map { kind: MapFaultKind::numbered(number)?, map: place },
            ("K", "form") => Fault::Form { kind: FormFaultKind::numbered(number)?, form: place },
            _ => return None,
        })
    }

    /// As `E4`.
    pub fn code(self) -> String {
        match self {
            Fault::Text { kind, .. } => format!("E{}", kind.number()),
            Fault::Map { kind, .. } => format!("H{}", kind.number()),
            Fault::Form { kind, .. } => format!("K{}", kind.number()),
        }
    }

    /// The text that has it.
    pub fn which(self) -> Which {
        match self {
            Fault::Text { which, .. } => which,
            Fault::Map { .. } => Which::History,
            Fault::Form { .. } => Which::Certificates,
        }
    }
}

/// A reply as a verdict writes it.
fn reply(words: &str) -> Option<Reply> {
    Some(match words {
        "nil" => Reply::Value(None),
        "false" => Reply::NotSwapped,
        "true" => Reply::Flag(true),
        pair if pair.starts_with('[') => {
            let (a, b) = pair.strip_prefix('[')?.strip_suffix(']')?.split_once(' ')?;
            Reply::Swapped(a.parse().ok()?, b.parse().ok()?)
        }
        value => Reply::Value(Some(value.parse().ok()?)),
    })
}

impl OrderFault {
    /// As `C5` and `4 returned before 2 was invoked`.
    fn read(code: &str, words: &str) -> Option<OrderFault> {
        let (op, rest) = words.split_once(' ')?;
        let op: i64 = op.parse().ok()?;
        Some(match code {
            "C3" => OrderFault::UnknownOperation { op },
            "C4" => OrderFault::Repeated { op },
            "C5" => {
                let by = rest.strip_prefix("returned before ")?.strip_suffix(" was invoked")?;
                OrderFault::TooLate { op, by: by.parse().ok()? }
            }
            "C6" => OrderFault::WrongReply { op, gives: reply(rest.strip_prefix("gives ")?)? },
            "C7" => OrderFault::Omitted { op: op.try_into().ok()? },
            "C9" => OrderFault::NotPossible { op },
            _ => return None,
        })
    }
}

impl Refusal {
    /// As `C5`.
    pub fn code(&self) -> &'static str {
        match self {
            Refusal::NoCertificate { .. } => "C1",
            Refusal::StrangeObject { .. } => "C2",
            Refusal::BadOrder { fault, .. } => match fault {
                OrderFault::UnknownOperation { .. } => "C3",
                OrderFault::Repeated { .. } => "C4",
                OrderFault::TooLate { .. } => "C5",
                OrderFault::WrongReply { .. } => "C6",
                OrderFault::Omitted { .. } => "C7",
                OrderFault::NotPossible { .. } => "C9",
            },
        }
    }

    /// The object that it names.
    pub fn object(&self) -> u32 {
        match *self {
            Refusal::NoCertificate { object }
            | Refusal::StrangeObject { object }
            | Refusal::BadOrder { object, .. } => object,
        }
    }

    /// What follows `no: `.
    pub(crate) fn read(words: &str) -> Option<Refusal> {
        let (code, rest) = words.split_once(" object ")?;
        if let Some((object, fault)) = rest.split_once(": ") {
            let fault = OrderFault::read(code, fault)?;
            return Some(Refusal::BadOrder { object: object.parse().ok()?, fault });
        }
        let object = rest.split(' ').next()?.parse().ok()?;
        match code {
            "C1" => Some(Refusal::NoCertificate { object }),
            "C2" => Some(Refusal::StrangeObject { object }),
            _ => None,
        }
    }
}

/// What the lines of a yes say: the counts of the history, and then those of each kind. `None`:
/// they are none.
fn yes_in(operations: u64, mut rest: Lines<'_>) -> Option<Verdict> {
    let are_of_kinds = rest.all(|line| Line::read(line) == Some(Line::Kind));
    are_of_kinds.then_some(Verdict::Yes { operations })
}

/// What these lines say of objects.
fn answers_in(lines: &str) -> Vec<(u32, Answer)> {
    let answer = |line| match Line::read(line)? {
        Line::Object { object, answer, .. } => Some((object, answer)),
        _ => None,
    };
    lines.lines().filter_map(answer).collect()
}

impl Verdict {
    /// Reads the lines of a judgement or a check. `None`: they are none.
    pub fn read(lines: &str) -> Option<Verdict> {
        let mut rest = lines.lines();
        let verdict = match Line::read(rest.next()?)? {
            Line::Yes { operations } => return yes_in(operations, rest),
            Line::Object { .. } => return Some(Verdict::Judged(answers_in(lines))),
            Line::No(refusal) => Verdict::No(refusal),
            Line::Malformed(fault) => Verdict::Malformed(fault),
            Line::MalformedEvidence => Verdict::MalformedEvidence,
            Line::NoMemory => Verdict::NoMemory,
            Line::Kind | Line::Operation(_) | Line::Reason(_) | Line::Sentence(_) => return None,
        };
        rest.next().is_none().then_some(verdict)
    }

    /// Whether this is the answer for some object.
    pub fn has(&self, answer: Answer) -> bool {
        match self {
            Verdict::Judged(answers) => answers.iter().any(|(_, own)| *own == answer),
            Verdict::Yes { .. } | Verdict::No(_) | Verdict::Malformed(_) => false,
            Verdict::MalformedEvidence | Verdict::NoMemory => false,
        }
    }

    /// The exit status with which this command says it, as the table of docs/commands.md has it.
    /// `None`: it never says it.
    pub fn status(&self, asked: Asked) -> Option<u8> {
        match (self, asked) {
            (Verdict::Yes { .. }, _) => Some(0),
            (Verdict::Judged(_), Asked::Verify) => {
                Some(if self.has(Answer::Impossible) { 1 } else { 3 })
            }
            (Verdict::No(_), Asked::Check) => Some(1),
            (Verdict::Malformed(fault), _) => {
                let is_read = asked == Asked::Check || fault.which() == Which::History;
                is_read.then_some(2)
            }
            (Verdict::MalformedEvidence, Asked::Verify) | (Verdict::NoMemory, _) => Some(3),
            (Verdict::Judged(_) | Verdict::MalformedEvidence, Asked::Check)
            | (Verdict::No(_), Asked::Verify) => None,
        }
    }
}

/// How the lines of an answer of `verify` with this status begin.
fn beginnings(status: u8) -> &'static [&'static str] {
    match status {
        0 => &["yes: "],
        1 => &["; object "],
        2 => &["malformed history: "],
        3 => &["; object ", "malformed evidence: ", "out of memory\n"],
        _ => &[],
    }
}

/// Whether an answer of `verify` with this status, which has this many bytes, can begin with these.
pub fn can_begin(status: u8, bytes: &[u8], length: usize) -> bool {
    let begins = |with: &&str| {
        let shown = bytes.len().min(with.len());
        length >= with.len() && bytes[..shown] == with.as_bytes()[..shown]
    };
    beginnings(status).iter().any(begins)
}

#[cfg(test)]
mod tests {
    use super::*;

    #[test]
    fn reads_lines() {
        let read = |lines| Verdict::read(lines).expect(lines);
        assert_eq!(
            read("yes: 4 operations, 1 objects\nqueue: 1 objects, 4 operations"),
            Verdict::Yes { operations: 4 }
        );
        let no = |object, fault| Verdict::No(Refusal::BadOrder { object, fault });
        assert_eq!(
            read("no: C5 object 7: 0 returned before 2 was invoked"),
            no(7, OrderFault::TooLate { op: 0, by: 2 })
        );
        let gives = Reply::Swapped(-1, 3);
        assert_eq!(
            read("no: C6 object 0: 4 gives [-1 3]"),
            no(0, OrderFault::WrongReply { op: 4, gives })
        );
        assert_eq!(
            read("no: C1 object 3 has no certificate"),
            Verdict::No(Refusal::NoCertificate { object: 3 })
        );
        assert_eq!(
            read("malformed certificates: E3 at byte 0"),
            Verdict::Malformed(Fault::Text {
                which: Which::Certificates,
                kind: TextFaultKind::BadToken,
                byte: 0
            })
        );
        assert_eq!(
            read("; object 0: out of steps after 10\n; object 2: impossible\n; events 1 and 2"),
            Verdict::Judged(vec![(0, Answer::OutOfSteps), (2, Answer::Impossible)])
        );
        assert_eq!(read("malformed evidence: E3 at byte 0\n"), Verdict::MalformedEvidence);
        assert_eq!(read("out of memory\n"), Verdict::NoMemory);
        for lines in [
            "",
            "no: C8",
            "; events 1",
            "yes",
            "yes: 3 operat",
            "yes: 3 operations, 1 objects\nqueue: 1 obj",
            "yes: 3 operations, 1 objects\n; object 0: impossible",
            "no: C1 object 3 has no certificate\nyes: 3 operations, 1 objects",
            "out of memory\nyes: 3 operations, 1 objects",
            "; object 0: imposs",
            "; object 0: out of steps after",
            "object 0: impossible",
            "hello\n; object 0: impossible",
        ] {
            assert_eq!(Verdict::read(lines), None, "{lines}");
        }
    }

    #[test]
    fn a_beginning_fits_some_statuses() {
        let fitting = |bytes: &[u8], length| -> Vec<u8> {
            (0..=70).filter(|status| can_begin(*status, bytes, length)).collect()
        };
        assert_eq!(fitting(b"", 60), [0, 1, 2, 3]);
        assert_eq!(fitting(b"; obj", 60), [1, 3]);
        assert_eq!(fitting(b"malformed ", 60), [2, 3]);
        assert_eq!(fitting(b"malformed history: H8", 60), [2]);
        assert_eq!(fitting(b"out of memory\n", 14), [3]);
        assert_eq!(fitting(b"yes: 1 op", 60), [0]);
        assert_eq!(fitting(b"yes", 4), []);
        assert_eq!(fitting(b"", 0), []);
    }

    #[test]
    fn each_verdict_has_its_status() {
        let statuses = |lines: &str| {
            let verdict = Verdict::read(lines).expect(lines);
            [Asked::Verify, Asked::Check].map(|asked| verdict.status(asked))
        };
        for (lines, wanted) in [
            ("yes: 4 operations, 1 objects\nqueue: 1 objects, 4 operations\n", [Some(0), Some(0)]),
            ("yes: 0 operations, 0 objects\n", [Some(0), Some(0)]),
            ("; object 0: impossible\n; events 1 and 2\n", [Some(1), None]),
            ("; object 0: open\n; object 2: impossible\n", [Some(1), None]),
            ("no: C1 object 3 has no certificate\n", [None, Some(1)]),
            ("malformed history: H8 at map 2\n", [Some(2), Some(2)]),
            ("malformed certificates: K1 at form 0\n", [None, Some(2)]),
            ("; object 0: open\n; object 2: out of steps after 10\n", [Some(3), None]),
            ("malformed evidence: E3 at byte 0\n", [Some(3), None]),
            ("out of memory\n", [Some(3), Some(3)]),
        ] {
            assert_eq!(statuses(lines), wanted, "{lines}");
        }
    }
}
