//! What `find` tells on standard error, of a history and of its work: in words for people, and for
//! `judge` in lines of EDN. This is the only file that writes these lines or reads them.
//!
//! `{:fcbench-find 1, :operations 3, :overlapping 2, :at-once 2, :pending 0, :failed 0}`
//! `{:fcbench-find 1, :warning :silent-puts, :text "object 0: every :put replied nil, ..."}`
//! `{:fcbench-find 1, :done 3, :of 10, :seconds 2, :stopped false}`

use ::import::{Form, form_of};
use finder::{Statistics, Warning, WarningKind};
use std::fmt::{self, Display, Formatter};

/// The version of the lines. Those of other versions are passed over.
const VERSION: i64 = 1;

/// What `find` tells.
#[derive(Clone, Debug, PartialEq, Eq)]
pub enum Message {
    OfHistory(Remark),
    Progress(Progress),
}

/// What `find` says about a history.
#[derive(Clone, Debug, PartialEq, Eq)]
pub enum Remark {
    /// How much its operations overlap.
    Overlap(Statistics),
    Warning(Warning),
}

/// How many of all objects are done, after how many seconds, and whether the search is stopped.
#[derive(Clone, Copy, Debug, PartialEq, Eq)]
pub struct Progress {
    pub done: usize,
    pub all: usize,
    pub seconds: u64,
    pub is_stopped: bool,
}

/// Who reads what `find` tells.
#[derive(Clone, Copy, Debug, PartialEq, Eq)]
pub enum Reader {
    Person,
    Judge,
}

impl Display for Remark {
    fn fmt(&self, f: &mut Formatter<'_>) -> fmt::Result {
        match self {
            Remark::Overlap(statistics) => statistics.fmt(f),
            Remark::Warning(warning) => write!(f, "warning: {}", warning.text),
        }
    }
}

impl Display for Progress {
    fn fmt(&self, f: &mut Formatter<'_>) -> fmt::Result {
        let Progress { done, all, seconds, is_stopped } = self;
        let stopped = if *is_stopped { "stopped, " } else { "" };
        write!(f, "{stopped}objects done: {done} of {all}, after {seconds} s")
    }
}

/// In words.
impl Display for Message {
    fn fmt(&self, f: &mut Formatter<'_>) -> fmt::Result {
        match self {
            Message::OfHistory(remark) => remark.fmt(f),
            Message::Progress(progress) => progress.fmt(f),
        }
    }
}

/// The word for a kind of warning.
fn word(kind: WarningKind) -> &'static str {
    match kind {
        WarningKind::NoOperations => "no-operations",
        WarningKind::FailedRemovals => "failed-removals",
        WarningKind::NoRace => "no-race",
        WarningKind::StrangeReplies => "strange-replies",
        WarningKind::FirstValue => "first-value",
        WarningKind::SilentPuts => "silent-puts",
    }
}

/// A number as a form. None of these is as great as that.
fn number(count: impl TryInto<i64>) -> Form {
    Form::Int(count.try_into().unwrap_or(i64::MAX))
}

fn number_in<T: TryFrom<i64>>(line: &Form, key: &str) -> Option<T> {
    match line.get(key)? {
        Form::Int(number) => T::try_from(*number).ok(),
        _ => None,
    }
}

impl Remark {
    fn entries(&self) -> Vec<(&'static str, Form)> {
        match self {
            Remark::Overlap(overlap) => vec![
                ("operations", number(overlap.operations)),
                ("overlapping", number(overlap.overlapping)),
                ("at-once", number(overlap.at_once)),
                ("pending", number(overlap.pending)),
                ("failed", number(overlap.failed)),
            ],
            Remark::Warning(Warning { kind, text }) => vec![
                ("warning", Form::Keyword(word(*kind).to_owned())),
                ("text", Form::Str(text.clone())),
            ],
        }
    }

    fn warning(line: &Form) -> Option<Remark> {
        let (Form::Keyword(name), Form::Str(text)) = (line.get("warning")?, line.get("text")?)
        else {
            return None;
        };
        let kind = WarningKind::ALL.into_iter().find(|kind| word(*kind) == name)?;
        Some(Remark::Warning(Warning { kind, text: text.clone() }))
    }

    fn overlap(line: &Form) -> Option<Remark> {
        Some(Remark::Overlap(Statistics {
            operations: number_in(line, "operations")?,
            overlapping: number_in(line, "overlapping")?,
            at_once: number_in(line, "at-once")?,
            pending: number_in(line, "pending")?,
            failed: number_in(line, "failed")?,
        }))
    }
}

impl Progress {
    fn entries(&self) -> Vec<(&'static str, Form)> {
        vec![
            ("done", number(self.done)),
            ("of", number(self.all)),
            ("seconds", number(self.seconds)),
            ("stopped", Form::Bool(self.is_stopped)),
        ]
    }

    fn read(line: &Form) -> Option<Progress> {
        let Form::Bool(is_stopped) = *line.get("stopped")? else {
            return None;
        };
        Some(Progress {
            done: number_in(line, "done")?,
            all: number_in(line, "of")?,
            seconds: number_in(line, "seconds")?,
            is_stopped,
        })
    }
}

impl Message {
    /// The line for `judge`.
    fn to_line(&self) -> String {
        let entries = match self {
            Message::OfHistory(remark) => remark.entries(),
            Message::Progress(progress) => progress.entries(),
        };
        let entries = [("fcbench-find", Form::Int(VERSION))].into_iter().chain(entries);
        let entries = entries.map(|(key, form)| (Form::Keyword(key.to_owned()), form));
        Form::Map(entries.collect()).to_string()
    }

    /// What a line for `judge` tells. `None`: it is no such line.
    pub fn parse(line: &str) -> Option<Message> {
        let line = form_of(line)?;
        if line.get("fcbench-find") != Some(&Form::Int(VERSION)) {
            return None;
        }
        let remark = || Remark::warning(&line).or_else(|| Remark::overlap(&line));
        let progress = || Progress::read(&line).map(Message::Progress);
        remark().map(Message::OfHistory).or_else(progress)
    }

    /// The line for this reader.
    pub fn line_for(&self, reader: Reader) -> String {
        match reader {
            Reader::Person => format!("; {self}"),
            Reader::Judge => self.to_line(),
        }
    }
}

#[cfg(test)]
mod tests {
    use super::*;

    fn warning(kind: WarningKind) -> Message {
        let text = format!("object 0: \"{kind:?}\" \\ :put, \u{202e}\n{{}}");
        Message::OfHistory(Remark::Warning(Warning { kind, text }))
    }

    fn overlap() -> Message {
        Message::OfHistory(Remark::Overlap(Statistics {
            operations: 3,
            overlapping: 2,
            at_once: 2,
            pending: 1,
            failed: 4,
        }))
    }

    fn progress(is_stopped: bool) -> Message {
        Message::Progress(Progress { done: 3, all: 10, seconds: 2, is_stopped })
    }

    #[test]
    fn each_message_comes_back() {
        let warnings = WarningKind::ALL.map(warning).into_iter();
        for message in warnings.chain([overlap(), progress(false), progress(true)]) {
            let line = message.line_for(Reader::Judge);
            assert_eq!(line.lines().count(), 1, "{line}");
            assert_eq!(Message::parse(&line), Some(message), "{line}");
        }
    }

    #[test]
    fn lines_for_judge() {
        for (message, line) in [
            (
                overlap(),
                "{:fcbench-find 1, :operations 3, :overlapping 2, :at-once 2, :pending 1, :failed 4}",
            ),
            (progress(true), "{:fcbench-find 1, :done 3, :of 10, :seconds 2, :stopped true}"),
        ] {
            assert_eq!(message.line_for(Reader::Judge), line);
        }
        let line = warning(WarningKind::SilentPuts).line_for(Reader::Judge);
        assert!(line.starts_with("{:fcbench-find 1, :warning :silent-puts, :text \"obj"), "{line}");
    }

    #[test]
    fn words_for_people() {
        let wanted =
            "; 66 % of 3 operations overlap another one, at most 2 at once; 1 pending, 4 failed";
        assert_eq!(overlap().line_for(Reader::Person), wanted);
        let wanted = "; stopped, objects done: 3 of 10, after 2 s";
        assert_eq!(progress(true).line_for(Reader::Person), wanted);
        assert_eq!(progress(false).to_string(), "objects done: 3 of 10, after 2 s");
    }

    #[test]
    fn other_lines_are_passed_over() {
        let other = ["", "; objects done: 3 of 10, after 2 s", "{:fcbench-find 1}"];
        let line = progress(true).line_for(Reader::Judge);
        let changed = [
            line.replace("find 1", "find 2"),
            line.replace(":fcbench-find 1, ", ""),
            line.replace(":done 3", ":done -3"),
            line.replace(", :stopped true", ""),
            line.replace('}', ""),
            format!("{line} 1"),
        ];
        let warning = warning(WarningKind::NoRace).line_for(Reader::Judge);
        let changed_warnings =
            [warning.replace(":no-race", ":other"), warning.replace(":text", ":words")];
        let lines = other.map(str::to_owned).into_iter().chain(changed).chain(changed_warnings);
        for line in lines {
            assert_eq!(Message::parse(&line), None, "{line}");
        }
    }
}
