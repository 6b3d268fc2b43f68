//! The command that draws: the answer of the verifier on a page.

use crate::answer::{Answer, answer_of};
use crate::command_line::Draw;
use crate::find::{bytes_of, read_with, require_returned, say_failures, write_evidence};
use crate::import::names_in;
use crate::program::{path_for_both, proved, put_out, say, start, verifier};
use crate::status::Status;
use ::import::{Names, with_names};
use finder::{Decision, History, Options, count_returned, decide, read_history};
use pages::{Asides, Drawn, Words, malformed_page, memory_page, orders_in};
use std::io;
use std::panic::{AssertUnwindSafe, catch_unwind};
use std::process::{ChildStdin, Command};
use verdict::{Asked, Fault, Verdict, Which};

/// What the verifier answers to this, whose input a function gives meanwhile.
fn answer_by(
    verifier: io::Result<Command>,
    asked: Asked,
    give: impl FnOnce(ChildStdin),
) -> Result<Answer, Status> {
    let mut child = start(verifier)?;
    if let Some(input) = child.stdin.take() {
        give(input);
    }
    answer_of(&mut child, asked)
}

/// What is found of a history. If the finder fails that is nothing, or less.
fn decisions_on(history: &History, steps: Option<u64>) -> Vec<Decision> {
    let options = Options { steps, ..Options::default() };
    let decided = catch_unwind(AssertUnwindSafe(|| decide(history, options)));
    let decisions = decided.unwrap_or_else(|_| {
        say(format_args!("the finder failed, so there is no evidence"));
        Vec::new()
    });
    say_failures(&decisions);
    decisions
}

/// A text that is judged: the name of its file without folders, its path, and its bytes.
struct Text<'a> {
    name: &'a str,
    path: String,
    bytes: Vec<u8>,
}

impl<'a> Text<'a> {
    fn read(path: &'a str) -> Result<Text<'a>, Status> {
        let name = path.rsplit('/').next().unwrap_or(path);
        let path = path_for_both(path)?;
        let bytes = read_with(&path, bytes_of)?;
        Ok(Text { name, path, bytes })
    }
}

/// What is drawn: the texts, the history in one, and what was found of it.
struct Drawing<'a> {
    command: &'a Draw,
    history: Text<'a>,
    certificates: Option<Text<'a>>,
    names: Option<Names>,
    read: Option<History>,
    decisions: Vec<Decision>,
}

impl<'a> Drawing<'a> {
    fn new(command: &'a Draw) -> Result<Drawing<'a>, Status> {
        let history = Text::read(&command.history)?;
        let certificates = command.certificates.as_deref().map(Text::read).transpose()?;
        let names = command.names.as_deref().map(names_in).transpose()?.map(Names::for_a_page);
        let read = read_history(&history.bytes);
        if let (Some(object), Some(read)) = (command.options.object, &read)
            && read.objects.iter().all(|own| own.object != object)
        {
            say(format_args!("warning: --object {object}: the history has no such object"));
        }
        Ok(Drawing { command, history, certificates, names, read, decisions: Vec::new() })
    }

    /// Judges the history by what the finder finds, or checks it by the certificates.
    fn ask(&mut self) -> Result<Answer, Status> {
        let (path, steps) = (&self.history.path, self.command.steps);
        if let Some(certificates) = &self.certificates {
            return answer_by(proved(&["check", path, &certificates.path]), Asked::Check, drop);
        }
        answer_by(verifier(path, steps, 1), Asked::Verify, |input| {
            if let Some(history) = &self.read {
                self.decisions = decisions_on(history, steps);
            }
            // A program that has its answer reads no more.
            let _ = write_evidence(&self.decisions, input);
        })
    }

    /// The page of a malformed text. `None`: the fault is in certificates, and none were given.
    fn page_of_fault(&self, fault: Fault, lines: &str) -> Option<String> {
        let text = match fault.which() {
            Which::History => &self.history,
            Which::Certificates => self.certificates.as_ref()?,
        };
        Some(malformed_page(text.name, &text.bytes, fault, lines))
    }

    /// The lines of the answer, in names, if there is a table of names.
    fn named(&self, lines: &str) -> String {
        self.names.as_ref().map_or_else(|| lines.to_owned(), |names| with_names(names, lines))
    }

    /// What is drawn. A table of names numbers maps as the history that was imported.
    fn options(&self) -> pages::Options {
        let before = self.names.as_ref().map_or(0, |names| names.before);
        let of_text = |number: u32| number.saturating_add(before);
        let options = self.command.options;
        let (from, to) = (options.from.map(of_text), options.to.map(of_text));
        pages::Options { from, to, ..options }
    }

    /// Reports why a page on a yes, or on what is not decided, is not printed: too few operations
    /// returned.
    fn require_enough(&self, answer: &Answer) -> Result<(), Status> {
        let least = self.command.at_least;
        // A text in memory can always be read.
        let count = || count_returned(&self.history.bytes[..], least).unwrap_or(None);
        require_returned(answer, least, || Ok(count()))
    }

    /// Reports that the history is not the one any more that the verifier has read too.
    fn require_same(&self) -> Result<(), Status> {
        if read_with(&self.history.path, bytes_of)? == self.history.bytes {
            return Ok(());
        }
        say(format_args!("{} was changed while it was judged", self.command.history));
        Err(Status::FAILED)
    }

    /// The page on what was said. `None`: it does not fit the texts.
    fn page(&self, verdict: &Verdict, lines: &str) -> Option<String> {
        let name = self.history.name;
        match *verdict {
            Verdict::Malformed(fault) => return self.page_of_fault(fault, lines),
            Verdict::NoMemory => return Some(memory_page(name, lines)),
            _ => {}
        }
        let history = self.read.as_ref()?;
        let certificates = self.certificates.as_ref().map(|text| text.name);
        let asides = Asides::read(&self.history.bytes, history);
        let words = Words::new(self.names.as_ref(), &asides);
        let named = self.named(lines);
        let (lines, options) = (named.trim_end(), self.options());
        let drawn = Drawn { history, name, certificates, lines, options, words };
        let orders = self.certificates.as_ref().map(|text| orders_in(&text.bytes));
        match (verdict, orders) {
            (Verdict::Yes { .. }, None) => Some(drawn.judged_page(&self.decisions, &[])),
            (Verdict::Judged(answers), None) => Some(drawn.judged_page(&self.decisions, answers)),
            (Verdict::Yes { .. }, Some(orders)) => Some(drawn.checked_page(&orders, None)),
            (Verdict::No(refusal), Some(orders)) => {
                Some(drawn.checked_page(&orders, Some(refusal)))
            }
            _ => None,
        }
    }
}

/// Judges a history, or checks it by certificates, and prints a page on the answer. The status is
/// that of the answer.
pub fn draw(command: &Draw) -> Status {
    drawn(command).unwrap_or_else(|status| status)
}

fn drawn(command: &Draw) -> Result<Status, Status> {
    let mut drawing = Drawing::new(command)?;
    let answer = drawing.ask()?;
    drawing.require_enough(&answer)?;
    drawing.require_same()?;
    let Answer { status, verdict, lines } = answer;
    let lines = lines.trim_end_matches('\n');
    let Some(page) = drawing.page(&verdict, lines) else {
        say(format_args!("cannot draw this answer: {lines}"));
        return Err(Status::BROKEN);
    };
    put_out(&page)?;
    Ok(status)
}
