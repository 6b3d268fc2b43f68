//! Sentences.

use super::html::{Html, html};
use crate::figures::{count_text, label};
use crate::timeline::{DrawnOperation, Figure, Span};
use crate::words::Words;
use std::collections::BTreeSet;

/// The operations that a page shows: a sentence leads to their bars. And the words of the page.
#[derive(Default)]
pub struct Shown<'a> {
    numbers: BTreeSet<u32>,
    pub words: Words<'a>,
}

impl<'a> Shown<'a> {
    pub fn new(words: Words<'a>) -> Shown<'a> {
        Shown { numbers: BTreeSet::new(), words }
    }

    /// Those that the figure shows.
    pub fn in_figure(figure: &Figure) -> Shown<'static> {
        let mut shown = Shown::default();
        shown.add(figure);
        shown
    }

    pub fn add(&mut self, figure: &Figure) {
        let bars = figure.lines.iter().flat_map(|line| &line.bars);
        self.numbers.extend(bars.map(|bar| bar.operation.number()));
    }

    pub fn add_all(&mut self, other: &Shown) {
        self.numbers.extend(&other.numbers);
    }

    pub fn has(&self, operation: &DrawnOperation) -> bool {
        self.numbers.contains(&operation.number())
    }

    /// How many there are.
    pub fn count(&self) -> usize {
        self.numbers.len()
    }

    /// An operation by its number and its label, which leads to its bar where that is shown.
    pub fn operation(&self, operation: &DrawnOperation) -> Html {
        let number = operation.number();
        let name =
            html!["<b>#", self.words.event(number), "</b> ", code(&label(operation, &self.words))];
        if self.has(operation) {
            html!["<a class=\"ref\" href=\"#o", number, "\">", name, "</a>"]
        } else {
            html!["<span class=\"ref\">", name, "</span>"]
        }
    }

    /// The operations, one after the other.
    pub fn operations<'b>(&self, operations: impl IntoIterator<Item = &'b DrawnOperation>) -> Html {
        let mut comma = "";
        let with_comma = |operation| {
            let html = html![comma, self.operation(operation)];
            comma = ", ";
            html
        };
        operations.into_iter().map(with_comma).collect()
    }

    fn span(&self, span: &Span, quoted: &str) -> Html {
        match span {
            Span::Text(text) => html![*text],
            Span::Number(number) => html![*number],
            Span::Object(object) => html![self.words.name_of(*object)],
            Span::Event(number) => html!["#", self.words.event(*number)],
            Span::Entry(entry) => code(&entry.to_string()),
            Span::Count(count) => html![count_text(*count)],
            Span::Value(value) => html![self.words.values(value.to_string())],
            Span::Kind(kind) => html![kind.word],
            Span::Operation(operation) => self.operation(operation),
            Span::Content => code(quoted),
            Span::Quoted => html![quoted],
            Span::Certificate(object) => {
                html!["<code>{:object ", *object, ", :order [..]}</code>"]
            }
            Span::Command(text) => code(text),
            Span::OnlyObject(object) => code(&format!("--object {object}")),
            Span::Aside(text) => html!["<span class=\"aside\">", *text, "</span>"],
        }
    }

    /// The number of an event.
    fn event(&self, number: u64) -> String {
        u32::try_from(number).map_or_else(|_| number.to_string(), |it| self.words.event(it))
    }

    /// Spans, with what is quoted among them. A number after the word is that of an event.
    pub fn spans(&self, spans: &[Span], quoted: &str) -> Html {
        let mut is_of_event = false;
        let part = |span: &Span| {
            let part = match span {
                Span::Number(number) if is_of_event => html![self.event(*number)],
                _ => self.span(span, quoted),
            };
            match span {
                Span::Text(text) => {
                    is_of_event = EVENT_WORDS.iter().any(|word| text.ends_with(word))
                        || is_of_event && *text == " to ";
                }
                Span::Number(_) => {}
                _ => is_of_event = false,
            }
            part
        };
        spans.iter().map(part).collect()
    }

    /// A sentence at the head of the page.
    pub fn sentence(&self, spans: &[Span], quoted: &str) -> Html {
        html!["<p class=\"say\">", self.spans(spans, quoted), "</p>\n"]
    }
}

/// The words before the number of an event.
const EVENT_WORDS: [&str; 3] = ["event ", "events ", "Event "];

pub fn code(text: &str) -> Html {
    html!["<code>", text, "</code>"]
}
