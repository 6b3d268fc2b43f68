//! The page: HTML with SVG.

mod bars;
mod boxes;
mod excerpts;
mod figures;
mod html;
mod legend;
mod points;
mod sections;
mod sentences;
mod strip;
mod style;
mod tables;

pub use excerpts::{Excerpt, MarkedLine, Place, TextLine};

use crate::figures::count_text;
use crate::timeline::{Figure, ObjectDrawing, Spans};
use crate::words::Words;
use finder::Kind;
use html::{Html, html};
use legend::legend;
use sections::{ObjectSection, no_object};
use sentences::Shown;
use style::style;
use tables::object_table;

/// The answer on a history.
#[derive(Clone, Copy, PartialEq, Eq)]
pub enum PageKind {
    Yes,
    /// An order is refused.
    No,
    /// An object has no order.
    NoOrder,
    Impossible,
    Open,
    /// A text is malformed.
    Malformed,
    /// The judge had not enough memory.
    NoMemory,
}

/// A row of the table of objects.
#[derive(Clone, Copy)]
pub struct ObjectRow {
    pub object: u32,
    pub kind: Kind,
    /// How many operations did not fail, how many of these are pending, and how many failed.
    pub operations: usize,
    pub pending: usize,
    pub failed: usize,
    pub answer: &'static str,
    pub is_faulty: bool,
}

/// What a page shows: the answer on a history, of which texts, in which words and lines; the table
/// of its objects, if there are several; the drawings; and of a malformed text the place of its
/// fault, and what it has there.
pub struct Page<'a> {
    pub answer: PageKind,
    pub title: &'a str,
    pub facts: &'a str,
    pub sentences: &'a [Spans],
    pub lines: &'a str,
    pub objects: &'a [ObjectRow],
    pub drawings: &'a [ObjectDrawing],
    pub place: Option<&'a Place<'a>>,
    pub quoted: &'a str,
    pub words: Words<'a>,
}

/// The most lines of the verdict on a page, and the most bytes of one that is not cut.
const MOST_LINES: usize = 60;
const LONGEST_LINE: usize = 2_000;

impl PageKind {
    /// The class of the page.
    fn class(self) -> &'static str {
        match self {
            PageKind::Yes => "yes",
            PageKind::No | PageKind::NoOrder => "no",
            PageKind::Impossible => "impossible",
            PageKind::Open => "open",
            PageKind::Malformed => "malformed",
            PageKind::NoMemory => "memory",
        }
    }

    fn word(self) -> &'static str {
        match self {
            PageKind::Yes => "Yes",
            PageKind::No => "Order refused",
            PageKind::NoOrder => "Order missing",
            PageKind::Impossible => "Not linearizable",
            PageKind::Open => "Open",
            PageKind::Malformed => "Malformed",
            PageKind::NoMemory => "Out of memory",
        }
    }

    fn sign(self) -> &'static str {
        match self {
            PageKind::Yes => "✓",
            PageKind::No | PageKind::NoOrder | PageKind::Impossible | PageKind::Malformed => "✕",
            PageKind::Open | PageKind::NoMemory => "?",
        }
    }
}

fn meta(name: &'static str, content: &'static str) -> Html {
    html!["<meta name=\"", name, "\" content=\"", content, "\">"]
}

/// A line of the verdict, or the beginning of a very long one.
fn verdict_line(line: &str) -> Html {
    if line.len() <= LONGEST_LINE {
        return html![line];
    }
    let beginning: String = line.chars().take(LONGEST_LINE).collect();
    html![beginning, "…"]
}

/// The lines of the verdict, of very many the first ones.
fn verdict(lines: &str) -> Html {
    let mut lines = lines.split('\n');
    let first = lines.next().map(verdict_line);
    let next = lines.by_ref().take(MOST_LINES - 1);
    let next: Html = next.map(|line| html!["\n", verdict_line(line)]).collect();
    let more = match lines.count() {
        0 => None,
        1 => Some(html!["\n… 1 more line"]),
        count => Some(html!["\n… ", count_text(count), " more lines"]),
    };
    html!["<pre class=\"verdict\">", first, next, more, "</pre>"]
}

/// What the last of the lines of a reason is, and *counted as* in the others.
fn reason_note(lines: &str) -> Option<Html> {
    let shown = || lines.split('\n').take(MOST_LINES);
    if !shown().any(|line| line.starts_with("; {:object ")) {
        return None;
    }
    let is_counted = shown().any(|line| line.contains(", counted as "));
    let counted = is_counted.then_some(
        " What follows “counted as” is all that it uses of the operation; the value there may stand for any other.",
    );
    Some(html![
        "<p class=\"note\">The line with <code>{:object</code> is the reason, for a program: ",
        "<code>fcbench refute</code> checks it.",
        counted,
        "</p>"
    ])
}

impl Page<'_> {
    /// The figures of the page.
    fn figures(&self) -> impl Iterator<Item = &Figure> {
        let before = self.place.and_then(|place| place.before);
        let drawings = self.drawings.iter().flat_map(ObjectDrawing::figures);
        drawings.chain(before.map(|drawing| &drawing.figure))
    }

    fn shown(&self) -> Shown<'_> {
        let mut shown = Shown::new(self.words);
        self.figures().for_each(|figure| shown.add(figure));
        shown
    }

    fn head(&self) -> Html {
        html![
            "<!DOCTYPE html>\n<html lang=\"en\"><head><meta charset=\"utf-8\">",
            meta("viewport", "width=device-width"),
            "<meta http-equiv=\"Content-Security-Policy\" ",
            "content=\"default-src 'none'; style-src 'unsafe-inline'\">",
            meta("generator", "fcbench draw"),
            "<title>",
            self.title,
            "</title>",
            style(self.drawings),
            "</head>\n"
        ]
    }

    /// What the page is about, past its head: the fault, the reason or the object. None if that
    /// is all of the page.
    fn place_name(&self) -> Option<&'static str> {
        match (self.answer, self.drawings) {
            (PageKind::Yes | PageKind::NoMemory, _) => None,
            (PageKind::Malformed, _) | (PageKind::No | PageKind::NoOrder, []) => Some("fault"),
            (_, []) => None,
            (_, [drawing, ..]) if drawing.tried.is_some() => Some("reason"),
            (PageKind::No | PageKind::NoOrder, [drawing, ..]) if !drawing.sentences.is_empty() => {
                Some("fault")
            }
            _ => Some("object"),
        }
    }

    /// A link to it, for users of a keyboard.
    fn skip_link(&self) -> Option<Html> {
        let name = self.place_name()?;
        let what = if self.answer == PageKind::Malformed { "place" } else { name };
        Some(html!["<a class=\"skiplink\" href=\"#", name, "\">Go to the ", what, "</a>"])
    }

    fn sentences(&self, shown: &Shown) -> Html {
        let of_objects = self.drawings.iter().flat_map(|drawing| {
            let content = drawing.content.as_deref().unwrap_or("");
            drawing.sentences.iter().map(move |sentence| shown.sentence(sentence, content))
        });
        let others = self.sentences.iter();
        of_objects.chain(others.map(|sentence| shown.sentence(sentence, self.quoted))).collect()
    }

    fn header(&self, shown: &Shown) -> Html {
        html![
            "<header><h1><span class=\"icon\" aria-hidden=\"true\">",
            self.answer.sign(),
            "</span> ",
            self.answer.word(),
            "</h1><p class=\"facts\">",
            self.facts,
            "</p>",
            self.sentences(shown),
            verdict(self.lines),
            reason_note(self.lines),
            "</header>"
        ]
    }

    fn sections(&self, shown: &Shown) -> Html {
        let is_no = matches!(self.answer, PageKind::No | PageKind::NoOrder);
        let is_strange = self.drawings.is_empty() && is_no;
        let has_table = self.objects.len() > 1 || is_strange;
        // The heading of a reason has a name of its own.
        let name = self.place_name().filter(|name| *name != "reason");
        let section = |(place, drawing)| {
            let is_first = place == 0;
            let name = name.filter(|_| is_first);
            ObjectSection { answer: self.answer, drawing, shown, is_first, name }.html()
        };
        html![
            has_table.then(|| object_table(self)),
            self.drawings.iter().enumerate().map(section).collect::<Html>(),
            is_strange.then(no_object),
            self.place.map(|place| place.html(shown)),
            legend(self)
        ]
    }

    fn body(&self) -> Html {
        let shown = &self.shown();
        html![
            "<body class=\"",
            self.answer.class(),
            "\">",
            self.skip_link(),
            self.header(shown),
            "<main>",
            self.sections(shown),
            "</main></body></html>\n"
        ]
    }
}

/// The text of the page.
pub fn html_of(page: &Page) -> String {
    html![page.head(), page.body()].into_text()
}
