//! Pieces of a malformed text, with its place marked.

use super::figures::Drawing;
use super::html::{Html, html};
use super::sections::note;
use super::sentences::Shown;
use crate::drawing::FaultyDrawing;
use crate::timeline::{Extent, Spans};

/// A line of a text, with its number from 1.
pub struct TextLine {
    pub number: usize,
    pub text: String,
}

/// A line of a text with a part of it marked, and whether it is cut at its two ends. If nothing
/// is there to be marked, a word says what is missing.
pub struct MarkedLine {
    pub number: usize,
    pub is_cut_before: bool,
    pub before: String,
    pub marked: String,
    /// Whether only the beginning of what is marked is there.
    pub is_mark_cut: bool,
    pub after: String,
    pub is_cut_after: bool,
    pub missing: &'static str,
}

/// A line of a text with those around it, and what it is.
pub struct Excerpt {
    pub caption: Spans,
    pub before: Vec<TextLine>,
    pub line: MarkedLine,
    pub after: Vec<TextLine>,
}

/// The place of a fault: pieces of the text, and the history before it where the text has one.
pub struct Place<'a> {
    pub excerpts: &'a [Excerpt],
    pub before: Option<&'a FaultyDrawing>,
}

impl TextLine {
    fn html(&self) -> Html {
        html!["<tr><th>", self.number, "</th><td>", self.text, "</td></tr>"]
    }
}

impl MarkedLine {
    fn html(&self) -> Html {
        let mark = if self.marked.is_empty() {
            html!["<mark class=\"end\">", self.missing, "</mark>"]
        } else {
            html!["<mark>", self.marked, self.is_mark_cut.then_some("…"), "</mark>"]
        };
        html![
            "<tr class=\"at\"><th>",
            self.number,
            "</th><td>",
            self.is_cut_before.then_some("…"),
            self.before,
            mark,
            self.after,
            self.is_cut_after.then_some("…"),
            "</td></tr>"
        ]
    }
}

impl Excerpt {
    fn html(&self, shown: &Shown) -> Html {
        html![
            "<figure class=\"text\"><figcaption>",
            shown.spans(&self.caption, ""),
            "</figcaption><div class=\"scroll\"><table class=\"lines\"><tbody>",
            self.before.iter().map(TextLine::html).collect::<Html>(),
            self.line.html(),
            self.after.iter().map(TextLine::html).collect::<Html>(),
            "</tbody></table></div></figure>\n"
        ]
    }
}

/// The history before a faulty map. A map without a process has no lane, and so no cross.
fn before(drawing: &FaultyDrawing, shown: &Shown) -> Html {
    let figure = &drawing.figure;
    let has_cross = figure.lines.iter().any(|line| !line.crosses.is_empty());
    let lines = Drawing {
        figure,
        object: 0,
        title: html!["The history up to the fault"],
        because: Html::default(),
        named: Shown::default(),
        words: shown.words,
    };
    let extent = Extent {
        without_lane: drawing.without_lane,
        processes: drawing.processes,
        ..Extent::default()
    };
    html![
        "<figure id=\"figm\"><figcaption>The maps before it are well formed.",
        has_cross.then_some(" The cross is the faulty map."),
        "</figcaption>",
        lines.html(),
        note(&extent, figure, shown),
        "</figure>\n"
    ]
}

impl Place<'_> {
    /// The section on the place of a fault.
    pub fn html(&self, shown: &Shown) -> Html {
        html![
            "<section id=\"text\"><h2 id=\"fault\" tabindex=\"-1\">The place</h2>",
            self.excerpts.iter().map(|excerpt| excerpt.html(shown)).collect::<Html>(),
            self.before.map(|drawing| before(drawing, shown)),
            "</section>\n"
        ]
    }
}
