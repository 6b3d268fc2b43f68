//! The sections on the objects of a page.

use super::PageKind;
use super::boxes::content_figure;
use super::figures::Drawing;
use super::html::{Html, html};
use super::sentences::Shown;
use super::tables::{is_narrow, order_table, tried_table};
use crate::figures::count_text;
use crate::timeline::{
    DrawnOperation, DrawnStretch, Entry, Extent, Figure, Line, ObjectDrawing, Row, Span, Spans,
    Tried, spans,
};

/// How many operations a note names one by one at most.
const MOST_NAMED: usize = 12;

fn plural(count: usize, one: &'static str, several: &'static str) -> &'static str {
    if count == 1 { one } else { several }
}

fn some_line(figure: &Figure, holds: fn(&Line) -> bool) -> bool {
    figure.lines.iter().any(holds)
}

/// The place of the refused entry in the order, from 1; 0 if there is none.
fn refused_rank(drawing: &ObjectDrawing) -> usize {
    let refused = drawing.rows.iter().rev().find_map(|row| match row {
        Row::Entry { rank, entry: Entry::Refused, .. } => Some(*rank),
        _ => None,
    });
    refused.unwrap_or(0)
}

/// The caption of the figure of an object. That of bars and points is there once.
fn caption(answer: PageKind, drawing: &ObjectDrawing, is_first: bool) -> &'static str {
    let has_points = some_line(&drawing.figure, |line| !line.points.is_empty());
    if drawing.tried.is_some() {
        "In its surroundings: the operations of the reason are outlined, the others are dimmed."
    } else if drawing.zoom.is_some() {
        "In its surroundings."
    } else if !is_first {
        "As above."
    } else if has_points && answer == PageKind::Open {
        "Bars run from invocation to return. The numbered points are the longest order that was \
         found for this page."
    } else if has_points && answer != PageKind::No {
        "Bars run from invocation to return. The numbered points are the order: each lies on its \
         bar, and ranks rise from left to right."
    } else if has_points {
        "Bars run from invocation to return. The numbered points are the order, up to its fault."
    } else {
        "Bars run from invocation to return."
    }
}

/// A heading, with this name if it has one.
fn heading(name: Option<&'static str>, words: Html) -> Html {
    let name = name.map(|name| html![" id=\"", name, "\" tabindex=\"-1\""]);
    html!["<h2", name, ">", words, "</h2>"]
}

fn note_of_lanes(extent: &Extent) -> Spans {
    let operations = plural(extent.without_lane, " operation of ", " operations of ");
    let processes = plural(
        extent.processes,
        " other process in the same stretch. ",
        " other processes in the same stretch. ",
    );
    spans!["Not drawn: ", extent.without_lane, operations, extent.processes, processes]
}

fn note_of_gaps(drawn: usize, operations: usize) -> Spans {
    spans![
        "Drawn: ",
        drawn,
        " of ",
        operations,
        " operations of the object. ",
        "Gaps say how many maps are left out. ",
        Span::Command("--from A --to B"),
        " draws another stretch."
    ]
}

fn note_of_open(left_out: usize) -> Spans {
    let one = " operation that is open all through. ";
    let several = " operations that are open all through. ";
    spans![" Not drawn: ", left_out, plural(left_out, one, several)]
}

/// What a figure leaves out, if it does.
pub fn note(extent: &Extent, figure: &Figure, shown: &Shown) -> Option<Html> {
    let drawn = Shown::in_figure(figure).count();
    let mut said = Vec::new();
    if extent.without_lane > 0 {
        said.extend(note_of_lanes(extent));
    }
    if extent.operations > drawn {
        said.extend(note_of_gaps(drawn, extent.operations));
    }
    if figure.left_out > 0 {
        said.extend(note_of_open(figure.left_out));
    }
    let has_some = !said.is_empty();
    has_some.then(|| html!["<p class=\"note\">", shown.spans(&said, ""), "</p>"])
}

/// The caption of the operations of a reason, and how many of them are drawn if not all are.
fn reason_caption(drawing: &ObjectDrawing, figure: &Figure) -> Spans {
    let (all, shown) = (drawing.reason, Shown::in_figure(figure).count());
    let operations = plural(all, " operation of ", " operations of ");
    let these = plural(all, ": it has no place in any order", ": these alone have no valid order");
    let mut said = spans![all, operations, drawing.live, these];
    if let Some(from) = drawing.from {
        said.extend(spans![", whatever the ", drawing.kind, " contained before event ", from]);
    }
    said.extend(spans!["."]);
    if shown < all {
        said.extend(spans![" Drawn: ", shown, " of them."]);
    }
    if shown > all {
        let others = plural(shown - all, " other operation", " other operations");
        said.extend(spans![" Drawn with ", shown - all, others, " that the sentence names."]);
    }
    if some_line(figure, |line| !line.arrows.is_empty()) {
        let arrows = " Arrows: returned before the other was invoked, so it stands before it.";
        said.extend(spans![arrows]);
    }
    said
}

/// The operations of a reason that are not wholly within it, by their names if they are few.
fn outside(operations: &[DrawnOperation], shown: &Shown) -> Option<Html> {
    let more = operations.len().saturating_sub(MOST_NAMED);
    let more = (more > 0).then(|| html![", and ", count_text(more), " more"]);
    let named = shown.operations(operations.iter().take(MOST_NAMED));
    (!operations.is_empty()).then(|| {
        html![
            "<p class=\"note\">Not wholly within this stretch, so ",
            plural(operations.len(), "it", "they"),
            " may have taken effect outside of it: ",
            named,
            more,
            ".</p>"
        ]
    })
}

/// The section on an object of a page with this answer.
pub struct ObjectSection<'a> {
    pub answer: PageKind,
    pub drawing: &'a ObjectDrawing,
    pub shown: &'a Shown<'a>,
    /// Whether it is the first one.
    pub is_first: bool,
    /// The name of its heading, if it has one.
    pub name: Option<&'static str>,
}

impl ObjectSection<'_> {
    /// A figure of the object, where these operations have their names before.
    fn lines(&self, figure: &Figure, title: Html, named: Shown<'_>) -> Html {
        let because = self.shown.spans(&self.drawing.because, "");
        let words = self.shown.words;
        Drawing { figure, object: self.drawing.object, title, because, named, words }.html()
    }

    /// The operations that are drawn alone.
    fn zoom(&self, figure: &Figure, caption: Html, title: Html) -> Html {
        let lines = self.lines(figure, title, Shown::default());
        let outside = outside(&self.drawing.outside, self.shown);
        html![
            "<figure id=\"zoom\"><figcaption>",
            caption,
            "</figcaption>",
            lines,
            outside,
            "</figure>\n"
        ]
    }

    /// The section on the reason why the object has no valid order.
    fn why(&self, tried: &Tried, figure: &Figure) -> Html {
        let caption = self.shown.spans(&reason_caption(self.drawing, figure), "");
        html![
            "<section id=\"why\">",
            heading(Some("reason"), html!["The reason"]),
            "<div class=\"beside\">",
            self.zoom(figure, caption, html!["The reason"]),
            (!tried.attempts.is_empty()).then(|| tried_table(tried, self.shown)),
            "</div></section>"
        ]
    }

    /// The figure of the object.
    fn whole_figure(&self) -> Html {
        let ObjectDrawing { object, kind, zoom, figure, extent, .. } = self.drawing;
        let named = zoom.as_ref().map(Shown::in_figure).unwrap_or_default();
        let title = html!["Object ", self.shown.words.name_of(*object), ", a ", kind.word];
        html![
            "<figure id=\"fig",
            *object,
            "\"><figcaption>",
            caption(self.answer, self.drawing, self.is_first),
            "</figcaption>",
            self.lines(figure, title, named),
            note(extent, figure, self.shown),
            "</figure>\n"
        ]
    }

    /// The figure of the object, and the table of its order.
    fn figure_and_order(&self) -> Html {
        let figure = self.whole_figure();
        if self.drawing.tried.is_some() {
            return figure;
        }
        let class = if is_narrow(self.drawing, &self.shown.words) { "beside" } else { "under" };
        let order = (!self.drawing.rows.is_empty()).then(|| order_table(self.drawing, self.shown));
        html!["<div class=\"", class, "\">", figure, order, "</div>"]
    }

    /// Other stretches of the history, each to be opened.
    fn stretches(&self) -> Html {
        let mut named = self.drawing.zoom.as_ref().map(Shown::in_figure).unwrap_or_default();
        named.add(&self.drawing.figure);
        let stretches = (1..).zip(&self.drawing.stretches);
        stretches.map(|(place, stretch)| self.stretch(place, stretch, &mut named)).collect()
    }

    /// A stretch, where these operations have their names before.
    fn stretch(&self, place: usize, stretch: &DrawnStretch, named: &mut Shown) -> Html {
        let object = self.drawing.object;
        let words = self.shown.words;
        let title = html!["Object ", words.name_of(object), ", stretch ", place];
        let before = std::mem::take(named);
        named.add_all(&before);
        let lines = self.lines(&stretch.figure, title, before);
        named.add(&stretch.figure);
        html![
            "<details class=\"stretch\" id=\"s",
            object,
            "-",
            place,
            "\"><summary>Maps ",
            words.event(stretch.from),
            " to ",
            words.event(stretch.to.saturating_sub(1)),
            "</summary><figure>",
            lines,
            note(&stretch.extent, &stretch.figure, self.shown),
            "</figure></details>\n"
        ]
    }

    pub fn html(&self) -> Html {
        let drawing = self.drawing;
        let (why, zoom) = match (&drawing.zoom, &drawing.tried) {
            (Some(figure), Some(tried)) => (Some(self.why(tried, figure)), None),
            (Some(figure), None) => {
                let caption = html!["Only the operations that the sentence speaks of."];
                (None, Some(self.zoom(figure, caption, html!["The fault"])))
            }
            (None, _) => (None, None),
        };
        let named = self.shown.words.object(drawing.object);
        let which = named.map(|name| html![", which is ", name]);
        html![
            why,
            "<section id=\"object-",
            drawing.object,
            "\">",
            heading(self.name, html!["Object ", drawing.object, which, ": ", drawing.kind.word]),
            zoom,
            content_figure(drawing, refused_rank(drawing), &self.shown.words),
            drawing.strip.as_ref().map(|strip| strip.html(drawing.object)),
            self.figure_and_order(),
            self.stretches(),
            "</section>\n"
        ]
    }
}

/// The section where the object at fault is not in the history.
pub fn no_object() -> Html {
    html![
        "<section id=\"none\">",
        heading(Some("fault"), html!["The history"]),
        "<figure id=\"f\"><figcaption>The history does not name the object.</figcaption></figure>",
        "</section>"
    ]
}
