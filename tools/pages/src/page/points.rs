//! The points of an order.

use super::figures::path;
use super::html::{Html, html};
use crate::figures::{label, point_room};
use crate::timeline::Point;
use crate::words::Words;

/// The line that joins each point to the next one of the order, where that is in the line.
pub fn thread(points: &[Point]) -> Option<Html> {
    let (first, rest) = points.split_first().filter(|(_, rest)| !rest.is_empty())?;
    let mut last = first.rank;
    let to = |point: &Point| {
        let is_next = std::mem::replace(&mut last, point.rank) + 1 == point.rank;
        html![if is_next { "L" } else { "M" }, point.x, " ", point.y]
    };
    let rest: Html = rest.iter().map(to).collect();
    Some(path("thread", html!["M", first.x, " ", first.y, rest]))
}

impl Point {
    fn tether(&self) -> Option<Html> {
        let end = self.tether?;
        Some(path("tether", html!["M", end, " ", self.y, "H", self.x]))
    }

    /// What it says when it is pointed at.
    fn title(&self, because: &Html, words: &Words) -> Html {
        let operation = &self.operation;
        let about = if self.is_refused {
            html!["\n", because, "\ncontent before: "]
        } else {
            let (number, process) = (operation.number(), operation.process);
            let (event, process) = (words.event(number), words.process(process));
            html!["\nevent ", event, ", process ", process, "\ncontent after: "]
        };
        html!["<title>", self.rank, ": ", label(operation, words), about, self.content, "</title>"]
    }

    /// The point, which leads to its row.
    fn html(&self, object: u32, because: &Html, words: &Words) -> Html {
        let (width, x, y) = (point_room(self.rank), self.x, self.y);
        let half = width / 2;
        let cross = self
            .is_refused
            .then(|| path("x", html!["M", x + half - 1, " ", y - 10, "l7 7m0 -7l-7 7"]));
        html![
            "<a class=\"pt",
            self.is_refused.then_some(" bad"),
            "\" href=\"#r",
            object,
            "-",
            self.rank,
            "\" data-rank=\"",
            self.rank,
            "\" data-op=\"",
            self.operation.number(),
            "\" aria-label=\"",
            label(&self.operation, words),
            ", #",
            words.event(self.operation.number()),
            ", entry ",
            self.rank,
            "\">",
            self.title(because, words),
            "<rect x=\"",
            x.saturating_sub(half),
            "\" y=\"",
            y - 7,
            "\" width=\"",
            width,
            "\" height=\"14\" rx=\"7\"/><text x=\"",
            x,
            "\" y=\"",
            y + 3,
            "\">",
            self.rank,
            "</text>",
            cross,
            "</a>"
        ]
    }
}

/// The points of an order of this object, of which one may be refused, because of this.
pub fn points(object: u32, points: &[Point], because: &Html, words: &Words) -> Html {
    html![
        points.iter().filter_map(Point::tether).collect::<Html>(),
        points.iter().map(|point| point.html(object, because, words)).collect::<Html>()
    ]
}
