//! The strip of an object's whole history, as SVG.

use super::figures::path;
use super::html::{Html, html};
use crate::figures::count_text;
use crate::timeline::Strip;
use std::ops::RangeInclusive;

/// How wide a column is, and how high the strip is.
const WIDTH: u32 = 2;
const HEIGHT: u32 = 30;

/// A rectangle of this class over columns.
fn rectangle(class: &str, columns: &RangeInclusive<u32>, y: u32, height: u32) -> Html {
    html![
        "<rect class=\"",
        class,
        "\" x=\"",
        columns.start() * WIDTH,
        "\" y=\"",
        y,
        "\" width=\"",
        (columns.end() - columns.start() + 1) * WIDTH,
        "\" height=\"",
        height,
        "\"/>"
    ]
}

impl Strip {
    /// The line of how many operations run at once, which goes on where that stays the same.
    fn heights(&self) -> Html {
        let most = self.most().max(1);
        let level = |height: u32| HEIGHT - height * (HEIGHT - 4) / most;
        let runs = self.heights.chunk_by(|one, other| one == other);
        let mut x = 0;
        let line: Html = runs
            .map(|run| {
                x += run.len() as u32 * WIDTH;
                html!["V", level(run[0]), "H", x]
            })
            .collect();
        path("at-once", html!["M0 ", HEIGHT, line, "V", HEIGHT, "Z"])
    }

    /// What nemeses began.
    fn bands(&self) -> Html {
        self.bands.iter().map(|columns| rectangle("of-nemesis", columns, 0, 40)).collect()
    }

    /// The other stretches, each a link to it.
    fn others(&self, object: u32) -> Html {
        let link = |(place, columns): (usize, &RangeInclusive<u32>)| {
            html![
                "<a href=\"#s",
                object,
                "-",
                place,
                "\" aria-label=\"stretch ",
                place,
                "\"><rect class=\"other\" x=\"",
                columns.start() * WIDTH,
                "\" y=\"1\" width=\"",
                (columns.end() - columns.start() + 1) * WIDTH,
                "\" height=\"34\"/></a>"
            ]
        };
        (1..).zip(&self.others).map(link).collect()
    }

    fn drawn(&self) -> Html {
        self.drawn.iter().map(|columns| rectangle("shown", columns, 1, 34)).collect()
    }

    /// A line at each of these columns.
    fn lines(class: &'static str, columns: &[u32], from: u32, to: u32) -> Option<Html> {
        let line = |column: &u32| html!["M", column * WIDTH + 1, " ", from, "V", to];
        (!columns.is_empty()).then(|| path(class, columns.iter().map(line).collect()))
    }

    /// What the strip shows, in words.
    fn caption(&self) -> Html {
        let others = (!self.others.is_empty())
            .then_some(" Framed thinly: other stretches, which these frames lead to.");
        let marked = (!self.marked.is_empty()).then_some(" Red: what the sentence speaks of.");
        let nemeses = (!self.nemeses.is_empty()).then_some(" Dotted: the nemesis.");
        let bands =
            (!self.bands.is_empty()).then_some(" Shaded: what it began, until it ended that.");
        html![
            "The whole history, ",
            count_text(self.maps as usize),
            " maps, by how many operations of the object run at once, at most ",
            self.most(),
            ". Framed: what is drawn below.",
            others,
            marked,
            nemeses,
            bands
        ]
    }

    pub fn html(&self, object: u32) -> Html {
        let width = self.heights.len() as u32 * WIDTH;
        html![
            "<figure class=\"strip\"><figcaption>",
            self.caption(),
            "</figcaption><svg viewBox=\"0 0 ",
            width,
            " 40\" width=\"",
            width,
            "\" height=\"40\" role=\"group\" aria-label=\"",
            self.caption(),
            "\">",
            self.bands(),
            self.heights(),
            Strip::lines("nemeses", &self.nemeses, 30, 40),
            Strip::lines("marked", &self.marked, 1, 35),
            self.others(object),
            self.drawn(),
            "</svg></figure>\n"
        ]
    }
}
