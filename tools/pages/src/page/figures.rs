//! Figures as SVG.

use super::html::{Html, html};
use super::points::{points, thread};
use super::sentences::Shown;
use crate::figures::{LANE_LENGTH, count_text, fit};
use crate::timeline::{Arrow, Band, Bar, Cross, Figure, Gap, Lane, Line, NemesisMark, Tick};
use crate::words::Words;
use std::collections::BTreeMap;

/// A figure that is no wider fits a phone.
const PHONE: u32 = 340;

/// A size at one and a half, where the figure is large.
pub fn scaled(size: u32, is_large: bool) -> u32 {
    if is_large { size * 3 / 2 } else { size }
}

/// What is added to the class of what holds a drawing: one that is drawn large is not made larger
/// in a wide window.
pub fn large_class(is_large: bool) -> Option<&'static str> {
    is_large.then_some(" large")
}

pub fn path(class: &'static str, d: Html) -> Html {
    html!["<path class=\"", class, "\" d=\"", d, "\"/>"]
}

pub fn text_at(class: &'static str, x: u32, y: u32, words: Html) -> Html {
    html!["<text class=\"", class, "\" x=\"", x, "\" y=\"", y, "\">", words, "</text>"]
}

impl Lane {
    fn name(&self, line: &Line, words: &Words) -> Html {
        let name = fit(&words.lane(self.process), LANE_LENGTH);
        text_at("lane", line.left - 8, self.top + 13, html![name])
    }

    fn html(&self, line: &Line, words: &Words) -> Html {
        let name = self.name(line, words);
        let low = self.top + self.height + 4;
        html![name, path("rail", html!["M", line.left, " ", low, "H", line.width])]
    }
}

impl Gap {
    fn html(&self, line: &Line) -> Html {
        let count = count_text(self.count as usize);
        let maps = if self.count == 1 { " map" } else { " maps" };
        let operations = if self.operations == 1 { " operation" } else { " operations" };
        let begun = count_text(self.operations);
        html![
            "<g class=\"gap\"><title>",
            count,
            maps,
            " left out, with ",
            begun,
            operations,
            "</title><rect x=\"",
            self.x.saturating_sub(self.width / 2),
            "\" y=\"18\" width=\"",
            self.width,
            "\" height=\"",
            line.height.saturating_sub(22),
            "\"/><text x=\"",
            self.x,
            "\" y=\"12\">⋯ ",
            count,
            "</text></g>"
        ]
    }
}

impl Tick {
    fn html(&self, words: &Words) -> Html {
        let (tick, number) = if self.is_focus { ("tick on", "num on") } else { ("tick", "num") };
        let tick = path(tick, html!["M", self.x, " 16V20"]);
        if !self.is_shown {
            return tick;
        }
        let time = self.time.as_ref().map(|time| text_at("time", self.x, 30, html![time]));
        html![tick, text_at(number, self.x, 12, html![words.event(self.number)]), time]
    }
}

impl Arrow {
    /// Its line, from so far after its beginning on.
    fn way(&self, after: u32) -> Html {
        let ((x, y), (to, end)) = (self.from, self.to);
        let turn = (y != end).then(|| html!["h", 10 - after, "V", end]);
        html!["M", x + after, " ", y, turn, "H", to.saturating_sub(7)]
    }

    /// What keeps it apart from what it crosses: it is below all arrows, and begins after its bar.
    fn halo(&self) -> Html {
        path("halo", self.way(4))
    }

    fn html(&self, words: &Words) -> Html {
        let (to, end) = self.to;
        html![
            "<g class=\"before\"><title>#",
            words.event(self.earlier.number()),
            " returned at event ",
            self.earlier.returned().map(|at| words.event(at)),
            ", before #",
            words.event(self.later.number()),
            " was invoked</title>",
            path("line", self.way(0)),
            path("head", html!["M", to, " ", end, "l-8 -4v8Z"]),
            "</g>"
        ]
    }
}

impl Cross {
    fn html(&self) -> Html {
        let (x, y) = (self.x, self.y);
        html![
            "<g class=\"cross\"><title>event ",
            self.number,
            ": H",
            self.fault,
            "</title><path d=\"M",
            x.saturating_sub(6),
            " ",
            y.saturating_sub(6),
            "l12 12m0 -12l-12 12\"/><text x=\"",
            x + 10,
            "\" y=\"",
            y + 4,
            "\">",
            self.label,
            "</text></g>"
        ]
    }
}

impl NemesisMark {
    fn html(&self, line: &Line) -> Html {
        let (x, top) = (self.x, line.nemesis_top);
        let label = (!self.label.is_empty())
            .then(|| html!["<text x=\"", x + 8, "\" y=\"", top + 11, "\">", self.label, "</text>"]);
        html![
            "<g class=\"nem\"><title>",
            self.title,
            "</title><path d=\"M",
            x,
            " ",
            top,
            "V",
            line.height.saturating_sub(4),
            "\"/>",
            path("dia", html!["M", x, " ", top + 2, "l5 5l-5 5l-5 -5Z"]),
            label,
            "</g>"
        ]
    }
}

impl Band {
    fn html(&self, line: &Line) -> Html {
        html![
            "<g class=\"band\"><title>",
            self.title,
            "</title><rect x=\"",
            self.from,
            "\" y=\"",
            line.nemesis_top,
            "\" width=\"",
            self.to - self.from,
            "\" height=\"",
            line.height.saturating_sub(line.nemesis_top + 4),
            "\"/></g>"
        ]
    }
}

/// A figure of an object's operations: its title, why an entry is refused, and the operations whose
/// names an earlier figure of the page has.
pub struct Drawing<'a> {
    pub figure: &'a Figure,
    pub object: u32,
    pub title: Html,
    pub because: Html,
    pub named: Shown<'a>,
    pub words: Words<'a>,
}

impl Drawing<'_> {
    /// The ranks of the operations that have points.
    fn ranks(&self) -> BTreeMap<u32, u32> {
        let points = self.figure.lines.iter().flat_map(|line| &line.points);
        points.map(|point| (point.operation.number(), point.rank)).collect()
    }

    /// What is in a line.
    fn content(&self, line: &Line, ranks: &BTreeMap<u32, u32>) -> Html {
        let words = &self.words;
        let lanes: Html = line.lanes.iter().map(|lane| lane.html(line, words)).collect();
        let bands: Html = line.bands.iter().map(|band| band.html(line)).collect();
        let gaps: Html = line.gaps.iter().map(|gap| gap.html(line)).collect();
        let ticks: Html = line.ticks.iter().map(|tick| tick.html(words)).collect();
        let nemeses: Html = line.nemeses.iter().map(|mark| mark.html(line)).collect();
        let bar = |bar: &Bar| {
            let is_named = bar.is_first && !self.named.has(&bar.operation);
            bar.html(is_named, ranks.get(&bar.operation.number()).copied(), words)
        };
        let bars: Html = line.bars.iter().map(bar).collect();
        let points = points(self.object, &line.points, &self.because, words);
        let arrows: Html = line.arrows.iter().map(|arrow| arrow.html(words)).collect();
        let crosses: Html = line.crosses.iter().map(Cross::html).collect();
        let halos: Html = line.arrows.iter().map(Arrow::halo).collect();
        html![
            bands,
            lanes,
            gaps,
            ticks,
            nemeses,
            thread(&line.points),
            bars,
            halos,
            points,
            arrows,
            crosses
        ]
    }

    /// The names of the lanes once more, which stay where they are while a narrow window is
    /// scrolled.
    fn names(&self, line: &Line) -> Html {
        let is_large = self.figure.is_large;
        // The first number of a line may begin before its lanes do.
        let own = line.left - 7;
        let (width, height) = (scaled(own, is_large), scaled(line.height, is_large));
        html![
            "<svg class=\"names\" viewBox=\"0 0 ",
            own,
            " ",
            line.height,
            "\" width=\"",
            width,
            "\" height=\"",
            height,
            "\" style=\"margin-right:-",
            width,
            "px\" aria-hidden=\"true\">",
            line.lanes.iter().map(|lane| lane.name(line, &self.words)).collect::<Html>(),
            "</svg>"
        ]
    }

    /// A line, named by its place from 1.
    fn line(&self, place: usize, line: &Line, ranks: &BTreeMap<u32, u32>) -> Html {
        let (width, height, is_large) = (line.width, line.height, self.figure.is_large);
        html![
            "<div class=\"scroll",
            large_class(is_large),
            "\">",
            (scaled(width, is_large) > PHONE).then(|| self.names(line)),
            "<svg class=\"sys\" viewBox=\"0 0 ",
            width,
            " ",
            height,
            "\" width=\"",
            scaled(width, is_large),
            "\" height=\"",
            scaled(height, is_large),
            "\" role=\"group\" aria-label=\"",
            self.title,
            ", line ",
            place,
            " of ",
            self.figure.lines.len(),
            "\">",
            self.content(line, ranks),
            "</svg></div>\n"
        ]
    }

    /// The lines of the figure.
    pub fn html(&self) -> Html {
        let ranks = &self.ranks();
        let lines = self.figure.lines.iter().zip(1..);
        lines.map(|(line, place)| self.line(place, line, ranks)).collect()
    }
}
