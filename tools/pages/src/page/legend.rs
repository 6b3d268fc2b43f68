//! How to read the figures of a page: only what is on the page.

use super::Page;
use super::figures::path;
use super::html::{Html, html};
use crate::timeline::{Bar, Figure, Line, Mark, Role, State};
use std::collections::BTreeSet;

/// A sign of the figures, in the order of the legend.
#[derive(Clone, Copy, PartialEq, Eq, PartialOrd, Ord)]
enum Sign {
    Put,
    Take,
    Acquire,
    Release,
    Read,
    Swap,
    Pending,
    Failed,
    /// A bar that goes on outside of its line.
    Open,
    /// What a sentence speaks of, on a page with a fault, and on one without.
    Fault,
    Named,
    Point,
    Refused,
    Arrow,
    Nemesis,
    Band,
    Gap,
}

fn rectangle(class: &'static str, x: u32, y: u32, width: u32, height: u32) -> Html {
    let class = (!class.is_empty()).then(|| html![" class=\"", class, "\""]);
    html![
        "<rect",
        class,
        " x=\"",
        x,
        "\" y=\"",
        y,
        "\" width=\"",
        width,
        "\" height=\"",
        height,
        "\""
    ]
}

/// The bar of a sign, with this edge.
fn bar(edge: Html) -> Html {
    html![rectangle("fill", 1, 2, 32, 14), "/>", edge]
}

fn named_bar() -> Html {
    html![rectangle("fill", 2, 3, 30, 12), "/>", path("edge", html!["M2 3H32V15H2Z"])]
}

fn point(x: u32, y: u32, text_x: u32, text_y: u32, rank: u32) -> Html {
    html![
        rectangle("", x, y, 16, 14),
        " rx=\"7\"/><text x=\"",
        text_x,
        "\" y=\"",
        text_y,
        "\">",
        rank,
        "</text>"
    ]
}

impl Sign {
    fn class(self) -> &'static str {
        match self {
            Sign::Put | Sign::Acquire => "op put done",
            Sign::Take | Sign::Release => "op take done",
            Sign::Read | Sign::Open => "op read done",
            Sign::Swap => "op swap done",
            Sign::Pending => "op read pending",
            Sign::Failed => "op put failed",
            Sign::Fault => "op read done focus fault",
            Sign::Named => "op read done focus",
            Sign::Point => "pt",
            Sign::Refused => "pt bad",
            Sign::Arrow => "before",
            Sign::Nemesis => "nem",
            Sign::Band => "band",
            Sign::Gap => "gap",
        }
    }

    fn meaning(self) -> &'static str {
        match self {
            Sign::Put => "puts in or sets",
            Sign::Take => "takes out",
            Sign::Acquire => "acquires",
            Sign::Release => "releases",
            Sign::Read => "reads",
            Sign::Swap => "compares and sets",
            Sign::Pending => "pending: open at the right, it may have happened or not",
            Sign::Failed => "failed: it did not happen",
            Sign::Open => "open at an end: it goes on outside of this line",
            Sign::Fault | Sign::Named => "what the sentence above speaks of",
            Sign::Point => "its rank in the order",
            Sign::Refused => "the entry that is refused",
            Sign::Arrow => "returned before the other was invoked",
            Sign::Nemesis => "a map of the nemesis",
            Sign::Band => "what the nemesis began, until it ended that",
            Sign::Gap => "maps that are left out",
        }
    }

    fn picture(self) -> Html {
        let closed = || path("edge", html!["M1 2H33V16H1Z"]);
        let open = || path("edge", html!["M33 2H1V16H33"]);
        match self {
            Sign::Put | Sign::Take | Sign::Acquire | Sign::Release | Sign::Read | Sign::Swap => {
                bar(closed())
            }
            Sign::Pending => bar(html![open(), path("more", html!["M28 5L32 9L28 13"])]),
            Sign::Failed => bar(html!["<text x=\"4\" y=\"13\">f 1</text>", closed()]),
            Sign::Open => bar(open()),
            Sign::Fault | Sign::Named => named_bar(),
            Sign::Point => point(9, 2, 17, 12, 3),
            Sign::Refused => {
                html![point(5, 3, 13, 13, 4), path("x", html!["M21 0l7 7m0 -7l-7 7"])]
            }
            Sign::Arrow => {
                html![path("line", html!["M2 9H26"]), path("head", html!["M33 9l-8 -4v8Z"])]
            }
            Sign::Nemesis => path("dia", html!["M17 4l5 5l-5 5l-5 -5Z"]),
            Sign::Band | Sign::Gap => html![rectangle("fill", 2, 0, 30, 18), "/>"],
        }
    }

    fn html(self) -> Html {
        html![
            "<li><svg viewBox=\"0 0 34 18\" width=\"34\" height=\"18\" aria-hidden=\"true\">",
            "<g class=\"",
            self.class(),
            "\">",
            self.picture(),
            "</g></svg> ",
            self.meaning(),
            "</li>"
        ]
    }
}

impl Bar {
    fn signs(&self) -> impl Iterator<Item = Sign> {
        let role = match (self.operation.op().holds(), self.operation.role()) {
            (Some(true), _) => Sign::Acquire,
            (Some(false), _) => Sign::Release,
            (None, Role::Put) => Sign::Put,
            (None, Role::Take) => Sign::Take,
            (None, Role::Read) => Sign::Read,
            (None, Role::Swap) => Sign::Swap,
        };
        let state = match self.operation.state() {
            State::Done => None,
            State::Failed => Some(Sign::Failed),
            State::Pending => Some(Sign::Pending),
        };
        let is_open = self.open_left || self.open_right;
        let goes_on = is_open && self.operation.state() != State::Pending;
        let mark = match self.mark {
            Mark::Plain | Mark::Dim => None,
            Mark::Fault | Mark::LeftOut => Some(Sign::Fault),
            Mark::Giver | Mark::Source | Mark::Named => Some(Sign::Named),
        };
        // The others of a figure have no colour.
        let role = (self.mark != Mark::Dim).then_some(role);
        let some = [role, state, goes_on.then_some(Sign::Open), mark];
        some.into_iter().flatten()
    }
}

impl Line {
    fn signs(&self) -> impl Iterator<Item = Sign> {
        let points = self.points.iter().flat_map(|point| {
            [Some(Sign::Point), point.is_refused.then_some(Sign::Refused)].into_iter().flatten()
        });
        let others = [
            (!self.arrows.is_empty()).then_some(Sign::Arrow),
            (!self.nemeses.is_empty()).then_some(Sign::Nemesis),
            (!self.bands.is_empty()).then_some(Sign::Band),
            (!self.gaps.is_empty()).then_some(Sign::Gap),
        ];
        self.bars.iter().flat_map(Bar::signs).chain(points).chain(others.into_iter().flatten())
    }
}

/// The signs that these figures have. What a sentence speaks of is red on a page with a fault.
fn signs_of<'a>(figures: impl Iterator<Item = &'a Figure>) -> BTreeSet<Sign> {
    let mut signs: BTreeSet<Sign> =
        figures.flat_map(|figure| figure.lines.iter().flat_map(Line::signs)).collect();
    if signs.contains(&Sign::Fault) {
        signs.remove(&Sign::Named);
    }
    signs
}

/// How to read the figures, if the page has some.
pub fn legend(page: &Page) -> Option<Html> {
    let signs = signs_of(page.figures());
    let list: Html = signs.iter().map(|sign| sign.html()).collect();
    (!signs.is_empty()).then(|| {
        html![
            "<details class=\"legend\" open=\"\"><summary>How to read the picture</summary><ul>",
            list,
            "</ul><p>Numbers above are those of events in the text. They are in order and ",
            "no time is meant: a bar is as long as its label needs. Point at a ",
            "bar or a point to read more; a point leads to its row in the table, ",
            "an operation in the text leads to its bar.</p></details>"
        ]
    })
}
