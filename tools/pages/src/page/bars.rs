//! The bars of a line.

use super::figures::{path, text_at};
use super::html::{Html, html};
use crate::figures::label;
use crate::timeline::{Bar, DrawnOperation, Mark, Role, State};
use crate::words::Words;

fn role_class(operation: &DrawnOperation) -> &'static str {
    match operation.role() {
        Role::Put => "put",
        Role::Take => "take",
        Role::Read => "read",
        Role::Swap => "swap",
    }
}

fn state_class(operation: &DrawnOperation) -> &'static str {
    match operation.state() {
        State::Done => "done",
        State::Failed => "failed",
        State::Pending => "pending",
    }
}

fn mark_class(mark: Mark) -> &'static str {
    match mark {
        Mark::Plain => "",
        Mark::Dim => " dim",
        Mark::Fault => " focus fault",
        Mark::Giver => " focus giver",
        Mark::Source => " focus source",
        Mark::LeftOut => " focus leftout",
        Mark::Named => " focus",
    }
}

/// What became of the operation.
fn became(operation: &DrawnOperation, words: &Words) -> Html {
    let event = |at: Option<u32>| at.map(|at| words.event(at));
    match (operation.state(), operation.ended) {
        (State::Done, at) => html!["returned at event ", event(at)],
        (State::Failed, at) => html!["failed at event ", event(at), ": it did not happen"],
        (State::Pending, Some(at)) => {
            html!["pending: info at event ", words.event(at), ", it may have happened or not"]
        }
        (State::Pending, None) => html!["pending: it has no completion"],
    }
}

/// When it was invoked, and completed, where the history tells times.
fn times(operation: &DrawnOperation, words: &Words) -> Option<Html> {
    let begin = words.exact_time(operation.number())?;
    let end = operation.ended.and_then(|ended| words.exact_time(ended));
    Some(html!["\nfrom ", begin, end.map(|end| html![" to ", end])])
}

impl Bar {
    fn low(&self) -> u32 {
        self.top + self.height
    }

    fn title(&self, words: &Words) -> Html {
        let operation = &self.operation;
        html![
            "<title>",
            label(operation, words),
            "\nevent ",
            words.event(operation.number()),
            ", process ",
            words.process(operation.process),
            ", object ",
            operation.object,
            "\n",
            became(operation, words),
            times(operation, words),
            "</title>"
        ]
    }

    /// Its edge, which has no line if it is open.
    fn edge(&self) -> Html {
        let (left, right, top, low) = (self.from, self.to, self.top, self.low());
        path(
            "edge",
            match (self.open_left, self.open_right) {
                (true, true) => {
                    html!["M", left, " ", top, "H", right, "M", left, " ", low, "H", right]
                }
                (true, false) => html!["M", left, " ", top, "H", right, "V", low, "H", left],
                (false, true) => html!["M", right, " ", top, "H", left, "V", low, "H", right],
                (false, false) => html!["M", left, " ", top, "H", right, "V", low, "H", left, "Z"],
            },
        )
    }

    /// What shows that it is pending: that it goes on, and its `:info`.
    fn pending(&self) -> Html {
        let (top, low, left) = (self.top, self.low(), self.to.saturating_sub(5));
        let goes_on = self.operation.state() == State::Pending && self.open_right;
        let more = goes_on.then(|| {
            let (tip, middle) = (self.to.saturating_sub(1), top + self.height / 2);
            let d = html!["M", left, " ", top + 4, "L", tip, " ", middle, "L", left, " ", low - 4];
            path("more", d)
        });
        let info = self.info.map(|x| path("info", html!["M", x, " ", top, "V", low]));
        html![more, info]
    }

    fn text(&self) -> Html {
        let (x, y) = (self.from + 5, self.top);
        let label = (!self.label.is_empty())
            .then(|| html!["<text x=\"", x, "\" y=\"", y + 13, "\">", self.label, "</text>"]);
        let is_left_out = self.mark == Mark::LeftOut && self.height > 18;
        html![label, is_left_out.then(|| text_at("tag", x, y + 28, html!["left out"]))]
    }

    /// The bar of an operation, or its part in a line, which is a link to the row of its point, or
    /// else to itself. It has the name of the operation where it is to be found by it.
    pub fn html(&self, is_named: bool, rank: Option<u32>, words: &Words) -> Html {
        let number = self.operation.number();
        let classes = html![
            role_class(&self.operation),
            " ",
            state_class(&self.operation),
            mark_class(self.mark)
        ];
        html![
            "<g class=\"op ",
            classes,
            "\" data-op=\"",
            number,
            "\"",
            is_named.then(|| html![" id=\"o", number, "\""]),
            ">",
            self.title(words),
            self.link(rank, words),
            "<rect class=\"fill\" x=\"",
            self.from,
            "\" y=\"",
            self.top,
            "\" width=\"",
            self.to - self.from,
            "\" height=\"",
            self.height,
            "\"/>",
            self.edge(),
            self.pending(),
            self.text(),
            "</a></g>"
        ]
    }

    /// The beginning of a link, which a screen reader names by the operation.
    fn link(&self, rank: Option<u32>, words: &Words) -> Html {
        let (operation, number) = (&self.operation, self.operation.number());
        let place = match rank {
            Some(rank) => html!["r", operation.object, "-", rank],
            None => html!["o", number],
        };
        let name = html![label(operation, words), ", #", words.event(number)];
        html!["<a href=\"#", place, "\" aria-label=\"", name, "\">"]
    }
}
