//! What an object contains, as boxes.

use super::figures::{large_class, scaled, text_at};
use super::html::{Html, html};
use crate::figures::SMALL;
use crate::timeline::{BoxKind, ContentBox, ObjectDrawing};
use crate::words::Words;

fn box_class(kind: BoxKind) -> &'static str {
    match kind {
        BoxKind::Plain => "",
        BoxKind::Gives => "gives",
        BoxKind::Returned => "returned",
        BoxKind::Absent => "absent",
        BoxKind::Skip => "skip",
    }
}

impl ContentBox {
    /// What is said under it.
    fn words_under(&self, middle: u32, names: &Words) -> Html {
        let words = self.under.iter().filter(|words| !words.is_empty()).map(|words| html![*words]);
        let words = words.chain(self.by.map(|by| html!["put by #", names.event(by)]));
        words
            .zip(0..)
            .map(|(words, line)| text_at("under", middle, line * 12 + 44, words))
            .collect()
    }

    fn html(&self, names: &Words) -> Html {
        let middle = self.x + self.width / 2;
        let is_absent = self.kind == BoxKind::Absent;
        html![
            is_absent.then(|| text_at("ne", self.x.saturating_sub(17), 20, html!["≠"])),
            "<g class=\"box ",
            box_class(self.kind),
            "\"><rect x=\"",
            self.x,
            "\" y=\"2\" width=\"",
            self.width,
            "\" height=\"26\"/><text x=\"",
            middle,
            "\" y=\"19\">",
            self.text,
            "</text>",
            self.words_under(middle, names),
            "</g>"
        ]
    }
}

/// What the object contains before the entry that is refused, which has this rank.
pub fn content_figure(drawing: &ObjectDrawing, rank: usize, words: &Words) -> Option<Html> {
    let last = drawing.boxes.last()?;
    let width = last.x + last.width + 4;
    let (kind, end) = (drawing.kind.word, drawing.kind.words.left_end);
    let caption = html!["The ", kind, " before entry ", rank, end];
    Some(html![
        "<figure id=\"content\"><figcaption>",
        caption,
        "</figcaption><div class=\"scroll",
        large_class(width <= SMALL),
        "\"><svg class=\"content\" viewBox=\"0 0 ",
        width,
        " 62\" width=\"",
        scaled(width, width <= SMALL),
        "\" height=\"",
        scaled(62, width <= SMALL),
        "\" role=\"group\" aria-label=\"",
        caption,
        "\">",
        drawing.boxes.iter().map(|it| it.html(words)).collect::<Html>(),
        "</svg></div></figure>\n"
    ])
}
