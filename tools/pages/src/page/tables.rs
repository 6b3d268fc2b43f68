//! Tables: of the objects, of an order, and of the orders of a reason's operations.

use super::html::{Html, html};
use super::sentences::{Shown, code};
use super::{ObjectRow, Page, PageKind};
use crate::figures::{count_text, digits, label};
use crate::timeline::{Attempt, Entry, Failure, ObjectDrawing, Row, Span, Tried};
use crate::words::Words;
use finder::Reply;

/// The characters of the longest row of a table that is beside its figure.
const BESIDE: usize = 46;

/// The most rows of the table of objects.
const MOST_OBJECTS: usize = 64;

/// A table of this class, with its name, its title and the heads of its columns.
struct Table<'a> {
    class: &'static str,
    name: Html,
    title: Html,
    heads: &'a [&'static str],
}

impl Table<'_> {
    fn html(&self, rows: Html) -> Html {
        let head = |head: &&str| html!["<th scope=\"col\">", *head, "</th>"];
        html![
            "<div class=\"tbl ",
            self.class,
            "\" tabindex=\"0\" role=\"region\" aria-label=\"",
            self.title,
            "\"><table id=\"",
            self.name,
            "\" class=\"",
            self.class,
            "\"><caption><span>",
            self.title,
            "</span></caption><thead><tr>",
            self.heads.iter().map(head).collect::<Html>(),
            "</tr></thead><tbody>",
            rows,
            "</tbody></table></div>\n"
        ]
    }

    /// A row that says how many are not shown.
    fn skipped(&self, count: usize, what: &'static str) -> Html {
        let columns = self.heads.len();
        let count = count_text(count);
        html!["<tr class=\"skip\"><td colspan=\"", columns, "\">", count, what, "</td></tr>"]
    }
}

fn row_head(number: usize) -> Html {
    html!["<th scope=\"row\">", number, "</th>"]
}

fn cell(content: Html) -> Html {
    html!["<td>", content, "</td>"]
}

/// The row of an entry of an order: its place from 1, its operation or its number, and what the
/// object contains after it.
fn entry_row(
    drawing: &ObjectDrawing,
    rank: usize,
    operation: Html,
    content: Option<&String>,
    entry: Entry,
    shown: &Shown,
) -> Html {
    let (class, content) = match entry {
        Entry::Valid => (None, content.map(|content| code(content)).unwrap_or_default()),
        Entry::Refused => (Some("bad"), shown.spans(&drawing.because, "")),
        Entry::NotLookedAt => (Some("after"), html!["not looked at"]),
    };
    let class = class.map(|class| html![" class=\"", class, "\""]);
    html![
        "<tr id=\"r",
        drawing.object,
        "-",
        rank,
        "\"",
        class,
        ">",
        row_head(rank),
        cell(operation),
        cell(content),
        "</tr>\n"
    ]
}

/// The table of the order.
pub fn order_table(drawing: &ObjectDrawing, shown: &Shown) -> Html {
    let object = shown.words.name_of(drawing.object);
    let table = Table {
        class: "order",
        name: html!["t", drawing.object],
        title: if drawing.is_open {
            html!["The longest order that was found of object ", object]
        } else {
            html!["The order of object ", object]
        },
        heads: &["rank", "operation", drawing.kind.words.content_title],
    };
    let row = |row: &Row| match row {
        Row::Skipped(1) => table.skipped(1, " entry not shown"),
        Row::Skipped(count) => table.skipped(*count, " entries not shown"),
        Row::Entry { rank, number, operation, content, entry } => {
            let operation = match operation {
                Some(operation) => shown.operation(operation),
                None => code(&number.to_string()),
            };
            entry_row(drawing, *rank, operation, content.as_ref(), *entry, shown)
        }
    };
    table.html(drawing.rows.iter().map(row).collect())
}

fn characters(text: &str) -> usize {
    text.chars().count()
}

/// The characters of why the entry is refused.
fn because_length(drawing: &ObjectDrawing, words: &Words) -> usize {
    let length = |span: &Span| match span {
        Span::Text(text) => characters(text),
        Span::Number(number) => digits(*number) as usize,
        Span::Object(object) => characters(&words.name_of(*object)),
        Span::Event(number) => digits(u64::from(*number)) as usize + 1,
        Span::Value(value) => characters(&value.to_string()),
        _ => 0,
    };
    drawing.because.iter().map(length).sum()
}

/// The characters of a row of an order.
fn row_length(drawing: &ObjectDrawing, row: &Row, words: &Words) -> usize {
    let Row::Entry { rank, operation, content, entry, .. } = row else {
        return 0;
    };
    let operation = operation.as_ref().map_or(0, |operation| {
        characters(&label(operation, words)) + digits(u64::from(operation.number())) as usize + 1
    });
    let content = content.as_ref().map_or(0, |content| characters(content));
    let because = if *entry == Entry::Refused { because_length(drawing, words) } else { 0 };
    digits(*rank as u64) as usize + operation + content + because
}

/// Whether each row of the order is short enough for the table to be beside its figure.
pub fn is_narrow(drawing: &ObjectDrawing, words: &Words) -> bool {
    drawing.rows.iter().all(|row| row_length(drawing, row, words) <= BESIDE)
}

/// The title of the table of the orders that were tried.
fn tried_title(tried: &Tried) -> Html {
    let ways = tried.attempts.len() + tried.more;
    let said = if !tried.is_complete {
        html!["Ways to begin"]
    } else if ways == 1 {
        html![
            "Every order breaks. There is one way to begin, up to equal content, and up to the operation that does not fit"
        ]
    } else {
        let all = if ways == 2 { html!["Both"] } else { html!["All ", ways] };
        html![
            "Every order breaks. ",
            all,
            " ways to begin, up to equal content, each up to the operation that does not fit"
        ]
    };
    let other = tried.other.map(|_| ". “other” is any value that the reason does not keep");
    html![said, other]
}

impl Tried {
    /// What an object gives, or that it is any value that the part does not keep.
    fn reply(&self, reply: Reply, words: &Words) -> Html {
        match reply {
            Reply::Value(Some(value)) if Some(value) == self.other => html!["other"],
            _ => html![words.values(reply.value().to_string())],
        }
    }

    fn failure(&self, failure: Failure, words: &Words) -> Html {
        match failure {
            Failure::NotPossible => html!["is not possible"],
            Failure::Gives(gives, returned) => {
                let returned = words.values(returned.value().to_string());
                html!["gives ", self.reply(gives, words), ", returned ", returned]
            }
        }
    }

    fn row(&self, place: usize, attempt: &Attempt, shown: &Shown) -> Html {
        html![
            "<tr>",
            row_head(place),
            cell(shown.operations(&attempt.before)),
            cell(code(&attempt.content)),
            cell(shown.operation(&attempt.next)),
            cell(self.failure(attempt.failure, &shown.words)),
            "</tr>\n"
        ]
    }
}

/// The table of the orders that were tried.
pub fn tried_table(tried: &Tried, shown: &Shown) -> Html {
    let table = Table {
        class: "tried",
        name: html!["tried"],
        title: tried_title(tried),
        heads: &["", "order up to there", "content there", "next", "which"],
    };
    let attempts = tried.attempts.iter().zip(1..);
    let rows: Html = attempts.map(|(attempt, place)| tried.row(place, attempt, shown)).collect();
    let more = (tried.more > 0).then(|| table.skipped(tried.more, " more"));
    table.html(html![rows, more])
}

fn object_row(page: &Page, row: &ObjectRow) -> Html {
    let is_drawn = page.drawings.iter().any(|drawing| drawing.object == row.object);
    let name = html!["object ", page.words.name_of(row.object)];
    let name =
        if is_drawn { html!["<a href=\"#object-", row.object, "\">", name, "</a>"] } else { name };
    let is_bad = row.is_faulty && page.answer != PageKind::Open;
    html![
        "<tr",
        is_bad.then(|| html![" class=\"bad\""]),
        ">",
        cell(name),
        cell(html![row.kind.word]),
        cell(html![count_text(row.operations)]),
        cell(html![count_text(row.pending)]),
        cell(html![count_text(row.failed)]),
        cell(html![row.answer]),
        "</tr>\n"
    ]
}

/// The table of the objects, of which those that are drawn are links. An object that stays open is
/// not at fault. The last row of a full table is the one at fault of those that are left, or else
/// the next one.
pub fn object_table(page: &Page) -> Html {
    let table = Table {
        class: "overview",
        name: html!["objects"],
        title: html!["Objects"],
        heads: &["object", "kind", "operations", "pending", "failed", "answer"],
    };
    let (first, others) = page.objects.split_at(page.objects.len().min(MOST_OBJECTS - 1));
    let last = others.iter().find(|row| row.is_faulty).or(others.first());
    let rows = first.iter().chain(last).map(|row| object_row(page, row));
    let more = match page.objects.len().saturating_sub(MOST_OBJECTS) {
        0 => None,
        1 => Some(table.skipped(1, " more object")),
        count => Some(table.skipped(count, " more objects")),
    };
    table.html(html![rows.collect::<Html>(), more])
}
