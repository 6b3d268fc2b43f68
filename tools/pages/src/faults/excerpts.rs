//! A line of a text with a place in it marked, and the lines around it.

use crate::elements::{ByteRange, line_of};
use crate::page::{Excerpt, MarkedLine, TextLine};
use crate::timeline::Spans;
use import::visible;

/// How many bytes of a line are shown before and after the mark, of the mark, and of another line.
const BESIDE_MARK: usize = 80;
const MARKED: usize = 160;
const LINE: usize = 160;

/// How many lines are shown before and after.
const LINES: usize = 2;

/// Where the line of this byte begins.
fn line_start(text: &[u8], at: usize) -> usize {
    text[..at].iter().rposition(|byte| *byte == b'\n').map_or(0, |end| end + 1)
}

/// Where the line of this byte ends.
fn line_end(text: &[u8], at: usize) -> usize {
    text[at..].iter().position(|byte| *byte == b'\n').map_or(text.len(), |length| at + length)
}

/// The first place from this one on at which a character begins.
fn beginning(text: &[u8], at: usize) -> usize {
    let rest = text.get(at..).unwrap_or(&[]);
    at + rest.iter().take(3).take_while(|byte| (0x80..0xc0).contains(*byte)).count()
}

/// As much as is shown of the line at this place.
fn text_line(text: &[u8], line: ByteRange, number: usize) -> TextLine {
    let most = beginning(text, line.from + LINE);
    let mut shown = visible(&text[line.from..line.to.min(most)]);
    if line.to > most {
        shown.push('…');
    }
    TextLine { number, text: shown }
}

/// The lines before the one that begins here, which has this number.
fn lines_before(text: &[u8], start: usize, number: usize) -> Vec<TextLine> {
    let mut lines = Vec::new();
    let mut next = start;
    for back in 1..=LINES {
        let Some(to) = next.checked_sub(1) else {
            break;
        };
        next = line_start(text, to);
        lines.push(text_line(text, ByteRange { from: next, to }, number - back));
    }
    lines.reverse();
    lines
}

/// The lines after the one that ends here, which has this number.
fn lines_after(text: &[u8], end: usize, number: usize) -> Vec<TextLine> {
    let mut lines = Vec::new();
    let mut from = end + 1;
    for on in 1..=LINES {
        if from >= text.len() {
            break;
        }
        let to = line_end(text, from);
        lines.push(text_line(text, ByteRange { from, to }, number + on));
        from = to + 1;
    }
    lines
}

/// The line with the place in it marked. Of a place that goes on in the next line as much is marked
/// as is in this one.
fn marked_line(
    text: &[u8],
    line: ByteRange,
    place: ByteRange,
    missing: &'static str,
) -> MarkedLine {
    let most = beginning(text, place.from + MARKED);
    let to = place.to.min(line.to).min(most);
    let from = beginning(text, line.from.max(place.from.saturating_sub(BESIDE_MARK)));
    let is_cut = to < place.to.min(line.to);
    let end = if is_cut { to } else { line.to.min(beginning(text, to + BESIDE_MARK)) };
    let shown = |from, to| visible(ByteRange { from, to }.of(text));
    MarkedLine {
        number: line_of(text, line.from),
        is_cut_before: from > line.from,
        before: shown(from, place.from),
        marked: shown(place.from, to),
        is_mark_cut: is_cut,
        after: shown(to, end),
        is_cut_after: !is_cut && end < line.to,
        missing,
    }
}

/// The line of the place, with the place marked, and the lines around it. If the place is empty,
/// a word says what is missing there.
pub fn excerpt(text: &[u8], place: ByteRange, caption: Spans, missing: &'static str) -> Excerpt {
    let from = place.from.min(text.len());
    let line = ByteRange { from: line_start(text, from), to: line_end(text, from) };
    let place = ByteRange { from, to: place.to.max(from) };
    let marked = marked_line(text, line, place, missing);
    Excerpt {
        caption,
        before: lines_before(text, line.from, marked.number),
        after: lines_after(text, line.to, marked.number),
        line: marked,
    }
}
