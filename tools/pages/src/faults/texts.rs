//! The sentences on a text that can't be read.

use super::Explained;
use super::excerpts::excerpt;
use crate::elements::{ByteRange, Opened, innermost_open, line_of, word_at};
use crate::timeline::{Span, spans};
use import::visible;
use verdict::TextFaultKind;

/// The characters of the longest token that a sentence has.
const TOKEN: usize = 40;

/// A text with a fault: its word, its bytes, and the fault with its byte.
#[derive(Clone, Copy)]
pub struct FaultyBytes<'a> {
    pub word: &'static str,
    pub text: &'a [u8],
    pub kind: TextFaultKind,
    pub byte: usize,
}

/// The words on a byte: before what the text has there, and after it. None: what is there is not
/// shown.
fn words_at(kind: TextFaultKind) -> (&'static str, Option<&'static str>) {
    match kind {
        TextFaultKind::BadToken => (
            " stands ",
            Some(", which is no keyword, integer or escape, and closes no bracket that is open."),
        ),
        TextFaultKind::NumberRange => (" stands ", Some(", an integer outside of 64 bits.")),
        TextFaultKind::DuplicateKey => {
            (" the key ", Some(" stands a second time in the same map."))
        }
        TextFaultKind::OddMap => (" a map is closed after a key without a value.", None),
        TextFaultKind::KeyKind => (" stands a key that is no keyword.", None),
        TextFaultKind::TooDeep => {
            (" a 17th bracket is opened; at most 16 may be open at once.", None)
        }
        TextFaultKind::NotInProfile => {
            (" stands ", Some(", which is not in this project’s profile of EDN."))
        }
        TextFaultKind::BadUtf8 | TextFaultKind::Unfinished | TextFaultKind::TooLong => {
            (" the text can’t be read.", None)
        }
    }
}

/// The token in quotation marks, or its beginning.
fn quotation(token: &[u8]) -> String {
    let whole = visible(token.get(..4 * TOKEN).unwrap_or(token));
    if whole.chars().count() <= TOKEN {
        return format!("“{whole}”");
    }
    let beginning: String = whole.chars().take(TOKEN - 1).collect();
    format!("“{beginning}…”")
}

/// The sentences on a text that ends too early.
fn explain_end(faulty: &FaultyBytes) -> Explained {
    let text = faulty.text;
    let (opened, from) = innermost_open(text).unwrap_or((Opened::Map, 0));
    let mut explained = Explained::default();
    explained.sentences.push(spans![
        "The ",
        faulty.word,
        " can’t be read. The text ends inside a ",
        opened.word(),
        ", at byte ",
        faulty.byte,
        ". It was opened at byte ",
        from,
        ", in line ",
        line_of(text, from) as u64,
        "."
    ]);
    let caption = spans!["Where the ", opened.word(), " was opened"];
    explained.excerpts.push(excerpt(text, ByteRange { from, to: from + 1 }, caption, ""));
    let end = text.strip_suffix(b"\n").unwrap_or(text).len();
    let place = ByteRange { from: end, to: end };
    let caption = spans!["Where the text ends"];
    explained.excerpts.push(excerpt(text, place, caption, "end of the text"));
    explained
}

/// Whether the bracket around the fault may have been left open by mistake.
fn asks_around(kind: TextFaultKind) -> bool {
    matches!(
        kind,
        TextFaultKind::DuplicateKey
            | TextFaultKind::OddMap
            | TextFaultKind::KeyKind
            | TextFaultKind::TooDeep
    )
}

impl Explained {
    /// Says where the map or vector around a fault was opened, if that is in an earlier line.
    fn say_around(&mut self, faulty: &FaultyBytes) {
        let text = faulty.text;
        let Some((opened, from)) = innermost_open(text.get(..faulty.byte).unwrap_or(text)) else {
            return;
        };
        let line = line_of(text, from);
        if line == line_of(text, faulty.byte) {
            return;
        }
        self.sentences.push(spans![
            "The ",
            opened.word(),
            " around it was opened at byte ",
            from,
            ", in line ",
            line as u64,
            ". Was it meant to be closed?"
        ]);
        let caption = spans!["Where the ", opened.word(), " around it was opened"];
        self.excerpts.push(excerpt(text, ByteRange { from, to: from + 1 }, caption, ""));
    }

    /// Says what is wrong at the byte of the fault.
    fn say_at(&mut self, faulty: &FaultyBytes) {
        let mut said = spans!["The ", faulty.word, " can’t be read. "];
        match (faulty.kind, words_at(faulty.kind)) {
            (TextFaultKind::BadUtf8, _) => {
                let none = "The text is not UTF-8: no whole character begins at byte ";
                said.extend(spans![none, faulty.byte, "."]);
            }
            (TextFaultKind::TooLong, _) => {
                said.extend(spans!["The text is longer than 268,435,456 bytes."]);
            }
            (_, (before, Some(after))) => {
                said.extend(spans!["At byte ", faulty.byte, before, Span::Quoted, after]);
            }
            (_, (before, None)) => said.extend(spans!["At byte ", faulty.byte, before]),
        }
        self.sentences.push(said);
    }
}

/// The sentences on a text that spells no forms.
pub fn explain_text(faulty: &FaultyBytes) -> Explained {
    if faulty.kind == TextFaultKind::Unfinished {
        return explain_end(faulty);
    }
    let place = if faulty.kind == TextFaultKind::BadUtf8 {
        ByteRange { from: faulty.byte, to: faulty.byte + 1 }
    } else {
        word_at(faulty.text, faulty.byte)
    };
    let quoted = quotation(place.of(faulty.text));
    let mut explained = Explained { quoted, ..Explained::default() };
    explained.say_at(faulty);
    let caption = spans!["E", u32::from(faulty.kind.number()), " at byte ", faulty.byte];
    explained.excerpts.push(excerpt(faulty.text, place, caption, "here"));
    if asks_around(faulty.kind) {
        explained.say_around(faulty);
    }
    explained
}
