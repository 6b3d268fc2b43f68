//! The page of a malformed text.

mod excerpts;
mod forms;
mod lines;
mod maps;
mod texts;

use crate::drawing::FaultyDrawing;
use crate::page::{Excerpt, Page, PageKind, Place, html_of};
use crate::timeline::{Spans, spans};
use crate::words::Words;
use forms::explain_form;
pub use lines::fault_lines;
use maps::explain_map;
use texts::{FaultyBytes, explain_text};
use verdict::Fault;

/// The explanation of a malformed text: sentences, the excerpts of the text that they name, what
/// the text has at the fault, and the history before it.
#[derive(Default)]
struct Explained {
    sentences: Vec<Spans>,
    excerpts: Vec<Excerpt>,
    quoted: String,
    before: Option<FaultyDrawing>,
}

/// The number that a text spells.
fn number_in(value: Option<&[u8]>) -> Option<u64> {
    std::str::from_utf8(value?).ok()?.parse().ok()
}

fn explain(text: &[u8], fault: Fault) -> Explained {
    match fault {
        Fault::Text { which, kind, byte } => explain_text(&FaultyBytes {
            word: which.word(),
            text,
            kind,
            byte: byte.min(text.len()),
        }),
        Fault::Map { kind, map } => explain_map(text, kind, map),
        Fault::Form { kind, form } => explain_form(text, kind, form),
    }
}

/// The page of a malformed text with this name, of which these lines were said.
pub fn malformed_page(name: &str, text: &[u8], fault: Fault, lines: &str) -> String {
    let explained = explain(text, fault);
    html_of(&Page {
        answer: PageKind::Malformed,
        title: &format!("malformed {}: {name}", fault.code()),
        facts: name,
        sentences: &explained.sentences,
        lines,
        objects: &[],
        drawings: &[],
        place: Some(&Place { excerpts: &explained.excerpts, before: explained.before.as_ref() }),
        quoted: &explained.quoted,
        words: Words::default(),
    })
}

/// The page of texts of which nothing is known, since the judge had not enough memory.
pub fn memory_page(name: &str, lines: &str) -> String {
    html_of(&Page {
        answer: PageKind::NoMemory,
        title: &format!("out of memory: {name}"),
        facts: name,
        sentences: &[spans!["An allocation failed, so the texts were not judged."]],
        lines,
        objects: &[],
        drawings: &[],
        place: None,
        quoted: "",
        words: Words::default(),
    })
}
