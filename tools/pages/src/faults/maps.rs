//! The sentences on a text that can be read and is no history, and the history before its fault.

use super::excerpts::excerpt;
use super::{Explained, number_in};
use crate::drawing::{Faulty, FaultyDrawing, draw_up_to};
use crate::elements::{ByteRange, elements_in, value_in};
use crate::figures::FaultyMap;
use crate::timeline::{DrawnOperation, Span, Spans, spans};
use finder::{FUNCTION_COUNT, History, read_history};
use verdict::MapFaultKind;

/// What is wrong with a map, in general: before its number, and after it.
fn general(kind: MapFaultKind) -> Spans {
    let words = match kind {
        MapFaultKind::NotAnOperation => {
            " is no operation: its :process, :type, :f or :object is missing or not of the right \
             kind."
        }
        MapFaultKind::UnknownFunction => {
            return spans![" names a function that is none of the ", FUNCTION_COUNT, "."];
        }
        MapFaultKind::BadValue => " does not fit its :f: it must be what that takes, or returns.",
        MapFaultKind::MixedKinds => {
            " calls a function of another kind than the earlier events on its object."
        }
        MapFaultKind::Busy => {
            " invokes an operation of a process whose operation is still outstanding."
        }
        MapFaultKind::Stray => " completes an operation, and its process has none outstanding.",
        MapFaultKind::Mismatch => " completes another :f or :object than its process invoked.",
        MapFaultKind::AfterInfo => " is of a process that an :info had closed.",
        MapFaultKind::TooMany => " is one too many: a history has at most 1,000,000.",
    };
    spans![words]
}

/// The faulty map as its text has it: its fault, its number, its place, its process and object if
/// they are numbers, and its type and function.
struct Map<'a> {
    kind: MapFaultKind,
    number: usize,
    place: ByteRange,
    process: Option<u64>,
    object: u32,
    type_name: &'a str,
    function: &'a str,
}

/// A keyword without its colon.
fn name_of(keyword: Option<&[u8]>) -> &str {
    let name = keyword.and_then(|keyword| keyword.get(1..)).unwrap_or(&[]);
    std::str::from_utf8(name).unwrap_or("")
}

impl<'a> Map<'a> {
    fn read(text: &'a [u8], kind: MapFaultKind, number: usize, place: ByteRange) -> Map<'a> {
        let map = place.of(text);
        let object = number_in(value_in(map, b":object"));
        Map {
            kind,
            number,
            place,
            process: number_in(value_in(map, b":process")),
            object: object.map_or(0, |object| u32::try_from(object).unwrap_or(u32::MAX)),
            type_name: name_of(value_in(map, b":type")),
            function: name_of(value_in(map, b":f")),
        }
    }

    /// The earlier map that it clashes with, if it does with one.
    fn clashes_with(&self, history: &History) -> Option<u32> {
        let last_run = || history.runs.iter().rfind(|run| Some(run.process) == self.process);
        match self.kind {
            MapFaultKind::MixedKinds => {
                let object = history.objects.iter().find(|it| it.object == self.object)?;
                Some(object.ops.first()?.number)
            }
            MapFaultKind::Busy | MapFaultKind::Mismatch => Some(last_run()?.number),
            MapFaultKind::AfterInfo => {
                let run = last_run()?;
                Some(run.completed.unwrap_or(run.number))
            }
            _ => None,
        }
    }

    /// What is wrong with it, if it has a process, and an earlier map if it needs one.
    fn clash(&self, earlier: Option<&Earlier>) -> Option<Spans> {
        let process = self.process?;
        if self.kind == MapFaultKind::Stray {
            let completes = " completes an operation of process ";
            return Some(spans![completes, process, ", which has none outstanding."]);
        }
        Some(clash_words(self.kind, process, earlier?))
    }

    /// The sentence on it.
    fn sentence(&self, earlier: Option<&Earlier>) -> Spans {
        let mut sentence = spans!["The text can be read, but it is no history. "];
        match self.clash(earlier) {
            Some(clash) => {
                sentence.extend(spans!["Event ", self.number as u64]);
                sentence.extend(clash);
            }
            None => {
                let is_of_value = self.kind == MapFaultKind::BadValue;
                let event = if is_of_value { "The :value of event " } else { "Event " };
                sentence.extend(spans![event, self.number as u64]);
                sentence.extend(general(self.kind));
            }
        }
        sentence
    }

    /// The history before it, drawn; none if it can't be read again.
    fn before(&self, text: &[u8]) -> Option<Before> {
        let history = read_history(&text[..self.place.from])?;
        let number = self.clashes_with(&history);
        let words = format!("{} {}", self.type_name, self.function);
        let map = FaultyMap {
            number: self.number.min(u32::MAX as usize - 1) as u32,
            fault: self.kind.number(),
            process: self.process,
            words: words.trim(),
        };
        Some(Before {
            drawing: draw_up_to(&Faulty { history: &history, map, earlier: number }),
            number,
        })
    }
}

/// What is wrong with a map of this process that clashes with an earlier one.
fn clash_words(fault: MapFaultKind, process: u64, earlier: &Earlier) -> Spans {
    let Earlier { number, operation } = *earlier;
    match fault {
        MapFaultKind::Busy => spans![
            " invokes an operation of process ",
            process,
            ", and ",
            operation,
            " of that process is still outstanding."
        ],
        MapFaultKind::Mismatch => spans![
            " completes an operation of process ",
            process,
            ", but with another :f or :object than ",
            operation,
            ", which is outstanding."
        ],
        MapFaultKind::AfterInfo => spans![
            " is of process ",
            process,
            ", which the :info at event ",
            number,
            " closed: ",
            operation,
            " may have happened or not, so what it does next must be of another process."
        ],
        // Of other kinds than these and mixed ones there is no earlier map.
        _ => spans![
            " calls a function of another kind on an object that ",
            operation,
            " made a ",
            operation.op().kind(),
            "."
        ],
    }
}

/// What the earlier map is to the faulty one.
fn caption_of(kind: MapFaultKind) -> &'static str {
    match kind {
        MapFaultKind::MixedKinds => "The object’s first event, ",
        MapFaultKind::Busy => "The operation that is outstanding, event ",
        MapFaultKind::Mismatch => "What the process invoked, event ",
        _ => "The :info that closed the process, event ",
    }
}

/// An earlier map with which a faulty one clashes: its number and its operation.
struct Earlier {
    number: u32,
    operation: DrawnOperation,
}

/// The history before a faulty map, and the number of the map that it clashes with.
struct Before {
    drawing: FaultyDrawing,
    number: Option<u32>,
}

impl Before {
    fn earlier(&self) -> Option<Earlier> {
        Some(Earlier { number: self.number?, operation: self.drawing.earlier? })
    }
}

/// The sentences on a text of which this map makes it no history, and the history before the map.
pub fn explain_map(text: &[u8], kind: MapFaultKind, number: usize) -> Explained {
    let nowhere = ByteRange { from: text.len(), to: text.len() };
    let place = |number| elements_in(text, 0).nth(number).unwrap_or(nowhere);
    let map = Map::read(text, kind, number, place(number));
    let before = map.before(text);
    let earlier = before.as_ref().and_then(Before::earlier);
    let mut explained = Explained::default();
    explained.sentences.push(map.sentence(earlier.as_ref()));
    let caption = spans!["H", u32::from(kind.number()), " at map ", number as u64];
    explained.excerpts.push(excerpt(text, map.place, caption, "here"));
    if let Some(earlier) = earlier {
        let caption = vec![Span::from(caption_of(kind)), Span::from(earlier.number)];
        let place = place(earlier.number as usize);
        explained.excerpts.push(excerpt(text, place, caption, "here"));
    }
    explained.before = before.map(|before| before.drawing);
    explained
}
