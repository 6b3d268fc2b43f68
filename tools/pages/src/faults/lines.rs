//! What is wrong with a malformed history, in lines: the event and its key, the value that is
//! there, and what is expected; and the text of the event.

use super::number_in;
use crate::elements::{ByteRange, Opened, elements_in, innermost_open, line_of, value_in, word_at};
use finder::{Function, function, function_names};
use import::visible;
use verdict::{Fault, MapFaultKind, TextFaultKind, Which};

/// The longest piece of a text that is shown.
const LONGEST: usize = 200;

/// A piece of the text in one line, or its beginning.
fn shown(bytes: &[u8]) -> String {
    let text = visible(bytes.get(..4 * LONGEST).unwrap_or(bytes));
    match text.char_indices().nth(LONGEST) {
        Some((end, _)) => format!("{}…", &text[..end]),
        None => text,
    }
}

fn function_of(keyword: &[u8]) -> Option<&'static Function> {
    function(keyword.strip_prefix(b":")?)
}

fn is_natural(value: &[u8]) -> bool {
    number_in(Some(value)).is_some()
}

/// The greatest object of a history that is divided.
const LAST_OBJECT_OF_SPLIT: u64 = 4_294_967_295;

/// The first key of a map that has not what it must have, what is there, and what is expected.
fn wrong_key(map: &[u8]) -> (&'static str, Option<&[u8]>, &'static str) {
    let is_keyword = |value: &[u8]| value.starts_with(b":");
    let is_type = |value: &[u8]| [&b":invoke"[..], b":ok", b":fail", b":info"].contains(&value);
    let is_object = |value: &[u8]| number_in(Some(value)).is_some_and(|it| it <= 65_535);
    let process = value_in(map, b":process");
    if !process.is_some_and(is_natural) {
        return (":process", process, "an integer of at least 0, or a keyword");
    }
    let kind = value_in(map, b":type");
    if !kind.is_some_and(is_type) {
        return (":type", kind, ":invoke, :ok, :fail or :info");
    }
    let function = value_in(map, b":f");
    if !function.is_some_and(is_keyword) {
        return (":f", function, "a keyword");
    }
    let object = value_in(map, b":object").filter(|value| !is_object(value));
    let is_for_split = number_in(object).is_some_and(|it| it <= LAST_OBJECT_OF_SPLIT);
    let expected = match is_for_split {
        true => "an integer from 0 to 65535; fcbench split takes greater ones",
        false => "an integer from 0 to 65535",
    };
    (":object", object, expected)
}

/// A key with what is there.
fn key_and_value(key: &str, value: Option<&[u8]>) -> String {
    match value {
        Some(value) => format!("{key} {}", shown(value)),
        None => format!("no {key}"),
    }
}

/// The last earlier event for which this holds.
fn last_before(
    text: &[u8],
    number: usize,
    holds: impl Fn(&[u8]) -> bool,
) -> Option<(usize, &[u8])> {
    let all = elements_in(text, 0).take(number).map(|place| place.of(text)).enumerate();
    all.filter(|(_, map)| holds(map)).last()
}

/// What the events before this one made of its process.
fn of_process(text: &[u8], number: usize, map: &[u8], kind: MapFaultKind) -> String {
    let process = value_in(map, b":process").unwrap_or(b"?");
    let is_own = |it: &[u8]| value_in(it, b":process") == Some(process);
    let process = shown(process);
    let Some((earlier, invoked)) = last_before(text, number, is_own) else {
        return format!("process {process} has nothing outstanding");
    };
    let of_invoked =
        |key: &[u8], default: &'static [u8]| shown(value_in(invoked, key).unwrap_or(default));
    match kind {
        MapFaultKind::Busy => {
            format!("process {process} has an operation outstanding since event {earlier}")
        }
        MapFaultKind::Stray => {
            format!("process {process} has nothing outstanding since event {earlier}")
        }
        MapFaultKind::AfterInfo => format!(
            "event {earlier} is the :info of process {process}, which has no events after it: its thread goes on as another process"
        ),
        _ => format!(
            "event {earlier} of process {process} invoked {} on object {}, and this is {} on object {}",
            of_invoked(b":f", b"?"),
            of_invoked(b":object", b"0"),
            shown(value_in(map, b":f").unwrap_or(b"?")),
            shown(value_in(map, b":object").unwrap_or(b"0")),
        ),
    }
}

/// The first event on the object of this one.
fn of_object(text: &[u8], map: &[u8]) -> String {
    let object = value_in(map, b":object").unwrap_or(b"0");
    let is_own = |it: &&[u8]| {
        value_in(it, b":process").is_some_and(is_natural)
            && value_in(it, b":object").unwrap_or(b"0") == object
    };
    let first =
        elements_in(text, 0).map(|place| place.of(text)).enumerate().find(|(_, it)| is_own(it));
    let (first, of) =
        first.map_or((0, &b"?"[..]), |(place, it)| (place, value_in(it, b":f").unwrap_or(b"?")));
    format!(
        "event {first}, the first one on object {}, has {}, of another kind",
        shown(object),
        shown(of)
    )
}

/// What an event has and what is expected of it.
fn of_event(text: &[u8], number: usize, map: &[u8], kind: MapFaultKind) -> String {
    let value = value_in(map, b":value").unwrap_or(b"nil");
    let named = value_in(map, b":f").unwrap_or(b"?");
    match kind {
        MapFaultKind::NotAnOperation if !map.starts_with(b"{") => "it is no map".to_owned(),
        MapFaultKind::NotAnOperation => {
            let (key, value, expected) = wrong_key(map);
            format!("{}: expected is {expected}", key_and_value(key, value))
        }
        MapFaultKind::UnknownFunction => {
            format!(":f {}: it is none of {}", shown(named), function_names())
        }
        MapFaultKind::BadValue => {
            let is_invoked = value_in(map, b":type") == Some(b":invoke");
            let (takes, replies) = function_of(named)
                .map_or(("?", "?"), |function| (function.takes, function.replies));
            let (does, expected) = if is_invoked { ("takes", takes) } else { ("replies", replies) };
            format!(":value {}: {} {does} {expected}", shown(value), shown(named))
        }
        MapFaultKind::MixedKinds => format!(":f {}: {}", shown(named), of_object(text, map)),
        MapFaultKind::TooMany => {
            "a history has at most 1,000,000 events; fcbench split divides a longer one".to_owned()
        }
        _ => of_process(text, number, map, kind),
    }
}

/// What is wrong with a token that is there, by what it begins with.
fn of_token(there: &str) -> &'static str {
    match there.chars().next() {
        Some(':') => {
            "it is no keyword: after the colon a letter, and then letters, digits, -, _, ., ? and !"
        }
        Some('\\') => "it is none of the escapes \\t, \\r, \\n, \\\\ and \\\"",
        Some(']' | '}') => "it closes nothing that is open",
        _ => "it is no integer",
    }
}

/// What is open at the end of a text that ends too early.
fn of_end(text: &[u8]) -> String {
    let (opened, from) = innermost_open(text).unwrap_or((Opened::Map, 0));
    format!("the text ends inside the {} of line {}", opened.word(), line_of(text, from))
}

/// What a text that is no EDN begins with, and the sentence for it.
const BEGINNINGS: [(&[u8], &str); 2] = [
    (b"\xef\xbb\xbf", "a byte order mark: remove it"),
    (b"\x1f\x8b", "the file is compressed: decompress it with zcat first"),
];

/// The sentence for a text with a fault at its beginning, if the text is of a sort that is known.
fn of_beginning(text: &[u8], byte: usize) -> Option<&'static str> {
    let known = BEGINNINGS.iter().find(|(begin, _)| byte < begin.len() && text.starts_with(begin));
    known.map(|(_, said)| *said)
}

/// What is wrong with a text, of which this is at the fault.
fn of_text(text: &[u8], kind: TextFaultKind, there: &str) -> String {
    let said = match kind {
        TextFaultKind::BadUtf8 => "the text is not UTF-8",
        TextFaultKind::Unfinished => return of_end(text),
        TextFaultKind::BadToken => of_token(there),
        TextFaultKind::NumberRange => "it is an integer past 64 bits",
        TextFaultKind::DuplicateKey => "the key is in the same map twice",
        TextFaultKind::OddMap => "a map is closed after a key without a value",
        TextFaultKind::KeyKind => "a key of a map is a keyword",
        TextFaultKind::TooDeep => "at most 16 brackets may be open at once",
        TextFaultKind::NotInProfile => {
            "this is EDN that is not read, as a float, a list, a set, a tag or a symbol"
        }
        TextFaultKind::TooLong => "a text has at most 268,435,456 bytes",
    };
    said.to_owned()
}

/// The word, or the string, that begins at the byte.
fn there_at(text: &[u8], byte: usize) -> &[u8] {
    let rest = &text[byte..];
    let string = rest.starts_with(b"\"").then(|| elements_in(rest, 0).next()).flatten();
    string.map_or_else(|| word_at(text, byte).of(text), |place| place.of(rest))
}

/// Lines on what is wrong with a history, of which this is the text. None on other faults.
pub fn fault_lines(text: &[u8], fault: Fault) -> Option<String> {
    match fault {
        Fault::Map { kind, map: number } => {
            let place = elements_in(text, 0).nth(number).unwrap_or(ByteRange { from: 0, to: 0 });
            let map = place.of(text);
            let line = line_of(text, place.from);
            let said = of_event(text, number, map, kind);
            Some(format!(
                "; event {number}, line {line}: {said}\n; event {number}: {}\n",
                shown(map)
            ))
        }
        Fault::Text { which: Which::History, kind: kind @ TextFaultKind::TooLong, .. } => {
            Some(format!("; line 1: {}\n", of_text(text, kind, "")))
        }
        Fault::Text { which: Which::History, kind, byte } => {
            let byte = byte.min(text.len());
            if let Some(said) = of_beginning(text, byte) {
                return Some(format!("; line 1: {said}\n"));
            }
            let there = shown(there_at(text, byte));
            let said = of_text(text, kind, &there);
            let there = if there.is_empty() { "the end of the text".to_owned() } else { there };
            Some(format!("; line {}: {there}: {said}\n", line_of(text, byte)))
        }
        Fault::Text { .. } | Fault::Form { .. } => None,
    }
}

#[cfg(test)]
mod tests {
    use super::*;
    use verdict::Verdict;

    fn lines(text: &str, answer: &str) -> String {
        let Some(Verdict::Malformed(fault)) = Verdict::read(answer) else {
            panic!("no fault: {answer}");
        };
        fault_lines(text.as_bytes(), fault).unwrap_or_default()
    }

    /// The first line on an event of this text, after its number.
    fn said(text: &str, code: &str, number: usize) -> String {
        let explained = lines(text, &format!("malformed history: {code} at map {number}\n"));
        let first = explained.lines().next().expect("a line");
        first.split_once(": ").expect("a place").1.to_owned()
    }

    #[test]
    fn names_key_value_and_shape() {
        let event = |keys: &str| format!("{{:process 0, :type :invoke, {keys}}}");
        for (keys, code, wanted) in [
            (":f :write, :value \"abc\"", "H3", ":value \"abc\": :write takes an integer"),
            (":f :write, :value [1 2]", "H3", ":value [1 2]: :write takes an integer"),
            (":f :write", "H3", ":value nil: :write takes an integer"),
            (
                ":f :cas, :value [nil 5]",
                "H3",
                ":value [nil 5]: :cas takes a pair of integers, [old new]",
            ),
            (":f :acquire, :value \"me\"", "H3", ":value \"me\": :acquire takes nil"),
            (":f :read, :value [1 nil]", "H3", ":value [1 nil]: :read takes nil"),
            (":f :read, :object :x", "H1", ":object :x: expected is an integer from 0 to 65535"),
            (
                ":f :read, :object 65536",
                "H1",
                ":object 65536: expected is an integer from 0 to 65535; fcbench split takes greater ones",
            ),
            (":f \"read\"", "H1", ":f \"read\": expected is a keyword"),
            (":value 1", "H1", "no :f: expected is a keyword"),
        ] {
            assert_eq!(said(&event(keys), code, 0), wanted, "{keys}");
        }
        let other = "{:process \"n1\", :type :invoke, :f :read}";
        assert_eq!(
            said(other, "H1", 0),
            ":process \"n1\": expected is an integer of at least 0, or a keyword"
        );
        assert_eq!(said("[{:process 0}]", "H1", 0), "it is no map");
        let drains = said(&event(":f :drain"), "H2", 0);
        assert!(
            drains.starts_with(":f :drain: it is none of :enqueue, :dequeue, ")
                && drains.ends_with(":unlock"),
            "{drains}"
        );
        let replaces = said(&event(":f :replace, :value [1 2]"), "H3", 0);
        assert_eq!(replaces, ":value [1 2]: :replace takes three integers, [key old new]");
    }

    #[test]
    fn names_the_event_that_it_clashes_with() {
        let text = "{:process 0, :type :invoke, :f :read}\n{:process 0, :type :ok, :f :write, :value 1}\n{:process 1, :type :ok, :f :read}";
        assert_eq!(
            said(text, "H7", 1),
            "event 0 of process 0 invoked :read on object 0, and this is :write on object 0"
        );
        assert_eq!(said(text, "H5", 1), "process 0 has an operation outstanding since event 0");
        assert_eq!(said(text, "H6", 2), "process 1 has nothing outstanding");
        let mixed = "{:process :nemesis}\n{:process 0, :type :invoke, :f :enqueue, :value 1}\n{:process 1, :type :invoke, :f :push, :value 1}";
        assert_eq!(
            said(mixed, "H4", 2),
            ":f :push: event 1, the first one on object 0, has :enqueue, of another kind"
        );
    }

    #[test]
    fn names_the_line_of_a_text() {
        let explained = lines("{:process 0,\n :value 1.5}", "malformed history: E9 at byte 21\n");
        assert_eq!(
            explained,
            "; line 2: 1.5: this is EDN that is not read, as a float, a list, a set, a tag or a symbol\n"
        );
        let explained = lines("{:process 0", "malformed history: E2 at byte 11\n");
        assert_eq!(
            explained,
            "; line 1: the end of the text: the text ends inside the map of line 1\n"
        );
        let explained = lines("\u{feff}{:process 0}", "malformed history: E9 at byte 0\n");
        assert_eq!(explained, "; line 1: a byte order mark: remove it\n");
        for (text, code, byte, wanted) in [
            ("{:process :1}", 3, 10, ":1: it is no keyword: after the colon a letter, and then"),
            ("{:process 007}", 3, 10, "007: it is no integer"),
            ("{:process 1]", 3, 11, "]: it closes nothing that is open"),
            ("{:process \"a\\q\"}", 3, 12, "\\: it is none of the escapes \\t, "),
        ] {
            let explained = lines(text, &format!("malformed history: E{code} at byte {byte}\n"));
            assert!(explained.starts_with(&format!("; line 1: {wanted}")), "{explained}");
        }
    }
}
