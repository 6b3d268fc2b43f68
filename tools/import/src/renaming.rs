//! The lines of an answer in the words of the history that was imported.

use crate::edn::Reader;
use crate::form::Form;
use crate::names::Names;
use finder::setting;
use std::collections::{BTreeMap, HashMap};
use verdict::{Line, OperationLine, Which};

/// The text, in which each integer is what this gives of it. The sign belongs to an integer that
/// follows no letter or digit.
fn with_numbers(text: &str, mut named: impl FnMut(i64) -> Option<String>) -> String {
    let (mut renamed, mut rest) = (String::new(), text);
    while let Some(place) = rest.find(|letter: char| letter.is_ascii_digit()) {
        let has_sign = rest[..place].ends_with('-')
            && !rest[..place - 1].ends_with(|letter: char| letter.is_ascii_alphanumeric());
        let begin = place - usize::from(has_sign);
        let end = rest[place..]
            .find(|letter: char| !letter.is_ascii_digit())
            .map_or(rest.len(), |length| place + length);
        renamed.push_str(&rest[..begin]);
        let number = &rest[begin..end];
        renamed.push_str(
            &number.parse().ok().and_then(&mut named).unwrap_or_else(|| number.to_owned()),
        );
        rest = &rest[end..];
    }
    renamed + rest
}

fn name(names: &BTreeMap<i64, Form>, number: i64) -> Option<String> {
    names.get(&number).map(Form::to_string)
}

/// The beginning of a text that is a list of integers, as `1, 2 and 3`, and the rest.
fn split_list(text: &str) -> (&str, &str) {
    let mut end = 0;
    loop {
        let rest = &text[end..];
        let separator = if end == 0 {
            Some("")
        } else {
            [", ", " and "].into_iter().find(|separator| rest.starts_with(separator))
        };
        let Some(separator) = separator else {
            return text.split_at(end);
        };
        let digits = &rest[separator.len()..];
        let sign = usize::from(digits.starts_with('-'));
        let length = digits[sign..]
            .find(|letter: char| !letter.is_ascii_digit())
            .unwrap_or(digits.len() - sign);
        if length == 0 {
            return text.split_at(end);
        }
        end += separator.len() + sign + length;
    }
}

/// The numbers after a word of a sentence, with their names.
fn named_after(names: &Names, word: &str, list: &str) -> String {
    with_numbers(list, |number| match word {
        "event" | "events" | "map" => {
            Some(number.checked_sub(i64::from(names.before))?.to_string())
        }
        "process" | "processes" => name(&names.processes, number),
        _ => name(&names.values, number),
    })
}

const WORDS: [&str; 10] =
    ["event", "events", "map", "process", "processes", "key", "value", "values", "keys", "owner"];

/// A sentence whose numbers have names, where a word before them says what they are.
fn sentence(names: &Names, text: &str) -> String {
    let mut renamed = String::new();
    let mut rest = text;
    if let Some((number, after)) =
        rest.strip_prefix("object ").and_then(|text| text.split_once(':'))
    {
        renamed.push_str(&format!("object {number}"));
        if let Some(key) = number.parse().ok().and_then(|number| name(&names.objects, number)) {
            renamed.push_str(&format!(", which is {key}"));
        }
        renamed.push(':');
        rest = after;
    }
    while let Some(space) = rest.find(' ') {
        let (before, after) = rest.split_at(space + 1);
        renamed.push_str(before);
        rest = after;
        let word = before
            .trim_end()
            .rsplit(|letter: char| !letter.is_ascii_alphabetic())
            .next()
            .unwrap_or("");
        if WORDS.contains(&word) {
            let (list, after) = split_list(rest);
            renamed.push_str(&named_after(names, word, list));
            rest = after;
        }
    }
    renamed + rest
}

/// The numbers that stand for any other value in the part that a reason names, and the words for
/// them.
fn others_of(reason: &str) -> HashMap<i64, &'static str> {
    let cuts = Reader::new(reason).form().ok().flatten();
    let Some(Form::Vector(cuts)) = cuts.as_ref().and_then(|reason| reason.get("cuts")) else {
        return HashMap::new();
    };
    let other = |cut: &Form| {
        let Some(other @ Form::Int(number)) = cut.get("other") else {
            return None;
        };
        let is_kept = matches!(cut.get("cell"), Some(Form::Vector(kept)) if kept.contains(other));
        let words =
            if cut.get("key").is_some() { "another value, or of none" } else { "another value" };
        (!is_kept).then_some((*number, words))
    };
    cuts.iter().filter_map(other).collect()
}

/// What a part counts an operation as. Of one that sets any other value the number says nothing.
fn counted(names: &Names, others: &HashMap<i64, &str>, text: &str) -> String {
    let call = text.trim_end_matches(", pending");
    let end = &text[call.len()..];
    let set = setting().name;
    let written = call
        .strip_prefix(&format!(":{set} "))
        .and_then(|call| call.split(',').next())
        .and_then(|number| number.parse().ok());
    if let Some(words) = written.and_then(|number: i64| others.get(&number)) {
        return format!("a {set} of {words}{end}");
    }
    let renamed = with_numbers(call, |number| match others.get(&number) {
        Some(_) => Some("other".to_owned()),
        None => name(&names.values, number),
    });
    renamed + end
}

/// The line of an operation.
fn operation(names: &Names, others: &HashMap<i64, &str>, line: &OperationLine) -> String {
    let mut words = with_numbers(line.call, |number| name(&names.values, number));
    if let Some(text) = line.counted {
        words.push_str(&format!(", counted as {}", counted(names, others, text)));
    }
    if line.first < names.before {
        return format!("the initial value: {words}");
    }
    let process = line
        .process
        .parse()
        .ok()
        .and_then(|number| name(&names.processes, number))
        .unwrap_or_else(|| line.process.to_owned());
    let numbers = named_after(names, line.word, line.numbers);
    format!("{} {numbers}: process {process}, {words}", line.word)
}

impl Names {
    /// A text of values and keys in their names.
    pub fn of_values(&self, text: &str) -> String {
        with_numbers(text, |number| name(&self.values, number))
    }

    /// The name of a process.
    pub fn of_process(&self, process: u64) -> Option<String> {
        name(&self.processes, i64::try_from(process).ok()?)
    }

    /// The name of an object.
    pub fn of_object(&self, object: u32) -> Option<String> {
        name(&self.objects, i64::from(object))
    }

    /// A sentence of the finder in names.
    pub fn of_sentence(&self, text: &str) -> String {
        sentence(self, text)
    }
}

/// The lines of an answer in the words of the history. A reason stays as it is, for `refute`; it is
/// after the operations of its part.
pub fn with_names(names: &Names, answer: &str) -> String {
    let mut others = HashMap::new();
    let mut lines: Vec<String> = Vec::new();
    for line in answer.lines().rev() {
        lines.push(match Line::read(line) {
            Some(Line::Operation(of)) => format!("; {}", operation(names, &others, &of)),
            Some(Line::Sentence(text)) => format!("; {}", sentence(names, text)),
            Some(Line::Object { text, .. }) => format!("; {}", sentence(names, text)),
            Some(Line::Malformed(fault)) if fault.which() == Which::History => {
                sentence(names, line)
            }
            Some(Line::Reason(reason)) => {
                others = others_of(reason);
                line.to_owned()
            }
            Some(Line::Yes { .. } | Line::Kind | Line::No(_) | Line::Malformed(_)) => {
                line.to_owned()
            }
            Some(Line::MalformedEvidence | Line::NoMemory) | None => line.to_owned(),
        });
    }
    lines.reverse();
    lines.iter().map(|line| format!("{line}\n")).collect()
}

#[cfg(test)]
mod tests {
    use super::*;

    fn names() -> Names {
        Names::read("{:before 2}\n{:object 0, :is \"k\"}\n{:process 3, :is \"n1\"}\n{:value 7, :is :a}\n{:value 8, :is \"b\"}").expect("a table")
    }

    #[test]
    fn tells_each_line() {
        for (line, wanted) in [
            ("; object 0: impossible", "; object 0, which is \"k\": impossible"),
            ("; object 1: open", "; object 1: open"),
            (
                "; value 7 was enqueued once and dequeued twice",
                "; value :a was enqueued once and dequeued twice",
            ),
            (
                "; owner 7 unlocked what owner 8 had locked",
                "; owner :a unlocked what owner \"b\" had locked",
            ),
            (
                "; values 7, 8 and 9 were in it when event 12 found nothing",
                "; values :a, \"b\" and 9 were in it when event 10 found nothing",
            ),
            (
                "; events 4 and 9: process 3, :enqueue 7, :ok 7",
                "; events 2 and 7: process \"n1\", :enqueue :a, :ok :a",
            ),
            (
                "; event 4: process 1, :cas [7 8], pending",
                "; event 2: process 1, :cas [:a \"b\"], pending",
            ),
            (
                "; events 0 and 1: process 2, :write 7, :ok 7",
                "; the initial value: :write :a, :ok :a",
            ),
            (
                "; event 6: process 1, :extract-min nil, :ok -7",
                "; event 4: process 1, :extract-min nil, :ok -7",
            ),
            ("yes: 7 operations, 1 objects", "yes: 7 operations, 1 objects"),
            ("malformed history: H5 at map 3", "malformed history: H5 at map 1"),
            ("; {:object 0, :cuts [{:until 8}]}", "; {:object 0, :cuts [{:until 8}]}"),
        ] {
            assert_eq!(with_names(&names(), &format!("{line}\n")), format!("{wanted}\n"));
        }
    }

    #[test]
    fn tells_what_stands_for_other_values() {
        let answer = "; events 4 and 5: process 1, :write 8, :ok 8, counted as :write 9, :ok 9\n\
                      ; {:object 0, :cuts [{:cell [7], :other 9, :numbers [4]}]}\n";
        let wanted = "; events 2 and 3: process 1, :write \"b\", :ok \"b\", counted as a write of another value\n\
                      ; {:object 0, :cuts [{:cell [7], :other 9, :numbers [4]}]}\n";
        assert_eq!(with_names(&names(), answer), wanted);
    }
}
