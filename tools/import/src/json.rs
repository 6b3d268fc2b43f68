//! Reads values of JSON as forms: an object is a map with keywords for keys, or strings where a key
//! can be no keyword.
//! <https://www.rfc-editor.org/rfc/rfc8259>

use crate::edn::{four_digits, number, twice};
use crate::form::{Entries, Form};

/// Reads the values of a text one by one.
struct Reader<'a> {
    text: &'a str,
    /// A key that an object has twice.
    repeated: Option<Form>,
}

/// The line of what is no value, and why, if it is a key that is there twice.
#[derive(Clone, Debug, PartialEq, Eq)]
pub struct NoValue {
    pub line: usize,
    pub why: Option<String>,
}

const MOST_OPEN: usize = 200;

/// The lines of a text, as it is read.
struct Lines<'a> {
    whole: &'a str,
    passed: usize,
    line: usize,
}

impl Lines<'_> {
    /// The line at which this rest of the text begins, counted from 1. The rest is no longer than
    /// that before.
    fn at(&mut self, rest: &str) -> usize {
        let passed = self.whole.len() - rest.len();
        let more = self.whole.as_bytes()[self.passed..passed].iter();
        self.line += more.filter(|byte| **byte == b'\n').count();
        self.passed = passed;
        self.line
    }
}

/// Whether a text begins as one of JSON: with an object, or an array of them.
pub fn is_json(text: &str) -> bool {
    let mut reader = Reader::new(text);
    reader.takes("[");
    reader.takes("{") && reader.takes("\"")
}

/// The values of a text, one after another or in one array, each with the line at which it begins.
pub fn read_all(text: &str) -> Result<Vec<(usize, Form)>, NoValue> {
    let mut reader = Reader::new(text);
    read_with(&mut reader)
        .map_err(|line| NoValue { line, why: reader.repeated.as_ref().map(twice) })
}

/// The error is the line of what is no value.
fn read_with(reader: &mut Reader<'_>) -> Result<Vec<(usize, Form)>, usize> {
    let (text, mut all) = (reader.text, Vec::new());
    let mut lines = Lines { whole: text, passed: 0, line: 1 };
    let is_array = reader.takes("[");
    loop {
        reader.pass();
        if reader.text.is_empty() && !is_array {
            return Ok(all);
        }
        let line = lines.at(reader.text);
        let form = reader.value(0).ok_or_else(|| lines.at(reader.text))?;
        all.push((line, form));
        if is_array && reader.takes("]") {
            reader.pass();
            return if reader.text.is_empty() { Ok(all) } else { Err(lines.at(reader.text)) };
        }
        if is_array && !reader.takes(",") {
            return Err(lines.at(reader.text));
        }
    }
}

impl<'a> Reader<'a> {
    fn new(text: &'a str) -> Reader<'a> {
        Reader { text, repeated: None }
    }

    fn pass(&mut self) {
        self.text = self.text.trim_start_matches([' ', '\t', '\r', '\n']);
    }

    /// Whether the text goes on with this, after spaces. If so, passes over it.
    fn takes(&mut self, begins: &str) -> bool {
        self.pass();
        let rest = self.text.strip_prefix(begins);
        self.text = rest.unwrap_or(self.text);
        rest.is_some()
    }

    fn value(&mut self, open: usize) -> Option<Form> {
        if open > MOST_OPEN {
            return None;
        }
        if self.takes("{") {
            return self.entries(open);
        }
        if self.takes("[") {
            return self.items(open);
        }
        if self.takes("\"") {
            return Some(Form::Str(self.string()?));
        }
        for (word, form) in
            [("null", Form::Nil), ("true", Form::Bool(true)), ("false", Form::Bool(false))]
        {
            if self.takes(word) {
                return Some(form);
            }
        }
        let length = self.text.find(|it: char| !(it.is_ascii_alphanumeric() || "+-.".contains(it)));
        let (word, rest) = self.text.split_at(length.unwrap_or(self.text.len()));
        self.text = rest;
        number(word).filter(|_| !word.starts_with('+') && !word.ends_with(['N', 'M', '.']))
    }

    fn items(&mut self, open: usize) -> Option<Form> {
        let mut items = Vec::new();
        if self.takes("]") {
            return Some(Form::Vector(items));
        }
        loop {
            items.push(self.value(open + 1)?);
            if self.takes("]") {
                return Some(Form::Vector(items));
            }
            self.takes(",").then_some(())?;
        }
    }

    fn entries(&mut self, open: usize) -> Option<Form> {
        let mut entries = Entries::default();
        if self.takes("}") {
            return Some(entries.into_map());
        }
        loop {
            self.takes("\"").then_some(())?;
            let key = Form::key(self.string()?);
            if entries.has(&key) {
                self.repeated = Some(key);
                return None;
            }
            self.takes(":").then_some(())?;
            entries.push(key, self.value(open + 1)?);
            if self.takes("}") {
                return Some(entries.into_map());
            }
            self.takes(",").then_some(())?;
        }
    }

    /// The rest of a string, after its first quote.
    fn string(&mut self) -> Option<String> {
        let mut text = String::new();
        let mut rest = self.text.chars();
        loop {
            match rest.next()? {
                '"' => break,
                '\\' => text.push(match rest.next()? {
                    'n' => '\n',
                    't' => '\t',
                    'r' => '\r',
                    'b' => '\u{8}',
                    'f' => '\u{c}',
                    'u' => escaped(&mut rest)?,
                    other @ ('"' | '\\' | '/') => other,
                    _ => return None,
                }),
                other => text.push(other),
            }
        }
        self.text = rest.as_str();
        Some(text)
    }
}

/// The number of the next four digits.
fn unit(rest: &mut std::str::Chars<'_>) -> Option<u32> {
    four_digits(&rest.by_ref().take(4).collect::<String>())
}

/// The character of four digits, or of two times four.
fn escaped(rest: &mut std::str::Chars<'_>) -> Option<char> {
    let first = unit(rest)?;
    if !(0xD800..0xDC00).contains(&first) {
        return char::from_u32(first);
    }
    let text = rest.as_str().strip_prefix("\\u")?;
    *rest = text.chars();
    let second = unit(rest).filter(|it| (0xDC00..0xE000).contains(it))?;
    char::from_u32(0x10000 + ((first - 0xD800) << 10) + (second - 0xDC00))
}

#[cfg(test)]
mod tests {
    use super::*;

    fn read(text: &str) -> Option<String> {
        let all = read_all(text).ok()?;
        Some(all.iter().map(|(_, form)| form.to_string()).collect::<Vec<_>>().join(" "))
    }

    #[test]
    fn reads_each_value() {
        for (text, wanted) in [
            (
                r#"{"process": 0, "f": "read", "value": null}"#,
                r#"{:f "read", :process 0, :value nil}"#,
            ),
            (r#"{"a": [1, -2.5e3, true, false, []]} "#, "{:a [1 -2.5e3 true false []]}"),
            (r#""a\"A\n\ud83d\ude00""#, "\"a\\\"A\\n\u{1F600}\""),
            ("{}", "{}"),
            ("{}{} 1 2", "{} {} 1 2"),
            (" [ {}, {} ] ", "{} {}"),
        ] {
            assert_eq!(read(text), Some(wanted.to_owned()), "{text}");
        }
    }

    #[test]
    fn refuses_what_is_none() {
        for text in [
            "{",
            "{\"a\" 1}",
            "[1 2]",
            "{:a 1}",
            "\"a",
            "nul",
            "\"\\ud83d\"",
            "\"\\u+041\"",
            "\"\\ud83d\\u+e00\"",
            "7N",
            "7M",
            "+7",
            "NaN",
            "-Infinity",
        ] {
            assert_eq!(read(text), None, "{text}");
        }
        for text in ["[", "[1", "[1,", "[1,]", "[1] 2", "[]"] {
            assert_eq!(read(text), None, "{text}");
        }
        assert_eq!(read(&"[".repeat(1000)), None);
    }

    #[test]
    fn tells_the_line() {
        let lines = |text| {
            let all = read_all(text).map_err(|it| it.line);
            all.map(|all| all.iter().map(|it| it.0).collect())
        };
        assert_eq!(lines("{}\n\n{\n}{}"), Ok(vec![1, 3, 4]));
        assert_eq!(lines("[\n{},\n{\n}]\n"), Ok(vec![2, 3]));
        assert_eq!(lines("[\n{},\n{\n:a}]\n"), Err(4));
        assert_eq!(lines("{}\nx"), Err(2));
        let why = Some("the key :a is in the same map twice".to_owned());
        assert_eq!(read_all("{}\n{\"a\": 1,\n\"a\": 1}"), Err(NoValue { line: 3, why }));
        let keys: String = (0..100).map(|it| format!("\"{it}\": 1, ")).collect();
        assert!(read_all(&format!("{{{keys}\"100\": 1}}")).is_ok());
        for twice in ["0", "31", "32", "99"] {
            let refused = read_all(&format!("{{{keys}\"{twice}\": 1}}")).map_err(|it| it.why);
            assert_eq!(refused, Err(Some(format!("the key :{twice} is in the same map twice"))));
        }
    }
}
