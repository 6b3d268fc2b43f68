//! Reads EDN, with all that a store of Jepsen may hold: tagged elements, sets, lists, characters
//! and floats. What is no EDN, such as metadata, is refused. <https://github.com/edn-format/edn>

use crate::form::{Entries, Form, ends_word, is_name, is_of_word, is_space};

/// What is wrong with a text, and at which line.
#[derive(Clone, Debug, PartialEq, Eq)]
pub struct Malformed {
    pub line: usize,
    pub why: String,
}

/// Reads the forms of a text one by one.
pub struct Reader<'a> {
    text: &'a str,
    place: usize,
    line: usize,
}

/// How deep forms may be in each other.
const MOST_OPEN: usize = 200;

/// The characters with which no word of EDN begins. In Clojure they change the form after them.
const CHANGING: [char; 5] = ['^', '@', '`', '~', '\''];

impl<'a> Reader<'a> {
    pub fn new(text: &'a str) -> Reader<'a> {
        Reader { text, place: 0, line: 1 }
    }

    /// The line of the next character, counted from 1.
    pub fn line(&self) -> usize {
        self.line
    }

    fn malformed<T>(&self, why: impl Into<String>) -> Result<T, Malformed> {
        Err(Malformed { line: self.line, why: why.into() })
    }

    fn rest(&self) -> &'a str {
        &self.text[self.place..]
    }

    fn peek(&self) -> Option<char> {
        self.rest().chars().next()
    }

    fn next(&mut self) -> Option<char> {
        let character = self.peek()?;
        self.place += character.len_utf8();
        self.line += usize::from(character == '\n');
        Some(character)
    }

    /// Passes over separators and comments. A comment ends with its line, or before a carriage
    /// return.
    fn pass_separators(&mut self) {
        while let Some(character) = self.peek() {
            if character == ';' {
                while self.peek().is_some_and(|it| !matches!(it, '\n' | '\r')) {
                    self.next();
                }
            } else if is_space(character) {
                self.next();
            } else {
                return;
            }
        }
    }

    /// Passes over separators, comments and discards: each `#_` leaves out the next form.
    fn pass_within(&mut self, open: usize) -> Result<(), Malformed> {
        let mut left_out = 0;
        loop {
            self.pass_separators();
            if self.rest().starts_with("#_") {
                self.place += 2;
                left_out += 1;
            } else if left_out == 0 {
                return Ok(());
            } else {
                self.form_here(open + 1)?;
                left_out -= 1;
            }
        }
    }

    /// Passes over what is before the next form.
    pub fn pass(&mut self) -> Result<(), Malformed> {
        self.pass_within(0)
    }

    /// Passes over an opening bracket of a vector or list, if one is next. Gives the bracket that
    /// closes it.
    pub fn enter(&mut self) -> Option<char> {
        let close = match self.peek()? {
            '[' => ']',
            '(' => ')',
            _ => return None,
        };
        self.next();
        Some(close)
    }

    /// Whether this closing bracket is next. If so, passes over it.
    pub fn leave(&mut self, close: char) -> bool {
        let is_next = self.peek() == Some(close);
        if is_next {
            self.next();
        }
        is_next
    }

    /// The next form, or `None` at the end of the text.
    pub fn form(&mut self) -> Result<Option<Form>, Malformed> {
        self.pass()?;
        self.peek().map(|_| self.form_here(0)).transpose()
    }

    /// The form that begins here.
    fn form_here(&mut self, open: usize) -> Result<Form, Malformed> {
        if open > MOST_OPEN {
            return self.malformed("forms are nested too deeply");
        }
        match self.peek() {
            None => self.malformed("the text ends where a form is missing"),
            Some('(') => Ok(Form::Vector(self.items(')', open)?)),
            Some('[') => Ok(Form::Vector(self.items(']', open)?)),
            Some('{') => self.map(open),
            Some('"') => Ok(Form::Str(self.string()?)),
            Some('\\') => self.character(),
            Some('#') => self.dispatch(open),
            Some(close @ (')' | ']' | '}')) => self.malformed(format!("{close} closes nothing")),
            Some(changing) if CHANGING.contains(&changing) => {
                self.malformed(format!("a form that begins with {changing} is no EDN"))
            }
            Some(_) => self.token(),
        }
    }

    /// The next item before a closing bracket. `None`: the bracket, over which it passes.
    fn item(&mut self, close: char, open: usize) -> Result<Option<Form>, Malformed> {
        self.pass_within(open)?;
        if self.leave(close) {
            return Ok(None);
        }
        if self.peek().is_none() {
            return self.malformed(format!("the text ends before {close}"));
        }
        self.form_here(open + 1).map(Some)
    }

    /// The items up to a closing bracket. The opening one is next.
    fn items(&mut self, close: char, open: usize) -> Result<Vec<Form>, Malformed> {
        self.next();
        std::iter::from_fn(|| self.item(close, open).transpose()).collect()
    }

    fn map(&mut self, open: usize) -> Result<Form, Malformed> {
        self.next();
        let mut entries = Entries::default();
        while let Some(key) = self.item('}', open)? {
            if entries.has(&key) {
                return self.malformed(twice(&key));
            }
            match self.item('}', open)? {
                Some(value) => entries.push(key, value),
                None => return self.malformed("a key of a map has no value"),
            }
        }
        Ok(entries.into_map())
    }

    fn set(&mut self, open: usize) -> Result<Form, Malformed> {
        let set = Form::set(self.items('}', open)?);
        let Form::Set(items) = &set else { return Ok(set) };
        let same = items.windows(2).find(|pair| pair[0] == pair[1] && pair[0].has_equals());
        match same {
            Some(pair) => self.malformed(format!("{} is in the same set twice", pair[0])),
            None => Ok(set),
        }
    }

    /// What begins with `#`: a set, a pattern, a symbolic number, or a tagged form.
    fn dispatch(&mut self, open: usize) -> Result<Form, Malformed> {
        self.next();
        match self.peek() {
            Some('{') => self.set(open),
            Some('"') => self.pattern(),
            Some('#') => self.symbolic(),
            Some(':') => self.with_namespace(open),
            Some(first) if first.is_alphabetic() => self.tagged(open),
            _ => self.malformed("a # with which no form of EDN begins"),
        }
    }

    /// A tag and its form.
    fn tagged(&mut self, open: usize) -> Result<Form, Malformed> {
        let tag = self.word()?;
        if !is_name(tag) {
            return self.malformed(format!("#{tag} is no tag"));
        }
        self.pass_within(open)?;
        if self.peek().is_none() {
            return self.malformed(format!("the text ends after the tag #{tag}"));
        }
        let form = match self.form_here(open + 1)? {
            Form::Str(text) if tag == "uuid" => Form::Str(text.to_ascii_lowercase()),
            form => form,
        };
        Ok(Form::Tagged(tag.to_owned(), form.into()))
    }

    /// `##NaN`, `##Inf` or `##-Inf`.
    fn symbolic(&mut self) -> Result<Form, Malformed> {
        self.next();
        match self.word()? {
            name @ ("NaN" | "Inf" | "-Inf") => Ok(Form::Number(format!("##{name}"))),
            name => self.malformed(format!("##{name} is no number")),
        }
    }

    /// A map with the namespace of its keys before it, as `#:a{:b 1}`.
    fn with_namespace(&mut self, open: usize) -> Result<Form, Malformed> {
        self.next();
        let space = self.word()?.to_owned();
        self.pass_separators();
        if !is_name(&space) || space.contains('/') || self.peek() != Some('{') {
            return self.malformed("#: without a namespace and its map");
        }
        let Form::Map(entries) = self.map(open)? else {
            return self.malformed("#: without a map");
        };
        let mut named = Entries::default();
        for (key, value) in entries {
            let key = in_namespace(&space, key);
            if named.has(&key) {
                return self.malformed(twice(&key));
            }
            named.push(key, value);
        }
        Ok(named.into_map())
    }

    /// The characters up to the end of a word.
    fn word(&mut self) -> Result<&'a str, Malformed> {
        let rest = self.rest();
        let word = &rest[..rest.find(ends_word).unwrap_or(rest.len())];
        self.place += word.len();
        match word.chars().find(|it| !is_of_word(*it)) {
            Some(hidden) => {
                self.malformed(format!("a word with the character {}", hidden.escape_unicode()))
            }
            None => Ok(word),
        }
    }

    /// A character, as `\a` or `\newline`.
    fn character(&mut self) -> Result<Form, Malformed> {
        self.next();
        let Some(first) = self.peek().filter(|it| is_of_word(*it)) else {
            return self.malformed("a backslash without a character");
        };
        self.next();
        let more = self.word()?;
        if more.is_empty() {
            return Ok(Form::Symbol(spelled(first)));
        }
        let name = format!("{first}{more}");
        let named = NAMED.into_iter().find(|(_, it)| *it == name).map(|(character, _)| character);
        let by_digits = || char::from_u32(four_digits(name.strip_prefix('u')?)?);
        match named.or_else(by_digits) {
            Some(character) => Ok(Form::Symbol(spelled(character))),
            None => self.malformed(format!("\\{name} is no character")),
        }
    }

    /// The rest of a pattern, in which a backslash stays before the character after it.
    fn pattern(&mut self) -> Result<Form, Malformed> {
        self.next();
        let mut text = String::new();
        let mut is_escaped = false;
        loop {
            match self.next() {
                None => return self.malformed("the text ends inside a pattern"),
                Some('"') if !is_escaped => break,
                Some(character) => {
                    is_escaped = character == '\\' && !is_escaped;
                    text.push(character);
                }
            }
        }
        Ok(Form::Tagged(String::new(), Form::Str(text).into()))
    }

    fn string(&mut self) -> Result<String, Malformed> {
        self.next();
        let mut text = String::new();
        loop {
            match self.next() {
                None => return self.malformed("the text ends inside a string"),
                Some('"') => return Ok(text),
                Some('\\') => text.push(self.escaped()?),
                Some(character) => text.push(character),
            }
        }
    }

    fn escaped(&mut self) -> Result<char, Malformed> {
        match self.next() {
            Some('n') => Ok('\n'),
            Some('t') => Ok('\t'),
            Some('r') => Ok('\r'),
            Some('b') => Ok('\u{8}'),
            Some('f') => Ok('\u{c}'),
            Some('u') => {
                let digits = self.rest().get(..4).and_then(four_digits);
                self.place += if digits.is_some() { 4 } else { 0 };
                digits
                    .and_then(char::from_u32)
                    .map_or_else(|| self.malformed("\\u without a character"), Ok)
            }
            Some(other @ ('"' | '\\' | '/')) => Ok(other),
            _ => self.malformed("unknown escape after a backslash"),
        }
    }

    fn token(&mut self) -> Result<Form, Malformed> {
        let word = self.word()?;
        Ok(match word {
            "nil" => Form::Nil,
            "true" => Form::Bool(true),
            "false" => Form::Bool(false),
            ":" => return self.malformed("a colon without a keyword"),
            _ => match (word.strip_prefix(':'), number(word)) {
                (_, Some(number)) => number,
                (Some(name), None) if is_name(name) => Form::Keyword(name.to_owned()),
                (None, None) if is_symbol(word) => Form::Symbol(word.to_owned()),
                _ => return self.malformed(format!("{word} is no form of EDN")),
            },
        })
    }
}

/// Whether a word may be a symbol. One that begins as a number is read too, since Java prints such
/// words, but it can be no value.
fn is_symbol(word: &str) -> bool {
    let is_fraction = without_sign(word).strip_prefix('.').is_some_and(begins_number);
    word == "/" || (is_name(word) && !is_fraction)
}

/// The key of a map whose namespace is before it, with its namespace.
fn in_namespace(space: &str, key: Form) -> Form {
    let in_space = |name: String| match name.strip_prefix("_/") {
        Some(name) => name.to_owned(),
        None if name.contains('/') => name,
        None => format!("{space}/{name}"),
    };
    match key {
        Form::Keyword(name) => Form::Keyword(in_space(name)),
        Form::Symbol(name) if !name.starts_with('\\') && !begins_number(&name) => {
            Form::Symbol(in_space(name))
        }
        other => other,
    }
}

/// The characters that have names.
const NAMED: [(char, &str); 6] = [
    ('\n', "newline"),
    (' ', "space"),
    ('\t', "tab"),
    ('\r', "return"),
    ('\u{c}', "formfeed"),
    ('\u{8}', "backspace"),
];

/// A character as EDN spells it.
fn spelled(character: char) -> String {
    match NAMED.into_iter().find(|(it, _)| *it == character) {
        Some((_, name)) => format!("\\{name}"),
        None if is_of_word(character) => format!("\\{character}"),
        None => format!("\\u{:04x}", u32::from(character)),
    }
}

/// The number of four hexadecimal digits.
pub fn four_digits(digits: &str) -> Option<u32> {
    let is_number = digits.len() == 4 && digits.bytes().all(|it| it.is_ascii_hexdigit());
    is_number.then(|| u32::from_str_radix(digits, 16).ok()).flatten()
}

/// The sentence for a key that a map has already.
pub fn twice(key: &Form) -> String {
    format!("the key {key} is in the same map twice")
}

fn without_sign(word: &str) -> &str {
    word.strip_prefix(['+', '-']).unwrap_or(word)
}

/// Whether a word begins as a number. It may be none, as `007`, or `0x1f` in what Java prints of an
/// object.
pub fn begins_number(word: &str) -> bool {
    without_sign(word).starts_with(|it: char| it.is_ascii_digit())
}

/// A text after its digits, if it has some first.
fn after_digits(text: &str) -> Option<&str> {
    let rest = text.trim_start_matches(|it: char| it.is_ascii_digit());
    (rest.len() < text.len()).then_some(rest)
}

/// What follows the integer at the beginning of a word. It does not begin with 0, except alone.
fn after_integer(word: &str) -> Option<&str> {
    let digits = without_sign(word);
    digits.strip_prefix('0').map_or_else(
        || after_digits(digits),
        |rest| (!rest.starts_with(|it: char| it.is_ascii_digit())).then_some(rest),
    )
}

/// Whether this may follow the first digits of a decimal or a ratio: a fraction, an exponent, or
/// what says how exact it is.
fn is_end_of_number(rest: &str) -> bool {
    if let Some(denominator) = rest.strip_prefix('/') {
        return after_digits(denominator) == Some("");
    }
    let rest = match rest.strip_prefix('.') {
        Some(fraction) => after_digits(fraction).unwrap_or(fraction),
        None => rest,
    };
    let rest = match rest.strip_prefix(['e', 'E']) {
        Some(exponent) => after_digits(without_sign(exponent)),
        None => Some(rest),
    };
    matches!(rest, Some("" | "M"))
}

/// The number that a word spells: an integer, a decimal, or a ratio.
pub fn number(word: &str) -> Option<Form> {
    let rest = after_integer(word)?;
    if !matches!(rest, "" | "N") && !is_end_of_number(rest) {
        return None;
    }
    let whole = word.strip_suffix('N').unwrap_or(word);
    let whole = whole.strip_prefix('+').unwrap_or(whole);
    Some(whole.parse().map_or_else(|_| Form::Number(whole.to_owned()), Form::Int))
}

#[cfg(test)]
mod tests {
    use super::*;

    fn read(text: &str) -> Result<Vec<String>, Malformed> {
        let mut reader = Reader::new(text);
        let forms = std::iter::from_fn(|| reader.form().transpose());
        forms.map(|form| form.map(|it| it.to_string())).collect()
    }

    #[test]
    fn reads_each_form() {
        for (text, wanted) in [
            ("nil true false", "nil true false"),
            ("7 -7 +7 7N 1.5 1e3 0 -0.5 1. 1.5e-3M 2/3", "7 -7 7 7 1.5 1e3 0 -0.5 1. 1.5e-3M 2/3"),
            ("99999999999999999999", "99999999999999999999"),
            (":a :a/b sym \\a \\newline", ":a :a/b sym \\a \\newline"),
            (r#""a\"\\\n\u0041""#, r#""a\"\\\nA""#),
            ("(1 2) [1 [2]] #{1} {:a 1, :b [2]}", "[1 2] [1 [2]] #{1} {:a 1, :b [2]}"),
            ("{:b 2, :a 1} #{3 1 2} (#{2 1})", "{:a 1, :b 2} #{1 2 3} [#{1 2}]"),
            ("#jepsen.history.Op{:index 0}", "#jepsen.history.Op {:index 0}"),
            ("#uuid \"0A\" #ver/a 1", "#uuid \"0a\" #ver/a 1"),
            ("##NaN ##Inf ##-Inf 1", "##NaN ##Inf ##-Inf 1"),
            ("#:a{:b 1, :_/c 2, :d/e 3}", "{:a/b 1, :c 2, :d/e 3}"),
            ("#:a{b 1, _/c 2, \\d 3, \"e\" 4}", "{\"e\" 4, \\d 3, a/b 1, c 2}"),
            (". .a -a -.a / a/b +/- a:b :a:b :7 :a/7", ". .a -a -.a / a/b +/- a:b :a:b :7 :a/7"),
            ("1 ; 2\r3 ; \u{a0}\n4", "1 3 4"),
            ("\"\u{a0}\u{2003}\"", "\"\u{a0}\u{2003}\""),
            ("1\t2\u{b}3\u{c}4\r5", "1 2 3 4 5"),
            ("\\space \\u0041 \\( \\u0020 \\u001b \\\\", "\\space \\A \\( \\space \\u001b \\\\"),
            ("\"\u{1b}[2J\u{9b}\u{202e}\"", "\"\\u001b[2J\\u009b\\u202e\""),
            ("#\"\\d\\\"\" 1", "#\"\\\\d\\\\\\\"\" 1"),
            ("1 #_ 2 3 ; 4\n5", "1 3 5"),
            ("#_ #_ 1 2 3 #_ #_ 4 #_ 5 6 7", "3 7"),
            (
                "[1 #_ 2] {:a 1 #_ :b} #{1 #_ 2 #_ [3]} [#_ 1] #a #_ 1 2 #_ 3",
                "[1] {:a 1} #{1} [] #a 2",
            ),
        ] {
            assert_eq!(read(text).map(|forms| forms.join(" ")), Ok(wanted.to_owned()), "{text}");
        }
    }

    #[test]
    fn tells_the_line() {
        for (text, line) in [
            ("{:a 1\n:b}", 2),
            ("\n\n]", 3),
            ("[1\n\n", 3),
            ("\"a\nb", 2),
            ("\n:", 2),
            ("{:a 1\n:a 2\n}", 2),
        ] {
            assert_eq!(read(text).map_err(|it| it.line), Err(line), "{text}");
        }
        assert!(read(&"[".repeat(1000)).is_err());
    }

    #[test]
    fn what_is_no_edn_is_refused() {
        for text in [
            "^{:a 1} 5",
            "^String x",
            "@a",
            "`a",
            "~a",
            "~@a",
            "'a",
            "##nan",
            "## 1",
            "##",
            "#",
            "#'user/x 1",
            "#(a)",
            "#=(a)",
            "#?(:a 1)",
            "#<a> 1",
            "#[1]",
            "#:{:a 1}",
            "#::a{:b 1}",
            "#:a[1]",
            "#a",
            "#_",
            "#_ #_ 1",
            "[1 #_]",
            "{:a #_ 1}",
            "\\",
            "\\ a",
            "\\\nyes:",
            "\\ab",
            "\\u+041",
            "\\ud800",
            "\"\\u+041\"",
            "\"\\u-041\"",
            "#{1 1}",
            "#{[1 2] (1 2)}",
            "{(1) 1, [1] 2}",
            "{#{1 2} 1, #{2 1} 2}",
            ":a\u{1b}[2J",
            "a\u{202e}b",
            "#a\u{9b} 1",
            "[1\u{a0}2]",
            "[:a\u{85}]",
            "a\u{2007}b",
            "{:a\u{202f}1}",
            "1 \u{3000}",
            "\u{1680}1",
            "#a\u{2003}1",
            "#_\u{a0}1 2",
            "\\a\u{a0}",
            ".5",
            "-.5",
            "+.5",
            "::a",
            ":/",
            ":/a",
            ":a/",
            ":a/b/c",
            "a/",
            "/a",
            "a/b/c",
            "a//",
            "a@b",
            ":a^b",
            "a\\b",
            "#a/ 1",
            "#a/b/c 1",
            "#:a/b{:c 1}",
            "#:a{:b 1, :a/b 2}",
            "#:a{:_/b 1, b 1 :a/c 1 :c 1}",
        ] {
            assert!(read(text).is_err(), "{text}: {:?}", read(text));
        }
        // Whether these are equal is not known.
        for text in ["#{#a 1 #a 1}", "#{##NaN ##NaN}"] {
            assert!(read(text).is_ok(), "{text}");
        }
    }

    #[test]
    fn discards_take_no_stack() {
        let many = 300_000;
        assert_eq!(read(&format!("{}1", "#_1 ".repeat(many))), Ok(vec!["1".to_owned()]));
        let chain = format!("{}{}1", "#_".repeat(many), "2 ".repeat(many));
        assert_eq!(read(&chain), Ok(vec!["1".to_owned()]));
        assert!(read(&format!("{}1", "#a ".repeat(many))).is_err());
        assert!(read(&format!("{}1", "#_[".repeat(many))).is_err());
    }

    #[test]
    fn what_is_no_number_is_no_integer() {
        for text in ["007", "1a", "-01", "1.5.2", "1e", "2/", "1NN", "0x1F", "7_000"] {
            assert_eq!(number(text), None, "{text}");
            assert!(begins_number(text), "{text}");
        }
        assert_eq!(read("#object[a.b 0x1f \"c\"]").map(|forms| forms.len()), Ok(1));
    }
}
