//! The tokens of a text in EDN, each with its place. Any bytes have tokens: what is wrong with a
//! text is for its reader to say.

/// What a token is.
#[derive(Clone, Copy, Debug, PartialEq, Eq)]
pub enum TokenKind {
    /// A run of bytes that are no separators, brackets, quotes or semicolons.
    Word,
    /// A string with its quotes.
    Text,
    /// A string that the text ends in.
    OpenText,
    OpenVector,
    CloseVector,
    OpenMap,
    CloseMap,
}

/// A token, from one byte of the text on, up to another.
#[derive(Clone, Copy, Debug, PartialEq, Eq)]
pub struct Token {
    pub kind: TokenKind,
    pub from: usize,
    pub to: usize,
}

impl Token {
    /// Its bytes in the text.
    pub fn of<'a>(&self, text: &'a [u8]) -> &'a [u8] {
        &text[self.from..self.to]
    }
}

/// The tokens of a text. Separators and comments are between them.
#[derive(Clone)]
pub struct Lexer<'a> {
    text: &'a [u8],
    at: usize,
}

const fn is_separator(byte: u8) -> bool {
    matches!(byte, b' ' | b',' | b'\n' | b'\t' | b'\r')
}

/// Of each byte, whether a word ends before it.
const WORD_ENDS: [bool; 256] = {
    let mut ends = [false; 256];
    let mut byte = 0;
    while byte < ends.len() {
        let other = matches!(byte as u8, b'[' | b']' | b'{' | b'}' | b'(' | b')' | b'"' | b';');
        ends[byte] = other || is_separator(byte as u8);
        byte += 1;
    }
    ends
};

/// Whether a word ends before this byte.
pub fn ends_word(byte: u8) -> bool {
    WORD_ENDS[usize::from(byte)]
}

impl<'a> Lexer<'a> {
    pub fn new(text: &'a [u8]) -> Lexer<'a> {
        Lexer { text, at: 0 }
    }

    /// Where the last token ends.
    pub fn at(&self) -> usize {
        self.at
    }

    /// The place of the first byte from `from` on for which this holds, or else the text's length.
    fn next_place(&self, from: usize, holds: impl Fn(u8) -> bool) -> usize {
        let found = self.text[from..].iter().position(|byte| holds(*byte));
        found.map_or(self.text.len(), |length| from + length)
    }

    /// Goes on to the next byte that is in no comment and no separator.
    fn skip_space(&mut self) -> Option<u8> {
        loop {
            match self.text.get(self.at)? {
                byte if is_separator(*byte) => self.at += 1,
                b';' => self.at = self.next_place(self.at, |byte| byte == b'\n'),
                byte => return Some(*byte),
            }
        }
    }

    /// The string whose first quote is at this place: its kind and its end.
    fn string(&self, from: usize) -> (TokenKind, usize) {
        let mut at = from + 1;
        loop {
            at = self.next_place(at, |byte| matches!(byte, b'"' | b'\\'));
            match self.text.get(at) {
                Some(b'"') => return (TokenKind::Text, at + 1),
                Some(_) if at + 2 <= self.text.len() => at += 2,
                _ => return (TokenKind::OpenText, self.text.len()),
            }
        }
    }
}

impl Iterator for Lexer<'_> {
    type Item = Token;

    fn next(&mut self) -> Option<Token> {
        let first = self.skip_space()?;
        let from = self.at;
        let (kind, to) = match first {
            b'"' => self.string(from),
            b'[' => (TokenKind::OpenVector, from + 1),
            b']' => (TokenKind::CloseVector, from + 1),
            b'{' => (TokenKind::OpenMap, from + 1),
            b'}' => (TokenKind::CloseMap, from + 1),
            _ => (TokenKind::Word, self.next_place(from + 1, ends_word)),
        };
        self.at = to;
        Some(Token { kind, from, to })
    }
}

#[cfg(test)]
mod tests {
    use super::*;

    fn kinds_of(text: &str) -> Vec<(TokenKind, &str)> {
        let tokens = Lexer::new(text.as_bytes());
        tokens.map(|token| (token.kind, &text[token.from..token.to])).collect()
    }

    #[test]
    fn finds_tokens_of_any_text() {
        use TokenKind::*;
        assert_eq!(kinds_of(" ,; {\n"), []);
        assert_eq!(
            kinds_of("{:f \"a\\\"}\"};x\n1[2]"),
            [
                (OpenMap, "{"),
                (Word, ":f"),
                (Text, "\"a\\\"}\""),
                (CloseMap, "}"),
                (Word, "1"),
                (OpenVector, "["),
                (Word, "2"),
                (CloseVector, "]"),
            ]
        );
        assert_eq!(kinds_of("(a(b"), [(Word, "(a"), (Word, "(b")]);
        assert_eq!(kinds_of("a\"b"), [(Word, "a"), (OpenText, "\"b")]);
        assert_eq!(kinds_of("\"\\"), [(OpenText, "\"\\")]);
        assert_eq!(kinds_of("\"\\\""), [(OpenText, "\"\\\"")]);
    }
}
