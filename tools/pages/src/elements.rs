//! Places in a text: of its elements, of the values of a map, and of what is open at its end.

use finder::{Lexer, TokenKind, ends_word};

/// From one byte on, up to another.
#[derive(Clone, Copy)]
pub struct ByteRange {
    pub from: usize,
    pub to: usize,
}

impl ByteRange {
    pub fn of<'a>(&self, text: &'a [u8]) -> &'a [u8] {
        text.get(self.from..self.to).unwrap_or(&[])
    }
}

/// The elements of a text that have this number of brackets around them.
struct Elements<'a> {
    tokens: Lexer<'a>,
    depth: usize,
    /// How many brackets are open, and where the element began.
    open: usize,
    from: usize,
}

impl Iterator for Elements<'_> {
    type Item = ByteRange;

    fn next(&mut self) -> Option<ByteRange> {
        loop {
            let token = self.tokens.next()?;
            match token.kind {
                TokenKind::OpenVector | TokenKind::OpenMap => {
                    if self.open == self.depth {
                        self.from = token.from;
                    }
                    self.open += 1;
                    continue;
                }
                TokenKind::CloseVector | TokenKind::CloseMap => {
                    self.open = self.open.saturating_sub(1);
                }
                TokenKind::Word | TokenKind::Text => {
                    if self.open == self.depth {
                        self.from = token.from;
                    }
                }
                TokenKind::OpenText => return None,
            }
            if self.open == self.depth {
                return Some(ByteRange { from: self.from, to: token.to });
            }
        }
    }
}

/// The elements that have this number of brackets around them.
pub fn elements_in(text: &[u8], depth: usize) -> impl Iterator<Item = ByteRange> {
    Elements { tokens: Lexer::new(text), depth, open: 0, from: 0 }
}

/// The value that the map has for the key.
pub fn value_in<'a>(map: &'a [u8], key: &[u8]) -> Option<&'a [u8]> {
    let mut elements = elements_in(map, 1);
    while let (Some(name), Some(value)) = (elements.next(), elements.next()) {
        if name.of(map) == key {
            return Some(value.of(map));
        }
    }
    None
}

/// What is open at the end of a text.
#[derive(Clone, Copy)]
pub enum Opened {
    Text,
    Vector,
    Map,
}

impl Opened {
    pub fn word(self) -> &'static str {
        match self {
            Opened::Text => "string",
            Opened::Vector => "vector",
            Opened::Map => "map",
        }
    }
}

/// The innermost of what is open at the end of the text, and where it was opened.
pub fn innermost_open(text: &[u8]) -> Option<(Opened, usize)> {
    let mut open = Vec::new();
    for token in Lexer::new(text) {
        match token.kind {
            TokenKind::OpenVector => open.push((Opened::Vector, token.from)),
            TokenKind::OpenMap => open.push((Opened::Map, token.from)),
            TokenKind::OpenText => open.push((Opened::Text, token.from)),
            TokenKind::CloseVector | TokenKind::CloseMap => {
                open.pop();
            }
            TokenKind::Word | TokenKind::Text => {}
        }
    }
    open.pop()
}

/// The word, bracket or escape that begins at the byte.
pub fn word_at(text: &[u8], from: usize) -> ByteRange {
    let rest = text.get(from..).unwrap_or(&[]);
    let length = match rest {
        [] => 0,
        [first, ..] if *first == b'\\' || ends_word(*first) => 1,
        _ => rest.iter().position(|byte| ends_word(*byte)).unwrap_or(rest.len()),
    };
    ByteRange { from, to: from + length }
}

/// The number of the line, from 1, that has this byte.
pub fn line_of(text: &[u8], at: usize) -> usize {
    let before = text.get(..at).unwrap_or(text);
    before.iter().filter(|byte| **byte == b'\n').count() + 1
}
