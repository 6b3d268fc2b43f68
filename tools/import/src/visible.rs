//! Characters that a terminal shows as they are, and texts in which all others are escaped.

use std::fmt::Write;

/// The character at the beginning of the bytes.
fn first_character(bytes: &[u8]) -> Option<char> {
    let valid = bytes.get(..4).unwrap_or(bytes).utf8_chunks().next()?.valid();
    valid.chars().next()
}

/// Whether the character shows what it is: no control, no other end of a line, and none that turns
/// the direction of the text. All others have four hexadecimal digits.
pub fn is_plain(character: char) -> bool {
    !matches!(
        character,
        '\0'..='\u{1f}'
            | '\u{7f}'..='\u{9f}'
            | '\u{61c}'
            | '\u{200e}'..='\u{200f}'
            | '\u{2028}'..='\u{202e}'
            | '\u{2066}'..='\u{2069}'
    )
}

/// The bytes as text: a tab as an arrow, and a byte that is of no character, or of one that shows
/// nothing, as its number.
pub fn visible(bytes: &[u8]) -> String {
    let mut text = String::new();
    let mut rest = bytes;
    while let Some(byte) = rest.first() {
        let mut length = 1;
        match first_character(rest) {
            Some('\t') => text.push('→'),
            Some(character) if is_plain(character) => {
                length = character.len_utf8();
                text.push(character);
            }
            _ => {
                let _ = write!(text, "\\x{byte:02x}");
            }
        }
        rest = &rest[length..];
    }
    text
}

#[cfg(test)]
mod tests {
    use super::*;

    #[test]
    fn escapes_what_a_terminal_does_not_show() {
        for (text, wanted) in [
            ("a b\té", "a b→é"),
            ("\u{1b}[2J\n", "\\x1b[2J\\x0a"),
            ("\u{9b}\u{202e}", "\\xc2\\x9b\\xe2\\x80\\xae"),
        ] {
            assert_eq!(visible(text.as_bytes()), wanted);
        }
        assert_eq!(visible(b"\xff"), "\\xff");
    }
}
