//! Labels: an operation as text.

use super::numbers::SHORTEST_CUT;
use crate::timeline::{DrawnOperation, State};
use crate::words::Words;
use finder::{Shape, Value};

/// The count with its digits in groups of three, and a space between two groups.
pub fn count_text(count: usize) -> String {
    let mut text = count.to_string();
    let mut place = text.len();
    while place > 3 {
        place -= 3;
        text.insert(place, ' ');
    }
    text
}

/// The reply that a label shows; none if it says no more than the operation.
fn shown_reply(operation: &DrawnOperation) -> Option<Value> {
    let reply = operation.reply()?;
    let op = operation.op();
    let is_shown = match op.function.reply {
        Shape::Owner | Shape::Nothing | Shape::Silent => false,
        Shape::Done => reply.value() != op.argument,
        Shape::Content | Shape::NumberOrNothing | Shape::Swapped | Shape::Flag => true,
        Shape::Value | Shape::Number | Shape::Pair | Shape::Triple => true,
    };
    is_shown.then(|| reply.value())
}

/// The operation as text: its name, its argument unless that is nil, and what it returned where
/// that is not its argument; a question mark where it is pending.
pub fn label(operation: &DrawnOperation, words: &Words) -> String {
    let op = operation.op();
    let mut text = String::from(op.name());
    if op.argument != Value::Nil {
        text += &format!(" {}", op.argument);
    }
    if operation.state() == State::Pending {
        text += " → ?";
    }
    if let Some(reply) = shown_reply(operation) {
        text += &format!(" → {reply}");
    }
    words.values(text)
}

/// The text, or if it has more characters than these, its beginning and three dots; nothing
/// if there is room for fewer than four.
pub fn fit(text: &str, most: usize) -> String {
    if text.chars().count() <= most {
        return text.into();
    }
    if most < 4 {
        return String::new();
    }
    text.chars().take(most - 1).chain(['…']).collect()
}

/// The same of an operation's label, of which the middle is left out, so that both its name and the
/// end of its reply stay; nothing if what is left of it cannot be read.
pub fn fit_label(text: &str, most: usize) -> String {
    let length = text.chars().count();
    if length <= most {
        return text.into();
    }
    if most < SHORTEST_CUT {
        return String::new();
    }
    let (head, tail) = (most / 2, most - most / 2 - 1);
    text.chars().take(head).chain(['…']).chain(text.chars().skip(length - tail)).collect()
}

/// How many characters a label has.
pub fn characters(text: &str) -> u32 {
    u32::try_from(text.chars().count()).unwrap_or(u32::MAX)
}

#[cfg(test)]
mod tests {
    use super::fit_label;

    #[test]
    fn a_long_label_keeps_its_name_and_its_reply() {
        let label = "get 9223372036854775804 → -9223372036854775807";
        let cut = fit_label(label, 20);
        assert!(cut.starts_with("get 92") && cut.ends_with("4775807"), "{cut}");
        assert_eq!(cut.chars().count(), 20);
        assert_eq!(fit_label("read → 1", 20), "read → 1");
        assert_eq!(fit_label("read → 12", 6), "rea…12");
        assert_eq!(fit_label("read → 12", 5), "");
        assert_eq!(fit_label("read", 5), "read");
    }
}
