//! What an object contains, and which operation put it there.

use crate::figures::count_text;
use crate::words::Words;
use finder::{Bag, Cells, Does, Effect, Family, Gives, Kind, Op, Reply, Shape, Value};
use std::collections::BTreeMap;
use std::fmt::Write;

/// A value, and the number of the operation that put it there.
#[derive(Clone, Copy, PartialEq, Eq, PartialOrd, Ord)]
pub struct Item {
    pub value: i64,
    pub by: u32,
}

/// What an object contains, by the family of its kind.
#[derive(Clone)]
pub enum Content {
    Values(Bag<Item>),
    Cell(Option<Item>),
    Cells(Entries),
    /// Who holds it, by the operation and by its argument, and who released it last.
    Holdable {
        holder: Option<(u32, Value)>,
        releaser: Option<u32>,
    },
    /// A number, and the operation that made it so; none at first.
    Number {
        number: i64,
        by: Option<u32>,
    },
}

/// The cells that contain something, by their keys.
#[derive(Clone)]
pub struct Entries {
    pub items: BTreeMap<i64, Item>,
    /// Whether a cell contains a value, and not only its key.
    pub have_values: bool,
}

/// The reply that a value is.
pub fn value_reply(item: Option<Item>) -> Reply {
    Reply::Value(item.map(|item| item.value))
}

/// The value that an operation puts in, and returns.
pub fn put_by(op: Op) -> Option<i64> {
    op.argument.last().filter(|_| op.function.reply == Shape::Done)
}

impl Content {
    pub fn empty(kind: Kind) -> Content {
        match &kind.family {
            Family::Container(container) => Content::Values(Bag::empty(container.gives)),
            Family::Cells(Cells { has_keys: false, .. }) => Content::Cell(None),
            Family::Cells(Cells { has_keys: true, has_values: have_values, .. }) => {
                Content::Cells(Entries { items: BTreeMap::new(), have_values: *have_values })
            }
            Family::Holdable(_) => Content::Holdable { holder: None, releaser: None },
            Family::Number(_) => Content::Number { number: 0, by: None },
        }
    }

    /// The item that the operation finds, where it looks for one and there is one.
    pub fn find(&self, op: Op) -> Option<Item> {
        if put_by(op).is_some() {
            return None;
        }
        match self {
            Content::Values(items) => items.next(),
            Content::Cell(item) => *item,
            Content::Cells(entries) => entries.items.get(&op.key()?).copied(),
            Content::Holdable { .. } => None,
            Content::Number { number, by } => by.map(|by| Item { value: *number, by }),
        }
    }

    /// The item of an object that is one cell.
    pub fn lone_item(&self) -> Option<Item> {
        match self {
            Content::Cell(item) => *item,
            Content::Values(_) | Content::Cells(_) => None,
            Content::Holdable { .. } | Content::Number { .. } => None,
        }
    }

    /// What the number is, where the object is one.
    pub fn number(&self) -> Option<i64> {
        match self {
            Content::Number { number, .. } => Some(*number),
            Content::Values(_) | Content::Cell(_) | Content::Cells(_) => None,
            Content::Holdable { .. } => None,
        }
    }

    /// The reply that the object gives to the operation; none: it is not possible.
    pub fn gives(&self, op: Op) -> Option<Reply> {
        let found = self.find(op);
        match op.function.does {
            Does::Puts => Some(Reply::Value(op.puts())),
            Does::Takes => Some(value_reply(found)),
            Does::Accesses(_) => op.next(found.map(|item| item.value)).map(|(reply, _)| reply),
            Does::Acquires | Does::Releases => {
                op.next_holder(self.holder().map(|(_, owner)| owner)).map(|_| Reply::Value(None))
            }
            Does::Adds | Does::Counts => {
                let number = self.number()?;
                number.checked_add(op.adds()?).map(|_| Reply::Value(Some(number)))
            }
        }
    }

    /// Who holds a mutex or lock: the operation, and its argument.
    pub fn holder(&self) -> Option<(u32, Value)> {
        match self {
            Content::Holdable { holder, .. } => *holder,
            Content::Values(_) | Content::Cell(_) | Content::Cells(_) => None,
            Content::Number { .. } => None,
        }
    }

    /// Who released a mutex or lock last.
    pub fn releaser(&self) -> Option<u32> {
        match self {
            Content::Holdable { releaser, .. } => *releaser,
            Content::Values(_) | Content::Cell(_) | Content::Cells(_) => None,
            Content::Number { .. } => None,
        }
    }

    /// What the operation that has this number leaves in its cell, if it sets it.
    fn left(&self, by: u32, op: Op) -> Option<Option<Item>> {
        let Effect { sets, .. } = op.effect(Some(self.gives(op)?))?;
        sets.map(|content| content.map(|value| Item { value, by }))
    }

    /// Does the operation that has this number. One that is not of the kind changes nothing.
    pub fn apply(&mut self, by: u32, op: Op) {
        let left = self.left(by, op);
        match self {
            Content::Values(items) => match op.puts() {
                Some(value) => items.put(Item { value, by }),
                None if op.removes() => _ = items.take(),
                None => {}
            },
            Content::Cell(item) => *item = left.unwrap_or(*item),
            Content::Cells(Entries { items, .. }) => match (op.key(), left) {
                (Some(key), Some(Some(item))) => _ = items.insert(key, item),
                (Some(key), Some(None)) => _ = items.remove(&key),
                (Some(_), None) | (None, _) => {}
            },
            Content::Holdable { holder, releaser } => match op.holds() {
                Some(true) => *holder = Some((by, op.argument)),
                Some(false) => (*holder, *releaser) = (None, Some(by)),
                None => {}
            },
            Content::Number { number, by: own } => {
                if let Some(amount) = op.adds().filter(|amount| *amount != 0) {
                    (*number, *own) = (number.saturating_add(amount), Some(by));
                }
            }
        }
    }

    /// The values in it, with their keys if it has keys; of a mutex or lock whether it is held, and
    /// its owner.
    pub fn values(&self) -> Vec<i64> {
        match self {
            Content::Values(items) => items.values().iter().map(|item| item.value).collect(),
            Content::Cell(item) => item.iter().map(|item| item.value).collect(),
            Content::Cells(Entries { items, .. }) => {
                items.iter().flat_map(|(key, item)| [*key, item.value]).collect()
            }
            Content::Holdable { holder, .. } => {
                holder.iter().map(|(_, owner)| owner.last().unwrap_or(1)).collect()
            }
            Content::Number { number, .. } => vec![*number],
        }
    }

    /// The content as text. Of a long one it tells the beginning and the end.
    pub fn text(&self, words: &Words) -> String {
        match self {
            Content::Values(items) => list_text(items, words),
            Content::Cell(item) => words.values(value_reply(*item).value().to_string()),
            Content::Cells(entries) => entries.text(words),
            Content::Holdable { holder, .. } => match holder.and_then(|(_, owner)| owner.last()) {
                Some(owner) => words.values(owner.to_string()),
                None => held_text(holder.is_some()).into(),
            },
            Content::Number { number, .. } => number.to_string(),
        }
    }
}

/// Whether a mutex or lock is held, in a word.
fn held_text(is_held: bool) -> &'static str {
    if is_held { "held" } else { "free" }
}

/// A list of at most this many values has all of them in its text, and a longer one has `SHOWN`.
const FEW: usize = 11;
const SHOWN: usize = 10;

/// The values with a space between them.
fn spaced<'a>(items: impl Iterator<Item = &'a Item>, words: &Words) -> String {
    let mut text = String::new();
    for item in items {
        let space = if text.is_empty() { "" } else { " " };
        let _ = write!(text, "{space}{}", item.value);
    }
    words.values(text)
}

/// The list of these items in brackets. Of a long one more is shown where values are taken out.
fn list_text(items: &Bag<Item>, words: &Words) -> String {
    let first = match items.gives() {
        Gives::First | Gives::Least => 8,
        Gives::Last => 2,
    };
    let (items, length) = (items.values(), items.len());
    if length <= FEW {
        return format!("[{}]", spaced(items.iter(), words));
    }
    let (beginning, end) = (items[..first].iter(), items[length + first - SHOWN..].iter());
    let more = count_text(length - SHOWN);
    format!("[{} … {more} more … {}]", spaced(beginning, words), spaced(end, words))
}

/// The most keys that the text of cells has.
const MOST_KEYS: usize = 6;

impl Entries {
    /// The entry of a key, in words.
    pub fn entry(&self, key: i64, item: Item) -> String {
        match self.have_values {
            true => format!("{key} {}", item.value),
            false => key.to_string(),
        }
    }

    /// The entries in braces, of many keys the first ones.
    fn text(&self, words: &Words) -> String {
        let shown = self.items.iter().take(MOST_KEYS);
        let mut entries: Vec<String> =
            shown.map(|(key, item)| words.values(self.entry(*key, *item))).collect();
        if self.items.len() > MOST_KEYS {
            entries.push(format!("… {} more", count_text(self.items.len() - MOST_KEYS)));
        }
        format!("{{{}}}", entries.join(", "))
    }
}
