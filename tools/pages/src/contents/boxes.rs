//! What an object contains, as boxes: what it gives, and what was returned.

use super::content::{Content, Entries, Item, value_reply};
use crate::figures::{CHARACTER, SMALL_CHARACTER, characters, count_text, digits};
use crate::timeline::{BoxKind, ContentBox, DrawnOperation};
use crate::words::Words;
use finder::{Bag, Gives, Reply};
use std::ops::Range;

/// An object that contains no more has a box for each.
const FEW: usize = 10;
/// How many boxes there are at the end where values are taken out.
const NEAR: usize = 8;

/// Whether a place of a list of this length has a box whatever is there: each if they are few;
/// else those where values are taken out, and the one at the other end.
fn is_near(place: usize, length: usize, gives: Gives) -> bool {
    let (near, other): (Range<usize>, usize) = match gives {
        _ if length <= FEW => (0..length, 0),
        Gives::Last => (length - NEAR..length, 0),
        Gives::First | Gives::Least => (0..NEAR, length - 1),
    };
    near.contains(&place) || place == other
}

/// Boxes in the making, from left to right.
struct Boxes<'a> {
    words: Words<'a>,
    boxes: Vec<ContentBox>,
    x: u32,
}

impl Boxes<'_> {
    /// Adds the box of values and keys.
    fn add_values(
        &mut self,
        kind: BoxKind,
        text: String,
        under: [&'static str; 2],
        by: Option<u32>,
    ) {
        self.add(kind, self.words.values(text), under, by);
    }

    fn add(&mut self, kind: BoxKind, text: String, under: [&'static str; 2], by: Option<u32>) {
        let own = characters(&text) * CHARACTER + 16;
        let by_words = by.map_or(0, |number| digits(u64::from(number)) + 8);
        let words = under.map(characters).into_iter().fold(by_words, u32::max);
        let width = own.max(words * SMALL_CHARACTER + 6);
        let x = self.x + if kind == BoxKind::Absent { 26 } else { 0 };
        self.boxes.push(ContentBox { kind, text, under, by, x, width });
        self.x = x + width + 4;
    }

    /// How many values are left out, if some are.
    fn gap(&mut self, count: usize) {
        if count > 0 {
            self.add(BoxKind::Skip, format!("… {}", count_text(count)), ["", ""], None);
        }
    }

    /// The values of a list, of which that at the place `at` is given, if one is looked for. Says
    /// whether what was returned is among the others.
    fn list(
        &mut self,
        items: &[Item],
        at: Option<usize>,
        gives: Gives,
        returned: Option<i64>,
    ) -> bool {
        let mut is_found = false;
        let mut skipped = 0;
        for (place, item) in items.iter().enumerate() {
            let is_given = at == Some(place);
            let is_returned = !is_found && !is_given && returned == Some(item.value);
            if !is_returned && !is_near(place, items.len(), gives) {
                skipped += 1;
                continue;
            }
            self.gap(std::mem::take(&mut skipped));
            is_found |= is_returned;
            let (kind, under) = match (is_given, is_returned) {
                (true, _) => (BoxKind::Gives, "gives"),
                (false, true) => (BoxKind::Returned, "returned"),
                (false, false) => (BoxKind::Plain, ""),
            };
            self.add_values(kind, item.value.to_string(), [under, ""], Some(item.by));
        }
        self.gap(skipped);
        is_found
    }

    /// The values of a container, and what the operation returned.
    fn values(&mut self, bag: &Bag<Item>, operation: &DrawnOperation, reply: Reply) {
        let (items, gives) = (bag.values(), bag.gives());
        let is_removal = operation.op().removes();
        let at = is_removal.then(|| match gives {
            Gives::First | Gives::Least => 0,
            Gives::Last => items.len().saturating_sub(1),
        });
        let returned = reply.content().flatten();
        let is_found = self.list(&items, at, gives, returned);
        if items.is_empty() {
            let (kind, under) =
                if is_removal { (BoxKind::Gives, "gives nil") } else { (BoxKind::Plain, "") };
            self.add(kind, "empty".into(), [under, ""], None);
        }
        if !is_found {
            let not_in_it = ["returned,", "not in it"];
            let under = if returned.is_some() { not_in_it } else { ["returned", ""] };
            self.absent(Reply::Value(returned), under);
        }
    }

    fn absent(&mut self, reply: Reply, under: [&'static str; 2]) {
        self.add_values(BoxKind::Absent, reply.value().to_string(), under, None);
    }

    /// The entries of cells with keys; if there are many only the one of the key, of which the
    /// object gives this.
    fn entries(&mut self, entries: &Entries, key: Option<i64>, gives: &'static str) {
        let items = &entries.items;
        for (own, item) in items {
            let is_own = key == Some(*own);
            if is_own || items.len() <= FEW {
                let (kind, under) =
                    if is_own { (BoxKind::Gives, gives) } else { (BoxKind::Plain, "") };
                self.add_values(kind, entries.entry(*own, *item), [under, ""], Some(item.by));
            }
        }
        if let Some(key) = key.filter(|key| !items.contains_key(key)) {
            let nothing = if entries.have_values { "nothing" } else { "not in it" };
            self.add_values(BoxKind::Gives, format!("{key} {nothing}"), [gives, ""], None);
        }
    }
}

/// What an object gives, in words; of a value only that it gives it.
fn gives_words(gives: Option<Reply>) -> &'static str {
    match gives {
        Some(Reply::Value(None)) => "gives nil",
        Some(Reply::Flag(true)) => "gives true",
        Some(Reply::Flag(false)) => "gives false",
        Some(Reply::Value(Some(_)) | Reply::Swapped(..) | Reply::NotSwapped) | None => "gives",
    }
}

/// The boxes of what the object contains where this operation is refused.
pub fn boxes_of(content: &Content, operation: &DrawnOperation, words: Words) -> Vec<ContentBox> {
    let mut boxes = Boxes { words, boxes: Vec::new(), x: 2 };
    let reply = operation.reply().unwrap_or(Reply::Value(None));
    match content {
        Content::Values(bag) => boxes.values(bag, operation, reply),
        Content::Cell(item) => {
            let text = value_reply(*item).value().to_string();
            boxes.add_values(BoxKind::Gives, text, ["contains", ""], item.map(|item| item.by));
            boxes.absent(reply, ["returned", ""]);
        }
        Content::Cells(entries) => {
            let op = operation.op();
            boxes.entries(entries, op.key(), gives_words(content.gives(op)));
            boxes.absent(reply, ["returned", ""]);
        }
        Content::Holdable { holder, .. } => {
            let by = holder.map(|(by, _)| by);
            boxes.add(BoxKind::Gives, content.text(&words), ["", ""], by);
        }
        Content::Number { number, by } => {
            boxes.add(BoxKind::Gives, number.to_string(), ["contains", ""], *by);
            if content.gives(operation.op()).is_some() {
                boxes.absent(reply, ["returned", ""]);
            }
        }
    }
    boxes.boxes
}
