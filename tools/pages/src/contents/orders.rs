//! The walk along an order: what the object contains after each entry, up to the fault.

use super::content::Content;
use crate::figures::Placed;
use crate::timeline::{DrawnOperation, Entry, Row, operation_at};
use crate::words::Words;
use finder::Kind;
use std::collections::BTreeSet;

/// How many entries before a fault, and after it, have a row in each case.
const BEFORE: usize = 12;
const AFTER: usize = 3;

/// The most rows of the table.
const ROWS: usize = 400;

/// An order with no more entries has a row for each.
const SHORT: usize = 60;

/// Where the walk is, and the rows up to there.
pub struct Walk<'a> {
    pub content: Content,
    pub points: Vec<Placed>,
    pub rows: Vec<Row>,
    words: Words<'a>,
    anchor: u32,
}

impl Walk<'_> {
    /// Passes an entry that is valid.
    fn pass(&mut self, operation: &DrawnOperation) {
        self.content.apply(operation.number(), operation.op());
        self.anchor = self.anchor.max(operation.number());
    }

    /// Takes in an entry that is valid and shown, and is drawn or not. The content after it.
    fn take(&mut self, rank: usize, operation: &DrawnOperation, is_drawn: bool) -> String {
        self.pass(operation);
        let content = self.content.text(&self.words);
        if is_drawn {
            self.place(rank, *operation, false, content.clone());
        }
        content
    }

    /// Draws an entry, with what the object contains there.
    fn place(&mut self, rank: usize, operation: DrawnOperation, is_refused: bool, content: String) {
        self.points.push(Placed {
            rank: u32::try_from(rank).unwrap_or(u32::MAX),
            operation,
            anchor: self.anchor.max(operation.number()),
            is_refused,
            content,
        });
    }
}

/// Which entries of an order are walked along, drawn and shown.
struct Route<'a> {
    operations: &'a [DrawnOperation],
    /// Of each number the place after that of its operation, or 0 if it is of none.
    places: Vec<u32>,
    order: &'a [i64],
    /// The place of the entry that is refused.
    refused: Option<usize>,
    /// Of each number whether its operation is drawn, up to the greatest that is.
    drawn: Vec<bool>,
}

/// Of each number up to the greatest whether it is one of these.
fn marks_of(numbers: &BTreeSet<u32>) -> Vec<bool> {
    let mut marks = vec![false; numbers.last().map_or(0, |last| *last as usize + 1)];
    numbers.iter().for_each(|number| marks[*number as usize] = true);
    marks
}

/// Of each number up to that of the last operation the place after that of its operation, or 0.
fn places_of(operations: &[DrawnOperation]) -> Vec<u32> {
    let mut places = vec![0; operations.last().map_or(0, |last| last.number() as usize + 1)];
    for (operation, place) in operations.iter().zip(1..) {
        places[operation.number() as usize] = place;
    }
    places
}

impl<'a> Route<'a> {
    /// The operation with this number.
    fn operation(&self, number: i64) -> Option<&'a DrawnOperation> {
        let place = *self.places.get(usize::try_from(number).ok()?)?;
        self.operations.get((place as usize).checked_sub(1)?)
    }

    /// Whether there are few entries, up to the fault or in all.
    fn is_short(&self) -> bool {
        self.refused.map_or(self.order.len(), |place| place + 1) <= SHORT
    }

    /// How many entries are walked along: those up to the fault. Without one, of a long order those
    /// up to the last entry that is drawn, or all if none is.
    fn reach(&self) -> usize {
        let all = self.order.len();
        match self.refused {
            Some(place) => place + 1,
            None if self.is_short() => all,
            None => self.order.iter().rposition(|it| self.draws(*it)).map_or(all, |last| last + 1),
        }
    }

    /// Whether the number is that of an operation that is drawn.
    fn draws(&self, number: i64) -> bool {
        usize::try_from(number).is_ok_and(|number| self.drawn.get(number) == Some(&true))
    }

    /// Whether the entry has a row, where it is drawn or not.
    fn shows(&self, place: usize, is_drawn: bool) -> bool {
        let is_near = self.refused.is_some_and(|refused| place + BEFORE >= refused);
        is_drawn || is_near || self.is_short()
    }
}

/// Walks along the order up to its fault. Without a fault, a long order is walked along up to the
/// last entry that is drawn, if some are.
pub fn walk_along<'a>(
    operations: &[DrawnOperation],
    kind: Kind,
    order: &[i64],
    refused: Option<usize>,
    drawn: &BTreeSet<u32>,
    words: Words<'a>,
) -> Walk<'a> {
    let content = Content::empty(kind);
    let mut walk = Walk { content, points: Vec::new(), rows: Vec::new(), words, anchor: 0 };
    let places = places_of(operations);
    let route = Route { operations, places, order, refused, drawn: marks_of(drawn) };
    for (place, number) in order.iter().enumerate().take(route.reach()) {
        let operation = route.operation(*number);
        let is_drawn = operation.is_some() && route.draws(*number);
        if !route.shows(place, is_drawn) {
            operation.into_iter().for_each(|operation| walk.pass(operation));
            continue;
        }
        let is_refused = refused == Some(place);
        let rank = place + 1;
        let content = match operation {
            Some(operation) if is_refused => {
                walk.place(rank, *operation, true, walk.content.text(&walk.words));
                None
            }
            Some(operation) => Some(walk.take(rank, operation, is_drawn)),
            None => None,
        };
        let entry = if is_refused { Entry::Refused } else { Entry::Valid };
        let operation = operation.copied();
        walk.rows.push(Row::Entry { rank, number: *number, operation, content, entry });
    }
    walk
}

/// The rows of the table of the order: those that the walk made, no more than a table has, the
/// entries after the fault, and how many are skipped between them.
pub fn rows_of(
    operations: &[DrawnOperation],
    order: &[i64],
    refused: Option<usize>,
    mut entries: Vec<Row>,
) -> Vec<Row> {
    let first_later = refused.map_or(order.len(), |refused| refused + 1);
    let later = order.iter().enumerate().skip(first_later).take(AFTER);
    entries.extend(later.map(|(place, number)| Row::Entry {
        rank: place + 1,
        number: *number,
        operation: operation_at(operations, *number),
        content: None,
        entry: Entry::NotLookedAt,
    }));
    let too_many = entries.len().saturating_sub(ROWS);
    let first = if refused.is_some() { too_many } else { 0 };
    let mut rows = Vec::new();
    let mut last = 0;
    for row in entries.into_iter().skip(first).take(ROWS) {
        if let Row::Entry { rank, .. } = &row {
            if *rank > last + 1 {
                rows.push(Row::Skipped(rank - last - 1));
            }
            last = *rank;
        }
        rows.push(row);
    }
    if order.len() > last {
        rows.push(Row::Skipped(order.len() - last));
    }
    rows
}
