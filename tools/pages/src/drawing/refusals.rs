//! What is wrong with an order, in a sentence. Where a sentence says a fact of the history, the
//! code that chooses it has looked the fact up.

use crate::contents::{Content, puts, walk_along, wanted};
use crate::timeline::{DrawnOperation, Mark, Span, Spans, operation_at, spans};
use crate::words::Words;
use finder::{History, Kind, ObjectHistory, Reply};
use std::collections::{BTreeMap, BTreeSet};
use verdict::OrderFault;

/// Whether the operations that a sentence names are shown alone too.
#[derive(Clone, Copy)]
pub enum Alone {
    Never,
    /// When more operations than these are drawn.
    Above(usize),
    Always,
}

/// Those that a sentence on an order names.
const ZOOM: Alone = Alone::Above(12);

/// An order that is refused, and what it is an order of.
#[derive(Clone, Copy)]
pub struct Refused<'a> {
    pub history: &'a History,
    pub object: u32,
    pub kind: Kind,
    pub operations: &'a [DrawnOperation],
    pub order: &'a [i64],
}

/// A fault in words: the place of the refused entry, the sentence, why the entry is refused in a
/// few words, and the operations that the sentence speaks of.
pub struct Explanation {
    pub refused: Option<usize>,
    pub sentence: Spans,
    pub because: Spans,
    pub focus: BTreeMap<u32, Mark>,
    pub arrows: Vec<(DrawnOperation, DrawnOperation)>,
    pub alone: Alone,
    /// What the object contains before the refused entry, where that tells why.
    pub content: Option<Content>,
    /// The first event that leaves no order.
    pub first: Option<u32>,
}

impl Explanation {
    pub fn new(refused: Option<usize>, alone: Alone) -> Explanation {
        Explanation {
            refused,
            sentence: Vec::new(),
            because: Vec::new(),
            focus: BTreeMap::new(),
            arrows: Vec::new(),
            alone,
            content: None,
            first: None,
        }
    }

    /// That the object has no certificate.
    pub fn uncertified(object: u32, operations: usize) -> Explanation {
        let mut text = Explanation::new(None, Alone::Never);
        let needs_one = if operations == 1 {
            " operation on it, so it needs one: "
        } else {
            " operations on it, so it needs one: "
        };
        let certificate = Span::Certificate(object);
        let none = " has no certificate. The history has ";
        text.say(spans![
            "Object ",
            Span::Object(object),
            none,
            operations,
            needs_one,
            certificate,
            "."
        ]);
        text
    }

    fn say(&mut self, spans: Spans) {
        self.sentence.extend(spans);
    }

    /// Shows the operation with this mark, if it has none yet.
    pub fn mark(&mut self, operation: DrawnOperation, mark: Mark) {
        self.focus.entry(operation.number()).or_insert(mark);
    }

    /// Says the operation, which the figure then shows with this mark, if it has none yet.
    fn say_operation(&mut self, operation: DrawnOperation, mark: Mark) {
        self.mark(operation, mark);
        self.say(spans![operation]);
    }
}

/// The place of a number in an order.
fn place_in(order: &[i64], number: i64) -> Option<usize> {
    order.iter().position(|other| *other == number)
}

fn place_of(order: &[i64], operation: &DrawnOperation) -> Option<usize> {
    place_in(order, i64::from(operation.number()))
}

/// The object of which an operation has this number.
fn object_of(history: &History, number: u32) -> Option<&ObjectHistory> {
    let has =
        |object: &&ObjectHistory| object.ops.binary_search_by_key(&number, |op| op.number).is_ok();
    history.objects.iter().find(has)
}

impl Refused<'_> {
    fn operation(&self, number: u32) -> Option<DrawnOperation> {
        operation_at(self.operations, i64::from(number))
    }

    /// Why a number is that of no operation of the object that may be in an order.
    fn why_unknown(&self, number: i64) -> Spans {
        if number < 0 {
            return spans!["the number is negative"];
        }
        let maps = self.history.maps;
        let map = match u32::try_from(number) {
            Ok(map) if map < maps => map,
            _ => return spans!["it names no event of the history, which has ", maps as usize],
        };
        if let Some(object) = object_of(self.history, map) {
            return self.why_operation(map, object.object);
        }
        match self.history.runs.iter().find(|run| run.completed == Some(map)) {
            Some(run) => {
                spans!["event ", map, " is the completion of operation ", Span::Event(run.number)]
            }
            None => spans!["event ", map, " is of the nemesis"],
        }
    }

    /// The same where the number is that of an operation on this object.
    fn why_operation(&self, number: u32, object: u32) -> Spans {
        if object != self.object {
            return spans!["it is an operation on object ", Span::Object(object)];
        }
        match self.operation(number).and_then(|operation| operation.ended) {
            Some(ended) => spans!["it failed at event ", ended, ", so it did not happen"],
            None => spans!["it did not happen"],
        }
    }

    fn unknown(&self, number: i64) -> Explanation {
        let place = place_in(self.order, number);
        let mut text = Explanation::new(place, Alone::Never);
        let rank = Span::rank(place.unwrap_or(0));
        let object = Span::Object(self.object);
        text.say(spans!["Entry ", rank, " of the order for object ", object, " is "]);
        match operation_at(self.operations, number) {
            Some(operation) => text.say_operation(operation, Mark::Fault),
            None => text.say(spans![Span::Entry(number)]),
        }
        text.say(spans![", which is no operation that can be in it: "]);
        text.say(self.why_unknown(number));
        text.say(spans!["."]);
        text.because = spans!["no operation"];
        text
    }

    fn repeated(&self, operation: DrawnOperation) -> Explanation {
        let number = i64::from(operation.number());
        let mut places = (0..self.order.len()).filter(|place| self.order[*place] == number);
        let first = places.next().unwrap_or(0);
        let again = places.next().unwrap_or(first + 1);
        let mut text = Explanation::new(Some(again), ZOOM);
        text.say_operation(operation, Mark::Fault);
        text.say(spans![
            " stands twice in the order for object ",
            Span::Object(self.object),
            ", as entry ",
            Span::rank(first),
            " and again as entry ",
            Span::rank(again),
            ". An operation takes effect once."
        ]);
        text.because = spans!["stands already as entry ", Span::rank(first)];
        text
    }

    fn too_late(&self, late: DrawnOperation, early: DrawnOperation, at: u32) -> Explanation {
        let invoked = early.number();
        let mut text = Explanation::new(place_of(self.order, &late), ZOOM);
        text.say(spans!["The order puts "]);
        text.say_operation(early, Mark::Named);
        text.say(spans![" before "]);
        text.say_operation(late, Mark::Fault);
        text.say(spans![
            ". But ",
            Span::Event(late.number()),
            " returned at event ",
            at,
            ", before ",
            Span::Event(invoked),
            " was invoked at event ",
            invoked,
            ". An operation that returned before another began must stand before it."
        ]);
        text.because =
            spans!["returned at event ", at, ", before ", Span::Event(invoked), " was invoked"];
        text.arrows.push((late, early));
        text
    }

    fn omitted(&self, operation: DrawnOperation, at: u32) -> Explanation {
        let mut text = Explanation::new(None, Alone::Never);
        text.say_operation(operation, Mark::LeftOut);
        text.say(spans![
            " returned at event ",
            at,
            ", so it happened. But the order for object ",
            Span::Object(self.object),
            " leaves it out."
        ]);
        text
    }

    /// An explanation that begins with the entry's place, and what the object contains before it.
    fn as_entry(&self, operation: DrawnOperation) -> (Explanation, Content) {
        let place = place_of(self.order, &operation).unwrap_or(0);
        let before = &self.order[..place];
        let walk = walk_along(
            self.operations,
            self.kind,
            before,
            None,
            &BTreeSet::new(),
            Words::default(),
        );
        let mut text = Explanation::new(Some(place), ZOOM);
        text.say(spans!["As entry ", Span::rank(place), " of the order, "]);
        text.say_operation(operation, Mark::Fault);
        (text, walk.content)
    }

    fn not_possible(&self, operation: DrawnOperation) -> Explanation {
        let (mut text, content) = self.as_entry(operation);
        text.because = spans!["not possible"];
        if content.number().is_some() {
            self.say_overflow(&mut text);
        } else {
            self.say_holder(&mut text, &content, operation);
        }
        text.content = Some(content);
        text
    }

    /// An addition is not possible, since the sum has too many bits.
    fn say_overflow(&self, text: &mut Explanation) {
        text.say(spans![
            " is not possible: the ",
            self.kind,
            " contains ",
            Span::Content,
            " there, and the sum has more than 64 bits."
        ]);
    }

    /// An operation on a mutex or lock is not possible, because of who holds it.
    fn say_holder(&self, text: &mut Explanation, content: &Content, operation: DrawnOperation) {
        let named = |number: Option<u32>| self.operation(number?);
        text.say(spans![" is not possible: the ", self.kind, " is "]);
        if let Some(holder) = named(content.holder().map(|(by, _)| by)) {
            text.say(spans!["held there, by "]);
            text.say_operation(holder, Mark::Giver);
        } else if let Some(releaser) = named(content.releaser()) {
            text.say(spans!["free there, since "]);
            text.say_operation(releaser, Mark::Giver);
        } else {
            text.say(spans!["free there, from the beginning"]);
        }
        let words = &self.kind.words;
        let (done, while_it_is) = match operation.op().holds() {
            Some(true) => (words.put, " only while it is free."),
            Some(false) | None if self.kind.has_owner() => (words.taken, " only by its owner."),
            Some(false) | None => (words.taken, " only while it is held."),
        };
        text.say(spans![". A ", self.kind, " is ", done, while_it_is]);
    }

    fn wrong_reply(&self, operation: DrawnOperation, gives: Reply, returned: Reply) -> Explanation {
        let (mut text, content) = self.as_entry(operation);
        text.say(spans![
            " gives ",
            gives,
            ": the ",
            self.kind,
            " contains ",
            Span::Content,
            " there. The history says that it returned ",
            returned,
            "."
        ]);
        self.say_giver(&mut text, &content, &operation);
        self.say_source(&mut text, &operation, returned);
        text.because = spans!["gives ", gives, ", returned ", returned];
        text.content = Some(content);
        text
    }

    /// Who put what the operation finds.
    fn say_giver(&self, text: &mut Explanation, content: &Content, operation: &DrawnOperation) {
        let Some(item) = content.find(operation.op()) else {
            return;
        };
        if let Some(giver) = self.operation(item.by) {
            text.say(spans![" ", item.value, " was put there by "]);
            text.say_operation(giver, Mark::Giver);
            text.say(spans!["."]);
        }
    }

    /// The last other operation that was invoked before this number and puts the value in.
    fn last_putter(
        &self,
        operation: &DrawnOperation,
        value: i64,
        before: u32,
    ) -> Option<DrawnOperation> {
        let key = operation.op().key();
        let puts = |other: &&DrawnOperation| {
            other.number() < before
                && other.number() != operation.number()
                && puts(other, key, value)
        };
        self.operations.iter().rfind(puts).copied()
    }

    /// Who put what the operation returned, and where in the order that is.
    fn say_source(&self, text: &mut Explanation, operation: &DrawnOperation, returned: Reply) {
        let (Some(value), Some(end)) = (wanted(returned), operation.returned()) else {
            return;
        };
        // A number is a sum, which no operation puts there by itself.
        if operation.op().adds().is_some() {
            return;
        }
        let Some(source) = self.last_putter(operation, value, end) else {
            let none = if puts(operation, operation.op().key(), value) {
                " No other operation that was invoked before event "
            } else {
                " No operation that was invoked before event "
            };
            return text.say(spans![none, end, " put ", value, "."]);
        };
        text.say(spans![" ", value, " was put by "]);
        text.say_operation(source, Mark::Source);
        let refused = text.refused.unwrap_or(0);
        match place_of(self.order, &source) {
            None => text.say(spans![", which the order leaves out."]),
            Some(place) if place > refused => {
                text.say(spans![", which comes after it, as entry ", Span::rank(place), "."]);
            }
            Some(place) => {
                text.say(spans![", entry ", Span::rank(place)]);
                self.say_turn(text, &source, refused);
            }
        }
    }

    /// Why a value that this operation put in before is not what is found.
    fn say_turn(&self, text: &mut Explanation, source: &DrawnOperation, refused: usize) {
        if self.kind.has_cells() {
            return text.say(spans!["."]);
        }
        let Some((place, taker)) = self.taker_of(source, refused) else {
            return text.say(spans![", and is not at its turn."]);
        };
        text.say(spans![", and taken out by "]);
        text.say_operation(taker, Mark::Source);
        text.say(spans![", entry ", Span::rank(place), "."]);
    }

    /// The operation before this place of the order that takes out what the source put in.
    fn taker_of(&self, source: &DrawnOperation, refused: usize) -> Option<(usize, DrawnOperation)> {
        let mut content = Content::empty(self.kind);
        for (place, number) in self.order.iter().enumerate().take(refused) {
            let Some(operation) = operation_at(self.operations, *number) else {
                continue;
            };
            let found = content.find(operation.op());
            if found.is_some_and(|item| item.by == source.number()) {
                return Some((place, operation));
            }
            content.apply(operation.number(), operation.op());
        }
        None
    }

    /// The general sentence, which states no fact of the history.
    fn general(&self, refused: Option<usize>) -> Explanation {
        let mut text = Explanation::new(refused, Alone::Never);
        text.say(spans!["The order for object ", Span::Object(self.object), " is not valid."]);
        text.because = spans!["refused"];
        text
    }

    /// The fault in words.
    pub fn explain(&self, fault: OrderFault) -> Explanation {
        let number = match fault {
            OrderFault::UnknownOperation { op } => return self.unknown(op),
            OrderFault::Omitted { op } => i64::from(op),
            OrderFault::Repeated { op }
            | OrderFault::TooLate { op, .. }
            | OrderFault::NotPossible { op }
            | OrderFault::WrongReply { op, .. } => op,
        };
        let general = || self.general(place_in(self.order, number));
        let Some(operation) = operation_at(self.operations, number) else {
            return general();
        };
        match (fault, operation.returned(), operation.reply()) {
            (OrderFault::Repeated { .. }, _, _) => self.repeated(operation),
            (OrderFault::NotPossible { .. }, _, _) => self.not_possible(operation),
            (OrderFault::WrongReply { gives, .. }, _, Some(reply)) => {
                self.wrong_reply(operation, gives, reply)
            }
            (OrderFault::Omitted { .. }, Some(at), _) => self.omitted(operation, at),
            (OrderFault::TooLate { by, .. }, Some(at), _) => match self.operation(by) {
                Some(early) if at < by => self.too_late(operation, early, at),
                _ => general(),
            },
            _ => general(),
        }
    }
}
