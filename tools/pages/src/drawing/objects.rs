//! The drawing of an object: sentences, figures, and the table of an order.

use super::reasons::{Reason, one_of};
use super::refusals::{Alone, Explanation, Refused};
use crate::contents::{
    boxes_of, longest_order, rows_of, try_orders, walk_along, with_other_contents,
};
use crate::figures::{
    Moment, Placed, Scene, Stretch, WithoutLane, choose, drawn_places, figure_of, narrow, near_to,
    strip_of,
};
use crate::judged_page::Options;
use crate::timeline::{
    ContentBox, DrawnOperation, DrawnStretch, Extent, Figure, Mark, ObjectDrawing, Row, Span,
    Spans, State, operation_at, operations_of, spans,
};
use crate::words::Words;
use finder::{FirstEvent, History, ObjectHistory, Operation, Sentence};
use std::borrow::Cow;
use std::collections::{BTreeMap, BTreeSet};
use verdict::OrderFault;

/// An object with at most as many events is drawn whole.
const WHOLE: usize = 160;

/// How many operations another stretch has, how many there are at most, and how many operations a
/// page of them draws.
const STRETCH: usize = 40;
const STRETCHES: usize = 4;
const MOST_DRAWN: usize = 400;

/// The most operations that are drawn alone.
const MOST_ALONE: usize = 200;

/// An object of a history, and what of it is drawn.
#[derive(Clone, Copy)]
pub struct Subject<'a> {
    pub history: &'a History,
    pub object: &'a ObjectHistory,
    pub options: Options,
    pub words: Words<'a>,
    /// Whether the page has room for more stretches of it.
    pub has_room: bool,
}

impl Subject<'_> {
    fn stretch(&self) -> Stretch {
        Stretch { from: self.options.from, to: self.options.to }
    }

    fn operations(&self) -> Vec<DrawnOperation> {
        operations_of(self.history, self.object)
    }
}

/// The numbers of the events of these operations.
pub fn focus_events(operations: &[DrawnOperation], focus: &BTreeMap<u32, Mark>) -> Vec<u32> {
    let ended = |number: u32| operation_at(operations, i64::from(number))?.ended;
    focus.keys().flat_map(|number| std::iter::once(*number).chain(ended(*number))).collect()
}

/// The numbers of the operations with drawn events.
fn drawn_numbers(operations: &[DrawnOperation], moments: &[Moment]) -> BTreeSet<u32> {
    let drawn = drawn_places(moments).filter_map(|place| moments[place].of(operations));
    drawn.map(|operation| operation.number()).collect()
}

/// How many of the operations did not fail.
fn live_count(operations: &[DrawnOperation]) -> usize {
    operations.iter().filter(|it| it.state() != State::Failed).count()
}

/// The window of a figure, and the focus alone, which is drawn whatever the window is.
struct Window {
    moments: Vec<Moment>,
    zoomed: Vec<Moment>,
    drawn: BTreeSet<u32>,
    without: WithoutLane,
    extent: Extent,
}

/// The window of a figure, and the focus alone. Events are listed near to them; of the others they
/// need only that there are some.
fn window_of(
    operations: &[DrawnOperation],
    focus: &BTreeMap<u32, Mark>,
    subject: &Subject,
    stretch: Stretch,
) -> Window {
    let nemeses = &subject.history.nemeses;
    let events = focus_events(operations, focus);
    let near = near_to(operations, &events, stretch);
    let mut moments = near.moments(operations, nemeses);
    choose(&mut moments, &events, stretch, WHOLE);
    let numbers = focus.keys().copied().collect();
    let mut zoomed = Vec::new();
    if !focus.is_empty() {
        zoomed = focus_moments(operations, &moments, focus);
        narrow(operations, &mut zoomed, &numbers);
    }
    let without = narrow(operations, &mut moments, &numbers);
    let drawn = drawn_numbers(operations, &moments);
    let extent = Extent {
        operations: operations.len(),
        drawn: drawn.len(),
        without_lane: without.operations.len(),
        processes: without.processes,
    };
    Window { moments, zoomed, drawn, without, extent }
}

/// The same events, of which those of the focus are drawn, up to the most operations.
fn focus_moments(
    operations: &[DrawnOperation],
    moments: &[Moment],
    focus: &BTreeMap<u32, Mark>,
) -> Vec<Moment> {
    let alone: BTreeSet<u32> = focus.keys().take(MOST_ALONE).copied().collect();
    let is_alone = |moment: &Moment| {
        moment.of(operations).is_some_and(|operation| alone.contains(&operation.number()))
    };
    moments.iter().map(|moment| Moment { is_drawn: is_alone(moment), ..*moment }).collect()
}

impl Explanation {
    /// Whether the focus has a figure of its own.
    fn is_alone(&self, window: &Window) -> bool {
        match self.alone {
            Alone::Never => false,
            Alone::Above(few) => window.drawn.len() > few,
            Alone::Always => true,
        }
    }

    /// Whether the figure of the window dims what the sentence does not speak of.
    fn dims_others(&self, window: &Window) -> bool {
        let is_small = window.drawn.len() <= self.focus.len() + 1;
        match self.alone {
            Alone::Always => true,
            Alone::Never => false,
            Alone::Above(_) => !self.focus.is_empty() && !is_small,
        }
    }
}

/// What the figure of a window is laid out from, without the points of an order.
fn scene_of<'a>(
    operations: &'a [DrawnOperation],
    subject: &'a Subject,
    window: &'a Window,
    explanation: &'a Explanation,
) -> Scene<'a> {
    Scene {
        operations,
        moments: &window.moments,
        nemeses: &subject.history.nemeses,
        points: &[],
        focus: &explanation.focus,
        arrows: &explanation.arrows,
        is_zoom: false,
        dims: explanation.dims_others(window),
        maps: subject.history.maps,
        names_objects: false,
        without_lane: &window.without.operations,
        words: subject.words,
        faulty: None,
    }
}

/// The two figures of an object: the operations of the focus alone, where they are shown alone, and
/// the window.
fn figures(
    operations: &[DrawnOperation],
    subject: &Subject,
    window: &Window,
    points: &[Placed],
    explanation: &Explanation,
) -> (Option<Figure>, Figure) {
    let whole = scene_of(operations, subject, window, explanation);
    let points = points_in(points, window);
    let whole = Scene { points: &points, ..whole };
    if !explanation.is_alone(window) {
        return (None, figure_of(&whole));
    }
    let in_focus = |point: &&Placed| whole.is_focus(&point.operation);
    let points: Vec<Placed> = points.iter().filter(in_focus).cloned().collect();
    let moments = &window.zoomed;
    let zoom = Scene { moments, points: &points, is_zoom: true, dims: false, ..whole };
    let surroundings = Scene { arrows: &[], ..whole };
    (Some(figure_of(&zoom)), figure_of(&surroundings))
}

/// The points of the operations that the window draws, and of one that is refused.
fn points_in(points: &[Placed], window: &Window) -> Vec<Placed> {
    let is_drawn =
        |point: &&Placed| point.is_refused || window.drawn.contains(&point.operation.number());
    points.iter().filter(is_drawn).cloned().collect()
}

/// From which operation on each other stretch is drawn: from before the first event that leaves no
/// order, and then from places that are evenly apart.
fn starts_of(operations: &[DrawnOperation], first: Option<u32>) -> Vec<usize> {
    let before = |number: u32| {
        operations.partition_point(|it| it.number() <= number).saturating_sub(STRETCH / 2)
    };
    let even = (0..STRETCHES).map(|part| part * operations.len() / STRETCHES);
    let last = operations.len().saturating_sub(STRETCH);
    first.map(before).into_iter().chain(even).chain([last]).collect()
}

/// Other windows of the object, apart from the first one and from each other, while there is room.
fn other_windows(
    operations: &[DrawnOperation],
    subject: &Subject,
    window: &Window,
    first: Option<u32>,
) -> Vec<(Stretch, Window)> {
    let mut others: Vec<(Stretch, Window)> = Vec::new();
    let is_all = window.drawn.len() == operations.len() || window.drawn.is_empty();
    if is_all || !subject.has_room || subject.stretch().is_given() {
        return others;
    }
    let mut drawn = window.drawn.clone();
    for start in starts_of(operations, first) {
        let from = operations.get(start).map(DrawnOperation::number);
        let to =
            operations.get(start + STRETCH).map_or(subject.history.maps, DrawnOperation::number);
        let stretch = Stretch { from, to: Some(to) };
        let other = window_of(operations, &BTreeMap::new(), subject, stretch);
        let is_apart = other.drawn.is_disjoint(&drawn) && !other.drawn.is_empty();
        if is_apart && drawn.len() + other.drawn.len() <= MOST_DRAWN {
            drawn.extend(&other.drawn);
            others.push((stretch, other));
        }
    }
    others.sort_by_key(|(stretch, _)| stretch.from);
    others
}

/// The figures of other windows.
fn stretches(
    operations: &[DrawnOperation],
    subject: &Subject,
    others: &[(Stretch, Window)],
    points: &[Placed],
    explanation: &Explanation,
) -> Vec<DrawnStretch> {
    let drawn = |(stretch, window): &(Stretch, Window)| {
        let scene = Scene {
            arrows: &[],
            dims: false,
            ..scene_of(operations, subject, window, explanation)
        };
        let figure = figure_of(&Scene { points: &points_in(points, window), ..scene });
        let to = stretch.to.unwrap_or(subject.history.maps);
        DrawnStretch { from: stretch.from.unwrap_or(0), to, figure, extent: window.extent }
    };
    others.iter().map(drawn).collect()
}

/// The points and the rows of an order, if there is one.
fn points_and_rows(
    operations: &[DrawnOperation],
    subject: &Subject,
    order: Option<&[i64]>,
    refused: Option<usize>,
    drawn: &BTreeSet<u32>,
) -> (Vec<Placed>, Vec<Row>) {
    let Some(order) = order else {
        return (Vec::new(), Vec::new());
    };
    let kind = subject.object.kind;
    let walk = walk_along(operations, kind, order, refused, drawn, subject.words);
    (walk.points, rows_of(operations, order, refused, walk.rows))
}

/// The boxes of what the object contains before the entry that is refused, if one is.
fn boxes_before(
    operations: &[DrawnOperation],
    order: Option<&[i64]>,
    explanation: &Explanation,
    words: Words,
) -> Option<Vec<ContentBox>> {
    let number = order?.get(explanation.refused?)?;
    let operation = operation_at(operations, *number)?;
    Some(boxes_of(explanation.content.as_ref()?, &operation, words))
}

/// The drawing of an object with this order, if there is one, and with its sentences.
fn draw(
    subject: &Subject,
    operations: &[DrawnOperation],
    order: Option<&[i64]>,
    explanation: Explanation,
) -> ObjectDrawing {
    let kind = subject.object.kind;
    let window = window_of(operations, &explanation.focus, subject, subject.stretch());
    let others = other_windows(operations, subject, &window, explanation.first);
    let drawn = others.iter().fold(window.drawn.clone(), |all, (_, other)| &all | &other.drawn);
    let refused = explanation.refused;
    let (points, rows) = points_and_rows(operations, subject, order, refused, &drawn);
    let (zoom, figure) = figures(operations, subject, &window, &points, &explanation);
    let stretches = stretches(operations, subject, &others, &points, &explanation);
    let boxes = boxes_before(operations, order, &explanation, subject.words).unwrap_or_default();
    let is_all = window.drawn.len() == operations.len();
    let strip = (!is_all && !window.drawn.is_empty()).then(|| {
        let (history, events) = (subject.history, focus_events(operations, &explanation.focus));
        strip_of(operations, &window.moments, &history.nemeses, &events, history.maps, &stretches)
    });
    let Explanation { sentence, because, content, .. } = explanation;
    ObjectDrawing {
        object: subject.object.object,
        kind,
        sentences: if sentence.is_empty() { Vec::new() } else { vec![sentence] },
        because,
        content: content.map(|content| content.text(&subject.words)),
        boxes,
        zoom,
        figure,
        stretches,
        extent: window.extent,
        strip,
        is_open: false,
        rows,
        tried: None,
        reason: 0,
        live: 0,
        from: None,
        outside: Vec::new(),
    }
}

/// The drawing of an object with an order that is valid, if one is given.
pub fn draw_valid(subject: &Subject, order: Option<&[i64]>) -> ObjectDrawing {
    draw(subject, &subject.operations(), order, Explanation::new(None, Alone::Never))
}

/// The sentences on the longest order that was found, of this many operations, and on what comes
/// next.
fn longest_sentence(found: usize, all: usize, next: &[DrawnOperation]) -> Spans {
    let mut said =
        spans!["The longest order that was found for this page has ", found, " of ", all];
    said.extend(spans![if all == 1 { " operation. " } else { " operations. " }]);
    if next.is_empty() {
        said.extend(spans!["It has each operation that returned, but the judge did not find it."]);
        return said;
    }
    said.extend(spans!["After it comes "]);
    said.extend(one_of(next));
    said.extend(spans![if next.len() == 1 {
        ", which does not fit."
    } else {
        ", and none of them fits."
    }]);
    said
}

/// That more steps may decide it.
fn steps_sentence() -> Spans {
    spans![
        Span::Command("--steps N"),
        Span::Aside(" lets the last search of an object go further.")
    ]
}

/// The drawing of an object that stays open, as this sentence says, with the longest order that a
/// short search finds.
pub fn draw_open(subject: &Subject, open: Spans) -> ObjectDrawing {
    let operations = subject.operations();
    let longest = longest_order(&operations, subject.object.kind);
    let order: Vec<i64> = longest.order.iter().map(|it| i64::from(it.number())).collect();
    let mut text = Explanation::new(None, Alone::Never);
    for operation in &longest.next {
        text.mark(*operation, Mark::Named);
    }
    let sentence = longest_sentence(order.len(), live_count(&operations), &longest.next);
    ObjectDrawing {
        sentences: vec![open, sentence, steps_sentence()],
        is_open: true,
        ..draw(subject, &operations, Some(&order), text)
    }
}

/// The drawing of an object that has no certificate.
pub fn draw_uncertified(subject: &Subject) -> ObjectDrawing {
    let operations = subject.operations();
    let text = Explanation::uncertified(subject.object.object, operations.len());
    draw(subject, &operations, None, text)
}

/// The drawing of an object with an order that is refused.
pub fn draw_refused(subject: &Subject, order: &[i64], fault: OrderFault) -> ObjectDrawing {
    let operations = subject.operations();
    let refused = Refused {
        history: subject.history,
        object: subject.object.object,
        kind: subject.object.kind,
        operations: &operations,
        order,
    };
    draw(subject, &operations, Some(order), refused.explain(fault))
}

/// A part of an object's history of which no order is valid.
pub struct DrawnPart<'a> {
    pub history: Cow<'a, ObjectHistory>,
    /// The number from which on it is a part, if that is not the beginning.
    pub from: Option<u32>,
    /// The value that stands for all that it does not keep, if one does.
    pub other: Option<i64>,
    /// What the finder says of it.
    pub sentence: &'a Sentence,
}

impl DrawnPart<'_> {
    /// Its operations that did not fail.
    fn live(&self) -> Vec<Operation> {
        self.history.ops.iter().filter(|op| !op.has_failed()).copied().collect()
    }

    /// The operation from which on it is a part, if it is not one from the beginning.
    fn begins_at(&self, operations: &[DrawnOperation]) -> Option<DrawnOperation> {
        operation_at(operations, i64::from(self.from?))
    }

    /// These operations of the part, as the history has them, and the one from which on it is a
    /// part.
    fn recorded(&self, operations: &[DrawnOperation], live: &[Operation]) -> Vec<DrawnOperation> {
        let first = self.from.filter(|from| invocation_in(live, *from).is_none());
        let own = live.iter().map(|invocation| invocation.number);
        let numbers = first.into_iter().chain(own);
        numbers.filter_map(|number| operation_at(operations, i64::from(number))).collect()
    }
}

/// The invocation with this number, of a part in rising number.
fn invocation_in(part: &[Operation], number: u32) -> Option<&Operation> {
    let place = part.binary_search_by_key(&number, |invocation| invocation.number).ok()?;
    Some(&part[place])
}

/// The operations that returned and are pending in the part.
fn outside_of(operations: &[DrawnOperation], part: &[Operation]) -> Vec<DrawnOperation> {
    let is_outside = |operation: &&DrawnOperation| {
        operation.state() == State::Done
            && invocation_in(part, operation.number()).is_some_and(Operation::is_pending)
    };
    operations.iter().filter(is_outside).copied().collect()
}

/// From each of these operations that returned to the next one that was invoked later. They are in
/// rising number.
fn arrows_in(operations: &[DrawnOperation]) -> Vec<(DrawnOperation, DrawnOperation)> {
    let arrow = |earlier: &DrawnOperation| {
        let at = earlier.returned()?;
        let next = operations.partition_point(|operation| operation.number() <= at);
        Some((*earlier, *operations.get(next)?))
    };
    operations.iter().take(MOST_ALONE).filter_map(arrow).collect()
}

fn impossible_sentence(object: &ObjectHistory) -> Spans {
    spans![
        "No order of the operations of object ",
        Span::Object(object.object),
        ", a ",
        object.kind,
        ", is valid. So the history is not linearizable."
    ]
}

/// The text with a capital at its beginning.
fn capitalized(text: &str) -> String {
    let mut rest = text.chars();
    rest.next().into_iter().flat_map(char::to_uppercase).chain(rest).collect()
}

/// The first event by which there is no order, as far as it is known.
fn first_sentence(first: FirstEvent) -> Spans {
    let FirstEvent { least, most } = first;
    if least == most {
        return spans!["Event ", most, " is the first that leaves no order."];
    }
    let one = "The first event that leaves no order is one from event ";
    spans![one, least, " to event ", most, ". They were not all tried."]
}

/// The drawing of an object of which no order is valid, for no order of this part is: the
/// operations of the part alone, the orders of them that were tried, and where they are in the
/// history.
pub fn draw_impossible(subject: &Subject, part: &DrawnPart) -> ObjectDrawing {
    let operations = subject.operations();
    let live = part.live();
    let recorded = part.recorded(&operations, &live);
    let first = part.sentence.beginning;
    let first = first.and_then(|first| operation_at(&operations, i64::from(first.number)));
    let tried = try_orders(&operations, part.history.kind, &live, first, part.other, subject.words);
    let reason = Reason {
        kind: subject.object.kind,
        operations: &operations,
        part: &recorded,
        from: part.from,
        sentence: part.sentence,
    };
    let sentence = reason.sentence(&tried);
    let mut text = Explanation::new(None, Alone::Always);
    for operation in &recorded {
        text.mark(*operation, Mark::Fault);
    }
    for span in &sentence {
        if let Span::Operation(operation) = span {
            text.mark(*operation, Mark::Named);
        }
    }
    text.arrows = arrows_in(&recorded);
    text.first = part.sentence.first.map(|first| first.most);
    ObjectDrawing {
        sentences: [impossible_sentence(subject.object), sentence]
            .into_iter()
            .chain(part.sentence.first.map(first_sentence))
            .collect(),
        content: reason.said().map(|said| capitalized(&subject.words.sentence(said))),
        outside: outside_of(&recorded, &live),
        tried: Some(with_other_contents(tried, part.begins_at(&operations))),
        reason: recorded.len(),
        live: live_count(&operations),
        from: part.from,
        ..draw(subject, &operations, None, text)
    }
}
