//! The bars of a figure, each as its parts in the lines.

use super::columns::What;
use super::moments::Moment;
use super::numbers::{LANES, MOST};
use super::placing::Layout;
use super::scene::Scene;
use crate::timeline::{DrawnOperation, State, operation_at};
use std::collections::BTreeSet;

/// The part of a bar in a line.
#[derive(Clone, Copy)]
pub struct Segment {
    pub operation: DrawnOperation,
    pub line: usize,
    pub from: u32,
    pub to: u32,
    pub open_left: bool,
    pub open_right: bool,
    pub is_first: bool,
}

/// Where a bar begins or ends, and whether it is open there.
#[derive(Clone, Copy)]
struct BarEnd {
    line: usize,
    x: u32,
    is_open: bool,
}

/// How far a bar that goes on into a gap ends before the middle of it, or begins after that: so
/// that one that ends there and one that begins there do not look like one.
const FROM_MIDDLE: u32 = 4;

/// Which end of a bar.
#[derive(Clone, Copy)]
enum Side {
    Left,
    Right,
}

/// The end of a bar at the event with this number: at its spot, beside the middle of the gap that
/// has it, or at the beginning or the end of all lines.
fn end_at(layout: &Layout, number: u32, side: Side) -> BarEnd {
    if let Some(spot) = layout.event(number) {
        return BarEnd { line: spot.line, x: spot.x, is_open: false };
    }
    let is_before = layout.events.first_key_value().is_some_and(|(first, _)| number < *first);
    let (line, x) = match layout.gap(number) {
        Some(spot) => match side {
            Side::Left => (spot.line, spot.x + FROM_MIDDLE),
            Side::Right => (spot.line, spot.x.saturating_sub(FROM_MIDDLE)),
        },
        None if is_before => (0, 0),
        None => (layout.last_line(), layout.end_of(layout.last_line())),
    };
    BarEnd { line, x, is_open: true }
}

/// The part in a line of the stretch from one event to another, or to the end; none if it is not in
/// the line, or no wider than a gap.
pub fn stretch_between(
    layout: &Layout,
    from: u32,
    to: Option<u32>,
    line: usize,
) -> Option<(u32, u32)> {
    let begin = end_at(layout, from, Side::Left);
    let end = end_at(layout, to.unwrap_or(u32::MAX), Side::Right);
    let is_here = begin.line <= line && line <= end.line;
    let left = if begin.line == line { begin.x } else { 0 };
    let right = if end.line == line { end.x } else { layout.end_of(line) };
    (is_here && left < right).then_some((left, right))
}

/// The last line that has an event or a point of a pending operation, from this line on.
fn last_line_of(scene: &Scene, layout: &Layout, operation: &DrawnOperation, first: usize) -> usize {
    let is_its_point = |what: &What| match what {
        What::Point(place) => scene.points[*place].operation.number() == operation.number(),
        _ => false,
    };
    let ended = operation.ended.and_then(|number| layout.event(number));
    let points = layout.columns.iter().filter(|(column, _)| is_its_point(&column.what));
    let lines = ended.iter().chain(points.map(|(_, spot)| spot)).map(|spot| spot.line);
    lines.fold(first, usize::max)
}

fn right_end(scene: &Scene, layout: &Layout, operation: &DrawnOperation, left: BarEnd) -> BarEnd {
    if let Some(number) = operation.closed() {
        return end_at(layout, number, Side::Right);
    }
    let line = last_line_of(scene, layout, operation, left.line);
    let x = pending_end(scene, layout, operation, left.line, line);
    BarEnd { line, x, is_open: true }
}

/// How far the bar of a pending operation goes that is in lines from one to another: to the faulty
/// map of its process, or to the end of the last line.
fn pending_end(
    scene: &Scene,
    layout: &Layout,
    operation: &DrawnOperation,
    first: usize,
    last: usize,
) -> u32 {
    let faulty = scene.faulty.and_then(|faulty| layout.event(faulty.number));
    match faulty {
        Some(spot) if scene.is_of_faulty(operation) && first == last && spot.line == last => {
            spot.x.saturating_sub(9)
        }
        _ => layout.end_of(last),
    }
}

/// The numbers at which a stretch of drawn events begins.
fn stretches(moments: &[Moment]) -> Vec<u32> {
    let begins =
        |place: &usize| moments[*place].is_drawn && (*place == 0 || !moments[place - 1].is_drawn);
    (0..moments.len()).filter(begins).map(|place| moments[place].number).collect()
}

/// The operations that are open where some stretch begins.
fn through<'a>(
    operations: &'a [DrawnOperation],
    starts: &[u32],
) -> impl Iterator<Item = &'a DrawnOperation> {
    let first = starts.first().copied().unwrap_or(u32::MAX);
    let last = starts.last().copied().unwrap_or(0);
    let begun = &operations[..operations.partition_point(|it| it.number() < last)];
    begun.iter().filter(move |operation| {
        let open = operation.number() + 1..operation.closed().unwrap_or(u32::MAX);
        open.end > first && starts.iter().any(|start| open.contains(start))
    })
}

/// The operations that have a bar: those with a drawn event, and those that are open where a
/// stretch begins, and return, while there are lanes and room. And how many others are open all
/// through.
pub fn shown_operations(scene: &Scene, layout: &Layout) -> (Vec<DrawnOperation>, usize) {
    let drawn = layout.rooms.keys();
    let mut shown: Vec<DrawnOperation> =
        drawn.filter_map(|number| operation_at(scene.operations, i64::from(*number))).collect();
    let mut left_out = 0;
    if scene.is_zoom {
        return (shown, left_out);
    }
    let starts = stretches(scene.moments);
    let mut processes: BTreeSet<u64> = shown.iter().map(|operation| operation.process).collect();
    let is_outside = |operation: &&DrawnOperation| {
        !layout.rooms.contains_key(&operation.number())
            && !scene.without_lane.contains(&operation.number())
    };
    for operation in through(scene.operations, &starts).filter(is_outside) {
        let has_lane = processes.contains(&operation.process) || processes.len() < LANES;
        if operation.state() != State::Pending && has_lane && shown.len() < MOST {
            shown.push(*operation);
            processes.insert(operation.process);
        } else {
            left_out += 1;
        }
    }
    (shown, left_out)
}

/// The parts of the bar of an operation.
fn segments_at(scene: &Scene, layout: &Layout, operation: DrawnOperation) -> Vec<Segment> {
    let left = end_at(layout, operation.number(), Side::Left);
    let right = right_end(scene, layout, &operation, left);
    let segment = |line| {
        let (is_first, is_last) = (line == left.line, line == right.line);
        let from = if is_first { left.x } else { 0 };
        let to = if is_last { right.x } else { layout.end_of(line) };
        Segment {
            operation,
            line,
            from,
            to: to.max(from + 4),
            open_left: left.is_open || !is_first,
            open_right: right.is_open || !is_last,
            is_first,
        }
    };
    (left.line..=right.line).map(segment).collect()
}

/// The parts of the bars of these operations, in all lines.
pub fn segments_of(scene: &Scene, layout: &Layout, operations: &[DrawnOperation]) -> Vec<Segment> {
    operations.iter().flat_map(|operation| segments_at(scene, layout, *operation)).collect()
}
