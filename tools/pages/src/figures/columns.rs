//! The columns of a figure, from left to right: events, gaps, points, and room for arrows.

use super::moments::Moment;
use super::numbers::{ARROW_ROOM, event_width, gap_width, point_width};
use super::scene::{Placed, Scene};
use super::window::drawn_places;
use std::ops::Range;

/// What is in a column.
#[derive(Clone)]
pub enum What {
    /// Maps that are left out, by their numbers.
    Gap(Range<u32>),
    Event(Moment),
    /// Room for an arrow.
    Room,
    /// The point of the scene at this place.
    Point(usize),
}

#[derive(Clone)]
pub struct Column {
    pub what: What,
    pub width: u32,
    /// How far from its left end it has what is in it.
    pub middle: u32,
}

/// The holes between drawn events, also before the first and after the last.
fn holes_of(scene: &Scene) -> Vec<Range<u32>> {
    let mut holes = Vec::new();
    let mut first = 0;
    let mut is_left_out = false;
    for moment in scene.moments {
        if moment.is_drawn {
            if is_left_out {
                holes.push(first..moment.number);
            }
            first = moment.number + 1;
        }
        is_left_out = !moment.is_drawn;
    }
    if is_left_out {
        holes.push(first..u32::MAX);
    }
    holes
}

/// Whether the figure has no place for a point: it is in a hole, and its operation returns there
/// too, or nothing is drawn after the hole.
fn is_lost(holes: &[Range<u32>], point: &Placed) -> bool {
    let closed = point.operation.closed().unwrap_or(u32::MAX);
    !point.is_refused
        && holes.iter().any(|hole| {
            hole.contains(&point.anchor) && (hole.contains(&closed) || hole.end == u32::MAX)
        })
}

/// Columns in the making, and the points that have none yet.
struct Columns<'a> {
    scene: &'a Scene<'a>,
    holes: Vec<Range<u32>>,
    next_point: usize,
    columns: Vec<Column>,
}

impl Columns<'_> {
    /// Adds a column that has what is in it in its middle.
    fn add_even(&mut self, what: What, width: u32) {
        self.columns.push(Column { what, width, middle: width / 2 });
    }

    /// Adds the points whose anchor is below this number.
    fn add_points(&mut self, below: u32) {
        let points = &self.scene.points[self.next_point..];
        let comes = |point: &&Placed| point.anchor < below || below == u32::MAX;
        for point in points.iter().take_while(comes) {
            if !is_lost(&self.holes, point) {
                self.add_even(What::Point(self.next_point), point_width(point.rank));
            }
            self.next_point += 1;
        }
    }

    fn add_gap(&mut self, hole: Range<u32>) {
        let width = gap_width(hole.end - hole.start);
        self.add_even(What::Gap(hole), width);
    }

    fn add_event(&mut self, moment: Moment) {
        let what = What::Event(moment);
        let has_room = self.scene.is_zoom || self.scene.is_faulty(&moment);
        let characters = if has_room { self.scene.tick_length(moment.number) } else { 0 };
        self.add_even(what, event_width(characters));
        if self.scene.has_arrow_from(moment.number) {
            self.add_even(What::Room, ARROW_ROOM);
        }
    }
}

/// The columns of the scene, from left to right. A zoom has no gap at its ends.
pub fn columns_of(scene: &Scene) -> Vec<Column> {
    let places: Vec<usize> = drawn_places(scene.moments).collect();
    let holes = holes_of(scene);
    let mut columns = Columns { scene, holes, next_point: 0, columns: Vec::new() };
    let mut first = 0;
    let mut next_place = 0;
    for (k, place) in places.iter().enumerate() {
        let moment = scene.moments[*place];
        if *place > next_place && !(scene.is_zoom && k == 0) {
            columns.add_gap(first..moment.number);
            columns.add_points(moment.number);
        }
        columns.add_event(moment);
        first = moment.number + 1;
        next_place = place + 1;
        columns.add_points(match places.get(k + 1) {
            Some(later) if *later > next_place => first,
            Some(later) => scene.moments[*later].number,
            None => u32::MAX,
        });
    }
    if next_place < scene.moments.len() && !places.is_empty() && !scene.is_zoom {
        columns.add_gap(first..scene.maps.max(first));
    }
    columns.columns
}
