//! The numbers and the times of maps above the lanes.

use super::columns::{Column, What};
use super::labels::characters;
use super::numbers::{SMALL_CHARACTER, WIDEST, digits, gap_width};
use super::placing::Layout;
use super::scene::Scene;
use crate::timeline::{Gap, Tick};
use std::collections::BTreeSet;

/// The room that a tick or a gap takes, from left to right.
type Room = (u32, u32);

/// The gaps of the line, where the operations with these numbers have bars.
pub fn gaps_of(scene: &Scene, layout: &Layout, line: usize, shown: &BTreeSet<u32>) -> Vec<Gap> {
    let place = |number: u32| scene.operations.partition_point(|it| it.number() < number);
    let gap = |(column, x): (&Column, u32)| match &column.what {
        What::Gap(hole) => {
            let count = hole.end - hole.start;
            let begun = place(hole.end) - place(hole.start);
            let operations = begun - shown.range(hole.clone()).count();
            Some(Gap { x: x + layout.left, width: gap_width(count) - 8, count, operations })
        }
        _ => None,
    };
    layout.columns_in(line).filter_map(gap).collect()
}

/// The events of the line; none is shown yet.
fn bare_ticks(scene: &Scene, layout: &Layout, line: usize) -> Vec<Tick> {
    let tick = |(column, x): (&Column, u32)| {
        let What::Event(moment) = &column.what else {
            return None;
        };
        let is_focus = match scene.operation(moment) {
            Some(operation) => scene.is_focus(&operation),
            None => scene.is_faulty(moment),
        };
        Some(Tick {
            number: moment.number,
            x: x + layout.left,
            is_shown: false,
            is_focus,
            time: scene.words.time(moment.number),
        })
    };
    layout.columns_in(line).filter_map(tick).collect()
}

/// The room of n characters around this place.
fn room_around(x: u32, characters: u32) -> Room {
    let half = characters * SMALL_CHARACTER / 2 + 3;
    (x.saturating_sub(half), x + half)
}

fn number_room(tick: &Tick) -> Room {
    room_around(tick.x, digits(u64::from(tick.number)))
}

fn time_room(tick: &Tick) -> Option<Room> {
    tick.time.as_deref().map(|time| room_around(tick.x, characters(time)))
}

fn is_free(taken: &[Room], (from, to): Room) -> bool {
    taken.iter().all(|(left, right)| to < *left || *right < from)
}

/// What is taken of the row of numbers, and of that of times.
struct Rows {
    numbers: Vec<Room>,
    times: Vec<Room>,
}

impl Rows {
    /// The row of numbers has gaps too; that of times ends where the line does.
    fn new(layout: &Layout, gaps: &[Gap]) -> Rows {
        let room = |gap: &Gap| {
            let half = gap_width(gap.count) / 2;
            (gap.x.saturating_sub(half), gap.x + half)
        };
        let numbers = gaps.iter().map(room).collect();
        Rows { numbers, times: vec![(0, 0), (layout.left + WIDEST + 8, u32::MAX)] }
    }

    /// Whether both the number and the time have room.
    fn have_room(&self, tick: &Tick) -> bool {
        is_free(&self.numbers, number_room(tick))
            && time_room(tick).is_none_or(|room| is_free(&self.times, room))
    }

    /// Shows the ticks, of the focus or of the others, that have room.
    fn show(&mut self, scene: &Scene, ticks: &mut [Tick], of_focus: bool) {
        let is_of_history = |tick: &Tick| !scene.words.is_initial(tick.number);
        for tick in ticks.iter_mut().filter(|it| it.is_focus == of_focus && is_of_history(it)) {
            tick.is_shown = scene.is_zoom && of_focus || self.have_room(tick);
            if tick.is_shown {
                self.numbers.push(number_room(tick));
                self.times.extend(time_room(tick));
            }
        }
    }
}

/// The events of the line. A number is shown with its time, or neither is. They overlap no other
/// ones, and numbers no gap; those of the focus come first, and in a zoom each has room.
pub fn ticks_of(scene: &Scene, layout: &Layout, line: usize, gaps: &[Gap]) -> Vec<Tick> {
    let mut ticks = bare_ticks(scene, layout, line);
    let mut rows = Rows::new(layout, gaps);
    rows.show(scene, &mut ticks, true);
    rows.show(scene, &mut ticks, false);
    ticks
}

/// How far the times that are shown go.
pub fn end_of_times(ticks: &[Tick]) -> u32 {
    let shown = ticks.iter().filter(|tick| tick.is_shown);
    shown.filter_map(time_room).map(|(_, end)| end).max().unwrap_or(0)
}
