//! The lines of a figure.

use super::columns::{What, columns_of};
use super::labels::{characters, fit, fit_label};
use super::nemeses::{Spell, bands_of, marks_of, spells};
use super::numbers::{
    CHARACTER, HEIGHT, HEIGHT_WITH_POINTS, LANE_GAP, LANE_LENGTH, NEMESIS_HEIGHT, SMALL,
    TIME_HEIGHT, TOP, names_room,
};
use super::placing::{Layout, place};
use super::scene::Scene;
use super::segments::{Segment, segments_of, shown_operations};
use super::ticks::{end_of_times, gaps_of, ticks_of};
use crate::timeline::{
    Arrow, Band, Bar, Cross, DrawnOperation, Figure, Lane, Line, NemesisMark, Point, sound_points,
};
use std::collections::{BTreeMap, BTreeSet};

/// A line in the making: its number, the parts of bars in it, and the top of each process's lane.
struct Sheet<'a> {
    scene: &'a Scene<'a>,
    layout: &'a Layout,
    line: usize,
    segments: Vec<Segment>,
    /// The numbers of the operations that have bars, in any line.
    shown: BTreeSet<u32>,
    nemeses: Vec<NemesisMark>,
    bands: Vec<Band>,
    /// The top of the row of the nemesis, and of the lanes.
    nemesis_top: u32,
    top: u32,
    tops: BTreeMap<u64, u32>,
    height: u32,
}

/// The processes that have something in the line.
fn processes_of(
    scene: &Scene,
    layout: &Layout,
    line: usize,
    segments: &[Segment],
) -> BTreeSet<u64> {
    let of_points = layout.columns_in(line).filter_map(|(column, _)| match column.what {
        What::Point(place) => Some(scene.points[place].operation.process),
        _ => None,
    });
    let of_bars = segments.iter().map(|segment| segment.operation.process);
    let faulty = scene.faulty_process().filter(|_| line == layout.last_line());
    of_bars.chain(of_points).chain(faulty).collect()
}

impl<'a> Sheet<'a> {
    fn new(
        scene: &'a Scene<'a>,
        layout: &'a Layout,
        line: usize,
        all: &[Segment],
        spells: &[Spell],
    ) -> Sheet<'a> {
        let height = if scene.points.is_empty() { HEIGHT } else { HEIGHT_WITH_POINTS };
        let segments: Vec<Segment> =
            all.iter().filter(|segment| segment.line == line).copied().collect();
        let shown = all.iter().map(|segment| segment.operation.number()).collect();
        let processes = processes_of(scene, layout, line, &segments);
        let nemeses = marks_of(scene, layout, line);
        let bands = bands_of(scene, layout, line, spells);
        let nemesis_top = if scene.words.has_times() { TOP + TIME_HEIGHT } else { TOP };
        let has_nemesis = !nemeses.is_empty() || !bands.is_empty();
        let top = nemesis_top + if has_nemesis { NEMESIS_HEIGHT } else { 0 };
        let lane_tops = (top + 4..).step_by((height + LANE_GAP) as usize);
        let tops = processes.into_iter().zip(lane_tops).collect();
        Sheet {
            scene,
            layout,
            line,
            segments,
            shown,
            nemeses,
            bands,
            nemesis_top,
            top,
            tops,
            height,
        }
    }

    fn top_of(&self, process: u64) -> u32 {
        self.tops.get(&process).copied().unwrap_or(TOP)
    }

    fn lanes(&self) -> Vec<Lane> {
        let height = self.height;
        self.tops
            .iter()
            .map(|(process, top)| Lane { process: *process, top: *top, height })
            .collect()
    }

    fn bar(&self, segment: &Segment) -> Bar {
        let left = self.layout.left;
        let operation = segment.operation;
        let room = (segment.to - segment.from).saturating_sub(8) / CHARACTER;
        let info = match (operation.closed(), operation.ended) {
            (None, Some(number)) => self.layout.event(number),
            _ => None,
        };
        let info = info.filter(|spot| spot.line == self.line);
        Bar {
            operation,
            from: segment.from + left,
            to: segment.to + left,
            top: self.top_of(operation.process),
            height: self.height,
            open_left: segment.open_left,
            open_right: segment.open_right,
            label: fit_label(&self.scene.label(&operation), room as usize),
            mark: self.scene.mark(&operation),
            is_first: segment.is_first,
            info: info.map(|spot| spot.x + left),
        }
    }

    /// The bars, in the order in which their operations began, as they are read out.
    fn bars(&self) -> Vec<Bar> {
        let mut bars: Vec<Bar> = self.segments.iter().map(|segment| self.bar(segment)).collect();
        bars.sort_by_key(|bar| bar.operation.number());
        bars
    }

    /// Where a refused point is joined to its bar, if it is beyond the end of it.
    fn tether(&self, number: u32, x: u32) -> Option<u32> {
        let left = self.layout.left;
        match self.segments.iter().find(|segment| segment.operation.number() == number) {
            Some(segment) => (x > segment.to).then_some(segment.to + left),
            None => Some(left),
        }
    }

    fn points(&self) -> Vec<Point> {
        let point = |(what, x): (&What, u32)| {
            let What::Point(place) = what else {
                return None;
            };
            let placed = &self.scene.points[*place];
            let tether = self.tether(placed.operation.number(), x).filter(|_| placed.is_refused);
            // What is joined to its bar is below the lane, and so on no other bar.
            let down = self.height - if tether.is_some() { 0 } else { 9 };
            Some(Point {
                rank: placed.rank,
                operation: placed.operation,
                x: x + self.layout.left,
                y: self.top_of(placed.operation.process)
                    + down
                    + tether.map_or(0, |_| LANE_GAP / 2),
                is_refused: placed.is_refused,
                tether,
                content: placed.content.clone(),
            })
        };
        let columns = self.layout.columns_in(self.line);
        columns.filter_map(|(column, x)| point((&column.what, x))).collect()
    }

    /// The arrow between two operations, if its two ends are in the line.
    fn arrow(&self, earlier: DrawnOperation, later: DrawnOperation) -> Option<Arrow> {
        let left = self.layout.left;
        let from = self.layout.event(earlier.returned()?)?;
        let to = self.layout.event(later.number())?;
        let is_here = from.line == self.line && to.line == self.line;
        is_here.then(|| Arrow {
            from: (from.x + left, self.top_of(earlier.process) + 9),
            to: (to.x + left, self.top_of(later.process) + 9),
            earlier,
            later,
        })
    }

    /// The faulty map, where it is in the line.
    fn cross(&self) -> Option<Cross> {
        let faulty = self.scene.faulty?;
        let spot = self.layout.event(faulty.number)?;
        let top = *self.tops.get(&faulty.process?)?;
        (spot.line == self.line).then(|| Cross {
            number: faulty.number,
            fault: faulty.fault,
            x: spot.x + self.layout.left,
            y: top + self.height / 2,
            label: String::from(faulty.words),
        })
    }

    fn into_line(self) -> Line {
        let bars = self.bars();
        let points = sound_points(&bars, self.points());
        let gaps = gaps_of(self.scene, self.layout, self.line, &self.shown);
        let ticks = ticks_of(self.scene, self.layout, self.line, &gaps);
        let arrows = self.scene.arrows.iter();
        let arrows = arrows.filter_map(|(earlier, later)| self.arrow(*earlier, *later)).collect();
        let cross = self.cross();
        let width = self.layout.end_of(self.line) + self.layout.left + 8;
        let width = width.max(end_of_times(&ticks));
        let lanes = self.lanes();
        Line {
            left: self.layout.left,
            width: cross.iter().map(cross_end).fold(width, u32::max),
            height: lanes.len() as u32 * (self.height + LANE_GAP) + self.top + 6,
            lanes,
            gaps,
            ticks,
            nemesis_top: self.nemesis_top,
            nemeses: self.nemeses,
            bands: self.bands,
            bars,
            points,
            arrows,
            crosses: cross.into_iter().collect(),
        }
    }
}

/// How far the words at a cross go.
fn cross_end(cross: &Cross) -> u32 {
    cross.x + characters(&cross.label) * CHARACTER + 24
}

/// The figure of the scene.
pub fn figure_of(scene: &Scene) -> Figure {
    let mut layout = place(scene, &columns_of(scene));
    let (operations, left_out) = shown_operations(scene, &layout);
    let processes = operations.iter().map(|operation| operation.process);
    let names = processes.chain(scene.faulty_process()).map(|it| scene.words.lane(it));
    let longest = names.map(|name| characters(&fit(&name, LANE_LENGTH))).max().unwrap_or(0);
    layout.left = names_room(longest);
    let segments = segments_of(scene, &layout, &operations);
    let spells = spells(scene.nemeses);
    let sheet = |line| Sheet::new(scene, &layout, line, &segments, &spells).into_line();
    let lines: Vec<Line> = (0..layout.ends.len()).map(sheet).collect();
    let is_large = lines.iter().all(|line| line.width <= SMALL);
    Figure { lines, left_out, is_large }
}
