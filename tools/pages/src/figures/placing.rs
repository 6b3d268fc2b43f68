//! The columns in lines: where each event, gap and point is.

use super::columns::{Column, What};
use super::numbers::{LEFT, WIDEST};
use super::scene::Scene;
use crate::timeline::{DrawnOperation, operation_at};
use std::collections::BTreeMap;

/// The middle of a column, from the end of the lanes' names, and its line.
#[derive(Clone, Copy)]
pub struct Spot {
    pub line: usize,
    pub x: u32,
}

/// Where the columns are, and how far each line goes.
pub struct Layout {
    /// The room that the labels of the operations with drawn events need, by their numbers.
    pub rooms: BTreeMap<u32, u32>,
    /// Each column that has a place, in order.
    pub columns: Vec<(Column, Spot)>,
    /// The spots of the events, by their numbers.
    pub events: BTreeMap<u32, Spot>,
    pub ends: Vec<u32>,
    /// The room for the names of the lanes.
    pub left: u32,
    /// Where the next column begins at the least, and whether its line has none yet.
    x: u32,
    line: usize,
    is_new: bool,
}

impl Layout {
    fn new(scene: &Scene) -> Layout {
        let drawn = scene.moments.iter().filter(|moment| moment.is_drawn);
        let operations = drawn.filter_map(|moment| scene.operation(moment));
        Layout {
            rooms: operations.map(|it| (it.number(), scene.label_room(&it))).collect(),
            columns: Vec::new(),
            events: BTreeMap::new(),
            ends: Vec::new(),
            left: LEFT,
            x: 0,
            line: 0,
            is_new: true,
        }
    }

    fn room(&self, operation: &DrawnOperation) -> u32 {
        self.rooms.get(&operation.number()).copied().unwrap_or(0)
    }

    pub fn event(&self, number: u32) -> Option<Spot> {
        self.events.get(&number).copied()
    }

    pub fn last_line(&self) -> usize {
        self.ends.len().saturating_sub(1)
    }

    pub fn end_of(&self, line: usize) -> u32 {
        self.ends.get(line).copied().unwrap_or(0)
    }

    /// The columns of a line, with how far from its left end each is.
    pub fn columns_in(&self, line: usize) -> impl Iterator<Item = (&Column, u32)> {
        let columns = self.columns.iter().filter(move |(_, spot)| spot.line == line);
        columns.map(|(column, spot)| (column, spot.x))
    }

    /// The gap that has this number.
    pub fn gap(&self, number: u32) -> Option<Spot> {
        let has = |column: &Column| match &column.what {
            What::Gap(hole) => hole.contains(&number),
            _ => false,
        };
        self.columns.iter().find(|(column, _)| has(column)).map(|(_, spot)| *spot)
    }

    /// Where the faulty map begins in this line: after the labels of what is outstanding of its
    /// process.
    fn left_of_faulty(&self, scene: &Scene) -> u32 {
        let invocations = scene.moments.iter().filter(|moment| moment.is_invocation);
        let operations = invocations.filter_map(|moment| scene.operation(moment));
        let outstanding = operations.filter(|it| it.ended.is_none() && scene.is_of_faulty(it));
        outstanding.map(|operation| self.label_end(&operation)).fold(self.x, u32::max)
    }

    /// The end of the room of the operation's label, if that is in this line, otherwise 0.
    fn label_end(&self, operation: &DrawnOperation) -> u32 {
        match self.event(operation.number()) {
            Some(begin) if begin.line == self.line => begin.x + self.room(operation),
            _ => 0,
        }
    }

    /// Where a column begins in this line: a completion where its bar has room for its label.
    fn left_of(&self, scene: &Scene, column: &Column) -> u32 {
        let What::Event(moment) = &column.what else {
            return self.x;
        };
        if scene.is_faulty(moment) {
            return self.left_of_faulty(scene);
        }
        match scene.operation(moment) {
            Some(operation) if !moment.is_invocation => {
                self.x.max(self.label_end(&operation).saturating_sub(column.width / 2))
            }
            _ => self.x,
        }
    }

    /// Whether the first of the columns is the invocation of a focus operation that is to begin a
    /// new line: its label would not fit, in the right half of this one, or it would be broken
    /// here, and not there, alone or with those that begin before it ends.
    fn is_early(&self, scene: &Scene, columns: &[Column], left: u32) -> bool {
        let Some(operation) = focus_invoked(scene, &columns[0]) else {
            return false;
        };
        let is_cut = left > WIDEST / 2 && left + self.room(&operation) > WIDEST;
        let is_better = |end: &u32| {
            !self.is_whole(scene, columns, *end, (self.line, left))
                && self.is_whole(scene, columns, *end, (self.line + 1, 0))
        };
        let is_broken = || ends_of(scene, &operation).is_some_and(|it| it.iter().any(is_better));
        is_cut || !self.has_open_focus(scene, &operation) && is_broken()
    }

    /// Whether a focus operation that began before this one has not ended then.
    fn has_open_focus(&self, scene: &Scene, operation: &DrawnOperation) -> bool {
        let before = scene.focus.range(..operation.number());
        let mut before = before.filter_map(|(number, _)| {
            operation_at(scene.operations, i64::from(*number)).filter(|it| self.has_begun(it))
        });
        before.any(|it| it.closed().is_some_and(|end| end > operation.number()))
    }

    fn has_begun(&self, operation: &DrawnOperation) -> bool {
        self.event(operation.number()).is_some_and(|spot| spot.line == self.line)
    }

    /// Whether the columns up to this event have room in a line, where the first of them begins so
    /// far from its left end.
    fn is_whole(&self, scene: &Scene, columns: &[Column], end: u32, place: (usize, u32)) -> bool {
        let (line, mut x) = place;
        let mut begun: BTreeMap<u32, u32> = BTreeMap::new();
        for column in columns {
            let mut left = x;
            if let What::Event(moment) = &column.what
                && let Some(operation) = scene.operation(moment)
            {
                let number = operation.number();
                if moment.is_invocation {
                    begun.insert(number, left + column.middle);
                } else {
                    let before = self.event(number).filter(|spot| spot.line == line);
                    let begin = begun.get(&number).copied().or(before.map(|spot| spot.x));
                    let label_end = begin.map_or(0, |begin| begin + self.room(&operation));
                    left = left.max(label_end.saturating_sub(column.width / 2));
                }
            }
            x = left + column.width;
            if x > WIDEST || has(column, end) {
                return x <= WIDEST;
            }
        }
        false
    }

    /// Puts the first of the columns into this line, or into a new one.
    fn put(&mut self, scene: &Scene, columns: &[Column]) {
        let column = &columns[0];
        let mut left = self.left_of(scene, column);
        let is_wide = left + column.width > WIDEST;
        if !self.is_new && (is_wide || self.is_early(scene, columns, left)) {
            self.line += 1;
            left = 0;
        }
        let spot = Spot { line: self.line, x: left + column.middle };
        if let What::Event(moment) = &column.what {
            self.events.insert(moment.number, spot);
        }
        self.columns.push((column.clone(), spot));
        self.x = left + column.width;
        self.is_new = false;
    }

    /// How far the last line goes: bars that stay open have room for their labels.
    fn last_end(&self, scene: &Scene) -> u32 {
        let ends = self.columns_in(self.line).map(|(column, x)| x + column.width - column.middle);
        let mut end = ends.max().unwrap_or(0) + 4;
        for (column, x) in self.columns_in(self.line) {
            let What::Event(moment) = &column.what else {
                continue;
            };
            let Some(operation) = scene.operation(moment) else {
                continue;
            };
            let is_closed = operation.closed().is_some_and(|at| self.events.contains_key(&at));
            if moment.is_invocation && !is_closed {
                end = end.max((x + self.room(&operation)).min(WIDEST));
            }
        }
        end
    }
}

/// The focus operation that is invoked in the column.
fn focus_invoked(scene: &Scene, column: &Column) -> Option<DrawnOperation> {
    match &column.what {
        What::Event(moment) if moment.is_invocation => scene.operation(moment),
        _ => None,
    }
    .filter(|operation| scene.is_focus(operation))
}

/// Where a focus operation ends, with those that begin before it ends and so on, and alone; none
/// where it is pending.
fn ends_of(scene: &Scene, operation: &DrawnOperation) -> Option<[u32; 2]> {
    let alone = operation.closed()?;
    let mut last = alone;
    for number in scene.focus.range(operation.number() + 1..).map(|(number, _)| *number) {
        if number > last {
            break;
        }
        let later = operation_at(scene.operations, i64::from(number));
        last = last.max(later.and_then(|later| later.closed()).unwrap_or(last));
    }
    Some([last, alone])
}

/// Whether the column has this event, or is the gap that has it.
fn has(column: &Column, event: u32) -> bool {
    match &column.what {
        What::Event(moment) => moment.number == event,
        What::Gap(hole) => hole.contains(&event),
        _ => false,
    }
}

/// Puts the columns into lines.
pub fn place(scene: &Scene, columns: &[Column]) -> Layout {
    let mut layout = Layout::new(scene);
    (0..columns.len()).for_each(|first| layout.put(scene, &columns[first..]));
    if !layout.is_new {
        layout.ends = vec![WIDEST; layout.line];
        layout.ends.push(layout.last_end(scene));
    }
    layout
}
