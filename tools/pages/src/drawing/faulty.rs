//! The drawing of a text that is no history: the maps before the faulty one, which are a history,
//! and the faulty one as a cross.

use crate::drawing::objects::focus_events;
use crate::figures::{FaultyMap, Moment, Scene, Stretch, choose, figure_of, moments_of, narrow};
use crate::timeline::{DrawnOperation, Figure, Mark, operations_of};
use crate::words::Words;
use finder::History;
use std::collections::BTreeMap;

/// A history before a fault with at most as many events is drawn whole.
const WHOLE: usize = 40;

/// A faulty map, the history before it, and the number of an earlier map that it clashes with, if
/// there is one.
#[derive(Clone, Copy)]
pub struct Faulty<'a> {
    pub history: &'a History,
    pub map: FaultyMap<'a>,
    pub earlier: Option<u32>,
}

/// The figure of the history up to a fault, and the operation that the faulty map clashes with: how
/// many operations of how many processes it leaves out for lack of lanes.
pub struct FaultyDrawing {
    pub figure: Figure,
    pub earlier: Option<DrawnOperation>,
    pub without_lane: usize,
    pub processes: usize,
}

impl Faulty<'_> {
    /// The operations of all objects, in rising number.
    fn operations(&self) -> Vec<DrawnOperation> {
        let objects = self.history.objects.iter();
        let mut operations: Vec<DrawnOperation> =
            objects.flat_map(|object| operations_of(self.history, object)).collect();
        operations.sort_unstable_by_key(DrawnOperation::number);
        operations
    }

    /// The events before the faulty map, and the faulty map.
    fn moments(&self, operations: &[DrawnOperation], earlier: &BTreeMap<u32, Mark>) -> Vec<Moment> {
        let mut moments = moments_of(operations, &self.history.nemeses);
        moments.push(Moment::new(self.map.number, None, false));
        let mut focus = focus_events(operations, earlier);
        focus.push(self.map.number);
        choose(&mut moments, &focus, Stretch::default(), WHOLE);
        moments
    }
}

/// The drawing of the history up to a faulty map.
pub fn draw_up_to(faulty: &Faulty) -> FaultyDrawing {
    let operations = faulty.operations();
    let earlier = faulty.earlier.and_then(|number| {
        let has = |it: &&DrawnOperation| it.number() == number || it.ended == Some(number);
        operations.iter().find(has).copied()
    });
    let focus: BTreeMap<u32, Mark> =
        earlier.iter().map(|operation| (operation.number(), Mark::Named)).collect();
    let mut moments = faulty.moments(&operations, &focus);
    let without = narrow(&operations, &mut moments, &focus.keys().copied().collect());
    let figure = figure_of(&Scene {
        operations: &operations,
        moments: &moments,
        nemeses: &faulty.history.nemeses,
        points: &[],
        focus: &focus,
        arrows: &[],
        is_zoom: false,
        dims: false,
        maps: faulty.map.number + 1,
        names_objects: faulty.history.objects.len() > 1,
        without_lane: &without.operations,
        words: Words::default(),
        faulty: Some(faulty.map),
    });
    FaultyDrawing {
        figure,
        earlier,
        without_lane: without.operations.len(),
        processes: without.processes,
    }
}
