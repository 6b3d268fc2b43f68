//! What each call of an object that has cells asks of one cell, and what it leaves there.

pub use crate::kinds::Need;
use crate::kinds::{Effect, Op};
use crate::splitmix::NumberTable;
use crate::timeline::Call;

/// The number of the content of an empty cell.
pub const NOTHING: usize = 0;

/// A call on one cell. Contents are identified by their numbers in the cell. What sets the content
/// that it asks for sets nothing.
#[derive(Clone, Copy)]
pub struct Access {
    pub call: Call,
    pub need: Need<usize>,
    pub sets: Option<usize>,
}

impl Access {
    /// What the cell contains after it, if that is known.
    pub fn shows(&self) -> Option<usize> {
        match (self.sets, self.need) {
            (Some(content), _) | (None, Need::Is(content)) => Some(content),
            _ => None,
        }
    }
}

/// The calls on one cell in the order of their invocations, and the contents by their numbers.
pub struct Cell {
    /// The key of a map; none at a register.
    pub key: Option<i64>,
    pub accesses: Vec<Access>,
    /// The value of each content.
    contents: Vec<Option<i64>>,
    numbers: NumberTable<i64, usize>,
}

impl Cell {
    fn new(key: Option<i64>) -> Cell {
        Cell { key, accesses: Vec::new(), contents: vec![None], numbers: NumberTable::default() }
    }

    /// Whether a part can keep some values of the cell.
    pub fn has_values(&self) -> bool {
        self.accesses.iter().all(|access| access.call.op.kind().has_values_in_cells())
    }

    /// How many contents there are.
    pub fn content_count(&self) -> usize {
        self.contents.len()
    }

    /// The value of a content; none for nothing.
    pub fn value(&self, content: usize) -> Option<i64> {
        self.contents.get(content).copied().flatten()
    }

    fn number(&mut self, content: Option<i64>) -> usize {
        let Some(value) = content else {
            return NOTHING;
        };
        *self.numbers.entry(value).or_insert_with(|| {
            self.contents.push(content);
            self.contents.len() - 1
        })
    }

    /// Adds a call, unless it has not returned and sets nothing.
    fn add(&mut self, call: &Call, effect: Effect) {
        let need = match effect.need {
            Need::Any => Need::Any,
            Need::Is(content) => Need::Is(self.number(content)),
            Need::IsNot(content) => Need::IsNot(self.number(content)),
        };
        let sets = effect.sets.map(|content| self.number(content));
        let sets = sets.filter(|content| need != Need::Is(*content));
        if sets.is_some() || !call.is_pending() {
            self.accesses.push(Access { call: *call, need, sets });
        }
    }
}

/// The cells of a register or map with their calls, in rising order of the keys.
pub fn cells_of(calls: &[Call]) -> Vec<Cell> {
    let mut cells: Vec<Cell> = Vec::new();
    let mut places = NumberTable::default();
    for call in calls {
        let Some(effect) = call.op.effect(call.reply) else {
            continue;
        };
        let key = call.op.key();
        let place = *places.entry(key).or_insert_with(|| {
            cells.push(Cell::new(key));
            cells.len() - 1
        });
        cells[place].add(call, effect);
    }
    cells.sort_unstable_by_key(|cell| cell.key);
    cells
}

/// What an operation on a mutex or lock asks of its holder, and leaves.
fn effect_on_holder(op: Op) -> Option<Effect> {
    let owner = op.argument.last();
    Some(match op.holds()? {
        true => Effect { need: Need::Is(None), sets: Some(owner) },
        false => Effect { need: Need::Is(owner), sets: Some(None) },
    })
}

/// The calls on a lock, as those on a cell that contains its owner.
pub fn owners_of(calls: &[Call]) -> Cell {
    let mut cell = Cell::new(None);
    for call in calls {
        if let Some(effect) = effect_on_holder(call.op) {
            cell.add(call, effect);
        }
    }
    cell
}
