//! A cell with what its calls set and show.

use super::sights::{Setters, Sights};
use crate::accesses::{Access, Cell, NOTHING, Need};
use crate::reasons::{Candidate, Chosen, Form, Pattern, Plan};
use crate::timeline::Call;

/// The value that a call needs, if it has returned.
pub fn needed(access: &Access) -> Option<usize> {
    match access.need {
        Need::Is(content) if !access.call.is_pending() && content != NOTHING => Some(content),
        _ => None,
    }
}

pub struct Scene<'a> {
    pub cell: &'a Cell,
    /// Whether a part can keep some values of the cell.
    pub has_values: bool,
    pub setters: Setters,
    pub sights: Sights,
}

impl<'a> Scene<'a> {
    pub fn of(cell: &'a Cell) -> Scene<'a> {
        let has_values = cell.has_values();
        Scene { cell, has_values, setters: Setters::of(cell), sights: Sights::of(cell) }
    }

    /// The value of a content; none for nothing.
    pub fn value(&self, content: usize) -> Option<i64> {
        self.cell.value(content)
    }

    /// The call at this place of the cell.
    pub fn call(&self, place: usize) -> Call {
        self.cell.accesses[place].call
    }

    /// The content that a call of the cell sets.
    pub fn set_by(&self, call: &Call) -> Option<usize> {
        let place = self.cell.accesses.partition_point(|access| access.call.begin < call.begin);
        self.cell.accesses.get(place)?.sets
    }

    /// The plan that keeps these contents of the cell, and these calls. A cell of a map as a
    /// register does not tell no value from a value that is not kept: where a key is to be without
    /// a value it is kept whole, and so is a cell without values.
    pub fn plan(&self, contents: &[usize], calls: &[Call]) -> Plan {
        let operations = calls.iter().map(|call| call.number).collect();
        let values = || contents.iter().filter_map(|content| self.value(*content)).collect();
        let is_whole = !self.has_values || contents.contains(&NOTHING);
        Plan::of(match self.cell.key {
            None => Form::LoneCell(Chosen { values: values(), operations }),
            Some(key) if is_whole => Form::Keys(Chosen { values: vec![key], operations }),
            Some(key) => Form::Entry { key, chosen: Chosen { values: values(), operations } },
        })
    }

    /// The candidate of a pattern.
    pub fn candidate(&self, pattern: Pattern, plan: Plan, weight: usize) -> Candidate {
        Candidate { pattern, key: self.cell.key, plan, weight }
    }
}
