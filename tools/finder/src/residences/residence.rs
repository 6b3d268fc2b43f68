//! How long each value is in a queue, stack or heap. If a value comes more than once, its puts
//! and removals are paired, and each pair counts as a value of its own.

use super::Transfer;
use crate::timeline::Interval;

/// Stands for the moment at which a value is taken that no call takes. It is after the moment of a
/// pending call.
pub const NEVER: u32 = u32::MAX;

/// A value, the call that puts it in, and the one that takes it.
#[derive(Clone, Copy, Debug)]
pub struct Residence {
    pub value: i64,
    pub put: Interval,
    pub take: Option<Interval>,
}

impl Residence {
    /// The first gap in which the value definitely is in the object, if it definitely is in any:
    /// the put has returned, or the removal has.
    pub fn definitely_from(&self) -> u32 {
        self.put.end.min(self.taken_by())
    }

    /// The first gap in which it may be gone.
    pub fn definitely_to(&self) -> u32 {
        self.taken_from().max(self.put.begin)
    }

    /// When its removal begins.
    pub fn taken_from(&self) -> u32 {
        self.take.map_or(NEVER, |take| take.begin)
    }

    /// When its removal has returned.
    pub fn taken_by(&self) -> u32 {
        self.take.map_or(NEVER, |take| take.end)
    }
}

/// The values, in rising order: of each value the puts and the removals are paired in the order of
/// these moments. `None`: a value is taken more often than it is put in.
fn pair(transfers: &[Transfer], moment: impl Fn(&Transfer) -> u32) -> Option<Vec<Residence>> {
    let mut sorted: Vec<&Transfer> = transfers.iter().collect();
    sorted.sort_by_key(|transfer| (transfer.value, transfer.takes, moment(transfer)));
    let mut residences: Vec<Residence> = Vec::new();
    let mut open = 0; // the first residence of the last value that has no removal
    for &&Transfer { value, takes, call } in &sorted {
        if takes {
            let residence = residences.get_mut(open).filter(|r| r.value == value)?;
            residence.take = Some(call);
            open += 1;
        } else {
            if residences.last().is_none_or(|last| last.value != value) {
                open = residences.len();
            }
            residences.push(Residence { value, put: call, take: None });
        }
    }
    // what is not known to be put in and is not taken is left out
    residences.retain(|residence| !residence.put.is_pending() || residence.take.is_some());
    Some(residences)
}

/// The values with their puts and removals, each put with the removal that begins next.
pub fn pair_by_begins(transfers: &[Transfer]) -> Option<Vec<Residence>> {
    pair(transfers, |transfer| transfer.call.begin)
}

/// The same, each put that returns with the removal that begins: so each value is definitely in the
/// object only while more of its puts have returned than removals have begun.
pub fn pair_by_counts(transfers: &[Transfer]) -> Option<Vec<Residence>> {
    pair(transfers, |transfer| if transfer.takes { transfer.call.begin } else { transfer.call.end })
}
