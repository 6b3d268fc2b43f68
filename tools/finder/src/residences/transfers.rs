//! What each call of a queue, stack or heap does with a value.

use crate::kinds::Role;
use crate::timeline::{Call, Interval};

/// A put or a removal of a value.
#[derive(Clone, Copy, Debug)]
pub struct Transfer {
    pub value: i64,
    pub takes: bool,
    pub call: Interval,
}

/// The calls of a queue, stack or heap.
#[derive(Default)]
pub struct Transfers {
    /// In rising value; of each value the puts and then the removals, in the order of their begins.
    pub known: Vec<Transfer>,
    /// The calls that found nothing in the object.
    pub empties: Vec<Interval>,
    /// Removals that are pending, in the order of their begins.
    pub unknown: Vec<Interval>,
}

impl Transfers {
    pub fn of(calls: &[Call]) -> Transfers {
        let mut transfers = Transfers::default();
        let mut taken = Vec::new();
        for call in calls {
            let span = call.span();
            match call.op.role(call.reply) {
                Role::Puts(value) => {
                    transfers.known.push(Transfer { value, takes: false, call: span })
                }
                Role::Takes(value) => taken.push(Transfer { value, takes: true, call: span }),
                Role::FindsNone => transfers.empties.push(span),
                Role::Unknown => transfers.unknown.push(span),
            }
        }
        transfers.known.append(&mut taken);
        // The calls come in the order of their begins, which stays that of equal ones. Values are
        // often put in rising order: then these are sorted.
        transfers.known.sort_by_key(|transfer| (transfer.value, transfer.takes));
        transfers
    }

    /// The transfers of each value.
    pub fn by_value(&self) -> impl Iterator<Item = &[Transfer]> {
        self.known.chunk_by(|one, other| one.value == other.value)
    }

    /// Whether a value is put twice.
    pub fn repeat(&self) -> bool {
        self.known.windows(2).any(|pair| pair[0].value == pair[1].value && !pair[1].takes)
    }

    /// Whether a value is put twice, or a removal is pending: whether it can be chosen which
    /// removal takes which value.
    pub fn leave_a_choice(&self) -> bool {
        self.repeat() || !self.unknown.is_empty()
    }

    /// Whether a value is taken when it can't be in: at some moment more of its removals have
    /// returned than puts of it have begun.
    pub fn overdraw(&self) -> bool {
        self.by_value().any(|transfers| {
            let (puts, takes) =
                transfers.split_at(transfers.partition_point(|transfer| !transfer.takes));
            let mut ends: Vec<u32> = takes.iter().map(|take| take.call.end).collect();
            ends.sort_unstable();
            ends.len() > puts.len() || ends.iter().zip(puts).any(|(end, put)| *end < put.call.begin)
        })
    }
}
