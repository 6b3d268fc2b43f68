//! The calls of a heap, each placed in a gap.

use super::shortages::{Cover, Demands, Shortage};
use crate::residences::{Gaps, Removals, Residence, Transfers, residences_of};
use crate::timeline::{Interval, PENDING};

/// What comes first in one gap: extracts by rising value, each after its insert where that is in
/// the same gap, then calls that find nothing, then inserts of what is extracted later.
#[derive(Clone, Copy, PartialEq, Eq, PartialOrd, Ord)]
enum Phase {
    Extracts,
    Empties,
    Inserts,
}

/// A call in its gap. The order of the fields is that of the calls.
#[derive(Clone, Copy, PartialEq, Eq, PartialOrd, Ord)]
struct Placed {
    gap: u32,
    phase: Phase,
    value: i64,
    extracts: bool,
    number: u32,
}

/// The calls that are placed, and the gaps in which no value definitely is in the heap.
pub struct Placing {
    gaps: Gaps,
    placed: Vec<Placed>,
    /// What has no gap.
    pub shortages: Vec<Shortage>,
    /// The gaps in which the values definitely are in the heap, if pending extracts may change
    /// them.
    pub covers: Vec<Cover>,
    keeps_covers: bool,
    /// The number of moments.
    end: u32,
}

/// The last gap in which a call can take effect.
fn last_gap(call: &Interval) -> u32 {
    if call.is_pending() { PENDING } else { call.end.saturating_sub(1) }
}

/// The removals that are pending: a value must be gone where a greater one is extracted, or nothing
/// is found, by a call that begins when its insert has returned.
fn removals_of(end: u32, transfers: &Transfers, last_first: bool) -> Removals {
    let mut removals = Removals::new(end, transfers.unknown.clone(), last_first);
    let extracts =
        transfers.known.iter().filter(|transfer| transfer.takes).map(|transfer| &transfer.call);
    extracts.chain(&transfers.empties).for_each(|call| removals.note(call));
    removals
}

impl Placing {
    /// All calls placed, as far as they have gaps, where values are to be gone in some. `None`: a
    /// removal has no put, or nothing can be mended.
    pub fn of(
        end: u32,
        transfers: &Transfers,
        demands: &Demands,
        last_first: bool,
    ) -> Option<Placing> {
        let mut removals = removals_of(end, transfers, last_first);
        let mut placing = Placing {
            gaps: Gaps::new(end),
            placed: Vec::new(),
            shortages: Vec::new(),
            covers: Vec::new(),
            keeps_covers: !removals.is_empty(),
            end,
        };
        for own in transfers.by_value() {
            let extracts = own.iter().filter(|transfer| transfer.takes);
            extracts.for_each(|transfer| removals.forget(&transfer.call));
            let demands = demands.of(own[0].value);
            let gaps = &mut placing.gaps;
            let residences = residences_of(own, gaps, &mut removals, demands, last_first)?;
            placing.place_all(&residences);
            if !placing.keeps_covers && !placing.shortages.is_empty() {
                return None;
            }
        }
        placing.place_empties(&transfers.empties);
        Some(placing)
    }

    fn place_insert(&mut self, residence: &Residence, gap: u32, phase: Phase) {
        let (value, number) = (residence.value, residence.put.number);
        self.placed.push(Placed { gap, phase, value, extracts: false, number });
    }

    /// Places a value, unless its extract has no gap.
    fn place(&mut self, residence: &Residence) {
        let value = residence.value;
        let latest = last_gap(&residence.put);
        let Some(take) = residence.take else {
            return self.place_insert(residence, latest, Phase::Inserts);
        };
        let from = residence.definitely_to();
        let gap = self.gaps.first_free(from);
        if gap >= take.end {
            self.shortages.push(Shortage { below: Some(value), from, to: take.end });
            return;
        }
        let (phase, number) = (Phase::Extracts, take.number);
        self.placed.push(Placed { gap, phase, value, extracts: true, number });
        if latest < gap {
            self.place_insert(residence, latest, Phase::Inserts);
        } else {
            self.place_insert(residence, gap, Phase::Extracts);
        }
    }

    /// Places equal values.
    fn place_all(&mut self, residences: &[Residence]) {
        for residence in residences {
            self.place(residence);
        }
        for residence in residences {
            let to = residence.definitely_to().min(self.end);
            if self.keeps_covers && residence.put.end < to {
                self.covers.push(Cover::of(residence, to));
            }
            self.gaps.cover(residence.put.end, to);
        }
    }

    /// Places the calls that find nothing in the heap, unless one has no gap that is free of
    /// values.
    fn place_empties(&mut self, empties: &[Interval]) {
        for call in empties {
            let gap = self.gaps.first_free(call.begin);
            if gap >= call.end {
                self.shortages.push(Shortage { below: None, from: call.begin, to: call.end });
                continue;
            }
            let (phase, number) = (Phase::Empties, call.number);
            self.placed.push(Placed { gap, phase, value: 0, extracts: false, number });
        }
    }

    /// The numbers of the calls in their order.
    pub fn order(mut self) -> Vec<u32> {
        self.placed.sort_unstable_by_key(|p| (p.gap, p.phase, p.value, p.extracts));
        self.placed.iter().map(|p| p.number).collect()
    }
}
