//! What is to be done where an extract of a heap, or a call that finds nothing, has no gap: lesser
//! values definitely are in the heap in each of its time. One of them, by a pending extract, can be
//! gone earlier. In which gap that is to be is chosen here, and the values are placed anew.

use crate::residences::Residence;
use std::cmp::Reverse;
use std::ops::Range;

/// The most calls without a gap for which more is demanded.
const MOST_SHORTAGES: usize = 100;

/// How many gaps of such a call are looked at.
const MOST_GAPS: u32 = 400;

/// The most demands.
const MOST_DEMANDS: usize = 1_000_000;

/// What a value costs that must be gone, if a pending extract or none takes it.
const CHEAP: u64 = 1;

/// The same for another.
const DEAR: u64 = 8;

/// What a gap costs, for each value, that was demanded in vain.
const IN_VAIN: u64 = 1_000;

/// The gaps `from <= gap < to`, in none of which the values below one, or any, are all gone.
pub struct Shortage {
    /// None if it is that of a call that finds nothing.
    pub below: Option<i64>,
    pub from: u32,
    pub to: u32,
}

impl Shortage {
    fn concerns(&self, cover: &Cover) -> bool {
        self.below.is_none_or(|value| cover.value < value)
            && cover.from < self.to
            && self.from < cover.to
    }

    /// The gaps that are looked at, if there are any.
    fn gaps(&self) -> Range<u32> {
        self.from..self.to.clamp(self.from, self.from.saturating_add(MOST_GAPS))
    }
}

/// The gaps `from <= gap < to`, in which a value definitely is in the heap.
pub struct Cover {
    value: i64,
    from: u32,
    to: u32,
    cost: u64,
}

impl Cover {
    pub fn of(residence: &Residence, to: u32) -> Cover {
        let returns = residence.take.is_some_and(|take| !take.is_pending());
        let cost = if returns { DEAR } else { CHEAP };
        Cover { value: residence.value, from: residence.put.end, to, cost }
    }

    fn holds(&self, gap: u32) -> bool {
        self.from <= gap && gap < self.to
    }
}

/// The gaps in which values must be gone: a value and a gap each, in rising order.
#[derive(Default)]
pub struct Demands {
    demands: Vec<(i64, u32)>,
}

impl Demands {
    /// The demands on one value.
    pub fn of(&self, value: i64) -> &[(i64, u32)] {
        let from = self.demands.partition_point(|demand| demand.0 < value);
        let to = self.demands.partition_point(|demand| demand.0 <= value);
        &self.demands[from..to]
    }

    /// What it costs, for each of these gaps, that the values of these covers are gone in it.
    fn costs(&self, gaps: Range<u32>, covers: &[&Cover]) -> Vec<u64> {
        let place = |gap: u32| (gap.clamp(gaps.start, gaps.end) - gaps.start) as usize;
        let mut begins = vec![0; gaps.len() + 1];
        let mut ends = vec![0; gaps.len() + 1];
        let mut in_vain = vec![0; gaps.len() + 1];
        for cover in covers {
            begins[place(cover.from)] += cover.cost;
            ends[place(cover.to)] += cover.cost;
            let demanded = self.of(cover.value).iter().map(|(_, gap)| *gap);
            for gap in demanded.filter(|gap| gaps.contains(gap) && cover.holds(*gap)) {
                in_vain[place(gap)] += IN_VAIN;
            }
        }
        let mut cost = 0;
        let costs = (0..gaps.len()).map(|place| {
            cost = cost + begins[place] - ends[place];
            cost + in_vain[place]
        });
        costs.collect()
    }

    /// Demands that values be gone in one gap of a shortage. False if that was demanded before.
    fn add(&mut self, shortage: &Shortage, covers: &[&Cover]) -> bool {
        // of the cheapest gaps the last
        let costs = self.costs(shortage.gaps(), covers);
        let cheapest = shortage.gaps().zip(costs).min_by_key(|(gap, cost)| (*cost, Reverse(*gap)));
        let Some((gap, _)) = cheapest else {
            return false;
        };
        let before = self.demands.len();
        let covers = covers.iter().filter(|cover| cover.holds(gap));
        self.demands.extend(covers.map(|cover| (cover.value, gap)));
        self.demands.sort();
        self.demands.dedup();
        self.demands.len() > before
    }

    /// Demands what these shortages need. False if that is too much, or nothing new is demanded.
    pub fn add_all(&mut self, shortages: &[Shortage], covers: &[Cover]) -> bool {
        if shortages.len() > MOST_SHORTAGES {
            return false;
        }
        let mut adds = false;
        for shortage in shortages {
            let own: Vec<&Cover> = covers.iter().filter(|c| shortage.concerns(c)).collect();
            adds |= self.add(shortage, &own);
            if self.demands.len() > MOST_DEMANDS {
                return false;
            }
        }
        adds
    }
}
