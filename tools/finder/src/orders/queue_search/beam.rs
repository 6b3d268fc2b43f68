//! The walk through the layers.

use super::states::State;
use super::steps::Search;

/// How many states a layer has at most.
const WIDTH: usize = 24;

/// How many times as many it has if no state was left.
const WIDER: usize = 4;

/// How often it is made wider.
const MOST_TRIALS: usize = 5;

/// How many more pending calls than the least number a state may have used.
const SLACK: u32 = 1;

/// After how many layers they are saved.
const SAVE: usize = 256;

/// How many layers are saved at most.
const MOST_SAVED: usize = 12;

/// How many calls the states of a layer list at most, so that a layer takes some 64 MB.
const MOST_LISTED: usize = 4_000_000;

/// How many steps may be recorded before those are dropped that led to no state.
const MOST_DROPPED: usize = 1 << 20;

/// Two layers, one after the other.
#[derive(Clone)]
struct Beam {
    older: Vec<State>,
    newer: Vec<State>,
    /// The number of the newer one.
    layer: usize,
}

impl Beam {
    fn is_empty(&self) -> bool {
        self.older.is_empty() && self.newer.is_empty()
    }

    fn states(&mut self) -> impl Iterator<Item = &mut State> {
        self.older.iter_mut().chain(&mut self.newer)
    }
}

/// How far a search has come.
pub struct Walk {
    beam: Beam,
    /// Beams before it, the last one last.
    saved: Vec<Beam>,
    /// How often it went back and has not come as far again.
    trials: usize,
    width: usize,
    /// The last layer at which no state was left.
    far: usize,
    /// How many steps are recorded when those are dropped that led to no state.
    collect_at: usize,
}

impl Walk {
    pub fn new(search: &Search) -> Walk {
        let beam = Beam { older: Vec::new(), newer: vec![State::new(&search.calls)], layer: 0 };
        Walk { beam, saved: Vec::new(), trials: 0, width: WIDTH, far: 0, collect_at: MOST_DROPPED }
    }

    /// A state in which all is placed, if one is found.
    pub fn run(&mut self, search: &mut Search) -> Option<State> {
        loop {
            if let Some(state) = self.beam.newer.iter().find(|state| state.is_done()) {
                return Some(state.clone());
            }
            if search.left == 0 || (self.beam.is_empty() && !self.go_back()) {
                return None;
            }
            self.save();
            self.advance(search);
            self.collect(search);
        }
    }

    /// Goes back to a beam that was saved. False if that was done too often.
    fn go_back(&mut self) -> bool {
        self.trials += 1;
        self.width *= WIDER;
        self.far = self.far.max(self.beam.layer);
        if self.trials > MOST_TRIALS {
            return false;
        }
        let left = self.saved.len().saturating_sub(self.trials).max(1);
        self.saved.truncate(left);
        let Some(last) = self.saved.last() else {
            return false;
        };
        self.beam = last.clone();
        true
    }

    /// Saves the beam where it is time to, and is narrow again if it has come far enough.
    fn save(&mut self) {
        let layer = self.beam.layer;
        if !layer.is_multiple_of(SAVE) {
            return;
        }
        if layer > self.far + SAVE {
            self.trials = 0;
            self.width = WIDTH;
        }
        if self.saved.last().is_some_and(|last| last.layer >= layer) {
            return;
        }
        if self.saved.len() >= MOST_SAVED {
            self.saved.remove(0);
        }
        self.saved.push(self.beam.clone());
    }

    fn states(&mut self) -> impl Iterator<Item = &mut State> {
        std::iter::once(&mut self.beam).chain(&mut self.saved).flat_map(Beam::states)
    }

    /// Drops the steps that led to no state that is left, if there are too many.
    fn collect(&mut self, search: &mut Search) {
        if search.records.len() < self.collect_at {
            return;
        }
        let mut kept = vec![false; search.records.len()];
        self.states().for_each(|state| search.records.keep(&mut kept, state.step));
        let numbers = search.records.drop_others(&kept);
        for state in self.states() {
            state.step = numbers[state.step as usize];
            state.spare = numbers[state.spare as usize];
        }
        self.collect_at = 2 * search.records.len() + MOST_DROPPED;
    }

    /// One layer further.
    fn advance(&mut self, search: &mut Search) {
        let slack = SLACK + self.trials as u32;
        let longest = self.beam.states().map(|state| state.listed()).max().unwrap_or(0);
        let width = self.width.min((MOST_LISTED / longest.max(1)).max(1));
        let layer = search.layer(&self.beam.older, &self.beam.newer, slack, width);
        self.beam.older = std::mem::replace(&mut self.beam.newer, layer);
        self.beam.layer += 1;
    }
}
