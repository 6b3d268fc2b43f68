//! A segment tree of counts: adds to all places before one, and finds the last place whose count is
//! large enough.

/// The counts of some places that are side by side: what was added at them, and the greatest of
/// what was added at one and those after it.
#[derive(Clone, Copy)]
struct Sums {
    added: i64,
    most: i64,
}

impl Sums {
    /// The sums of no place.
    const NONE: Sums = Sums { added: 0, most: i64::MIN };

    /// The sums of these places and of others after them.
    fn before(self, later: Sums) -> Sums {
        Sums {
            added: self.added + later.added,
            most: later.most.max(self.most.saturating_add(later.added)),
        }
    }
}

/// A count at each place, with changes of all places before one.
pub struct Most {
    width: usize,
    /// For each part of a binary tree over the places.
    nodes: Vec<Sums>,
    /// What was added at all places.
    everywhere: i64,
}

impl Most {
    /// The count 0 at each of this many places.
    pub fn new(places: usize) -> Most {
        let width = places.next_power_of_two();
        let mut nodes = vec![Sums::NONE; 2 * width];
        nodes[width..width + places].fill(Sums { added: 0, most: 0 });
        for node in (1..width).rev() {
            nodes[node] = nodes[2 * node].before(nodes[2 * node + 1]);
        }
        Most { width, nodes, everywhere: 0 }
    }

    /// Adds to the counts of all places.
    pub fn add(&mut self, change: i64) {
        self.everywhere += change;
    }

    /// Adds to the counts of the places before this one.
    pub fn add_before(&mut self, place: usize, change: i64) {
        let Some(last) = place.checked_sub(1) else {
            return;
        };
        let mut node = last + self.width;
        let sums = &mut self.nodes[node];
        *sums = Sums { added: sums.added + change, most: sums.most.saturating_add(change) };
        while node > 1 {
            node /= 2;
            self.nodes[node] = self.nodes[2 * node].before(self.nodes[2 * node + 1]);
        }
    }

    /// The last place whose count is at least this.
    pub fn last_at_least(&self, least: i64) -> Option<usize> {
        let mut least = least - self.everywhere;
        let mut node = 1;
        if self.nodes[node].most < least {
            return None;
        }
        while node < self.width {
            let later = self.nodes[2 * node + 1];
            if later.most >= least {
                node = 2 * node + 1;
            } else {
                least -= later.added;
                node *= 2;
            }
        }
        Some(node - self.width)
    }
}
