//! A segment tree of maxima: the greatest mark of a range.

/// A moment, and the place of what it belongs to.
#[derive(Clone, Copy, Default)]
pub struct Mark {
    pub at: u32,
    pub place: usize,
}

impl Mark {
    /// The least mark, which is that of nothing.
    pub const NONE: Mark = Mark { at: 0, place: 0 };

    /// The later one of two.
    pub fn greater(self, other: Mark) -> Mark {
        if other.at > self.at { other } else { self }
    }
}

/// Marks at places, with the greatest of each part of a binary tree over them.
pub struct Marks {
    width: usize,
    nodes: Vec<Mark>,
}

impl Marks {
    /// No mark at any of this many places.
    pub fn new(places: usize) -> Marks {
        let width = places.next_power_of_two();
        Marks { width, nodes: vec![Mark::NONE; 2 * width] }
    }

    /// Raises the mark at this place.
    pub fn raise(&mut self, place: usize, mark: Mark) {
        let mut node = place + self.width;
        while node > 0 {
            self.nodes[node] = self.nodes[node].greater(mark);
            node /= 2;
        }
    }

    /// The greatest of the marks at `from <= place < to`.
    pub fn greatest(&self, from: usize, to: usize) -> Mark {
        let mut left = from.min(self.width) + self.width;
        let mut right = to.min(self.width) + self.width;
        let mut greatest = Mark::NONE;
        while left < right {
            if left % 2 == 1 {
                greatest = greatest.greater(self.nodes[left]);
                left += 1;
            }
            if right % 2 == 1 {
                right -= 1;
                greatest = greatest.greater(self.nodes[right]);
            }
            left /= 2;
            right /= 2;
        }
        greatest
    }
}
