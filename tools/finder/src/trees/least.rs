//! A segment tree of minima: the least number of a range.

/// What is in place of a number that is taken out.
pub const ABSENT: i64 = i64::MAX;

/// A list of numbers, with the least of each part of a binary tree over it. Node `k` has the nodes
/// `2k` and `2k + 1` below it, and the leaves are the last half of the nodes.
pub struct Least {
    width: usize,
    nodes: Vec<i64>,
}

impl Least {
    pub fn of(numbers: &[i64]) -> Least {
        let width = numbers.len().next_power_of_two();
        let mut nodes = vec![ABSENT; 2 * width];
        nodes[width..width + numbers.len()].copy_from_slice(numbers);
        for node in (1..width).rev() {
            nodes[node] = nodes[2 * node].min(nodes[2 * node + 1]);
        }
        Least { width, nodes }
    }

    /// The number at this place.
    pub fn number(&self, place: usize) -> i64 {
        self.nodes[place + self.width]
    }

    /// Puts another number at this place.
    pub fn set(&mut self, place: usize, number: i64) {
        let mut node = place + self.width;
        self.nodes[node] = number;
        while node > 1 {
            node /= 2;
            let least = self.nodes[2 * node].min(self.nodes[2 * node + 1]);
            if std::mem::replace(&mut self.nodes[node], least) == least {
                return;
            }
        }
    }

    /// The least of the numbers at `from <= place < to`.
    pub fn least(&self, from: usize, to: usize) -> i64 {
        let mut left = from.min(self.width) + self.width;
        let mut right = to.min(self.width) + self.width;
        let mut least = ABSENT;
        while left < right {
            if left % 2 == 1 {
                least = least.min(self.nodes[left]);
                left += 1;
            }
            if right % 2 == 1 {
                right -= 1;
                least = least.min(self.nodes[right]);
            }
            left /= 2;
            right /= 2;
        }
        least
    }

    /// The first place in a range whose number is at most this.
    pub fn first_at_most(&self, from: usize, to: usize, most: i64) -> Option<usize> {
        if from >= to.min(self.width) {
            return None;
        }
        let mut node = from + self.width;
        while self.nodes[node] > most {
            // what a right node is part of ends with it
            node >>= node.trailing_ones();
            if node == 0 {
                return None;
            }
            node += 1;
        }
        while node < self.width {
            node *= 2;
            node += usize::from(self.nodes[node] > most);
        }
        let place = node - self.width;
        (place < to).then_some(place)
    }

    /// Takes out the first number in a range that is at most this, and gives its place.
    pub fn take_at_most(&mut self, from: usize, to: usize, most: i64) -> Option<usize> {
        let place = self.first_at_most(from, to, most)?;
        self.set(place, ABSENT);
        Some(place)
    }
}

#[cfg(test)]
mod tests {
    use super::*;

    #[test]
    fn finds_least_and_first() {
        let mut least = Least::of(&[5, 3, 8, 1, 9, 1, 7]);
        assert_eq!(least.least(0, 3), 3);
        assert_eq!(least.least(4, 4), ABSENT);
        assert_eq!(least.first_at_most(0, 7, 2), Some(3));
        assert_eq!(least.first_at_most(4, 7, 2), Some(5));
        assert_eq!(least.first_at_most(4, 5, 2), None);
        assert_eq!(least.take_at_most(0, 7, 1), Some(3));
        assert_eq!(least.least(0, 5), 3);
        assert_eq!(Least::of(&[]).first_at_most(0, 0, 2), None);
    }
}
