//! A segment tree with lazy addition to a range: finds the first place of a range that is not
//! covered.

/// A part of the places.
#[derive(Clone, Copy, Default)]
struct Node {
    /// The least count in it, without what was added to parts that hold it.
    least: i64,
    /// What was added to the part as a whole.
    added: i64,
}

/// How often each place is covered.
pub struct Counts {
    width: usize,
    /// For each part of a binary tree.
    nodes: Vec<Node>,
}

/// A subtree: a node, and which leaves are below it.
#[derive(Clone, Copy)]
struct Subtree {
    node: usize,
    from: usize,
    width: usize,
}

impl Subtree {
    fn halves(self) -> [Subtree; 2] {
        let width = self.width / 2;
        [
            Subtree { node: 2 * self.node, from: self.from, width },
            Subtree { node: 2 * self.node + 1, from: self.from + width, width },
        ]
    }

    fn is_apart(self, from: usize, to: usize) -> bool {
        self.from >= to || self.from + self.width <= from
    }

    fn is_inside(self, from: usize, to: usize) -> bool {
        from <= self.from && self.from + self.width <= to
    }
}

impl Counts {
    /// The places, each covered as often as this list says.
    pub fn of(numbers: &[i64]) -> Counts {
        let width = numbers.len().next_power_of_two();
        let mut nodes = vec![Node::default(); 2 * width];
        for (node, number) in nodes[width..].iter_mut().zip(numbers) {
            node.least = *number;
        }
        for node in (1..width).rev() {
            nodes[node].least = nodes[2 * node].least.min(nodes[2 * node + 1].least);
        }
        Counts { width, nodes }
    }

    fn root(&self) -> Subtree {
        Subtree { node: 1, from: 0, width: self.width }
    }

    /// Adds to the counts of `from <= place < to`.
    pub fn add(&mut self, from: usize, to: usize, change: i64) {
        self.add_in(self.root(), from, to, change);
    }

    fn add_in(&mut self, part: Subtree, from: usize, to: usize, change: i64) {
        let node = part.node;
        if part.is_apart(from, to) {
            return;
        }
        if part.is_inside(from, to) {
            self.nodes[node].least += change;
            self.nodes[node].added += change;
            return;
        }
        for half in part.halves() {
            self.add_in(half, from, to, change);
        }
        let least = self.nodes[2 * node].least.min(self.nodes[2 * node + 1].least);
        self.nodes[node].least = least + self.nodes[node].added;
    }

    /// The first place in a range that is not covered.
    pub fn first_free(&self, from: usize, to: usize) -> Option<usize> {
        self.free_in(self.root(), from, to, 0)
    }

    fn free_in(&self, part: Subtree, from: usize, to: usize, above: i64) -> Option<usize> {
        if part.is_apart(from, to) || self.nodes[part.node].least + above > 0 {
            return None;
        }
        if part.width == 1 {
            return Some(part.from);
        }
        let above = above + self.nodes[part.node].added;
        let [left, right] = part.halves();
        self.free_in(left, from, to, above).or_else(|| self.free_in(right, from, to, above))
    }
}

#[cfg(test)]
mod tests {
    use super::*;

    #[test]
    fn finds_the_first_place_that_is_not_covered() {
        let mut counts = Counts::of(&[1, 0, 2, 0, 0]);
        assert_eq!(counts.first_free(0, 5), Some(1));
        counts.add(0, 4, 1);
        assert_eq!(counts.first_free(0, 5), Some(4));
        assert_eq!(counts.first_free(0, 4), None);
        counts.add(3, 4, -1);
        assert_eq!(counts.first_free(0, 4), Some(3));
    }
}
