//! The calls of one side that are left and can be next soon.

use super::calls::Known;

/// After every call.
const NEVER: u32 = u32::MAX;

/// The calls of one side that are left: all that begin before one of them returns, and those from
/// `next` on.
#[derive(Clone)]
pub struct Front {
    /// In the order of their returns.
    pub left: Vec<Known>,
    pub next: usize,
}

impl Front {
    /// All these calls, which are in the order of their begins.
    pub fn new(side: &[Known]) -> Front {
        let mut front = Front { left: Vec::new(), next: 0 };
        front.admit(side);
        front
    }

    /// When the first of the calls that are left returns.
    pub fn bound(&self) -> u32 {
        self.left.first().map_or(NEVER, |call| call.end)
    }

    /// Moves the calls here that begin before one of those here returns.
    fn admit(&mut self, side: &[Known]) {
        while let Some(call) = side.get(self.next).filter(|call| call.begin < self.bound()) {
            let at = self.left.partition_point(|other| other.end < call.end);
            self.left.insert(at, *call);
            self.next += 1;
        }
    }

    /// Takes out a call that is here.
    pub fn remove(&mut self, side: &[Known], call: u32) {
        if let Some(at) = self.left.iter().position(|other| other.call == call) {
            self.left.remove(at);
        }
        self.admit(side);
    }

    /// When the first of the calls that are left begins.
    pub fn first_begin(&self, side: &[Known]) -> u32 {
        let later = side.get(self.next);
        self.left.iter().chain(later).map(|call| call.begin).min().unwrap_or(NEVER)
    }
}
