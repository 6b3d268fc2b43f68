//! The operations that are not yet in the order, as a linked list.

/// The places of the operations that are not yet in the order, rising. Slot 0 is before all places,
/// and slot `k + 1` after place `k`. A place that was taken out keeps what it knows of its
/// neighbours, so that it can be put back: Knuth, "Dancing Links", 2000.
pub(super) struct NotDone {
    /// For each slot the first place after it that is in the list; the end is after the last one.
    next: Vec<usize>,
    /// For each place the slot before it in the list.
    before: Vec<usize>,
}

impl NotDone {
    /// All places below `count`.
    pub fn all(count: usize) -> NotDone {
        let numbers: Vec<usize> = (0..=count).collect();
        NotDone { next: numbers.clone(), before: numbers }
    }

    pub fn first(&self) -> usize {
        self.next[0]
    }

    /// The first place in the list after this one.
    pub fn after(&self, place: usize) -> usize {
        self.next[place + 1]
    }

    pub fn take_out(&mut self, place: usize) {
        let (slot, next) = (self.before[place], self.next[place + 1]);
        self.next[slot] = next;
        self.before[next] = slot;
    }

    /// Puts back the place that was taken out last.
    pub fn put_back(&mut self, place: usize) {
        let (slot, next) = (self.before[place], self.next[place + 1]);
        self.next[slot] = place;
        self.before[next] = place + 1;
    }

    /// The places in the list below `high`, at most those of operations.
    pub fn below(&self, high: usize) -> impl Iterator<Item = usize> {
        let high = high.min(self.next.len() - 1);
        let mut place = self.first();
        std::iter::from_fn(move || {
            let this = place;
            (this < high).then(|| {
                place = self.after(this);
                this
            })
        })
    }
}
