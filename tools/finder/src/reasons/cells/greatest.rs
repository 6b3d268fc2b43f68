//! The greatest of some items, and the greatest of those with another content.

/// Something with a content of a cell, and a moment by which it is greater than others.
pub trait Item: Copy {
    fn content(&self) -> usize;
    fn moment(&self) -> u32;
}

/// The greatest item, and the greatest of those with another content; of equal ones the first.
#[derive(Clone, Copy)]
pub struct Greatest<T> {
    pub first: Option<T>,
    second: Option<T>,
}

impl<T: Item> Greatest<T> {
    /// Of no items.
    pub fn new() -> Greatest<T> {
        Greatest { first: None, second: None }
    }

    pub fn note(&mut self, item: T) {
        let is_greater = |than: Option<T>| than.is_none_or(|than| item.moment() > than.moment());
        let is_same = self.first.is_some_and(|first| first.content() == item.content());
        if is_greater(self.first) {
            if !is_same {
                self.second = self.first;
            }
            self.first = Some(item);
        } else if !is_same && is_greater(self.second) {
            self.second = Some(item);
        }
    }

    /// The greatest one that has not this content.
    pub fn other(&self, content: usize) -> Option<T> {
        self.first.filter(|first| first.content() != content).or(self.second)
    }
}
