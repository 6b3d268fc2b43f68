//! Containers: values go in, and come out in some order.

use crate::reasons::{Candidate, Interval, Runs};
use crate::residences::Transfers;
use crate::timeline::Timeline;
use std::collections::{BTreeMap, VecDeque};

/// Which of its values a container gives. It tells what is ahead of a value.
#[derive(Clone, Copy, Debug, PartialEq, Eq)]
pub enum Gives {
    /// That which was put in first: what was put in before a value is ahead of it.
    First,
    /// That which was put in last: what was put on a value is ahead of it.
    Last,
    /// The least: what is less than a value is ahead of it.
    Least,
}

/// What is special to a container.
pub struct Container {
    pub gives: Gives,
    pub(crate) orders: ContainerOrders,
    /// The patterns of its own in which no order is valid.
    pub(crate) patterns: fn(&Runs, &[Interval]) -> Vec<Candidate>,
}

/// What finds an order of the calls which may be valid.
pub(crate) type OrderMethod = fn(&Timeline) -> Option<Vec<u32>>;

/// The methods that find orders of the calls which may be valid.
pub(crate) struct ContainerOrders {
    pub quick: fn(&Timeline, Transfers) -> Option<Vec<u32>>,
    /// Another one, where it can be chosen which removal takes which value.
    pub other_pairs: fn(&Timeline, Transfers) -> Option<Vec<u32>>,
    /// By a search of all that the object may contain.
    pub by_contents: Option<OrderMethod>,
    /// Whether the quick methods take long if values repeat.
    pub are_slow: bool,
}

/// The values in a container.
#[derive(Clone, PartialEq, Eq)]
pub enum Bag<T> {
    /// From the first value to go out on.
    First(VecDeque<T>),
    /// From the bottom on.
    Last(Vec<T>),
    /// How often each value is in.
    Least(BTreeMap<T, usize>),
}

fn put_copy<T: Ord>(copies: &mut BTreeMap<T, usize>, value: T) {
    *copies.entry(value).or_insert(0) += 1;
}

fn take_copy<T: Ord>(copies: &mut BTreeMap<T, usize>, value: T) {
    if let Some(count) = copies.get_mut(&value) {
        *count -= 1;
        if *count == 0 {
            copies.remove(&value);
        }
    }
}

impl<T: Copy + Ord> Bag<T> {
    pub fn empty(gives: Gives) -> Bag<T> {
        match gives {
            Gives::First => Bag::First(VecDeque::new()),
            Gives::Last => Bag::Last(Vec::new()),
            Gives::Least => Bag::Least(BTreeMap::new()),
        }
    }

    /// Which of the values is taken out next.
    pub fn gives(&self) -> Gives {
        match self {
            Bag::First(_) => Gives::First,
            Bag::Last(_) => Gives::Last,
            Bag::Least(_) => Gives::Least,
        }
    }

    pub fn put(&mut self, value: T) {
        match self {
            Bag::First(values) => values.push_back(value),
            Bag::Last(values) => values.push(value),
            Bag::Least(copies) => put_copy(copies, value),
        }
    }

    /// The value that is taken out next.
    pub fn next(&self) -> Option<T> {
        match self {
            Bag::First(values) => values.front().copied(),
            Bag::Last(values) => values.last().copied(),
            Bag::Least(copies) => copies.keys().next().copied(),
        }
    }

    pub fn take(&mut self) -> Option<T> {
        let next = self.next()?;
        match self {
            Bag::First(values) => drop(values.pop_front()),
            Bag::Last(values) => drop(values.pop()),
            Bag::Least(copies) => take_copy(copies, next),
        }
        Some(next)
    }

    /// Takes out the value that was put in last.
    pub fn undo_put(&mut self, value: T) {
        match self {
            Bag::First(values) => drop(values.pop_back()),
            Bag::Last(values) => drop(values.pop()),
            Bag::Least(copies) => take_copy(copies, value),
        }
    }

    /// Puts back the value that was taken out last.
    pub fn undo_take(&mut self, value: T) {
        match self {
            Bag::First(values) => values.push_front(value),
            Bag::Last(values) => values.push(value),
            Bag::Least(copies) => put_copy(copies, value),
        }
    }

    /// Whether this is so of all values, which are asked for in their order up to the first that it
    /// is not so of.
    pub fn all(&self, mut is_so: impl FnMut(T) -> bool) -> bool {
        match self {
            Bag::First(values) => values.iter().all(|value| is_so(*value)),
            Bag::Last(values) => values.iter().all(|value| is_so(*value)),
            Bag::Least(copies) => {
                let mut each = copies.iter().flat_map(|(v, n)| std::iter::repeat_n(*v, *n));
                each.all(is_so)
            }
        }
    }

    /// The values in their order.
    pub fn values(&self) -> Vec<T> {
        let mut values = Vec::new();
        self.all(|value| {
            values.push(value);
            true
        });
        values
    }

    pub fn len(&self) -> usize {
        match self {
            Bag::First(values) => values.len(),
            Bag::Last(values) => values.len(),
            Bag::Least(copies) => copies.values().sum(),
        }
    }

    pub fn is_empty(&self) -> bool {
        self.next().is_none()
    }
}
