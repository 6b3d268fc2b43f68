//! Numbers for names: an integer keeps its own, and each other name gets the least that no integer
//! has.

use crate::form::Form;
use std::collections::{HashMap, HashSet};

/// The number of each thing that was seen.
#[derive(Debug, Default)]
pub struct Numbers {
    of: HashMap<Form, i64>,
    named: Vec<(i64, Form)>,
}

impl Numbers {
    /// Numbers these things in their order. `own` gives the number of one that has its own.
    pub fn new<'a>(
        things: impl Iterator<Item = &'a Form> + Clone,
        own: impl Fn(&Form) -> Option<i64>,
    ) -> Numbers {
        let taken: HashSet<i64> = things.clone().filter_map(&own).collect();
        let mut free = (0..).filter(|number| !taken.contains(number));
        let mut numbers = Numbers::default();
        for thing in things {
            if numbers.of.contains_key(thing) {
                continue;
            }
            let number = own(thing).unwrap_or_else(|| {
                let number = free.next().expect("fewer names than integers");
                numbers.named.push((number, thing.clone()));
                number
            });
            numbers.of.insert(thing.clone(), number);
        }
        numbers
    }

    pub fn number(&self, thing: &Form) -> i64 {
        self.of[thing]
    }

    /// How many things there are.
    pub fn len(&self) -> usize {
        self.of.len()
    }

    /// How many things got a number, and the first of them.
    pub fn named(&self) -> Option<(usize, &Form)> {
        Some((self.named.len(), &self.named.first()?.1))
    }

    /// The numbers of names, with the names.
    pub fn into_named(self) -> Vec<(i64, Form)> {
        self.named
    }
}
