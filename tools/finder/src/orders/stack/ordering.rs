//! The values that definitely are in the stack for a while, ordered as far as that can be done.

use super::turns::{Step, Turn};
use crate::residences::{Gaps, Residence, counts_of};
use crate::timeline::Interval;
use crate::trees::{ABSENT, Counts, Least};

/// What is left to be done, the last first.
#[derive(Clone, Copy)]
enum Task {
    /// Order the values at these places.
    Order(usize, usize),
    Take(usize),
    /// A call that finds nothing, and its gap.
    FindsNone(Interval, u32),
}

/// The values, by the gap from which on they definitely are in the stack, and what is left of them.
struct Values {
    residences: Vec<Residence>,
    /// The number of moments.
    end: u32,
    /// The places of values that are left.
    left: Gaps,
    /// How many values definitely are in the stack at each gap.
    cover: Counts,
    /// For each value that is left the gap up to which it definitely is in the stack, negated.
    last: Least,
    /// When it can be put, for values that are not known to be possible below the others, and when
    /// taken, negated.
    lowest_put: Least,
    lowest_take: Least,
    /// 0 for values that can be put before all others that are left, and taken after them.
    lowest: Least,
    /// For each value how many of the two are known: that it can be put before the others, and
    /// taken after them.
    known: Vec<u8>,
}

impl Values {
    /// The values, which come in rising order of the gap from which on they definitely are in the
    /// stack.
    fn new(residences: Vec<Residence>, end: u32) -> Values {
        let definitely =
            residences.iter().map(|it| (it.definitely_from(), it.definitely_to().min(end)));
        let cover = Counts::of(&counts_of(definitely, end));
        let least = |number: &dyn Fn(&Residence) -> i64| {
            Least::of(&residences.iter().map(number).collect::<Vec<_>>())
        };
        Values {
            left: Gaps::new(residences.len() as u32),
            cover,
            last: least(&|residence| -i64::from(residence.definitely_to().min(end))),
            lowest_put: least(&|residence| i64::from(residence.put.begin)),
            lowest_take: least(&|residence| -i64::from(residence.taken_by())),
            lowest: least(&|_| ABSENT),
            known: vec![0; residences.len()],
            residences,
            end,
        }
    }

    /// Notes that a value can be put before all others, or taken after them.
    fn note(&mut self, place: usize) {
        self.known[place] += 1;
        if self.known[place] == 2 {
            self.lowest.set(place, 0);
        }
    }

    /// Notes the values of a range that can be put before one gap, or taken after another.
    fn note_lowest(&mut self, from: usize, to: usize, first: i64, last: i64) {
        while let Some(place) = self.lowest_put.take_at_most(from, to, first) {
            self.note(place);
        }
        while let Some(place) = self.lowest_take.take_at_most(from, to, -last - 1) {
            self.note(place);
        }
    }

    /// Takes a value out.
    fn remove(&mut self, place: usize) {
        let residence = self.residences[place];
        let to = residence.definitely_to().min(self.end);
        self.cover.add(residence.definitely_from() as usize, to as usize, -1);
        for numbers in
            [&mut self.lowest_put, &mut self.lowest_take, &mut self.lowest, &mut self.last]
        {
            numbers.set(place, ABSENT);
        }
        self.left.cover(place as u32, place as u32 + 1);
    }

    /// The place from which on the values definitely are in the stack after this gap.
    fn behind(&self, gap: u32) -> usize {
        self.residences.partition_point(|residence| residence.definitely_from() <= gap)
    }

    /// The places of a range that are left.
    fn left_in(&mut self, from: usize, to: usize) -> Vec<usize> {
        let mut places = Vec::new();
        let mut at = from as u32;
        loop {
            let place = self.left.first_free(at) as usize;
            if place >= to {
                return places;
            }
            places.push(place);
            at = place as u32 + 1;
        }
    }
}

/// The walk that orders the values.
pub struct Ordering {
    values: Values,
    tasks: Vec<Task>,
    pub turns: Vec<Turn>,
    /// Values that can't be ordered: none of them can be below the others.
    pub stuck: Vec<Vec<Residence>>,
}

impl Ordering {
    /// The values between the calls that find nothing, ordered as far as that can be done. `None`:
    /// one of these calls has no gap.
    pub fn of(long: Vec<Residence>, empties: &[Interval], end: u32) -> Option<Ordering> {
        let values = Values::new(long, end);
        let mut ordering =
            Ordering { values, tasks: Vec::new(), turns: Vec::new(), stuck: Vec::new() };
        ordering.plan(empties)?;
        // each value is put and taken once, and is the first after a cut at most once
        let most = 5 * (ordering.values.residences.len() + ordering.tasks.len());
        for _ in 0..most {
            let Some(task) = ordering.tasks.pop() else {
                break;
            };
            ordering.run(task);
        }
        Some(ordering)
    }

    /// How many values can't be ordered.
    pub fn stuck_count(&self) -> usize {
        self.stuck.iter().map(Vec::len).sum()
    }

    /// Cuts the values at the calls that find nothing, and plans each stretch and each such call.
    /// `None`: one of these calls has no gap.
    fn plan(&mut self, empties: &[Interval]) -> Option<()> {
        let gap = |call: &Interval| {
            let gap = self.values.cover.first_free(call.begin as usize, call.end as usize)?;
            Some((gap as u32, *call))
        };
        let mut cuts = empties.iter().map(gap).collect::<Option<Vec<_>>>()?;
        cuts.sort_unstable_by_key(|(gap, call)| (*gap, call.number));
        let mut to = self.values.residences.len();
        for (gap, call) in cuts.into_iter().rev() {
            let from = self.values.behind(gap);
            self.tasks.push(Task::Order(from, to));
            self.tasks.push(Task::FindsNone(call, gap));
            to = from;
        }
        self.tasks.push(Task::Order(0, to));
        Some(())
    }

    /// Puts a value below the others of its range, and plans the rest above it.
    fn put_lowest(&mut self, from: usize, to: usize, first: i64, last: i64) {
        self.values.note_lowest(from, to, first, last);
        let Some(place) = self.values.lowest.first_at_most(from, to, 0) else {
            let stuck = self.values.left_in(from, to).into_iter();
            self.stuck.push(stuck.map(|place| self.values.residences[place]).collect());
            return;
        };
        self.values.remove(place);
        self.turns.push(Turn::new(self.values.residences[place].put, Step::Push));
        self.tasks.push(Task::Take(place));
        self.tasks.push(Task::Order(from, to));
    }

    /// Orders the values of a range, or cuts it in two.
    fn order(&mut self, from: usize, to: usize) {
        let next = self.values.left.first_free(from as u32) as usize;
        if next >= to {
            return;
        }
        let first = self.values.residences[next].definitely_from();
        let last = -self.values.last.least(from, to);
        let gap = self.values.cover.first_free(first as usize, last.max(0) as usize);
        let Some(gap) = gap else {
            return self.put_lowest(from, to, i64::from(first), last);
        };
        let middle = self.values.behind(gap as u32);
        self.tasks.push(Task::Order(middle, to));
        self.tasks.push(Task::Order(next, middle));
    }

    fn run(&mut self, task: Task) {
        match task {
            Task::Order(from, to) => self.order(from, to),
            Task::FindsNone(call, from) => {
                self.turns.push(Turn { call, step: Step::FindsNone, from });
            }
            Task::Take(place) => {
                let take = self.values.residences[place].take;
                self.turns.extend(take.map(|call| Turn::new(call, Step::Pop)));
            }
        }
    }
}
