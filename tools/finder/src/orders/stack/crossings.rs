//! Other pairs for the equal values of a stack, where those that were chosen do not fit.
//!
//! Two values cross where the lower one definitely is popped before the upper one, though the upper
//! one was pushed before that. If equal values change their pops fewer may cross.

use crate::residences::Residence;
use crate::timeline::PENDING;

/// How many of the values that cross most others are looked at for a change.
const MOST_VALUES: usize = 8;

/// The most changes among values that could not be ordered.
const MOST_CHANGES: usize = 200;

/// When a value is in the stack.
#[derive(Clone, Copy)]
struct Stay {
    /// When its push begins.
    begin: u32,
    /// The gaps in which it definitely is in the stack, if there are any.
    from: u32,
    to: u32,
    /// When its pop has returned.
    end: u32,
}

impl Stay {
    fn of(residence: &Residence) -> Stay {
        Stay {
            begin: residence.put.begin,
            from: residence.definitely_from(),
            to: residence.definitely_to().min(PENDING),
            end: residence.taken_by(),
        }
    }

    fn is_long(&self) -> bool {
        self.from <= self.to
    }

    /// Whether it is put below the other, and definitely is popped before it.
    fn ends_below(&self, upper: &Stay) -> bool {
        self.from <= upper.begin && upper.from <= self.to && self.end <= upper.to
    }

    fn crosses(&self, other: &Stay) -> bool {
        self.is_long() && (self.ends_below(other) || other.ends_below(self))
    }
}

/// A value, by its place, that definitely is in the stack for a while.
struct Member {
    place: usize,
    stay: Stay,
    /// How many others it crosses.
    crossed: u32,
    /// Whether its stay still is that.
    present: bool,
}

/// Two values, by their places, that change their pops.
#[derive(Clone, Copy)]
pub struct Change {
    pub first: usize,
    pub second: usize,
}

impl Change {
    /// The two values with each other's pops. `None`: both have none, or one would be popped before
    /// it is pushed.
    pub fn changed(self, residences: &[Residence]) -> Option<(Residence, Residence)> {
        let (mut one, mut other) = (residences[self.first], residences[self.second]);
        if one.take.is_none() && other.take.is_none() {
            return None;
        }
        std::mem::swap(&mut one.take, &mut other.take);
        let fits = one.put.begin < one.taken_by() && other.put.begin < other.taken_by();
        fits.then_some((one, other))
    }
}

/// The places of the values that are equal to this one, and whose push begins before it is gone.
/// The residences are sorted by value and by the begin of the push.
pub fn partners(residences: &[Residence], own: &Residence) -> std::ops::Range<usize> {
    let (value, end) = (own.value, own.taken_by());
    let from = residences.partition_point(|other| other.value < value);
    from..residences.partition_point(|other| (other.value, other.put.begin) < (value, end))
}

/// The place of a value.
pub fn place_of(residences: &[Residence], own: &Residence) -> usize {
    let key = (own.value, own.put.begin);
    residences.partition_point(|other| (other.value, other.put.begin) < key)
}

/// Values that could not be ordered, and how many comparisons are left.
struct Crossings<'a> {
    members: Vec<Member>,
    work: &'a mut u64,
}

impl Crossings<'_> {
    fn spend(&mut self, rounds: u64) {
        *self.work = self.work.saturating_sub(rounds * self.members.len() as u64);
    }

    /// How many values other than those of the change this one crosses.
    fn count(&self, stay: &Stay, change: Change) -> usize {
        let others = self.members.iter().filter(|member| {
            member.present && member.place != change.first && member.place != change.second
        });
        others.filter(|member| stay.crosses(&member.stay)).count()
    }

    /// How many pairs of values cross of which one is in the change.
    fn count_both(&self, first: &Residence, second: &Residence, change: Change) -> usize {
        let (first, second) = (Stay::of(first), Stay::of(second));
        let both = first.crosses(&second) && second.is_long();
        self.count(&first, change) + self.count(&second, change) + usize::from(both)
    }

    /// Takes out a value.
    fn leave(&mut self, place: usize) {
        let own = self.members.iter_mut().find(|member| member.present && member.place == place);
        let Some(own) = own else {
            return;
        };
        own.present = false;
        let stay = own.stay;
        for member in self.members.iter_mut().filter(|member| stay.crosses(&member.stay)) {
            member.crossed = member.crossed.saturating_sub(1);
        }
    }

    /// Takes in a value.
    fn enter(&mut self, place: usize, residence: &Residence) {
        let stay = Stay::of(residence);
        if !stay.is_long() {
            return;
        }
        let mut crossed = 0;
        let others = self.members.iter_mut().filter(|member| member.present);
        for member in others.filter(|member| stay.crosses(&member.stay)) {
            member.crossed += 1;
            crossed += 1;
        }
        self.members.push(Member { place, stay, crossed, present: true });
    }

    /// The places of the values that cross others, those that cross most first.
    fn worst(&self) -> Vec<usize> {
        let crossing = self.members.iter().filter(|member| member.present && member.crossed > 0);
        let mut worst: Vec<_> = crossing.map(|member| (member.crossed, member.place)).collect();
        worst.sort_unstable();
        worst.into_iter().rev().map(|(_, place)| place).collect()
    }

    /// How many fewer values cross after a change. `None`: it can't be made or does no good.
    fn gain(&mut self, residences: &[Residence], change: Change) -> Option<usize> {
        let (one, other) = change.changed(residences)?;
        self.spend(4);
        let (first, second) = (&residences[change.first], &residences[change.second]);
        let before = self.count_both(first, second, change);
        let after = self.count_both(&one, &other, change);
        before.checked_sub(after).filter(|gain| *gain > 0)
    }

    /// The change after which the fewest values cross; of several such the first.
    fn best(&mut self, residences: &[Residence]) -> Option<Change> {
        let mut best: Option<(usize, Change)> = None;
        for first in self.worst().into_iter().take(MOST_VALUES) {
            for second in partners(residences, &residences[first]) {
                if second == first || *self.work == 0 {
                    continue;
                }
                *self.work -= 1;
                let change = Change { first, second };
                if let Some(gain) = self.gain(residences, change)
                    && best.is_none_or(|(most, _)| gain > most)
                {
                    best = Some((gain, change));
                }
            }
        }
        best.map(|(_, change)| change)
    }

    /// Makes a change.
    fn make(&mut self, residences: &mut [Residence], change: Change) {
        let Some((one, other)) = change.changed(residences) else {
            return;
        };
        self.spend(6);
        self.leave(change.first);
        self.leave(change.second);
        self.enter(change.first, &one);
        self.enter(change.second, &other);
        residences[change.first] = one;
        residences[change.second] = other;
    }
}

/// Changes the pops of values that could not be ordered as long as fewer cross. The residences are
/// sorted by value and by the begin of the push. Whether any was changed.
pub fn uncross(residences: &mut [Residence], stuck: &[Residence], work: &mut u64) -> bool {
    let mut crossings = Crossings { members: Vec::new(), work };
    for residence in stuck {
        if *crossings.work == 0 {
            break;
        }
        crossings.spend(1);
        crossings.enter(place_of(residences, residence), residence);
    }
    let mut changes = false;
    for _ in 0..MOST_CHANGES {
        let Some(change) = crossings.best(residences) else {
            break;
        };
        crossings.make(residences, change);
        changes = true;
    }
    changes
}
