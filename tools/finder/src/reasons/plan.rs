//! Plans of reasons: what of an object's operations a reason is to keep. The cuts follow from the
//! plan and the operations.

use super::{Pattern, Reason};
use crate::cuts::{Count, Cut, Values};
use crate::history::{End, ObjectHistory, Operation};
use crate::kinds::{Family, Role as ValueRole};
use std::collections::BTreeSet;
use std::ops::Range;

/// A pattern that was found, at a map with its key, and the plan of a reason. The weight tells
/// roughly how many operations the plan keeps.
pub struct Candidate {
    pub pattern: Pattern,
    pub key: Option<i64>,
    pub plan: Plan,
    pub weight: usize,
}

impl Candidate {
    /// The candidate of a pattern that is about no key.
    pub fn without_key(pattern: Pattern, plan: Plan, weight: usize) -> Candidate {
        Candidate { pattern, key: None, plan, weight }
    }
}

/// What is kept, from a call on, until a number, and what is to show that it has no valid order.
pub struct Plan {
    pub form: Form,
    pub from: Option<u32>,
    pub until: Option<u32>,
    pub shown_by: ShownBy,
}

/// What is to show that the part of a plan has no valid order.
#[derive(Clone, Copy)]
pub enum ShownBy {
    Search,
    /// A plan that keeps its beginning does not begin later than it does: what was before shows
    /// what is wrong.
    Count {
        count: Count,
        keeps_beginning: bool,
    },
}

impl ShownBy {
    /// By this count.
    pub fn count(count: Count) -> ShownBy {
        ShownBy::Count { count, keeps_beginning: false }
    }

    /// The same of a plan that keeps its beginning, if a count shows it.
    pub fn keeping_beginning(self) -> ShownBy {
        match self {
            ShownBy::Search => ShownBy::Search,
            ShownBy::Count { count, .. } => ShownBy::Count { count, keeps_beginning: true },
        }
    }
}

/// Which operations of its time a plan keeps.
#[derive(Clone)]
pub enum Form {
    /// All that sets a register, changes a number, or acquires or releases a mutex or lock; of the
    /// others those with these numbers.
    Window { operations: Vec<u32> },
    /// Some values of a queue, stack or heap.
    Container(Chosen<KeptValue>),
    /// Some values of a register, with one other value in place of all others.
    LoneCell(Chosen<i64>),
    /// Some keys of a map, or elements of a set, each with all its values.
    Keys(Chosen<i64>),
    /// Some values under one key of a map, of which the part is a register.
    Entry { key: i64, chosen: Chosen<i64> },
}

/// The values, or keys, that are kept, and the numbers of operations that are kept of those that
/// can be left out.
#[derive(Clone)]
pub struct Chosen<T> {
    pub values: Vec<T>,
    pub operations: Vec<u32>,
}

/// A value of a queue, stack or heap that is kept.
#[derive(Clone, Copy)]
pub struct KeptValue {
    pub value: i64,
    /// If it is given, the number before which the value definitely was not in: what was done with
    /// it before that is left out.
    pub since: Option<u32>,
}

impl KeptValue {
    /// The value, with all that was done with it.
    pub fn whole(value: i64) -> KeptValue {
        KeptValue { value, since: None }
    }
}

/// Whether a plan keeps an operation.
enum Role {
    Kept,
    Optional,
    LeftOut,
}

impl Role {
    /// The role of an operation where all is kept that changes the object, or the cell of its key.
    fn by_change(operation: &Operation) -> Role {
        if operation.has_failed() {
            return Role::LeftOut;
        }
        match operation.op.kind().family {
            Family::Cells(_) => match operation.op.effect(operation.reply()) {
                None => Role::LeftOut,
                Some(effect) if effect.sets.is_none() => Role::Optional,
                Some(_) => Role::Kept,
            },
            Family::Number(_) if operation.op.only_looks() => Role::Optional,
            Family::Number(_) | Family::Holdable(_) | Family::Container(_) => Role::Kept,
        }
    }
}

/// The numbers of the operations of which this is so.
fn numbers_where(history: &ObjectHistory, is_so: impl FnMut(&&Operation) -> bool) -> BTreeSet<u32> {
    history.ops.iter().filter(is_so).map(|o| o.number).collect()
}

impl<T: Copy> Chosen<T> {
    fn size(&self) -> usize {
        self.values.len() + self.operations.len()
    }

    /// The same without those at these places: the values come first, and then the operations.
    fn without(&self, places: &Range<usize>) -> Chosen<T> {
        let count = self.values.len();
        let operations = Range {
            start: places.start.saturating_sub(count),
            end: places.end.saturating_sub(count),
        };
        Chosen {
            values: all_except(&self.values, places),
            operations: all_except(&self.operations, &operations),
        }
    }

    fn numbers(&self) -> BTreeSet<u32> {
        self.operations.iter().copied().collect()
    }
}

/// All items except those at these places.
fn all_except<T: Copy>(items: &[T], places: &Range<usize>) -> Vec<T> {
    let rest = items.iter().enumerate().filter(|(place, _)| !places.contains(place));
    rest.map(|(_, item)| *item).collect()
}

impl Chosen<KeptValue> {
    /// Adds the cuts that keep the values and operations of a queue, stack or heap. Pending
    /// removals are kept if they are among the first, of which there are as many as kept values are
    /// left over.
    pub fn push_cuts(&self, history: &ObjectHistory, cuts: &mut Vec<Cut>) {
        let values = Values::Only(self.values.iter().map(|kept| kept.value).collect());
        let chosen = self.numbers();
        let mut left_over = 0..values.left_over(&history.ops);
        let numbers = numbers_where(history, |o| match o.op.role(o.reply()) {
            _ if o.has_failed() => false,
            ValueRole::Puts(value) | ValueRole::Takes(value) => values.has(value),
            ValueRole::FindsNone => chosen.contains(&o.number),
            ValueRole::Unknown => left_over.next().is_some(),
        });
        cuts.push(Cut::Keep { values, numbers });
        cuts.extend(self.values.iter().filter_map(|kept| {
            let KeptValue { value, since } = *kept;
            since.map(|before| Cut::Without { value, before })
        }));
    }

    /// The same values, and these operations too.
    pub fn with(&self, operations: impl Iterator<Item = u32>) -> Chosen<KeptValue> {
        let operations = operations.chain(self.operations.iter().copied()).collect();
        Chosen { values: self.values.clone(), operations }
    }
}

impl Chosen<i64> {
    fn kept_values(&self) -> BTreeSet<i64> {
        self.values.iter().copied().collect()
    }

    /// The cut that keeps the values and these operations of a register, or of this key of a map as
    /// one, with the least other value from 0 on for all other values.
    fn cell(&self, key: Option<i64>, numbers: BTreeSet<u32>) -> Cut {
        let values = self.kept_values();
        let other = (0..).find(|other| !values.contains(other)).unwrap_or(0);
        Cut::Cell { key, values: Values::Only(values), other, numbers }
    }

    /// The cut that keeps the values and operations of a register. All that returned can be left
    /// out.
    fn lone_cell(&self, history: &ObjectHistory) -> Cut {
        let chosen = self.numbers();
        let numbers = numbers_where(history, |o| {
            chosen.contains(&o.number)
                && !o.is_pending()
                && !matches!(Role::by_change(o), Role::LeftOut)
        });
        self.cell(None, numbers)
    }

    /// The cut that keeps the keys and operations of a map or set.
    fn keys(&self, history: &ObjectHistory) -> Cut {
        let (keys, chosen) = (self.kept_values(), self.numbers());
        let is_on_kept = |o: &Operation| o.op.key().is_none_or(|key| keys.contains(&key));
        let numbers = numbers_where(history, |o| match Role::by_change(o) {
            Role::Kept => is_on_kept(o),
            Role::Optional => is_on_kept(o) && chosen.contains(&o.number),
            Role::LeftOut => false,
        });
        Cut::Keep { values: Values::Only(keys), numbers }
    }
}

impl Form {
    fn operations(&mut self) -> &mut Vec<u32> {
        match self {
            Form::Window { operations } => operations,
            Form::Container(chosen) => &mut chosen.operations,
            Form::LoneCell(chosen) | Form::Keys(chosen) | Form::Entry { chosen, .. } => {
                &mut chosen.operations
            }
        }
    }

    /// Adds an operation to those that are kept.
    pub fn add(&mut self, number: u32) {
        self.operations().push(number);
    }

    /// How many values and operations it names.
    pub fn size(&self) -> usize {
        match self {
            Form::Window { operations } => operations.len(),
            Form::Container(chosen) => chosen.size(),
            Form::LoneCell(chosen) | Form::Keys(chosen) | Form::Entry { chosen, .. } => {
                chosen.size()
            }
        }
    }

    /// The same without what it names at these places.
    pub fn without(&self, places: &Range<usize>) -> Form {
        match self {
            Form::Window { operations } => {
                Form::Window { operations: all_except(operations, places) }
            }
            Form::Container(chosen) => Form::Container(chosen.without(places)),
            Form::LoneCell(chosen) => Form::LoneCell(chosen.without(places)),
            Form::Keys(chosen) => Form::Keys(chosen.without(places)),
            Form::Entry { key, chosen } => {
                Form::Entry { key: *key, chosen: chosen.without(places) }
            }
        }
    }
}

impl Plan {
    /// The plan of a form, at all times, that a search is to show.
    pub fn of(form: Form) -> Plan {
        Plan { form, from: None, until: None, shown_by: ShownBy::Search }
    }

    /// The count that shows it, if one does.
    pub fn count(&self) -> Option<Count> {
        match self.shown_by {
            ShownBy::Search => None,
            ShownBy::Count { count, .. } => Some(count),
        }
    }

    /// Whether the plan does not begin later than it does.
    pub fn keeps_beginning(&self) -> bool {
        matches!(self.shown_by, ShownBy::Count { keeps_beginning: true, .. })
    }

    /// Whether the operation can be seen between the beginning and the end of the plan.
    fn touches(&self, operation: &Operation) -> bool {
        let is_over = match (self.from, operation.returned()) {
            (Some(from), Some(at)) => at < from,
            _ => false,
        };
        !is_over && self.until.is_none_or(|until| operation.number < until)
    }

    /// The number of the return of the call at which the plan begins; 0 if there is none.
    fn begun(&self, ops: &[Operation]) -> u32 {
        let first = self.from.and_then(|from| ops.iter().find(|o| o.number == from));
        first.and_then(Operation::returned).unwrap_or(0)
    }

    /// Whether the operation is a refused swap that overlaps the beginning of a window, which is
    /// this number, or its end. It is pending there, so it can set a value, and has to stay.
    fn is_cut_swap(&self, operation: &Operation, begun: u32) -> bool {
        let End::Returned { at, reply } = operation.end else {
            return false;
        };
        let is_refused = operation.op.effect(Some(reply)).is_some_and(|effect| effect.is_refused());
        let is_cut = operation.number < begun || self.until.is_some_and(|until| at >= until);
        is_refused && is_cut && self.touches(operation)
    }

    /// Adds the cuts of a window, which keeps these operations of those that can be left out. A
    /// mutex or lock has none.
    fn push_window(&self, operations: &[u32], history: &ObjectHistory, cuts: &mut Vec<Cut>) {
        self.push_time(cuts);
        if matches!(history.kind.family, Family::Holdable(_)) {
            return;
        }
        let begun = self.begun(&history.ops);
        let numbers = numbers_where(history, |o| match Role::by_change(o) {
            Role::Kept => self.touches(o),
            Role::Optional => operations.contains(&o.number) || self.is_cut_swap(o, begun),
            Role::LeftOut => false,
        });
        cuts.push(Cut::Keep { values: Values::All, numbers });
    }

    /// Adds the cuts at the beginning and the end.
    fn push_time(&self, cuts: &mut Vec<Cut>) {
        cuts.extend(self.from.map(Cut::From));
        cuts.extend(self.until.map(Cut::Until));
    }

    /// Adds the cuts that make the part, of this history. A key that is taken out of its map is a
    /// register there already.
    pub fn push_cuts(&self, history: &ObjectHistory, cuts: &mut Vec<Cut>) {
        match &self.form {
            Form::Window { operations } => return self.push_window(operations, history, cuts),
            Form::Container(chosen) => chosen.push_cuts(history, cuts),
            Form::Keys(keys) => cuts.push(keys.keys(history)),
            Form::Entry { key, chosen } if history.kind.has_keys() => {
                cuts.push(chosen.cell(Some(*key), chosen.numbers()));
            }
            Form::LoneCell(chosen) | Form::Entry { chosen, .. } => {
                cuts.push(chosen.lone_cell(history));
            }
        }
        self.push_time(cuts);
    }

    /// The reason that the plan makes of this history.
    pub fn reason(&self, history: &ObjectHistory) -> Reason {
        let mut cuts = Vec::new();
        self.push_cuts(history, &mut cuts);
        Reason { cuts, count: self.count() }
    }
}
