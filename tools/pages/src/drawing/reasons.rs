//! Why an object has no valid order, in a sentence. The pattern that led the finder to a reason
//! says which sentence is tried, and it is said only if all it says was checked on all
//! operations of the object; else the general one is said.

use crate::contents::{puts, takes, value_put};
use crate::timeline::{DrawnOperation, Role, Span, Spans, State, Tried, spans};
use finder::{
    Absent, CountExceeded, Counted, Gives, Kind, Lost, Need, OneValue, Pattern, Reply, Sentence,
    WrongPair,
};

/// The operations of an object, and those of a part of which no order is valid. If the part
/// begins, if not at the beginning, and the pattern that led to it.
#[derive(Clone, Copy)]
pub struct Reason<'a> {
    pub kind: Kind,
    pub operations: &'a [DrawnOperation],
    pub part: &'a [DrawnOperation],
    pub from: Option<u32>,
    pub sentence: &'a Sentence,
}

/// How many operations are named one by one at most.
const MOST_NAMED: usize = 12;

/// The operations, with `and` before the last; if there are many, how many there are.
fn named(operations: &[DrawnOperation]) -> Spans {
    listed(operations, " and ")
}

/// The operations, with this word before the last.
fn listed(operations: &[DrawnOperation], last: &'static str) -> Spans {
    if operations.len() > MOST_NAMED {
        return spans!["these ", operations.len(), " operations"];
    }
    let mut spans = Vec::new();
    for (place, operation) in operations.iter().enumerate() {
        if place > 0 {
            let is_last = place + 1 == operations.len();
            spans.extend(spans![if is_last { last } else { ", " }]);
        }
        spans.extend(spans![*operation]);
    }
    spans
}

/// One of the operations, with `or` before the last; if there are many, how many there are.
pub fn one_of(operations: &[DrawnOperation]) -> Spans {
    listed(operations, " or ")
}

/// How often, as `twice`, and by which operations if these are few.
fn times(operations: &[DrawnOperation]) -> Spans {
    let mut spans = match operations.len() {
        1 => spans!["once"],
        2 => spans!["twice"],
        count => spans![count, " times"],
    };
    if operations.len() <= MOST_NAMED {
        spans.extend(spans![", by "]);
        spans.extend(named(operations));
    }
    spans
}

/// The value that a removal returned.
fn value_taken(operation: &DrawnOperation) -> Option<i64> {
    match (operation.role(), operation.reply()) {
        (Role::Take, Some(Reply::Value(value))) => value,
        _ => None,
    }
}

/// Whether the operation was invoked before this number, and took the value out, or may have.
fn may_take(operation: &DrawnOperation, value: i64, before: u32) -> bool {
    let is_pending = operation.state() == State::Pending;
    operation.number() < before
        && operation.role() == Role::Take
        && (is_pending || takes(operation, value))
}

/// Whether the operation ran at some moment between the two numbers.
fn ran_between(operation: &DrawnOperation, from: u32, to: u32) -> bool {
    let closed = operation.closed().unwrap_or(u32::MAX);
    operation.state() != State::Failed && operation.number() < to && closed > from
}

/// When the operation returned, where that was before the other one was invoked.
fn returned_before(operation: &DrawnOperation, other: &DrawnOperation) -> Option<u32> {
    operation.returned().filter(|at| *at < other.number())
}

/// Whether the operation puts this value where another one was, or deletes what was there if there
/// is no value.
fn sets_anew(operation: &DrawnOperation, key: Option<i64>, value: Option<i64>) -> bool {
    let is_same = |need| need == Need::Is(value);
    match (value, operation.op().effect(None)) {
        (Some(value), effect) => {
            puts(operation, key, value) && !effect.is_some_and(|effect| is_same(effect.need))
        }
        (None, Some(effect)) => operation.op().key() == key && effect.sets == Some(None),
        (None, None) => false,
    }
}

/// What the cell contained where the operation took effect, if it says that.
fn found_by(operation: &DrawnOperation) -> Option<Option<i64>> {
    match operation.op().effect(Some(operation.reply()?))?.need {
        Need::Is(content) => Some(content),
        Need::Any | Need::IsNot(_) => None,
    }
}

/// What the cell contained after the operation, which returned.
fn left_by(operation: &DrawnOperation) -> Option<Option<i64>> {
    operation.op().effect(Some(operation.reply()?))?.shows()
}

/// The words on what an operation left, which is this: if there are keys also the key.
fn left_words(operation: &DrawnOperation, left: Option<i64>) -> Spans {
    let op = operation.op();
    let mut words = match (op.sets(), op.key()) {
        (Some(None), Some(key)) => return spans![" deleted key ", key],
        (Some(None), None) => return spans![" left nothing"],
        (None, _) => spans![" found ", Reply::Value(left)],
        (Some(_), _) => spans![" set ", Reply::Value(left)],
    };
    if let Some(key) = op.key() {
        words.extend(spans![" under key ", key]);
    }
    words
}

/// The two operations of a part that put something in, with what they put, if there are just two.
fn two_putters(part: &[DrawnOperation]) -> Option<[(DrawnOperation, i64); 2]> {
    let putters = part.iter().filter_map(|operation| Some((*operation, value_put(operation)?)));
    putters.collect::<Vec<_>>().try_into().ok()
}

/// The value that the removal took that returned last, and when.
fn last_taking(operations: &[DrawnOperation]) -> Option<(i64, u32)> {
    let takings = operations
        .iter()
        .filter_map(|operation| Some((value_taken(operation)?, operation.returned()?)));
    takings.max_by_key(|(_, at)| *at)
}

impl Reason<'_> {
    /// The operations that put the value in, and were invoked before this number.
    fn putters(&self, value: i64, before: u32) -> Vec<DrawnOperation> {
        let puts = |operation: &&DrawnOperation| {
            operation.number() < before && value_put(operation) == Some(value)
        };
        self.operations.iter().filter(puts).copied().collect()
    }

    /// The operations that took the value out, and returned by this number.
    fn takers(&self, value: i64, until: u32) -> Vec<DrawnOperation> {
        let takes = |operation: &&DrawnOperation| {
            takes(operation, value) && operation.returned().is_some_and(|at| at <= until)
        };
        self.operations.iter().filter(takes).copied().collect()
    }

    /// Whether an operation that was invoked before this number took the value out, or may have.
    fn may_be_taken(&self, value: i64, before: u32) -> bool {
        self.operations.iter().any(|operation| may_take(operation, value, before))
    }

    /// A value is returned that nothing had put in.
    fn never_put(&self) -> Option<Spans> {
        let [taker] = self.part else {
            return None;
        };
        let (value, at) = (value_taken(taker)?, taker.returned()?);
        let is_never = self.kind.is_container() && self.putters(value, at).is_empty();
        is_never.then(|| {
            spans![
                *taker,
                " returned ",
                value,
                " at event ",
                at,
                ", and no ",
                self.kind.put_name(),
                " of ",
                value,
                " was invoked before that."
            ]
        })
    }

    /// A value is taken out more often than it was put in.
    fn too_often(&self) -> Option<Spans> {
        let (value, until) = last_taking(self.part)?;
        let (takers, putters) = (self.takers(value, until), self.putters(value, until));
        if !self.kind.is_container() || putters.is_empty() || takers.len() <= putters.len() {
            return None;
        }
        let mut sentence = spans![value, " was ", self.kind.words.put, " "];
        sentence.extend(times(&putters));
        sentence.extend(spans![", and ", self.kind.words.taken, " "]);
        sentence.extend(times(&takers));
        sentence.extend(spans![
            ". No other ",
            self.kind.put_name(),
            " of ",
            value,
            " was invoked before event ",
            until,
            "."
        ]);
        Some(sentence)
    }

    /// A removal finds nothing while a value is definitely there.
    fn not_empty(&self) -> Option<Spans> {
        let [putter, taker] = self.part else {
            return None;
        };
        let (value, end) = (value_put(putter)?, taker.returned()?);
        let at = returned_before(putter, taker)?;
        let found_nothing = taker.role() == Role::Take && taker.reply() == Some(Reply::Value(None));
        let is_wrong = self.kind.is_container() && found_nothing && !self.may_be_taken(value, end);
        is_wrong.then(|| {
            spans![
                *taker,
                " found the ",
                self.kind,
                " empty. But ",
                *putter,
                " had returned before (event ",
                at,
                "), and nothing that was invoked before event ",
                end,
                " took ",
                value,
                " out again. So the ",
                self.kind,
                " contained ",
                value,
                "."
            ]
        })
    }

    /// Which values were ahead of what a removal found.
    fn were_ahead(&self, lost: &Lost) -> Spans {
        let were = if lost.count() == 1 { "value was" } else { "values were" };
        let (count, kind, put) = (lost.count(), self.kind, self.kind.words.put);
        let Some((value, gives)) = lost.found.zip(kind.gives()) else {
            return spans![count, " ", were, " in the ", kind, " before that"];
        };
        match gives {
            Gives::First => spans![count, " ", were, " ", put, " before ", value],
            Gives::Last => spans![count, " ", were, " ", put, " on ", value],
            Gives::Least => {
                let found = " was found";
                spans![count, " lesser ", were, " in the ", kind, " before ", value, found]
            }
        }
    }

    /// More values were ahead of what a removal found than can have been taken out before it.
    fn lost(&self, lost: &Lost) -> Option<Spans> {
        let removal = self.part.iter().find(|operation| operation.number() == lost.number)?;
        let mut sentence = match lost.found {
            None => spans![*removal, " found nothing. But "],
            Some(value) => spans![*removal, " took ", value, " out. But "],
        };
        sentence.extend(self.were_ahead(lost));
        sentence.extend(match lost.most {
            0 => spans![", and none of them"],
            most => spans![", and at most ", most, " of them"],
        });
        sentence.extend(spans![" can have been taken out by then: "]);
        for (place, own) in lost.values.iter().take(MOST_NAMED).enumerate() {
            sentence.extend(if place > 0 { spans![", "] } else { Spans::new() });
            sentence.extend(spans![own.value]);
            sentence.extend(
                (own.times > 1).then(|| spans![" (", own.times, " times)"]).into_iter().flatten(),
            );
        }
        let has_more = lost.values.len() > MOST_NAMED;
        sentence.extend(if has_more { spans![" and others."] } else { spans!["."] });
        Some(sentence)
    }

    /// A queue gives the later of two values first.
    fn wrong_turn(&self) -> Option<Spans> {
        let [(first, v), (second, w)] = two_putters(self.part)?;
        let at = returned_before(&first, &second)?;
        let taker_of = |value| self.part.iter().find(|operation| takes(operation, value));
        let taker = taker_of(w)?;
        let end = taker.returned()?;
        let is_alone = self.putters(w, end).len() == 1;
        if self.kind.gives() != Some(Gives::First)
            || v == w
            || !is_alone
            || self.may_be_taken(v, end)
        {
            return None;
        }
        let mut sentence = spans![
            first,
            " returned (event ",
            at,
            ") before ",
            second,
            " was invoked, so ",
            v,
            " went in before ",
            w,
            ". But ",
            *taker,
            " took ",
            w,
            " out, and nothing invoked before event ",
            end,
            " took ",
            v
        ];
        sentence.extend(match taker_of(v) {
            Some(taker) => spans![" out: only then ", *taker, " began."],
            None => spans![" out."],
        });
        Some(sentence)
    }

    /// Whether an operation other than the later one, which ran between the invocation of the
    /// earlier one and the number, set the value anew.
    fn is_set_between(&self, value: Option<i64>, pair: [&DrawnOperation; 2], to: u32) -> bool {
        let [earlier, later] = pair;
        let key = later.op().key();
        self.operations.iter().any(|operation| {
            operation.number() != later.number()
                && sets_anew(operation, key, value)
                && ran_between(operation, earlier.number(), to)
        })
    }

    /// An operation of a register or a map finds a value that was replaced before it began.
    fn out_of_date(&self) -> Option<Spans> {
        let [earlier, later] = self.part else {
            return None;
        };
        let (at, end) = (returned_before(earlier, later)?, later.returned()?);
        let (left, found) = (left_by(earlier)?, found_by(later)?);
        let is_same = earlier.op().key() == later.op().key();
        if !self.kind.has_values_in_cells()
            || !is_same
            || left == found
            || self.is_set_between(found, [earlier, later], end)
        {
            return None;
        }
        let value = Reply::Value(found);
        let returned = if later.op().only_looks() { " returned " } else { " found " };
        let mut sentence = spans![*later, returned, value, ". But ", *earlier];
        sentence.extend(left_words(earlier, left));
        sentence.extend(spans![
            " and returned (event ",
            at,
            ") before that began, and nothing else that ran in between (events ",
            earlier.number(),
            " to ",
            end,
            ") made it ",
            value,
            " again. So ",
            value,
            " is out of date."
        ]);
        Some(sentence)
    }

    /// A mutex or lock is released twice, and not acquired in between.
    fn twice_released(&self) -> Option<Spans> {
        let releases = self.part.iter().filter(|operation| operation.op().holds() == Some(false));
        let [first, second] = releases.collect::<Vec<_>>().try_into().ok()?;
        let (from, to) = (first.number(), first.returned()?.max(second.returned()?));
        let is_acquired = |operation: &DrawnOperation| {
            operation.op().holds() == Some(true) && ran_between(operation, from, to)
        };
        if self.operations.iter().any(is_acquired) {
            return None;
        }
        Some(spans![
            "Between event ",
            from,
            " and event ",
            to,
            " the ",
            self.kind,
            " was ",
            self.kind.words.taken,
            " twice, by ",
            *first,
            " and ",
            *second,
            ", and no ",
            self.kind.put_name(),
            " ran in between."
        ])
    }

    /// The sentence of the pattern, where its facts hold.
    fn of_pattern(&self) -> Option<Spans> {
        match &self.sentence.pattern {
            Pattern::Lost(lost) => self.not_empty().or_else(|| self.lost(lost)),
            // If an operation failed that would have put the value in, the finder's sentence says
            // so.
            Pattern::OneValue(OneValue::NeverSet(_) | OneValue::TooEarly(_))
                if self.sentence.facts.undone.is_some() =>
            {
                None
            }
            Pattern::OneValue(OneValue::NeverSet(_) | OneValue::TooEarly(_)) => self.never_put(),
            Pattern::SurelyNotEmpty(_) => self.not_empty(),
            Pattern::Absent(Absent::Stale(_)) => self.out_of_date(),
            Pattern::WrongPair(WrongPair::Order { .. } | WrongPair::LeftBehind { .. }) => {
                self.wrong_turn()
            }
            Pattern::OneValue(OneValue::TakenTwice(_) | OneValue::TakenTooOften { .. }) => {
                self.too_often()
            }
            Pattern::CountExceeded(CountExceeded(counted)) => match counted {
                Counted::Held => self.twice_released(),
                Counted::Value(_) => self.too_often(),
                Counted::Entry { .. } | Counted::NoEntry(_) => None,
                Counted::Free | Counted::Ahead(_) => None,
            },
            Pattern::Absent(Absent::DoneOverValue { .. } | Absent::Repeated { .. }) => None,
            Pattern::WrongPair(WrongPair::LeftAbove { .. }) | Pattern::UnderSmaller(_) => None,
            Pattern::Crossing(_) | Pattern::Refused(_) | Pattern::NotHolder(_) => None,
            Pattern::WrongNumber(_) | Pattern::General => None,
        }
    }

    /// The words on the order of these operations, which come before the last.
    fn order(&self, others: &[DrawnOperation]) -> Spans {
        let is_window = self.from.is_some();
        let (before, after) = match (others.len(), is_window) {
            (0, true) => ("", ", "),
            (0, false) => ("Whatever comes before", ", "),
            (1, true) => (", and wherever ", " comes, "),
            (1, false) => ("Wherever ", " comes, "),
            (_, true) => (", and in whatever order ", " come, "),
            (_, false) => ("In whatever order ", " come, "),
        };
        let mut words = spans![before];
        words.extend(named(others));
        words.extend(spans![after]);
        words
    }

    /// The words on the operation at which each order ends.
    fn end(&self, last: Option<DrawnOperation>, has_table: bool) -> Spans {
        let Some(last) = last else {
            let table = ": the table says where each order breaks.";
            return spans!["one of them does not fit", if has_table { table } else { "." }];
        };
        match last.reply() {
            Some(reply) if last.op().holds().is_none() => {
                spans![last, " could not return ", reply, "."]
            }
            _ => spans![last, " is not possible."],
        }
    }

    /// The general sentence: no order of these operations fits.
    fn general(&self, tried: &Tried) -> Spans {
        let last = tried.last.filter(|_| tried.is_complete);
        let is_other = |operation: &&DrawnOperation| {
            last.is_none_or(|last| last.number() != operation.number())
        };
        let others: Vec<DrawnOperation> = self.part.iter().filter(is_other).copied().collect();
        let mut sentence = match self.from {
            Some(from) => spans!["Whatever the ", self.kind, " contained before event ", from],
            None => Vec::new(),
        };
        sentence.extend(self.order(&others));
        sentence.extend(self.end(last, !tried.attempts.is_empty()));
        sentence
    }

    /// What the finder says of the pattern, if it says more than the general sentence.
    pub fn said(&self) -> Option<String> {
        let pattern = Sentence { beginning: None, first: None, ..self.sentence.clone() };
        (pattern.pattern != Pattern::General).then(|| pattern.to_string())
    }

    /// The sentence: that of the pattern, or the finder's and the general one.
    pub fn sentence(&self, tried: &Tried) -> Spans {
        self.of_pattern().unwrap_or_else(|| {
            let said = self.said().map(|_| spans![Span::Quoted, ". "]);
            said.into_iter().flatten().chain(self.general(tried)).collect()
        })
    }
}
