//! Removals whose finds show that values were lost: more of them definitely were ahead of what a
//! removal found than other removals can have taken out before it. It is what a store leaves that
//! was killed while removals had not returned: any of these may have taken one of the values, but
//! no two of them. That each value passes through the object is Henzinger, Sezgin and Vafeiadis,
//! "Aspect-Oriented Linearizability Proofs", CONCUR 2013; here pending removals are counted, and
//! values may repeat.
//!
//! The i-th put of a value to return and the i-th removal of it to be invoked are a pair. Of the
//! puts of a value that returned before one number, as many were not taken by another one as there
//! are pairs of which the put returned before the one and the removal was invoked after the other.
//! The removals are gone through in the order of the numbers before which puts count. The pairs are
//! in a tree over their values, or of a stack over the numbers of their pushes, so that each look
//! takes log n steps. A removal has as many looks as removals can be before it, and one more.

use super::runs::{Run, Runs};
use crate::cuts::{Count, Counted};
use crate::kinds::Gives;
use crate::reasons::{Candidate, Chosen, Form, KeptValue, Pattern, Plan, ShownBy};
use crate::timeline::Call;
use crate::trees::{ABSENT, Least};

/// The most candidates.
const MOST: usize = 4;

/// The most looks into a tree, of all removals.
const MOST_LOOKS: usize = 4_000_000;

/// The most calls that are counted, of all removals, for the values of a candidate.
const MOST_COUNTED: usize = 4_000_000;

/// The most removals for which the values of a candidate are chosen.
const MOST_CHOSEN: usize = 256;

/// The most pushes of the value that a removal of a stack found.
const MOST_PUSHES: usize = 64;

/// A removal that returned, and what can have been ahead of what it found.
struct Question<'a> {
    call: &'a Call,
    /// The place of the run of the value that it found, if it found one.
    run: Option<usize>,
    /// Puts count that were invoked at this number or later.
    from: u32,
    /// Puts count that returned before this number.
    before: u32,
    /// The places in the tree of what counts.
    counted: (usize, usize),
    /// How many other removals of the own run can be before it, and count.
    others: usize,
    /// How many pending removals can be before it.
    pending: usize,
}

impl Question<'_> {
    /// How many other removals can be before it, apart from those of other values.
    fn most(&self) -> usize {
        self.others + self.pending
    }

    /// Whether a removal that was invoked at this number can be before it.
    fn can_follow(&self, number: u32) -> bool {
        number <= self.call.returned
    }
}

/// A put that returned, and the number at which the removal was invoked that is its pair; that of
/// no removal if there is none.
struct Pair {
    key: i64,
    returned: u32,
    leaves: i64,
}

/// If there is no removal: this is after all numbers.
const NEVER: i64 = u32::MAX as i64;

/// Pairs in rising order of their keys. Those whose puts returned before a number are in the tree,
/// with what is less the later they leave.
struct Pairs {
    keys: Vec<i64>,
    leaves: Vec<i64>,
    by_return: Vec<(u32, usize)>,
    admitted: usize,
    tree: Least,
}

impl Pairs {
    fn of(mut pairs: Vec<Pair>) -> Pairs {
        pairs.sort_by_key(|pair| (pair.key, pair.returned));
        let returns = pairs.iter().enumerate().map(|(place, pair)| (pair.returned, place));
        let mut by_return: Vec<_> = returns.collect();
        by_return.sort_unstable();
        Pairs {
            keys: pairs.iter().map(|pair| pair.key).collect(),
            leaves: pairs.iter().map(|pair| pair.leaves).collect(),
            by_return,
            admitted: 0,
            tree: Least::of(&vec![ABSENT; pairs.len()]),
        }
    }

    /// The places of the keys from one on, and before another one.
    fn between(&self, from: i64, to: i64) -> (usize, usize) {
        let place = |key: i64| self.keys.partition_point(|own| *own < key);
        (place(from), place(to))
    }

    /// Admits the pairs whose puts returned before this number.
    fn admit(&mut self, before: u32) {
        while let Some((_, place)) =
            self.by_return.get(self.admitted).filter(|(returned, _)| *returned < before)
        {
            self.tree.set(*place, -self.leaves[*place]);
            self.admitted += 1;
        }
    }

    /// Whether more pairs than this at some places leave after a number. How many looks it took is
    /// added.
    fn more_than(
        &mut self,
        most: usize,
        places: (usize, usize),
        at: u32,
        looks: &mut usize,
    ) -> bool {
        let latest = -i64::from(at) - 1;
        let mut taken = Vec::new();
        while taken.len() <= most {
            *looks += 1;
            let Some(place) = self.tree.take_at_most(places.0, places.1, latest) else {
                break;
            };
            taken.push(place);
        }
        for place in &taken {
            self.tree.set(*place, -self.leaves[*place]);
        }
        taken.len() > most
    }
}

/// The runs of one value after the other.
fn by_value(runs: &Runs) -> impl Iterator<Item = &[Run]> {
    runs.runs.chunk_by(|run, next| run.value == next.value)
}

/// The pairs of each value, by their values.
fn pairs_by_value(runs: &Runs) -> Pairs {
    let pairs = by_value(runs).flat_map(|own| {
        let puts = own.iter().flat_map(|run| runs.puts(run)).filter(|call| !call.is_pending());
        let mut returns: Vec<u32> = puts.map(|call| call.returned).collect();
        let removals = own.iter().flat_map(|run| runs.removals(run));
        let mut begins: Vec<u32> = removals.map(|call| call.number).collect();
        returns.sort_unstable();
        begins.sort_unstable();
        let begins = begins.into_iter().map(i64::from).chain(std::iter::repeat(NEVER));
        let key = own[0].value;
        let pairs: Vec<Pair> = returns
            .into_iter()
            .zip(begins)
            .map(|(returned, leaves)| Pair { key, returned, leaves })
            .collect();
        pairs
    });
    Pairs::of(pairs.collect())
}

/// The pairs of runs with one push, by the numbers of their pushes.
fn pairs_by_push(runs: &Runs) -> Pairs {
    let pairs = runs.runs.iter().filter_map(|run| match runs.puts(run) {
        [push] if !push.is_pending() => Some(Pair {
            key: i64::from(push.number),
            returned: push.returned,
            leaves: runs.removals(run).first().map_or(NEVER, |call| i64::from(call.number)),
        }),
        _ => None,
    });
    Pairs::of(pairs.collect())
}

/// What was asked of an object: which value it gives, its runs, and the numbers of its pending
/// removals.
struct Asking<'a> {
    gives: Gives,
    runs: &'a Runs,
    pending: Vec<u32>,
}

impl<'a> Asking<'a> {
    fn new(gives: Gives, runs: &'a Runs) -> Asking<'a> {
        Asking { gives, runs, pending: runs.pending.iter().map(|call| call.number).collect() }
    }

    /// How many removals of a run, other than this one, can be before it.
    fn others(&self, run: &Run, call: &Call) -> usize {
        let removals = self.runs.removals(run);
        removals.partition_point(|removal| removal.number <= call.returned).saturating_sub(1)
    }

    /// How many pending removals can be before a call that returned.
    fn pending_by(&self, call: &Call) -> usize {
        self.pending.partition_point(|number| *number <= call.returned)
    }

    /// The question of a removal that found nothing.
    fn of_empty(&self, call: &'a Call, pairs: &Pairs) -> Question<'a> {
        Question {
            call,
            run: None,
            from: 0,
            before: call.number,
            counted: (0, pairs.keys.len()),
            others: 0,
            pending: self.pending_by(call),
        }
    }

    /// The question of a removal that found the value of the run at this place; none if its puts
    /// leave it open what was ahead.
    fn of_found(&self, place: usize, call: &'a Call, pairs: &Pairs) -> Option<Question<'a>> {
        let run = &self.runs.runs[place];
        let puts = self.runs.puts(run);
        let mut question = Question { run: Some(place), ..self.of_empty(call, pairs) };
        match self.gives {
            Gives::First => question.before = call.number.min(puts.first()?.number),
            Gives::Least => question.counted = pairs.between(i64::MIN, run.value),
            Gives::Last if puts.len() > MOST_PUSHES => return None,
            Gives::Last => {
                let own = puts.iter().filter(|put| question.can_follow(put.number));
                question.from = own.map(|put| put.returned).max()?.checked_add(1)?;
                if question.from > call.number {
                    return None;
                }
                question.counted = pairs.between(i64::from(question.from), NEVER);
            }
        }
        if self.gives != Gives::Least {
            question.others = self.others(run, call);
        }
        Some(question)
    }

    /// The questions of the removals that found a value.
    fn found(&self, pairs: &Pairs) -> Vec<Question<'a>> {
        let runs = self.runs;
        let places = 0..runs.runs.len();
        let removals = places.flat_map(|place| {
            runs.removals(&runs.runs[place]).iter().map(move |call| (place, call))
        });
        removals.filter_map(|(place, call)| self.of_found(place, call, pairs)).collect()
    }
}

/// The questions among these that show that values were lost, with the fewest pending removals
/// first.
fn answered<'a>(mut questions: Vec<Question<'a>>, pairs: &mut Pairs) -> Vec<Question<'a>> {
    questions.sort_by_key(|question| question.before);
    let mut looks = 0;
    questions.retain(|question| {
        pairs.admit(question.before);
        looks < MOST_LOOKS
            && pairs.more_than(
                question.most(),
                question.counted,
                question.call.returned,
                &mut looks,
            )
    });
    questions.sort_by_key(|question| (question.most(), question.call.returned));
    questions
}

/// What was done with a value until a removal returned.
struct Share {
    value: KeptValue,
    /// How many of the puts that count are not taken.
    surplus: usize,
    /// How many more puts than removals the whole history has.
    left: usize,
    calls: usize,
    /// The number of the first put.
    number: u32,
}

/// The value of these runs, kept from the run at this place on.
fn kept_from(own: &[Run], place: usize) -> KeptValue {
    let run = &own[place];
    KeptValue { value: run.value, since: run.since.filter(|_| place > 0) }
}

impl Asking<'_> {
    /// How many calls of runs can be before the end of a question.
    fn calls(&self, own: &[Run], question: &Question) -> usize {
        let puts = own.iter().flat_map(|run| self.runs.puts(run));
        let removals = own.iter().flat_map(|run| self.runs.removals(run));
        puts.chain(removals).filter(|call| question.can_follow(call.number)).count()
    }

    /// The share of a value, from its last run on that has a put that counts.
    fn share(&self, own: &[Run], question: &Question) -> Option<Share> {
        let counts = |put: &Call| put.returned < question.before && put.number >= question.from;
        let place = own.iter().rposition(|run| self.runs.puts(run).iter().any(counts))?;
        let rest = &own[place..];
        let puts =
            rest.iter().flat_map(|run| self.runs.puts(run)).filter(|put| counts(put)).count();
        let removals = rest.iter().flat_map(|run| self.runs.removals(run));
        let taken = removals.filter(|call| question.can_follow(call.number)).count();
        let size = |run: &Run| (run.put_count(), run.size() - run.put_count());
        let (all_puts, all_taken) =
            own.iter().map(size).fold((0, 0), |a, b| (a.0 + b.0, a.1 + b.1));
        Some(Share {
            value: kept_from(own, place),
            surplus: puts.checked_sub(taken).filter(|surplus| *surplus > 0)?,
            left: all_puts.checked_sub(all_taken)?,
            calls: self.calls(rest, question),
            number: self.runs.puts(&own[place]).first()?.number,
        })
    }

    /// The value of the run that the removal found, and how many of its calls are kept, and how
    /// many of its puts are left over.
    fn own_share(&self, question: &Question) -> Option<Share> {
        let place = question.run?;
        let places = self.runs.places_of(self.runs.runs[place].value);
        let own = &self.runs.runs[places.clone()];
        let at = place - places.start;
        let (puts, size) =
            own.iter().fold((0, 0), |sum, run| (sum.0 + run.put_count(), sum.1 + run.size()));
        Some(Share {
            value: kept_from(own, at),
            surplus: 0,
            left: (2 * puts).saturating_sub(size),
            calls: self.calls(&own[at..], question),
            number: question.call.number,
        })
    }

    /// The values that can be ahead of what the removal found: the fewest calls for what is not
    /// taken first, and of these the last one put in.
    fn shares(&self, question: &Question) -> Vec<Share> {
        let found = question.run.map(|place| self.runs.runs[place].value);
        let counts = |value: i64| match (self.gives, found) {
            (Gives::Least, Some(found)) => value < found,
            (Gives::Least, None) | (Gives::First | Gives::Last, _) => found != Some(value),
        };
        let mut shares: Vec<Share> = by_value(self.runs)
            .filter(|own| counts(own[0].value))
            .filter_map(|own| self.share(own, question))
            .collect();
        shares.sort_by(|one, other| {
            (one.calls * other.surplus)
                .cmp(&(other.calls * one.surplus))
                .then(other.number.cmp(&one.number))
        });
        shares
    }

    /// What is kept of the value that the removal found.
    fn kept_of_own(&self, question: &Question) -> Kept {
        let own = self.own_share(question);
        own.map_or(Kept { calls: 1, ..Kept::default() }, |own| Kept::default().with(&own))
    }

    /// The candidate of a question: as few values as show it, or a single one whose calls are
    /// fewer.
    fn candidate(&self, question: &Question) -> Option<Candidate> {
        let shares = self.shares(question);
        let own = self.kept_of_own(question);
        let mut kept = own.clone();
        let together = shares.iter().find_map(|share| {
            kept = std::mem::take(&mut kept).with(share);
            kept.shows(question).then(|| kept.clone())
        })?;
        let single = shares.iter().min_by_key(|share| match own.shows_with(share, question) {
            true => share.calls,
            false => usize::MAX,
        })?;
        let alone = own.with(single);
        let is_lighter = alone.shows(question) && alone.calls < together.calls;
        Some(candidate_of(question, if is_lighter { alone } else { together }))
    }
}

/// The values that a candidate keeps.
#[derive(Clone, Default)]
struct Kept {
    values: Vec<KeptValue>,
    /// How many of the puts that count are not taken.
    surplus: usize,
    /// How many more puts than removals the whole history has.
    left: usize,
    calls: usize,
}

impl Kept {
    fn with(mut self, share: &Share) -> Kept {
        self.values.push(share.value);
        self.surplus += share.surplus;
        self.left += share.left;
        self.calls += share.calls;
        self
    }

    /// How many pending removals are kept.
    fn pending(&self, question: &Question) -> usize {
        self.left.min(question.pending)
    }

    /// Whether more puts count than other removals can have taken.
    fn shows(&self, question: &Question) -> bool {
        self.surplus > question.others + self.pending(question)
    }

    /// The same with a share.
    fn shows_with(&self, share: &Share, question: &Question) -> bool {
        let pending = (self.left + share.left).min(question.pending);
        self.surplus + share.surplus > question.others + pending
    }
}

/// The candidate that keeps these values.
fn candidate_of(question: &Question, kept: Kept) -> Candidate {
    let (number, weight) = (question.call.number, kept.calls + kept.pending(question));
    let operations = question.run.is_none().then_some(number).into_iter().collect();
    let count = Count { counted: Counted::Ahead(number), from: question.from };
    let plan = Plan {
        until: Some(question.call.until()),
        shown_by: ShownBy::count(count),
        ..Plan::of(Form::Container(Chosen { values: kept.values, operations }))
    };
    Candidate::without_key(Pattern::General, plan, weight)
}

/// The removals ahead of whose finds more values definitely were than can have been taken out, the
/// fewest operations first.
pub fn ahead(gives: Gives, runs: &Runs) -> Vec<Candidate> {
    let asking = Asking::new(gives, runs);
    let mut values = pairs_by_value(runs);
    let mut questions: Vec<Question> =
        runs.empties.iter().map(|call| asking.of_empty(call, &values)).collect();
    let mut answers = Vec::new();
    match gives {
        Gives::Last => {
            let mut pushes = pairs_by_push(runs);
            answers = answered(asking.found(&pushes), &mut pushes);
        }
        Gives::First | Gives::Least => questions.extend(asking.found(&values)),
    }
    answers.extend(answered(questions, &mut values));
    answers.sort_by_key(|question| (question.most(), question.call.returned));
    let count = (MOST_COUNTED / (runs.end as usize + 1)).clamp(1, MOST_CHOSEN);
    let chosen = answers.iter().take(count);
    let mut candidates: Vec<Candidate> =
        chosen.filter_map(|question| asking.candidate(question)).collect();
    candidates.sort_by_key(|candidate| candidate.weight);
    candidates.truncate(MOST);
    candidates
}
