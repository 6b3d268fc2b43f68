//! Plans that keep everything of an object of few operations, or of a map's key: where no pattern
//! leads to a reason, such a plan is made smaller.

use super::{Candidate, Chosen, Form, KeptValue, Pattern, Plan};
use crate::kinds::{Cells, Family, Kind, Need, Reply};
use crate::timeline::{Call, Timeline};
use std::collections::BTreeSet;

/// The most calls of a plan that keeps everything.
const MOST: usize = 64;

/// The most keys of a map that are tried.
const MOST_KEYS: usize = 16;

/// Adds the values that a call names.
fn add_values(call: &Call, values: &mut BTreeSet<i64>) {
    if let Some(Need::Is(asked)) = call.op.effect(None).map(|effect| effect.need) {
        values.extend(asked);
    }
    values.extend(call.op.new_value());
    if let Some(Reply::Value(value)) = call.reply {
        values.extend(value);
    }
}

/// The values that these calls name, in rising order.
fn values_of(calls: &[&Call]) -> Vec<i64> {
    let mut values = BTreeSet::new();
    calls.iter().for_each(|call| add_values(call, &mut values));
    values.into_iter().collect()
}

/// The candidate of a form with the calls that returned among these, if these are few.
fn whole(
    key: Option<i64>,
    calls: &[&Call],
    form: impl FnOnce(Vec<u32>) -> Form,
) -> Option<Candidate> {
    if calls.len() > MOST {
        return None;
    }
    let returned = calls.iter().filter(|call| !call.is_pending()).map(|call| call.number);
    let plan = Plan::of(form(returned.collect()));
    Some(Candidate { pattern: Pattern::General, key, plan, weight: calls.len() })
}

/// The candidate that keeps all calls on this key of a map, if they are few.
fn whole_key(timeline: &Timeline, key: i64) -> Option<Candidate> {
    let calls = timeline.calls.iter().filter(|call| call.op.key() == Some(key));
    let calls: Vec<&Call> = calls.collect();
    whole(Some(key), &calls, |operations| Form::Keys(Chosen { values: vec![key], operations }))
}

/// The plans that keep everything, if there are few calls.
pub fn wholes_of(kind: Kind, timeline: &Timeline) -> Vec<Candidate> {
    let calls: Vec<&Call> = timeline.calls.iter().collect();
    let window = || whole(None, &calls, |operations| Form::Window { operations });
    let wholes = match kind.family {
        Family::Container(_) => vec![whole(None, &calls, |operations| {
            let values = values_of(&calls).into_iter().map(KeptValue::whole).collect();
            Form::Container(Chosen { values, operations })
        })],
        Family::Cells(Cells { has_keys: false, .. }) => {
            let cell = whole(None, &calls, |operations| {
                Form::LoneCell(Chosen { values: values_of(&calls), operations })
            });
            vec![cell, window()]
        }
        Family::Holdable(_) | Family::Number(_) => vec![window()],
        Family::Cells(Cells { has_keys: true, .. }) => {
            let keys: BTreeSet<i64> = calls.iter().filter_map(|call| call.op.key()).collect();
            keys.into_iter().take(MOST_KEYS).map(|key| whole_key(timeline, key)).collect()
        }
    };
    wholes.into_iter().flatten().collect()
}
