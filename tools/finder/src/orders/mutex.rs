//! Mutexes. A call is placed when it returns, or when one that returns needs it: then, of all calls
//! of its kind that are running, the one that returns first. All acquires are alike, and so are all
//! releases, so nothing better can be chosen.

use crate::timeline::Timeline;
use std::collections::BTreeSet;

/// An order of the calls that may be valid.
pub fn mutex_order(timeline: &Timeline) -> Option<Vec<u32>> {
    // the calls that run and are not placed, by their returns
    let mut acquires = BTreeSet::new();
    let mut releases = BTreeSet::new();
    let mut held = false;
    let mut order = Vec::new();
    for moment in &timeline.moments {
        let call = &timeline.calls[moment.call];
        let acquires_it = call.op.holds() == Some(true);
        let (own, others) = match acquires_it {
            true => (&mut acquires, &mut releases),
            false => (&mut releases, &mut acquires),
        };
        if !moment.returns {
            own.insert((call.end, call.number));
        } else if own.remove(&(call.end, call.number)) {
            if held == acquires_it {
                let (_, other) = others.pop_first()?;
                order.push(other);
            }
            order.push(call.number);
            held = acquires_it;
        }
    }
    Some(order)
}
