//! The order of the operations. That of a history is the order of its lines. Logs that are joined
//! by `cat` are in no order; the times of the operations show that.

use crate::events::{Kind, is_nemesis, said};
use crate::form::Form;
use crate::operations::{Operation, Refused};
use std::collections::HashMap;

fn time_of(operation: &Operation) -> Option<i64> {
    match operation.map.get("time") {
        Some(Form::Int(time)) => Some(*time),
        _ => None,
    }
}

/// The warning that times go back, if they do: how many, and the first with the greatest before it.
fn warning_of_times(all: &[Operation]) -> Option<String> {
    let (mut count, mut first, mut greatest) = (0_usize, None, None::<(i64, usize)>);
    for operation in all {
        let Some(time) = time_of(operation) else { continue };
        match greatest {
            Some((before, line)) if time < before => {
                count += 1;
                first.get_or_insert((operation.line, time, line, before));
            }
            _ => greatest = Some((time, operation.line)),
        }
    }
    let (line, time, other, before) = first?;
    Some(format!(
        "times go back: {count} operations have a :time before one that is above them, first line {line} (:time {time}) after line \
         {other} (:time {before}). The order of the lines is judged. Use --by-time if that of the times is meant, as of logs that \
         were joined"
    ))
}

/// Refuses a time that cannot be compared.
fn refuse_other_times(all: &[Operation]) -> Result<(), Refused> {
    let is_other =
        |it: &&Operation| !matches!(it.map.get("time"), None | Some(Form::Int(_) | Form::Nil));
    match all.iter().find(is_other) {
        None => Ok(()),
        Some(Operation { line, map }) => {
            let time = said(map, "time");
            let why = format!(
                "the :time {time} is no integer of 64 bits, and --by-time compares integers"
            );
            Err(Refused { line: *line, why })
        }
    }
}

fn kind_of(map: &Form) -> Option<Kind> {
    Kind::read(said(map, "type"))
}

/// The invocation of each completion, both by their places in the history: the last one of its
/// process above it that no other completion has.
fn invocations<'a>(all: impl Iterator<Item = (usize, &'a Operation)>) -> HashMap<usize, usize> {
    let (mut open, mut found) = (HashMap::<&Form, Vec<usize>>::new(), HashMap::new());
    for (place, Operation { map, .. }) in all {
        let process = said(map, "process");
        let of_process = open.entry(process).or_default();
        match kind_of(map).filter(|_| !is_nemesis(process)) {
            None => {}
            Some(Kind::Invoke) => of_process.push(place),
            Some(_) => found.extend(of_process.pop().map(|invoked| (place, invoked))),
        }
    }
    found
}

/// The operations by their times, each with its place in the history.
type Sorted = [(usize, Operation)];

/// The first completion that comes before its invocation, or that another one would have: its
/// place, and its own invocation in the history, if one is above it there.
fn first_wrong(sorted: &Sorted, above: &HashMap<usize, usize>) -> Option<(usize, Option<usize>)> {
    let by_times = invocations(sorted.iter().map(|(origin, operation)| (*origin, operation)));
    let is_completion = |map: &Form| {
        !is_nemesis(said(map, "process")) && kind_of(map).is_some_and(|it| it != Kind::Invoke)
    };
    sorted.iter().enumerate().find_map(|(place, (origin, Operation { map, .. }))| {
        let (own, found) = (above.get(origin), by_times.get(origin));
        let is_wrong = found.is_none() || (own.is_some() && own != found);
        (is_wrong && is_completion(map)).then(|| (place, own.copied()))
    })
}

/// Refuses a completion that comes before its invocation, or that another invocation would get. If
/// the history has none above it, its invocation may be anywhere. If there is none at all, it is
/// refused when it is read.
fn refuse_other_pairs(sorted: &Sorted, above: &HashMap<usize, usize>) -> Result<(), Refused> {
    let Some((place, own)) = first_wrong(sorted, above) else { return Ok(()) };
    let Operation { line, map } = &sorted[place].1;
    let process = said(map, "process");
    let is_own = |(origin, it): &&(usize, Operation)| match own {
        Some(own) => *origin == own,
        None => said(&it.map, "process") == process && kind_of(&it.map) == Some(Kind::Invoke),
    };
    let wrong = match (sorted[place..].iter().find(is_own), own) {
        (Some((_, invoked)), _) => format!("is before its :invoke in line {}", invoked.line),
        (None, None) => return Ok(()),
        (None, Some(_)) => {
            let invoked = sorted.iter().find(is_own).map_or(0, |(_, invoked)| invoked.line);
            format!(
                "is the completion of another :invoke than that in line {invoked}, which is its own"
            )
        }
    };
    let kind = kind_of(map).map_or("", Kind::word);
    let why = format!("operation {place}: by its :time the :{kind} of process {process} {wrong}");
    Err(Refused { line: *line, why })
}

/// The operations by their times, and how many have another place then. Equal times stay in their
/// order. One without a time stays after the one before it.
fn by_time(all: Vec<Operation>) -> (Vec<(usize, Operation)>, usize) {
    let mut last = i64::MIN;
    let mut timed: Vec<(i64, usize, Operation)> = Vec::with_capacity(all.len());
    for (place, operation) in all.into_iter().enumerate() {
        last = time_of(&operation).unwrap_or(last);
        timed.push((last, place, operation));
    }
    timed.sort_by_key(|(time, place, _)| (*time, *place));
    let moved = timed.iter().enumerate().filter(|(place, it)| *place != it.1).count();
    (timed.into_iter().map(|(_, place, operation)| (place, operation)).collect(), moved)
}

/// The operations in the order that is judged, and what the user should know of it.
pub fn ordered(
    all: Vec<Operation>,
    is_by_time: bool,
) -> Result<(Vec<Operation>, Option<String>), Refused> {
    if !is_by_time {
        let warning = warning_of_times(&all);
        return Ok((all, warning));
    }
    refuse_other_times(&all)?;
    let count = all.len();
    let above = invocations(all.iter().enumerate());
    let (sorted, moved) = by_time(all);
    let warning = format!(
        "--by-time moved {moved} of {count} operations: events are numbered by their new places"
    );
    let warning = (moved > 0).then_some(warning);
    if moved > 0 {
        refuse_other_pairs(&sorted, &above)?;
    }
    Ok((sorted.into_iter().map(|(_, operation)| operation).collect(), warning))
}
