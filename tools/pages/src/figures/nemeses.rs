//! The maps of nemeses in a figure: marks, and bands from where a nemesis begins something to where
//! it ends that.

use super::columns::{Column, What};
use super::labels::fit;
use super::numbers::SMALL_CHARACTER;
use super::placing::Layout;
use super::scene::Scene;
use super::segments::stretch_between;
use crate::timeline::{Band, NemesisMark};
use crate::words::Words;
use finder::Nemesis;
use std::collections::HashMap;

/// With which words functions begin that begin something, and those that end it.
const PAIRS: [(&str, &str); 4] =
    [("start", "stop"), ("kill", "start"), ("pause", "resume"), ("partition", "heal")];

/// How many bands a line has at most, and a strip. Further ones are one.
pub const MOST_BANDS: usize = 40;

/// What a nemesis began at the first of its maps here, and where it ended that.
#[derive(Clone, Copy)]
pub struct Spell<'a> {
    pub begin: &'a Nemesis,
    pub end: Option<u32>,
}

fn begins(function: &str) -> bool {
    PAIRS.iter().any(|(begin, _)| function.starts_with(begin))
}

/// The functions that began what this one ends: `start-clock` for `stop-clock`.
fn ended_by(function: &str) -> impl Iterator<Item = String> {
    PAIRS.iter().filter_map(|(begin, end)| Some(format!("{begin}{}", function.strip_prefix(end)?)))
}

/// What the nemeses began. A nemesis has two maps for each thing that it does, with the same
/// function.
pub fn spells(nemeses: &[Nemesis]) -> Vec<Spell<'_>> {
    let mut spells: Vec<Spell> = Vec::new();
    // The places of those that are not ended, by process and function.
    let mut open: HashMap<(&str, String), usize> = HashMap::new();
    let mut last_end: Option<&Nemesis> = None;
    for nemesis in nemeses {
        let Nemesis { process, function, number } = nemesis;
        let is_same = |other: &Nemesis| other.process == *process && other.function == *function;
        let of = |function: String| (process.as_str(), function);
        if open.contains_key(&of(function.clone())) || last_end.is_some_and(is_same) {
            continue;
        }
        let ended: Vec<usize> = ended_by(function).filter_map(|it| open.remove(&of(it))).collect();
        ended.iter().for_each(|place| spells[*place].end = Some(*number));
        if !ended.is_empty() {
            last_end = Some(nemesis);
        } else if begins(function) {
            open.insert(of(function.clone()), spells.len());
            spells.push(Spell { begin: nemesis, end: None });
        }
    }
    spells
}

/// What a nemesis does, as `start [:isolated ..]`.
fn words_of(nemesis: &Nemesis, words: &Words) -> String {
    let name = if nemesis.function.is_empty() { &nemesis.process } else { &nemesis.function };
    match words.nemesis_value(nemesis.number) {
        Some(value) => format!("{name} {value}"),
        None => name.clone(),
    }
}

/// The words on the nemesis where it is pointed at.
fn title_of(nemesis: &Nemesis, words: &Words) -> String {
    let (process, event) = (&nemesis.process, words.event(nemesis.number));
    let at = words.exact_time(nemesis.number).map(|time| format!(", at {time}"));
    let function = if nemesis.function.is_empty() {
        String::new()
    } else {
        format!(" {}", words_of(nemesis, words))
    };
    format!("{process}{function}, event {event}{}", at.unwrap_or_default())
}

/// The marks of the line, each with as much of its words as has room up to the next one.
pub fn marks_of(scene: &Scene, layout: &Layout, line: usize) -> Vec<NemesisMark> {
    let place = |(column, x): (&Column, u32)| match &column.what {
        What::Event(moment) => scene.nemesis(moment.number).map(|nemesis| (nemesis, x)),
        _ => None,
    };
    let places: Vec<_> = layout.columns_in(line).filter_map(place).collect();
    let mark = |(number, (nemesis, x)): (usize, &(&Nemesis, u32))| {
        let end = places.get(number + 1).map_or(layout.end_of(line), |(_, next)| *next);
        let room = end.saturating_sub(x + 14) / SMALL_CHARACTER;
        NemesisMark {
            x: x + layout.left,
            title: title_of(nemesis, &scene.words),
            label: fit(&words_of(nemesis, &scene.words), room as usize),
        }
    };
    places.iter().enumerate().map(mark).collect()
}

/// The bands that are too many in a line, as one.
fn rest_of(bands: &[Band]) -> Option<Band> {
    let from = bands.iter().map(|band| band.from).min()?;
    let to = bands.iter().map(|band| band.to).max()?;
    Some(Band { from, to, title: format!("{} more faults of nemeses", bands.len()) })
}

/// The parts in the line of the bands of these spells.
pub fn bands_of(scene: &Scene, layout: &Layout, line: usize, spells: &[Spell]) -> Vec<Band> {
    if scene.is_zoom {
        return Vec::new();
    }
    let band = |spell: &Spell| {
        let (from, to) = stretch_between(layout, spell.begin.number, spell.end, line)?;
        let end = spell.end.map_or("the end of the history".into(), |end| {
            format!("event {}", scene.words.event(end))
        });
        let title = format!("{}, until {end}", title_of(spell.begin, &scene.words));
        Some(Band { from: from + layout.left, to: to + layout.left, title })
    };
    let mut bands: Vec<Band> = spells.iter().filter_map(band).collect();
    if bands.len() > MOST_BANDS {
        let rest = bands.split_off(MOST_BANDS - 1);
        bands.extend(rest_of(&rest));
    }
    bands
}

#[cfg(test)]
mod tests {
    use super::*;

    fn found(functions: &[&str]) -> Vec<(u32, Option<u32>)> {
        let nemesis = |(number, function): (u32, &&str)| Nemesis {
            number,
            process: "nemesis".into(),
            function: function.to_string(),
        };
        let nemeses: Vec<Nemesis> = (0..).zip(functions).map(nemesis).collect();
        spells(&nemeses).iter().map(|it| (it.begin.number, it.end)).collect()
    }

    #[test]
    fn pairs_what_begins_and_what_ends() {
        for (functions, wanted) in [
            // As Jepsen writes them: an invocation and a completion of each.
            (
                &["start", "start", "stop", "stop", "start", "start"][..],
                &[(0, Some(2)), (4, None)][..],
            ),
            (
                &["start-clock", "start-net", "stop-clock", "stop-net"],
                &[(0, Some(2)), (1, Some(3))],
            ),
            (&["kill", "kill", "start", "start"], &[(0, Some(2))]),
            (&["pause", "resume", "", "bump"], &[(0, Some(1))]),
        ] {
            assert_eq!(found(functions), wanted, "{functions:?}");
        }
    }

    #[test]
    fn each_nemesis_that_begins_is_found_among_many() {
        let functions: Vec<String> = (0..100_000).map(|it| format!("kill-{it}")).collect();
        let functions: Vec<&str> = functions.iter().map(String::as_str).collect();
        let wanted: Vec<_> = (0..100_000).map(|number| (number, None)).collect();
        assert!(found(&functions) == wanted);
    }
}
