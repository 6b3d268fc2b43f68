//! The strip of an object's whole history, where a figure leaves some of it out.

use super::moments::Moment;
use super::nemeses::{MOST_BANDS, Spell, spells};
use crate::timeline::{COLUMNS, DrawnOperation, DrawnStretch, State, Strip};
use finder::Nemesis;
use std::collections::BTreeSet;
use std::ops::RangeInclusive;

/// The column of a map of a history of this many maps.
fn column_of(number: u32, maps: u32) -> u32 {
    let columns = COLUMNS.min(maps);
    (u64::from(number) * u64::from(columns) / u64::from(maps.max(1))) as u32
}

/// The first map of a column, and of the one after the last the end of the maps.
fn first_of(column: u32, maps: u32) -> usize {
    let columns = COLUMNS.min(maps);
    (u64::from(column) * u64::from(maps)).div_ceil(u64::from(columns)) as usize
}

/// For each column the most operations that run at once. One that is pending runs until its
/// `:info`.
fn heights(operations: &[DrawnOperation], maps: u32) -> Vec<u32> {
    let mut changes = vec![0_i32; maps as usize + 1];
    for operation in operations.iter().filter(|it| it.state() != State::Failed) {
        changes[operation.number() as usize] += 1;
        changes[operation.ended.map_or(maps, |ended| ended + 1) as usize] -= 1;
    }
    let mut open = 0;
    let mut height = |column| {
        let own = &changes[first_of(column, maps)..first_of(column + 1, maps)];
        let most = own.iter().fold(0, |most: i32, change| {
            open += change;
            most.max(open)
        });
        most.unsigned_abs()
    };
    (0..COLUMNS.min(maps)).map(&mut height).collect()
}

/// The stretches of events that are drawn.
fn drawn(moments: &[Moment], maps: u32) -> Vec<RangeInclusive<u32>> {
    let stretches = moments.chunk_by(|one, other| one.is_drawn == other.is_drawn);
    let drawn = stretches.filter(|stretch| stretch[0].is_drawn);
    let ends = drawn.filter_map(|stretch| Some((stretch.first()?.number, stretch.last()?.number)));
    ends.map(|(first, last)| column_of(first, maps)..=column_of(last, maps)).collect()
}

/// The columns of what nemeses began, by their beginnings. If they are many, those that meet are
/// one.
fn bands(nemeses: &[Nemesis], maps: u32) -> Vec<RangeInclusive<u32>> {
    let end = |end: Option<u32>| column_of(end.unwrap_or(maps.saturating_sub(1)), maps);
    let band = |spell: Spell| column_of(spell.begin.number, maps)..=end(spell.end);
    let bands: Vec<_> = spells(nemeses).into_iter().map(band).collect();
    if bands.len() <= MOST_BANDS {
        return bands;
    }
    let mut joined: Vec<RangeInclusive<u32>> = Vec::new();
    for band in bands {
        match joined.last_mut() {
            Some(last) if band.start() <= last.end() => {
                *last = *last.start()..=*last.end().max(band.end());
            }
            _ => joined.push(band),
        }
    }
    joined
}

fn columns(numbers: impl Iterator<Item = u32>, maps: u32) -> Vec<u32> {
    numbers.map(|number| column_of(number, maps)).collect::<BTreeSet<u32>>().into_iter().collect()
}

/// The strip of the operations of an object, of whose events some are drawn, and those with these
/// numbers are what the sentence speaks of.
pub fn strip_of(
    operations: &[DrawnOperation],
    moments: &[Moment],
    nemeses: &[Nemesis],
    focus: &[u32],
    maps: u32,
    stretches: &[DrawnStretch],
) -> Strip {
    let other =
        |it: &DrawnStretch| column_of(it.from, maps)..=column_of(it.to.saturating_sub(1), maps);
    Strip {
        maps,
        heights: heights(operations, maps),
        drawn: drawn(moments, maps),
        others: stretches.iter().map(other).collect(),
        marked: columns(focus.iter().copied(), maps),
        bands: bands(nemeses, maps),
        nemeses: columns(nemeses.iter().map(|nemesis| nemesis.number), maps),
    }
}
