//! What the text of a history has beside its operations: the times of its maps, and the values of
//! the maps of a nemesis. They decorate a page, and no answer depends on them.

use crate::elements::{elements_in, value_in};
use finder::History;
use std::collections::BTreeMap;

/// The characters of the longest value that is kept.
const LONGEST: usize = 64;

#[derive(Default)]
pub struct Asides {
    /// In nanoseconds, by the numbers of the maps.
    times: Vec<Option<i64>>,
    /// The values of the maps of nemeses, by their numbers.
    values: BTreeMap<u32, String>,
}

fn time_in(map: &[u8]) -> Option<i64> {
    std::str::from_utf8(value_in(map, b":time")?).ok()?.parse().ok()
}

fn nemesis_value(map: &[u8]) -> Option<String> {
    let text = String::from_utf8_lossy(value_in(map, b":value")?);
    let is_some = text != "nil";
    is_some.then(|| {
        text.split_whitespace().collect::<Vec<_>>().join(" ").chars().take(LONGEST).collect()
    })
}

impl Asides {
    /// The asides of the text of this history. A history whose first map has no time has none.
    pub fn read(text: &[u8], history: &History) -> Asides {
        let mut asides = Asides::default();
        let first = elements_in(text, 0).next();
        let has_times = first.is_some_and(|map| time_in(map.of(text)).is_some());
        if !has_times && history.nemeses.is_empty() {
            return asides;
        }
        let mut nemeses = history.nemeses.iter().map(|nemesis| nemesis.number).peekable();
        for (number, map) in (0..).zip(elements_in(text, 0)) {
            let map = map.of(text);
            if has_times {
                asides.times.push(time_in(map));
            }
            if nemeses.next_if_eq(&number).is_some() {
                asides.values.extend(nemesis_value(map).map(|value| (number, value)));
            }
        }
        asides
    }

    pub fn has_times(&self) -> bool {
        !self.times.is_empty()
    }

    /// The time of the map with this number.
    pub fn time(&self, number: u32) -> Option<i64> {
        self.times.get(number as usize).copied().flatten()
    }

    /// The value of a map of a nemesis.
    pub fn value(&self, number: u32) -> Option<&str> {
        self.values.get(&number).map(String::as_str)
    }
}

/// Nanoseconds as seconds, with this many digits after the point.
pub fn seconds(nanoseconds: i64, digits: u32) -> String {
    let sign = if nanoseconds < 0 { "−" } else { "" };
    let (whole, rest) =
        (nanoseconds.unsigned_abs() / 1_000_000_000, nanoseconds.unsigned_abs() % 1_000_000_000);
    let rest = rest / 10_u64.pow(9 - digits);
    format!("{sign}{whole}.{rest:0width$} s", width = digits as usize)
}

#[cfg(test)]
mod tests {
    use super::*;
    use finder::read_history;

    const TEXT: &str = "{:process 0, :type :invoke, :f :read, :time 1204351999}
        {:process :nemesis, :type :info, :f :start, :value [:isolated  [\"n1\"]], :time 1500000000}
        {:process :nemesis, :type :info, :f :stop, :value nil}
        {:process 0, :type :ok, :f :read, :time \"late\"}";

    #[test]
    fn reads_times_and_values() {
        let asides =
            Asides::read(TEXT.as_bytes(), &read_history(TEXT.as_bytes()).expect("a history"));
        let times: Vec<_> = (0..5).map(|number| asides.time(number)).collect();
        assert_eq!(times, [Some(1_204_351_999), Some(1_500_000_000), None, None, None]);
        let values: Vec<_> = (0..4).map(|number| asides.value(number)).collect();
        assert_eq!(values, [None, Some("[:isolated [\"n1\"]]"), None, None]);
    }

    #[test]
    fn a_first_map_without_a_time_has_no_axis() {
        let text = TEXT.replacen(", :time", ", :at", 1);
        let asides =
            Asides::read(text.as_bytes(), &read_history(text.as_bytes()).expect("a history"));
        assert!(!asides.has_times() && asides.value(1).is_some());
    }

    #[test]
    fn tells_seconds() {
        let shown = [(1_204_351_999, 3), (1_204_351_999, 6), (999_999, 3), (-2_000_000_000, 3)]
            .map(|(time, digits)| seconds(time, digits));
        assert_eq!(shown, ["1.204 s", "1.204351 s", "0.000 s", "−2.000 s"]);
    }
}
