//! The places that the maps of a history have in a longer one, of which the history is a part: a
//! shard of a whole that is too long for one text.

use crate::history::{End, History};
use crate::timeline::PENDING;
use std::fmt::{self, Display, Formatter};

/// For each map of a history its place in the whole, counted from 0. The places rise.
#[derive(Clone, Debug, PartialEq, Eq)]
pub struct Places(Vec<u32>);

/// What is wrong with a table of places.
#[derive(Clone, Copy, Debug, PartialEq, Eq)]
pub enum PlacesFault {
    /// This line, counted from 1, has no place, or none after that of the line before.
    Line(usize),
    /// The number of places is not that of the maps.
    Count { places: usize, maps: u32 },
}

impl Display for PlacesFault {
    fn fmt(&self, f: &mut Formatter<'_>) -> fmt::Result {
        match self {
            PlacesFault::Line(1) => f.write_str("line 1 is no place"),
            PlacesFault::Line(line) => {
                write!(f, "line {line} is no place after that of line {}", line - 1)
            }
            PlacesFault::Count { places, maps } => {
                write!(f, "it has {places} places, and the history has {maps} maps")
            }
        }
    }
}

/// The place that a line has: digits, and a line feed.
fn place_in(line: &[u8]) -> Option<u32> {
    let digits = line.strip_suffix(b"\n")?;
    if !digits.iter().all(u8::is_ascii_digit) {
        return None;
    }
    let place = std::str::from_utf8(digits).ok()?.parse().ok()?;
    // The last place of the longest whole is the number by which a timeline marks what is pending.
    (place < PENDING).then_some(place)
}

impl Places {
    /// Reads a table: a line for each map.
    pub fn read(table: &[u8]) -> Result<Places, PlacesFault> {
        let mut places: Vec<u32> = Vec::new();
        for (number, line) in (1..).zip(table.split_inclusive(|byte| *byte == b'\n')) {
            let place = place_in(line).ok_or(PlacesFault::Line(number))?;
            if places.last().is_some_and(|last| *last >= place) {
                return Err(PlacesFault::Line(number));
            }
            places.push(place);
        }
        Ok(Places(places))
    }
}

impl History {
    /// The same history, in which the number of each map is its place in the whole. What is found
    /// of it is so of the whole: the operations of its objects are those of the whole, in all they
    /// have.
    pub fn with_places(mut self, places: &Places) -> Result<History, PlacesFault> {
        let Places(places) = places;
        if places.len() != self.maps as usize {
            return Err(PlacesFault::Count { places: places.len(), maps: self.maps });
        }
        let replace = |number: &mut u32| *number = places[*number as usize];
        for operation in self.objects.iter_mut().flat_map(|it| &mut it.ops) {
            replace(&mut operation.number);
            if let End::Returned { at, .. } = &mut operation.end {
                replace(at);
            }
        }
        self.runs.iter_mut().for_each(|run| {
            replace(&mut run.number);
            run.completed.iter_mut().for_each(replace);
        });
        self.nemeses.iter_mut().for_each(|nemesis| replace(&mut nemesis.number));
        Ok(self)
    }
}

#[cfg(test)]
mod tests {
    use super::*;
    use crate::decide::{Options, decide};
    use crate::history::{ObjectHistory, Operation};
    use crate::kinds::KINDS;
    use crate::read_history;
    use crate::small::{Random, containers};

    /// The lines of evidence for a text.
    fn lines_of(history: &History) -> Vec<String> {
        let decisions = decide(history, Options::default());
        decisions.iter().map(ToString::to_string).collect()
    }

    fn read(text: &str) -> History {
        read_history(text.as_bytes()).expect("a history")
    }

    fn placed(text: &str, table: &str) -> History {
        let places = Places::read(table.as_bytes()).expect("places");
        read(text).with_places(&places).expect("as many places as maps")
    }

    #[test]
    fn an_order_has_the_numbers_of_the_whole() {
        let text = "{:process 0, :type :invoke, :f :enqueue, :value 1}
                    {:process 1, :type :invoke, :f :dequeue}
                    {:process 1, :type :ok, :f :dequeue, :value 1}
                    {:process 0, :type :ok, :f :enqueue, :value 1}";
        let history = placed(text, "3\n10\n11\n4000000000\n");
        assert_eq!(lines_of(&history), ["{:object 0, :order [3 10]}"]);
        assert_eq!(history.maps, 4);
        assert_eq!(history.runs[0].number, 3);
        assert_eq!(history.runs[0].completed, Some(4_000_000_000));
    }

    #[test]
    fn a_reason_has_the_numbers_of_the_whole() {
        let text = "{:process 0, :type :invoke, :f :push, :value 1}
                    {:process 0, :type :ok, :f :push, :value 1}
                    {:process :nemesis, :type :info, :f :kill}
                    {:process 0, :type :invoke, :f :pop}
                    {:process 0, :type :ok, :f :pop, :value 1}
                    {:process 0, :type :invoke, :f :pop}
                    {:process 0, :type :ok, :f :pop, :value 1}
                    {:process 0, :type :invoke, :f :pop}";
        let history = placed(text, "5\n7\n8\n20\n21\n22\n30\n40\n");
        assert_eq!(history.nemeses[0].number, 8);
        let line = "{:object 0, :cuts [{:keep [1], :numbers [5 20 22]} {:until 31}], \
                    :count {:value 1, :from 0}, \
                    :note \"value 1 was pushed once and popped twice; \
                    event 30 is the first that leaves no order\"}";
        assert_eq!(lines_of(&history), [line]);
    }

    #[test]
    fn a_table_of_no_places_is_refused() {
        for (table, line) in [
            ("1", 1),
            ("\n", 1),
            ("1\n2", 2),
            ("1\n\n", 2),
            ("1\n1\n", 2),
            ("2\n1\n", 2),
            ("0\n+1\n", 2),
            ("0\n1\n 2\n", 3),
            ("0\n-1\n", 2),
            ("0\n0x1\n", 2),
            ("0\n1\r\n", 2),
            ("4294967294\n", 1),
            ("4294967296\n", 1),
        ] {
            let fault = Places::read(table.as_bytes());
            assert_eq!(fault, Err(PlacesFault::Line(line)), "{table:?}");
        }
        assert_eq!(Places::read(b""), Ok(Places(vec![])));
        assert_eq!(Places::read(b"0\n7\n4294967293\n"), Ok(Places(vec![0, 7, 4_294_967_293])));
        assert_eq!(PlacesFault::Line(1).to_string(), "line 1 is no place");
        assert_eq!(PlacesFault::Line(3).to_string(), "line 3 is no place after that of line 2");
    }

    #[test]
    fn there_are_as_many_places_as_maps() {
        let text = "{:process 0, :type :invoke, :f :read}";
        for table in ["", "0\n1\n"] {
            let places = Places::read(table.as_bytes()).expect("places");
            let fault = read(text).with_places(&places).expect_err("another number of maps");
            let count = table.lines().count();
            let said = format!("it has {count} places, and the history has 1 maps");
            assert_eq!(fault.to_string(), said);
        }
        assert_eq!(lines_of(&placed("", "")), [""; 0]);
    }

    /// A map of a whole: its object, if it is the map of a client, and its text.
    type Line = (Option<u32>, String);

    /// The maps of an operation, each with its number in the history of its object.
    fn lines_for(operation: &Operation, process: u32, object: u32) -> Vec<(u32, Line)> {
        let line = |of_type: &str, value: String| {
            let function = operation.op.name();
            let said = format!(":type :{of_type}, :f :{function}, :value {value}");
            (Some(object), format!("{{:process {process}, {said}, :object {object}}}"))
        };
        let argument = operation.op.argument.to_string();
        let mut lines = vec![(operation.number, line("invoke", argument.clone()))];
        match operation.end {
            End::Returned { at, reply } => lines.push((at, line("ok", reply.value().to_string()))),
            // Nothing that is compared depends on when an operation failed.
            End::Failed => lines.push((operation.number, line("fail", argument))),
            End::Pending => {}
        }
        lines
    }

    /// The maps of an object, in their order. Each operation has a process of its own.
    fn lines_of_object(history: &ObjectHistory, object: u32) -> Vec<Line> {
        let operations = (100 * object..).zip(&history.ops);
        let lines = operations.flat_map(|(process, it)| lines_for(it, process, object));
        let mut lines: Vec<(u32, Line)> = lines.collect();
        lines.sort_by_key(|(number, _)| *number);
        lines.into_iter().map(|(_, line)| line).collect()
    }

    /// The maps of several objects in one whole, with some of a nemesis.
    fn whole_of(random: &mut Random, objects: Vec<Vec<Line>>) -> Vec<Line> {
        let mut left: Vec<_> = objects.into_iter().map(Vec::into_iter).collect();
        let mut whole = Vec::new();
        while !left.is_empty() {
            let place = random.below(left.len() as u64) as usize;
            match left[place].next() {
                Some(line) => whole.push(line),
                None => drop(left.swap_remove(place)),
            }
            if random.below(10) == 0 {
                whole.push((None, "{:process :nemesis, :type :info, :f :kill}".to_owned()));
            }
        }
        whole
    }

    fn text_of<'a>(lines: impl Iterator<Item = &'a Line>) -> String {
        lines.map(|(_, line)| format!("{line}\n")).collect()
    }

    /// The evidence for the objects of one of three shards.
    fn lines_of_shard(whole: &[Line], shard: u32) -> Vec<String> {
        let is_own = |line: &Line| line.0.is_some_and(|object| object % 3 == shard);
        let text = text_of(whole.iter().filter(|line| is_own(line)));
        let places = (0..).zip(whole).filter(|(_, line)| is_own(line));
        let table: String = places.map(|(place, _): (usize, _)| format!("{place}\n")).collect();
        lines_of(&placed(&text, &table))
    }

    #[test]
    fn the_evidence_of_shards_is_that_of_the_whole() {
        let mut random = Random::new(0x9e37_79b9_7f4a_7c15);
        let mut orders = [0; 2];
        for _ in 0..300 {
            let kinds = KINDS.iter().copied().chain(containers());
            let drawn: Vec<ObjectHistory> = (0..)
                .zip(kinds)
                .map(|(place, kind)| match place {
                    _ if place < KINDS.len() => random.history(kind),
                    _ => random.crash(kind),
                })
                .collect();
            let objects = (0..).zip(&drawn).map(|(object, it)| lines_of_object(it, object));
            let objects = objects.collect();
            let whole = whole_of(&mut random, objects);
            let mut expected = lines_of(&read(&text_of(whole.iter())));
            let mut came: Vec<String> =
                (0..3).flat_map(|shard| lines_of_shard(&whole, shard)).collect();
            came.sort_unstable();
            expected.sort_unstable();
            assert_eq!(came, expected);
            expected.iter().for_each(|line| orders[usize::from(line.contains(":order"))] += 1);
        }
        assert!(orders.iter().all(|count| *count > 500), "{orders:?}");
    }
}
