//! The table of names: what each number that was made stands for.

use crate::edn::Reader;
use crate::form::Form;
use crate::operations::Refused;
use std::collections::{BTreeMap, HashSet};
use std::fmt::{self, Display, Formatter};

/// What numbers of a text stand for. Within a sort, a number has one name, and a name one number.
#[derive(Clone, Debug, Default, PartialEq, Eq)]
pub struct Names {
    pub objects: BTreeMap<i64, Form>,
    pub processes: BTreeMap<i64, Form>,
    /// Of values and of keys of maps.
    pub values: BTreeMap<i64, Form>,
    /// How many events of initial values are before the first operation of the history.
    pub before: u32,
}

const SORTS: [&str; 3] = ["object", "process", "value"];

/// How many characters of a name a page shows.
const MOST_SHOWN: usize = 200;

/// The beginning of a name that is too long for a page, and its number. `None`: it is short.
fn shortened(name: &Form, number: i64) -> Option<Form> {
    let text = name.to_string();
    let (end, _) = text.char_indices().nth(MOST_SHOWN)?;
    let length = text.chars().count();
    Some(Form::Symbol(format!("{} .. ({length} characters, number {number})", &text[..end])))
}

impl Names {
    /// The names for a page, where one that is long would be too wide.
    pub fn for_a_page(mut self) -> Names {
        for sort in SORTS {
            for (number, name) in self.sort_mut(sort) {
                if let Some(short) = shortened(name, *number) {
                    *name = short;
                }
            }
        }
        self
    }

    fn sort(&self, name: &str) -> &BTreeMap<i64, Form> {
        match name {
            "object" => &self.objects,
            "process" => &self.processes,
            _ => &self.values,
        }
    }

    fn sort_mut(&mut self, name: &str) -> &mut BTreeMap<i64, Form> {
        match name {
            "object" => &mut self.objects,
            "process" => &mut self.processes,
            _ => &mut self.values,
        }
    }

    /// Takes in an entry of the table.
    fn take(&mut self, entry: &Form) -> Result<(), String> {
        if let Some(Form::Int(before)) = entry.get("before") {
            self.before = u32::try_from(*before)
                .map_err(|_| format!("{before} events cannot be before the first operation"))?;
            return Ok(());
        }
        let sort = SORTS.into_iter().find(|sort| matches!(entry.get(sort), Some(Form::Int(_))));
        let (Some(sort), Some(name)) = (sort, entry.get("is")) else {
            return Err(format!(
                "no entry of a table of names: {entry}; one is as {{:value 3, :is \"a\"}}"
            ));
        };
        if let Some(Form::Int(number)) = entry.get(sort)
            && let Some(other) = self.sort_mut(sort).insert(*number, name.clone())
        {
            return Err(format!("{sort} {number} is {other} and {name}"));
        }
        Ok(())
    }

    /// Reads a table. A name of two numbers, and a number of two names, are refused.
    pub fn read(text: &str) -> Result<Names, Refused> {
        let (mut reader, mut names) = (Reader::new(text), Names::default());
        while let Some(entry) = reader.form()? {
            names.take(&entry).map_err(|why| Refused { line: reader.line(), why })?;
        }
        for sort in SORTS {
            let mut seen = HashSet::new();
            if let Some((number, name)) =
                names.sort(sort).iter().find(|(_, name)| !seen.insert(*name))
            {
                return Err(Refused {
                    line: reader.line(),
                    why: format!("{name} is {sort} {number}, and another {sort} too"),
                });
            }
        }
        Ok(names)
    }
}

/// As it is read: a map for each name.
impl Display for Names {
    fn fmt(&self, f: &mut Formatter<'_>) -> fmt::Result {
        if self.before > 0 {
            writeln!(f, "{{:before {}}}", self.before)?;
        }
        for sort in SORTS {
            for (number, name) in self.sort(sort) {
                writeln!(f, "{{:{sort} {number}, :is {name}}}")?;
            }
        }
        Ok(())
    }
}

#[cfg(test)]
mod tests {
    use super::*;

    #[test]
    fn is_read_as_it_was_written() {
        let text = "{:before 2}\n{:object 0, :is \"x\"}\n{:process 3, :is \"n1\"}\n{:value 7, :is :a}\n{:value 8, :is \"a \\\"b\\\"\"}\n";
        assert_eq!(Names::read(text).map(|it| it.to_string()), Ok(text.to_owned()));
        assert_eq!(Names::read(""), Ok(Names::default()));
    }

    #[test]
    fn long_names_are_short_on_a_page() {
        let long = "x".repeat(100_000);
        let text = format!(
            "{{:value 7, :is \"{long}\"}} {{:value 8, :is \"{long}y\"}} {{:object 0, :is :a}}"
        );
        let names = Names::read(&text).expect("a table").for_a_page();
        let shown = names.values.values().map(Form::to_string).collect::<Vec<_>>();
        assert!(shown.iter().all(|it| it.len() < 300) && shown[0] != shown[1], "{shown:?}");
        assert_eq!(names.objects[&0].to_string(), ":a");
    }

    #[test]
    fn refuses_a_table_that_is_not_one_to_one() {
        for text in [
            "{:value 1, :is :a} {:value 1, :is :b}",
            "{:value 1, :is :a} {:value 2, :is :a}",
            "{:value :a, :is 1}",
            "{:value 1}",
            "7",
            "{:before -1}",
            "{:value",
        ] {
            assert!(Names::read(text).is_err(), "{text}");
        }
        assert!(Names::read("{:value 1, :is :a} {:object 1, :is :a}").is_ok());
    }
}
