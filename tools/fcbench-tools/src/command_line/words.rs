//! The words after a command, sorted into files and options, and what is wrong with them.

use super::syntax::{Commands, Syntax, Value, nearest};
use std::fmt::{self, Display, Formatter};

/// What is wrong with a command line.
#[derive(Clone, Debug, PartialEq, Eq)]
pub enum Fault {
    NoCommand,
    NoSuchCommand(String),
    NoSuchOption(String),
    GivenTwice(&'static str),
    /// An option without the value that it needs.
    NoValue(&'static str, &'static str),
    /// A flag with a value.
    TakesNoValue(&'static str),
    NotInRange {
        option: &'static str,
        value: String,
        least: u64,
        most: u64,
    },
    /// The first event that is drawn is after the last one.
    NoEvents {
        from: u32,
        to: u32,
    },
    /// The value of an option is not one form of EDN.
    NoForm(&'static str, String),
    NoFile(&'static str),
    TooMany(String),
}

/// A command line that is refused: what is wrong with it, and the command, if it names one.
#[derive(Clone, Debug)]
pub struct Refused {
    pub fault: Fault,
    pub command: Option<&'static Syntax>,
}

/// A word in quotation marks, in one line.
struct Quoted<'a>(&'a str);

impl Display for Quoted<'_> {
    fn fmt(&self, f: &mut Formatter<'_>) -> fmt::Result {
        write!(f, "'{}'", self.0.escape_debug())
    }
}

impl Refused {
    /// What is wrong, in one line.
    fn say(&self, f: &mut Formatter<'_>) -> fmt::Result {
        let name = self.command.map_or("fcbench", |it| it.name);
        match &self.fault {
            Fault::NoCommand => f.write_str("a command is missing"),
            Fault::NoSuchCommand(word) => {
                write!(f, "no such command: {}", Quoted(word))?;
                nearest(word).map_or(Ok(()), |name| write!(f, "; the nearest is {name}"))
            }
            Fault::NoSuchOption(word) => write!(
                f,
                "{name} has no option {}; to name such a file, put -- before it",
                Quoted(word)
            ),
            Fault::GivenTwice(option) => write!(f, "{option} is given twice"),
            Fault::NoValue(option, value) => write!(f, "{option} needs a value, <{value}>"),
            Fault::TakesNoValue(option) => write!(f, "{option} takes no value"),
            Fault::NotInRange { option, value, least, most } => {
                write!(f, "{option} takes a number from {least} to {most}, not {}", Quoted(value))
            }
            Fault::NoEvents { from, to } => {
                write!(f, "--from {from} is after --to {to}, so no event is drawn")
            }
            Fault::NoForm(option, value) => {
                write!(f, "{option} takes one form of EDN, not {}", Quoted(value))
            }
            Fault::NoFile(file) => write!(f, "<{file}> is missing"),
            Fault::TooMany(word) => {
                let files = self.command.map(Syntax::files).unwrap_or_default();
                write!(f, "unexpected argument {}: {name} takes {files}", Quoted(word))
            }
        }
    }
}

/// What standard error says: what is wrong in one line, and then the usage.
impl Display for Refused {
    fn fmt(&self, f: &mut Formatter<'_>) -> fmt::Result {
        f.write_str("error: ")?;
        self.say(f)?;
        let usage = self.command.map_or(Commands::USAGE.to_owned(), Syntax::usage);
        let command = self.command.map(|it| format!("{} ", it.name)).unwrap_or_default();
        write!(f, "\n\n{usage}\n\nFor more information: fcbench {command}--help")
    }
}

/// The words after a command: files, and options with their values.
pub struct Words {
    command: &'static Syntax,
    files: Vec<String>,
    options: Vec<(&'static str, Option<String>)>,
}

impl Words {
    /// Sorts the words. Those after `--` are files.
    pub fn sort(
        command: &'static Syntax,
        words: impl IntoIterator<Item = String>,
    ) -> Result<Words, Fault> {
        let mut sorted = Words { command, files: Vec::new(), options: Vec::new() };
        let mut words = words.into_iter();
        while let Some(word) = words.next() {
            if word == "--" {
                sorted.files.extend(words.by_ref());
            } else if word.starts_with('-') && word != "-" {
                sorted.push_option(&word, &mut words)?;
            } else {
                sorted.files.push(word);
            }
        }
        let most = 1 + usize::from(command.other_file.is_some());
        match sorted.files.get(most) {
            Some(word) => Err(Fault::TooMany(word.clone())),
            None => Ok(sorted),
        }
    }

    /// Adds the option that begins with this word.
    fn push_option(
        &mut self,
        word: &str,
        words: &mut impl Iterator<Item = String>,
    ) -> Result<(), Fault> {
        let (name, given) = match word.split_once('=') {
            Some((name, value)) => (name, Some(value.to_owned())),
            None => (word, None),
        };
        let option =
            self.command.option(name).ok_or_else(|| Fault::NoSuchOption(name.to_owned()))?;
        if self.options.iter().any(|(other, _)| *other == option.name) {
            return Err(Fault::GivenTwice(option.name));
        }
        let value = match (option.value, given) {
            (Value::Nothing, Some(_)) => return Err(Fault::TakesNoValue(option.name)),
            (Value::Needed(value), None) => {
                Some(words.next().ok_or(Fault::NoValue(option.name, value))?)
            }
            (_, given) => given,
        };
        self.options.push((option.name, value));
        Ok(())
    }

    /// Takes out an option, if it is given, with its value, if it has one.
    fn take(&mut self, name: &'static str) -> Option<Option<String>> {
        let place = self.options.iter().position(|(other, _)| *other == name)?;
        Some(self.options.swap_remove(place).1)
    }

    /// Takes out an option without a value, and says whether it is given.
    pub fn take_flag(&mut self, name: &'static str) -> bool {
        self.take(name).is_some()
    }

    /// Takes out the value of an option, if it is given.
    pub fn take_value(&mut self, name: &'static str) -> Option<String> {
        self.take(name).flatten()
    }

    /// Takes out the number of an option, if it is given.
    pub fn take_number(
        &mut self,
        option: &'static str,
        least: u64,
        most: u64,
    ) -> Result<Option<u64>, Fault> {
        let Some(value) = self.take_value(option) else {
            return Ok(None);
        };
        match value.parse() {
            Ok(number) if (least..=most).contains(&number) => Ok(Some(number)),
            _ => Err(Fault::NotInRange { option, value, least, most }),
        }
    }

    /// Takes out the form of an option, if it is given with one, and says whether it is given.
    pub fn take_form(&mut self, name: &'static str) -> Result<Option<Option<import::Form>>, Fault> {
        let form = |text: String| import::form_of(&text).ok_or(Fault::NoForm(name, text));
        self.take(name).map(|text| text.map(form).transpose()).transpose()
    }

    /// The file that the command needs, and the one that it may be given.
    pub fn files(self) -> Result<(String, Option<String>), Fault> {
        let mut files = self.files.into_iter();
        let file = files.next().ok_or(Fault::NoFile(self.command.file))?;
        Ok((file, files.next()))
    }
}
