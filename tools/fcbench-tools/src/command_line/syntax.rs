//! What each command takes, and its help, which is made of that.

use std::fmt::{self, Display, Formatter};

/// What follows an option.
#[derive(Clone, Copy, Debug, PartialEq, Eq)]
pub enum Value {
    Nothing,
    /// A value: the next word, or what is after `=`.
    Needed(&'static str),
    /// What is after `=`, if it is there.
    AfterEquals(&'static str),
}

/// An option, and what help says of it; nothing of one that only a program gives.
#[derive(Debug)]
pub struct OptionSpec {
    pub name: &'static str,
    pub value: Value,
    about: Option<&'static str>,
}

impl OptionSpec {
    const fn flag(name: &'static str, about: &'static str) -> OptionSpec {
        OptionSpec { name, value: Value::Nothing, about: Some(about) }
    }

    /// A flag that help does not have.
    const fn hidden_flag(name: &'static str) -> OptionSpec {
        OptionSpec { name, value: Value::Nothing, about: None }
    }

    const fn valued(name: &'static str, value: &'static str, about: &'static str) -> OptionSpec {
        OptionSpec { name, value: Value::Needed(value), about: Some(about) }
    }
}

/// The option with its value.
impl Display for OptionSpec {
    fn fmt(&self, f: &mut Formatter<'_>) -> fmt::Result {
        f.write_str(self.name)?;
        match self.value {
            Value::Nothing => Ok(()),
            Value::Needed(value) => write!(f, " <{value}>"),
            Value::AfterEquals(value) => write!(f, "[=<{value}>]"),
        }
    }
}

/// A command: what it does, the files that it needs, one that it may be given too, and its options.
#[derive(Debug)]
pub struct Syntax {
    pub name: &'static str,
    pub about: &'static str,
    pub file: &'static str,
    pub other_file: Option<&'static str>,
    pub options: &'static [&'static OptionSpec],
}

impl Syntax {
    /// Its files, as help names them.
    pub fn files(&self) -> String {
        let other = self.other_file.map(|file| format!(" [{file}]")).unwrap_or_default();
        format!("<{}>{other}", self.file)
    }

    pub fn usage(&self) -> String {
        format!("Usage: fcbench {} [OPTIONS] {}", self.name, self.files())
    }

    /// Its option of this name.
    pub fn option(&self, name: &str) -> Option<&'static OptionSpec> {
        self.options.iter().find(|option| option.name == name).copied()
    }
}

/// The help.
impl Display for Syntax {
    fn fmt(&self, f: &mut Formatter<'_>) -> fmt::Result {
        let help = "-h, --help";
        let shown = self.options.iter();
        let shown = shown.filter_map(|option| Some((option.to_string(), option.about?)));
        let width = shown.clone().map(|(name, _)| name.len() + 4).fold(help.len(), usize::max);
        writeln!(f, "{}\n\n{}\n\nOptions:", self.about, self.usage())?;
        for (name, about) in shown {
            let about = about.replace('\n', &format!("\n{:width$}    ", ""));
            writeln!(f, "  {:width$}  {about}", format!("    {name}"))?;
        }
        writeln!(f, "  {help:width$}  Print help")
    }
}

const STEPS: OptionSpec = OptionSpec::valued(
    "--steps",
    "N",
    "limit of the last search for each object, 0 to 1000000000 (default 1000000, or 100 for each operation if that is more)",
);
const AT_LEAST: OptionSpec = OptionSpec::valued(
    "--at-least",
    "N",
    "if fewer than N operations returned, 0 to 500000 (default 1), say so and end with 3 in place of a yes or of undecided",
);
const WORKERS: OptionSpec = OptionSpec::valued(
    "--workers",
    "N",
    "how many threads look for evidence, 1 to 16 (default: one for each processor)",
);
const WORKERS_OF_BOTH: OptionSpec = OptionSpec::valued(
    "--workers",
    "N",
    "how many threads look for evidence, and how many check it, 1 to 16 (default: one for each processor)",
);

pub const JUDGE: Syntax = Syntax {
    name: "judge",
    about: "decides whether a history is linearizable: looks for evidence, which the proved verifier checks",
    file: "HISTORY",
    other_file: None,
    options: &[
        &OptionSpec::flag("--all", "show all operations on a terminal, instead of at most 200"),
        &AT_LEAST,
        &OptionSpec::valued(
            "--names",
            "FILE",
            "use the names in this table, written by import, in the answer",
        ),
        &OptionSpec::valued(
            "--seconds",
            "N",
            "stop searching after N seconds, 1 to 1000000 (or at SIGTERM), and judge by what was found.\n\
             The answer usually follows within a second",
        ),
        &OptionSpec::flag(
            "--strict",
            "end with 3 in place of a yes if there is a warning about the history",
        ),
        &OptionSpec::flag(
            "--summary",
            "print how much the operations overlap, and what looks suspicious in the history",
        ),
        &STEPS,
        &WORKERS_OF_BOTH,
    ],
};

pub const FIND: Syntax = Syntax {
    name: "find",
    about: "writes evidence for a history: an order, a reason or a search for each object",
    file: "HISTORY",
    other_file: None,
    options: &[
        &OptionSpec::valued(
            "--places",
            "FILE",
            "the history is a shard; this table from split gives each map its number in the full history,\n\
             and the evidence uses these numbers",
        ),
        &OptionSpec::flag(
            "--progress",
            "print on standard error how many objects are done, after 2, 4, 8 seconds, and so on",
        ),
        &OptionSpec::valued(
            "--seconds",
            "N",
            "stop after N seconds, 1 to 1000000 (or at SIGTERM), and write what was found",
        ),
        &OptionSpec::flag(
            "--summary",
            "print on standard error how much the operations overlap, and what looks suspicious in the history",
        ),
        &STEPS,
        &WORKERS,
        // judge gives it: what is printed on standard error is then for it to read
        &OptionSpec::hidden_flag("--for-judge"),
    ],
};

pub const DRAW: Syntax = Syntax {
    name: "draw",
    about: "judges a history, or checks it by certificates, and writes the answer as a page of HTML",
    file: "HISTORY",
    other_file: Some("CERTS"),
    options: &[
        &AT_LEAST,
        &OptionSpec::valued("--object", "N", "draw this object alone"),
        &OptionSpec::valued("--from", "N", "draw the events from this one on"),
        &OptionSpec::valued("--to", "N", "draw the events before this one"),
        &OptionSpec::valued(
            "--names",
            "FILE",
            "use the names in this table, written by import, on the page: then --from and --to\n\
             count the events as the page does",
        ),
        &STEPS,
    ],
};

pub const IMPORT: Syntax = Syntax {
    name: "import",
    about: "rewrites a history from a Jepsen store, or from JSON, as a text that the other commands read",
    file: "HISTORY",
    other_file: None,
    options: &[
        &OptionSpec::valued(
            "--names",
            "FILE",
            "write the table of names and their numbers to this file",
        ),
        &OptionSpec::flag(
            "--independent",
            "values are tuples [key value] of jepsen.independent (default: if they cannot be anything else)",
        ),
        &OptionSpec {
            name: "--fail-is-reply",
            value: Value::AfterEquals("ERRORS"),
            about: Some(
                "a :fail with one of these as its :error is a reply of nil (of a :cas: false):\n\
                 one error, such as :drained, or a set, such as '#{:drained \"no job\"}' (default: :empty and :not-found).\n\
                 nil stands for no :error, except of :read and :get",
            ),
        },
        &OptionSpec::flag(
            "--check-owners",
            "refuse the release of an object by a client that does not hold it, or that has acquired it as another owner",
        ),
        &OptionSpec::flag(
            "--owners",
            "the value of :acquire and :release is an owner too: they become :lock and :unlock (default: only :lock and :unlock\n\
             keep their owners)",
        ),
        &OptionSpec::flag(
            "--by-time",
            "sort the operations by :time, as of logs that were joined (default: the order of the lines)",
        ),
        &OptionSpec::valued(
            "--initial",
            "VALUE",
            "what each register contains at first, or a map of objects or keys with their values: '{:x 0, :y 5}'",
        ),
        &OptionSpec::flag(
            "--strict",
            "end with 2 and write nothing if there is a warning about the history",
        ),
    ],
};

/// The commands of this program.
pub const COMMANDS: [&Syntax; 4] = [&JUDGE, &FIND, &DRAW, &IMPORT];

/// All commands, each with the program that does it and what it does, with tabs between.
const TABLE: &str = include_str!("../../commands.txt");

/// Each command of the table, and what it does.
fn table() -> impl Iterator<Item = (&'static str, &'static str)> {
    TABLE.lines().filter_map(|line| {
        let (name, rest) = line.split_once('\t')?;
        Some((name, rest.split_once('\t')?.1))
    })
}

/// How many letters must be put in, left out or exchanged to make one word of another (Levenshtein,
/// Soviet Physics Doklady 10, 1966). Two neighbours that change places count as one.
fn distance(one: &str, other: &str) -> usize {
    let (one, other): (Vec<char>, Vec<char>) = (one.chars().collect(), other.chars().collect());
    let mut rows = vec![(0..=other.len()).collect::<Vec<_>>()];
    for i in 1..=one.len() {
        let mut row = vec![i];
        for j in 1..=other.len() {
            let exchanged = rows[i - 1][j - 1] + usize::from(one[i - 1] != other[j - 1]);
            let mut least = exchanged.min(rows[i - 1][j] + 1).min(row[j - 1] + 1);
            if i > 1 && j > 1 && one[i - 1] == other[j - 2] && one[i - 2] == other[j - 1] {
                least = least.min(rows[i - 2][j - 2] + 1);
            }
            row.push(least);
        }
        rows.push(row);
    }
    rows[one.len()][other.len()]
}

/// The command whose name is the nearest to this word, if it is near.
pub fn nearest(word: &str) -> Option<&'static str> {
    let near = table().map(|(name, _)| (distance(word, name), name));
    near.filter(|(far, _)| *far <= 2).min().map(|(_, name)| name)
}

/// The help on all commands.
pub struct Commands;

impl Commands {
    pub const USAGE: &str = "Usage: fcbench <COMMAND>";
}

impl Display for Commands {
    fn fmt(&self, f: &mut Formatter<'_>) -> fmt::Result {
        writeln!(f, "judges histories of concurrent objects\n\n{}\n\nCommands:", Commands::USAGE)?;
        table().try_for_each(|(name, about)| writeln!(f, "  {name:8}  {about}"))?;
        writeln!(f, "\nOf one command: fcbench <COMMAND> --help")
    }
}

#[cfg(test)]
mod tests {
    use super::*;

    #[test]
    fn the_table_has_the_commands_of_this_program() {
        for command in COMMANDS {
            let in_table = table().find(|(name, _)| *name == command.name);
            assert_eq!(in_table, Some((command.name, command.about)));
        }
    }

    #[test]
    fn the_nearest_command_is_named() {
        for (word, name) in [
            ("jugde", Some("judge")),
            ("chek", Some("check")),
            ("serach", Some("search")),
            ("simulation", None),
            ("verfy", Some("verify")),
            ("spilt", Some("split")),
            ("help-me", None),
            ("", None),
        ] {
            assert_eq!(nearest(word), name, "{word}");
        }
    }
}
