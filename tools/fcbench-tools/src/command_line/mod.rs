//! The words of the command line.

mod syntax;
mod words;

use crate::message::Reader;
use std::num::NonZero;
use std::thread;
use syntax::{COMMANDS, Commands, OptionSpec, Syntax, Value};
pub use words::Refused;
use words::{Fault, Words};

/// A search for evidence.
#[derive(Clone, Debug, PartialEq, Eq)]
pub struct Find {
    /// The path of the history.
    pub history: String,
    /// The file with the numbers of the maps in the full history, if the history is a shard.
    pub places: Option<String>,
    /// How many threads search.
    pub workers: usize,
    /// The limit of the last search for each object, if it is given.
    pub steps: Option<u64>,
    /// After how many seconds the search stops, if that is given.
    pub seconds: Option<u64>,
    /// Whether progress is printed.
    pub shows_progress: bool,
    /// Whether the history is summarized.
    pub summarizes: bool,
    /// Who reads its messages.
    pub reader: Reader,
}

/// What is drawn.
#[derive(Clone, Debug, PartialEq, Eq)]
pub struct Draw {
    pub history: String,
    pub certificates: Option<String>,
    pub names: Option<String>,
    pub steps: Option<u64>,
    /// How many operations must have returned for a page on a yes, or on what is not decided.
    pub at_least: u32,
    pub options: pages::Options,
}

/// A judgement.
#[derive(Clone, Debug, PartialEq, Eq)]
pub struct Judge {
    pub find: Find,
    /// Whether all operations of a part are shown, on a terminal too.
    pub shows_all: bool,
    /// The table of names to use in the answer, if there is one.
    pub names: Option<String>,
    /// How many operations must have returned for a yes, or for an answer that is undecided.
    pub at_least: u32,
    /// Whether there is no yes with a warning.
    pub is_strict: bool,
}

/// What is imported.
#[derive(Clone, Debug, PartialEq, Eq)]
pub struct Import {
    pub history: String,
    /// The file to write the table of names to, if one is asked for.
    pub names: Option<String>,
    /// Whether nothing is written if there is a warning.
    pub is_strict: bool,
    pub options: import::Options,
}

/// What the command line asks for.
#[derive(Clone, Debug, PartialEq, Eq)]
pub enum Command {
    Find(Find),
    Judge(Judge),
    Draw(Draw),
    Import(Import),
    /// This help is to be printed.
    Help(String),
}

const MOST_WORKERS: usize = 16;
const MOST_STEPS: u64 = 1_000_000_000;
const MOST_SECONDS: u64 = 1_000_000;
/// More do not return in 1,000,000 maps.
const MOST_OPERATIONS: u64 = 500_000;

fn one_for_each_processor() -> usize {
    thread::available_parallelism().map_or(1, NonZero::get).min(MOST_WORKERS)
}

fn find_of(mut words: Words) -> Result<Find, Fault> {
    let workers = words.take_number("--workers", 1, MOST_WORKERS as u64)?;
    Ok(Find {
        places: words.take_value("--places"),
        workers: workers.map_or_else(one_for_each_processor, |number| number as usize),
        steps: words.take_number("--steps", 0, MOST_STEPS)?,
        seconds: words.take_number("--seconds", 1, MOST_SECONDS)?,
        shows_progress: words.take_flag("--progress"),
        summarizes: words.take_flag("--summary"),
        reader: if words.take_flag("--for-judge") { Reader::Judge } else { Reader::Person },
        history: words.files()?.0,
    })
}

/// How many operations must have returned: one, if nothing else is said.
fn least_of(words: &mut Words) -> Result<u32, Fault> {
    let least = words.take_number("--at-least", 0, MOST_OPERATIONS)?;
    Ok(least.map_or(1, |number| number as u32))
}

fn judge_of(mut words: Words) -> Result<Judge, Fault> {
    let shows_all = words.take_flag("--all");
    let names = words.take_value("--names");
    let at_least = least_of(&mut words)?;
    let is_strict = words.take_flag("--strict");
    Ok(Judge { find: find_of(words)?, shows_all, names, at_least, is_strict })
}

fn import_of(mut words: Words) -> Result<Import, Fault> {
    let options = import::Options {
        is_independent: words.take_flag("--independent"),
        replies: match words.take_form("--fail-is-reply")? {
            Some(Some(errors)) => import::Replies::of(errors),
            Some(None) => import::Replies::usual(),
            None => import::Replies::default(),
        },
        checks_owners: words.take_flag("--check-owners"),
        has_owners: words.take_flag("--owners"),
        is_by_time: words.take_flag("--by-time"),
        initial: words.take_form("--initial")?.flatten(),
    };
    let names = words.take_value("--names");
    let is_strict = words.take_flag("--strict");
    Ok(Import { history: words.files()?.0, names, is_strict, options })
}

fn draw_of(mut words: Words) -> Result<Draw, Fault> {
    let mut number = |option| {
        let number = words.take_number(option, 0, u64::from(u32::MAX))?;
        Ok(number.map(|number| number as u32))
    };
    let options = pages::Options {
        object: number("--object")?,
        from: number("--from")?,
        to: number("--to")?,
    };
    if let (Some(from), Some(to)) = (options.from, options.to)
        && from > to
    {
        return Err(Fault::NoEvents { from, to });
    }
    let steps = words.take_number("--steps", 0, MOST_STEPS)?;
    let names = words.take_value("--names");
    let at_least = least_of(&mut words)?;
    let (history, certificates) = words.files()?;
    Ok(Draw { history, certificates, names, steps, at_least, options })
}

/// Whether these words ask for help. A value of an option does not.
fn ask_for_help(command: &'static Syntax, words: &[String]) -> bool {
    let mut words = words.iter().take_while(|word| *word != "--");
    while let Some(word) = words.next() {
        if word == "--help" || word == "-h" {
            return true;
        }
        let needs_value = |option: &OptionSpec| matches!(option.value, Value::Needed(_));
        if command.option(word).is_some_and(needs_value) {
            words.next();
        }
    }
    false
}

/// Reads the words after a command's name.
fn command_of(command: &'static Syntax, words: &[String]) -> Result<Command, Fault> {
    if ask_for_help(command, words) {
        return Ok(Command::Help(command.to_string()));
    }
    let words = Words::sort(command, words.iter().cloned())?;
    match command.name {
        "find" => find_of(words).map(Command::Find),
        "judge" => judge_of(words).map(Command::Judge),
        "import" => import_of(words).map(Command::Import),
        _ => draw_of(words).map(Command::Draw),
    }
}

impl Command {
    /// Reads the words after the program's name.
    pub fn parse(words: impl IntoIterator<Item = String>) -> Result<Command, Refused> {
        let words: Vec<String> = words.into_iter().collect();
        let unknown = |fault| Refused { fault, command: None };
        let (name, words) = words.split_first().ok_or(unknown(Fault::NoCommand))?;
        if name == "--help" || name == "-h" {
            return Ok(Command::Help(Commands.to_string()));
        }
        let command = COMMANDS.into_iter().find(|command| command.name == name);
        let command = command.ok_or_else(|| unknown(Fault::NoSuchCommand(name.clone())))?;
        command_of(command, words).map_err(|fault| Refused { fault, command: Some(command) })
    }
}

#[cfg(test)]
mod tests {
    use super::*;

    fn parsed(line: &str) -> Option<Command> {
        Command::parse(line.split_whitespace().map(String::from)).ok()
    }

    #[test]
    fn reads_the_command_line() {
        let find = Find {
            history: "h.edn".into(),
            places: None,
            workers: one_for_each_processor(),
            steps: None,
            seconds: None,
            shows_progress: false,
            summarizes: false,
            reader: Reader::Person,
        };
        assert_eq!(parsed("find h.edn"), Some(Command::Find(find.clone())));
        let find = Find { workers: 4, steps: Some(0), ..find };
        let judge = Judge {
            find: find.clone(),
            shows_all: false,
            names: None,
            at_least: 1,
            is_strict: false,
        };
        for line in [
            "judge --steps 0 h.edn --workers 4",
            "judge --steps=0 --workers +4 h.edn",
            "judge h.edn --workers=4 --steps 0",
            "judge --workers 4 --steps=0 -- h.edn",
        ] {
            assert_eq!(parsed(line), Some(Command::Judge(judge.clone())), "{line}");
        }
        let find = Find { seconds: Some(60), ..find };
        let judge = Judge {
            find: find.clone(),
            shows_all: true,
            names: Some("n.edn".into()),
            at_least: 100,
            is_strict: true,
        };
        let line = "judge --steps 0 --all h.edn --workers 4 --names=n.edn --seconds 60 --strict --at-least 100";
        assert_eq!(parsed(line), Some(Command::Judge(judge)));
        let find =
            Find { history: "-h.edn".into(), shows_progress: true, summarizes: true, ..find };
        let line = "find --summary --workers 4 --progress --seconds=60 --steps 0 -- -h.edn";
        assert_eq!(parsed(line), Some(Command::Find(find)));
        let for_judge = |line| match parsed(line) {
            Some(Command::Find(find)) => find.reader == Reader::Judge,
            _ => false,
        };
        assert!(for_judge("find h.edn --for-judge"));
        assert!(matches!(parsed("find -"), Some(Command::Find(find)) if find.history == "-"));
        for line in ["find --places 5.places 5.edn", "find 5.edn --places=5.places"] {
            let places = match parsed(line) {
                Some(Command::Find(find)) if find.history == "5.edn" => find.places,
                _ => None,
            };
            assert_eq!(places.as_deref(), Some("5.places"), "{line}");
        }
        let draw = Draw {
            history: "h.edn".into(),
            certificates: Some("c.edn".into()),
            names: Some("n.edn".into()),
            steps: None,
            at_least: 0,
            options: pages::Options { object: Some(3), from: None, to: Some(9) },
        };
        assert_eq!(
            parsed("draw h.edn --to 9 c.edn --names n.edn --object 3 --at-least=0"),
            Some(Command::Draw(draw))
        );
        let import = Import {
            history: "h.edn".into(),
            names: Some("n.edn".into()),
            is_strict: true,
            options: import::Options {
                is_independent: true,
                replies: import::Replies::usual(),
                checks_owners: true,
                has_owners: false,
                is_by_time: true,
                initial: import::form_of("0"),
            },
        };
        let line = "import --independent --names n.edn --initial 0 h.edn --fail-is-reply --strict --by-time --check-owners";
        assert_eq!(parsed(line), Some(Command::Import(import)));
    }

    #[test]
    fn helps() {
        let is_help = |line: &str, first: &str| match parsed(line) {
            Some(Command::Help(text)) => text.starts_with(first),
            _ => false,
        };
        assert!(is_help("--help", "judges histories of concurrent objects"));
        assert!(is_help("judge --help", "decides whether a history is linearizable"));
        assert!(is_help("find -h", "writes evidence"));
        let help = parsed("find --help");
        assert!(matches!(help, Some(Command::Help(text)) if !text.contains("--for-judge")));
        assert!(is_help("draw h.edn --help", "judges a history, or checks it"));
        assert!(is_help("import --other --help", "rewrites a history from a Jepsen store"));
    }

    /// Command lines, and the sentence for each.
    const REFUSED: [(&str, &str); 52] = [
        ("", "a command is missing"),
        ("other h.edn", "no such command: 'other'"),
        ("-- judge h.edn", "no such command: '--'"),
        ("find", "<HISTORY> is missing"),
        ("find --workers 2", "<HISTORY> is missing"),
        ("find a b", "unexpected argument 'b': find takes <HISTORY>"),
        ("find -- a --steps", "unexpected argument '--steps': find takes <HISTORY>"),
        ("find a --workers", "--workers needs a value, <N>"),
        ("find a --workers 0", "--workers takes a number from 1 to 16, not '0'"),
        ("find a --workers 17", "--workers takes a number from 1 to 16, not '17'"),
        ("find a --workers=", "--workers takes a number from 1 to 16, not ''"),
        ("find a --steps x", "--steps takes a number from 0 to 1000000000, not 'x'"),
        ("find a --steps -1", "--steps takes a number from 0 to 1000000000, not '-1'"),
        (
            "find a --steps 1000000001",
            "--steps takes a number from 0 to 1000000000, not '1000000001'",
        ),
        ("find a --steps 1 --steps 2", "--steps is given twice"),
        ("find a --other 1", "find has no option '--other'; to name such a file, put -- before it"),
        ("find -e.edn", "find has no option '-e.edn'; to name such a file, put -- before it"),
        ("find a --all", "find has no option '--all'; to name such a file, put -- before it"),
        ("judge --json h", "judge has no option '--json'; to name such a file, put -- before it"),
        ("judge --json=1 h", "judge has no option '--json'; to name such a file, put -- before it"),
        ("judge a --all --all", "--all is given twice"),
        ("judge a --all=yes", "--all takes no value"),
        ("draw a --all", "draw has no option '--all'; to name such a file, put -- before it"),
        (
            "judge a --object 1",
            "judge has no option '--object'; to name such a file, put -- before it",
        ),
        ("draw", "<HISTORY> is missing"),
        ("draw a b c", "unexpected argument 'c': draw takes <HISTORY> [CERTS]"),
        (
            "draw a --workers 2",
            "draw has no option '--workers'; to name such a file, put -- before it",
        ),
        (
            "draw a --from 4294967296",
            "--from takes a number from 0 to 4294967295, not '4294967296'",
        ),
        ("draw a --to 2 --from 5", "--from 5 is after --to 2, so no event is drawn"),
        ("import", "<HISTORY> is missing"),
        ("import a b", "unexpected argument 'b': import takes <HISTORY>"),
        ("import a --all", "import has no option '--all'; to name such a file, put -- before it"),
        ("import a --by-time=1", "--by-time takes no value"),
        ("import a --initial \\", "--initial takes one form of EDN, not '\\\\'"),
        ("import a --initial ^a", "--initial takes one form of EDN, not '^a'"),
        ("import a --initial [", "--initial takes one form of EDN, not '['"),
        ("import a --initial=", "--initial takes one form of EDN, not ''"),
        ("import a --fail-is-reply=#{", "--fail-is-reply takes one form of EDN, not '#{'"),
        ("import a --independent --independent", "--independent is given twice"),
        ("judge a --names", "--names needs a value, <FILE>"),
        ("judge a --steps -h", "--steps takes a number from 0 to 1000000000, not '-h'"),
        ("draw --names --help", "<HISTORY> is missing"),
        ("find a --names b", "find has no option '--names'; to name such a file, put -- before it"),
        ("judge a --seconds 0", "--seconds takes a number from 1 to 1000000, not '0'"),
        ("find a --seconds 1000001", "--seconds takes a number from 1 to 1000000, not '1000001'"),
        (
            "draw a --seconds 1",
            "draw has no option '--seconds'; to name such a file, put -- before it",
        ),
        ("judge a --at-least 500001", "--at-least takes a number from 0 to 500000, not '500001'"),
        (
            "find a --at-least 1",
            "find has no option '--at-least'; to name such a file, put -- before it",
        ),
        ("draw a --strict", "draw has no option '--strict'; to name such a file, put -- before it"),
        ("find a --places", "--places needs a value, <FILE>"),
        (
            "judge a --places b",
            "judge has no option '--places'; to name such a file, put -- before it",
        ),
        (
            "judge a --progress",
            "judge has no option '--progress'; to name such a file, put -- before it",
        ),
    ];

    #[test]
    fn says_what_is_wrong_with_other_command_lines() {
        for (line, said) in REFUSED {
            let words = line.split_whitespace().map(String::from);
            let refused = Command::parse(words).expect_err(line).to_string();
            let lines: Vec<&str> = refused.lines().collect();
            assert_eq!(lines[0], format!("error: {said}"), "{line}");
            assert!(lines[2].starts_with("Usage: fcbench "), "{line}: {refused}");
        }
    }

    #[test]
    fn a_word_of_several_lines_is_printed_in_one() {
        let words = ["judge".to_owned(), "--a\nb".to_owned()];
        let refused = Command::parse(words).expect_err("no option").to_string();
        assert!(refused.starts_with("error: judge has no option '--a\\nb'; "), "{refused}");
    }
}
