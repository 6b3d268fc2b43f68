//! What import leaves out, renumbers, or reads as something else. Each sort of it is counted, and
//! said in one line.

use std::collections::BTreeMap;

/// A sort of what is not taken as the history has it.
#[derive(Clone, Copy, Debug, PartialEq, Eq, PartialOrd, Ord)]
pub enum Change {
    /// An owner of an object whose operations name none in the text.
    Owner,
    /// An argument that may be an owner, and is read as the answer that a call was done.
    NoOwner,
    /// A reply of an operation that acquires or releases, and is neither its owner nor says that it
    /// was done.
    Token,
    /// A process that goes on after `:info`.
    GoesOn,
    /// An event of a process that is a keyword other than `:nemesis`.
    NoClient,
    /// A mark that is no integer.
    Mark,
    /// A value that is read as a tuple `[key value]`.
    Tuple,
    /// A function that has another name in the text.
    Function,
    /// An argument or a reply that has another form in the text.
    Reply,
    /// A failed operation that is a reply.
    FailedReply,
    /// A completion that does not say on which object it is.
    Object,
    /// An `:object` of nil.
    NilObject,
    /// The value of a `:fail` or `:info` that is not its argument.
    Value,
    /// The value of a nemesis, or its function.
    Nemesis,
    /// The process `"nemesis"`.
    NemesisName,
    /// A key that is not read.
    Key,
}

/// How often something was changed, the line at which it was first, and what it was there.
struct Counted {
    count: usize,
    line: usize,
    example: String,
}

/// All that was changed.
#[derive(Default)]
pub struct Changes(BTreeMap<Change, Counted>);

/// How many characters of an example are shown.
const LONGEST_EXAMPLE: usize = 60;

impl Change {
    /// Whether it may make another verdict of that which the history has.
    fn is_warned_of(self) -> bool {
        self <= Change::Mark
    }

    /// The words before the number of these changes, and those after it.
    fn words(self) -> (&'static str, &'static str) {
        match self {
            Change::Owner => ("left out", "owners"),
            Change::NoOwner => ("read as no owner", "arguments"),
            Change::Token => ("left out", "replies of operations that acquire or release"),
            Change::GoesOn => ("renumbered", "processes that go on after their :info"),
            Change::NoClient => ("left out", "events of processes that are keywords"),
            Change::Mark => ("left out", "values of :time and :index that are no integers"),
            Change::Tuple => ("read as tuples [key value]", "values"),
            Change::Function => ("renamed", "functions"),
            Change::Reply => ("rewritten", "arguments and replies"),
            Change::FailedReply => ("read as replies", "failed operations"),
            Change::Object => ("read on the object of its invocation", "completions"),
            Change::NilObject => ("read as no :object", "objects"),
            Change::Value => ("left out", "values of :fail and :info"),
            Change::Nemesis => ("left out", "values and functions of the nemesis"),
            Change::NemesisName => ("read as :nemesis", "events of the process \"nemesis\""),
            Change::Key => ("left out", "entries whose keys are not read"),
        }
    }

    /// What follows from it.
    fn therefore(self) -> &'static str {
        match self {
            Change::Owner => {
                ": who lets go of what another one holds is not judged. Use --owners, which keeps them"
            }
            Change::NoOwner => {
                ": it says that a call was done, so the object is a mutex. Give the owner another name if it is one"
            }
            Change::Token => {
                ": fencing tokens, and owners that a reply alone names, are not judged"
            }
            Change::GoesOn => {
                ": a process invokes nothing after an operation that may still happen, so each goes on as another one"
            }
            Change::NoClient => {
                ": they are no clients. The process of a client is an integer or a string"
            }
            Change::Mark => ": these events have none in the text",
            Change::Tuple => ": each key is an object",
            _ => "",
        }
    }
}

impl Changes {
    /// Takes in a change of what is at this line.
    pub fn note(&mut self, change: Change, line: usize, example: impl FnOnce() -> String) {
        let new = || Counted { count: 0, line, example: brief(&example()) };
        self.0.entry(change).or_insert_with(new).count += 1;
    }

    /// Whether there are changes of this sort.
    pub fn has(&self, change: Change) -> bool {
        self.0.contains_key(&change)
    }

    /// The lines on the changes that may make another verdict, or on the others.
    pub fn lines(&self, are_warned_of: bool) -> impl Iterator<Item = String> {
        let of_both = self.0.iter().filter(move |(it, _)| it.is_warned_of() == are_warned_of);
        of_both.map(|(change, Counted { count, line, example })| {
            let ((what, things), therefore) = (change.words(), change.therefore());
            format!("{what}: {count} {things}, such as {example} (first in line {line}){therefore}")
        })
    }
}

/// The beginning of a text that is long.
pub fn brief(text: &str) -> String {
    match text.char_indices().nth(LONGEST_EXAMPLE) {
        Some((end, _)) => format!("{} ..", &text[..end]),
        None => text.to_owned(),
    }
}
