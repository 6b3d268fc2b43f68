//! Finds evidence for histories of concurrent objects: for each object an order of its operations,
//! a reason why there is none, or the search that is to decide. Nothing here is trusted: the proved
//! program `fcbench` checks what is found.
//!
//! ```
//! use finder::{Options, decide, read_history};
//!
//! let text = b"{:process 0, :type :invoke, :f :enqueue, :value 1}
//!              {:process 0, :type :ok, :f :enqueue, :value 1}";
//! let history = read_history(text).expect("a history");
//! let decisions = decide(&history, Options::default());
//! assert_eq!(decisions[0].to_string(), "{:object 0, :order [0]}");
//! ```

mod accesses;
mod check;
mod content;
mod cuts;
mod decide;
mod evidence;
mod first_event;
mod history;
mod kinds;
mod lexer;
mod maps;
mod order_dependence;
mod orders;
mod places;
mod reader;
mod reasons;
mod residences;
mod search;
#[cfg(test)]
mod small;
mod splitmix;
mod statistics;
mod timeline;
mod trees;
mod usual;

pub use cuts::{Count, Counted, Cut, Values, part_by};
pub use decide::{Options, decide, decide_each};
pub use evidence::{Decision, Evidence};
pub use history::{End, History, Nemesis, ObjectHistory, Operation, Run};
pub use kinds::{
    Access, Bag, Cells, Container, Does, Effect, FUNCTION_COUNT, Family, Function, Gives, KINDS,
    Kind, Need, OfNothing, Op, Reply, Room, Shape, Value, Words, function, function_names,
    functions, kind, setting,
};
pub use lexer::{Lexer, Token, TokenKind, ends_word};
pub use places::{Places, PlacesFault};
pub use reader::{LONGEST, count_returned, read_history, read_history_from};
pub use reasons::{
    Absent, CountExceeded, Crossing, Facts, FirstEvent, FirstOperation, FoundReason, Lost,
    LostValue, NotHolder, OneValue, Pattern, Refused, Sentence, Shown, SurelyNotEmpty, Trial,
    UnderSmaller, Undone, WhyUndone, WrongNumber, WrongPair,
};
pub use search::TryFirst;
pub use statistics::{Statistics, Warning, WarningKind, warnings};
