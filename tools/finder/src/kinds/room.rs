//! What a room says of its kind.

use super::cells::{Access, Cells};
use super::containers::{Container, Gives, OrderMethod};
use super::op::{Op, Reply, Value};
use crate::reasons::Candidate;
use crate::timeline::Timeline;
use std::fmt::{self, Debug, Formatter};
use std::ptr;

/// A kind of object, by its room.
pub type Kind = &'static Room;

/// What is special to a kind of object.
pub struct Room {
    /// The word for an object of the kind.
    pub word: &'static str,
    pub functions: &'static [&'static Function],
    pub family: Family,
    pub words: Words,
}

/// Kinds that the same code can work with.
pub enum Family {
    /// Values are put into the object and taken out of it.
    Container(Container),
    /// The object has one cell, or one for each key, which contains a value or nothing.
    Cells(Cells),
    /// The object is held, or free.
    Holdable(Holdable),
    /// The object is a number, at first 0, to which amounts are added.
    Number(Number),
}

/// What is special to an object that is a number.
pub struct Number {
    /// An operation with its reply that leaves this number in a new object.
    pub fill: fn(i64) -> (Op, Reply),
}

/// What is special to an object that is held or free.
pub struct Holdable {
    /// Whether it is held by an owner, which its operations name.
    pub has_owner: bool,
    /// An order of the calls that may be valid.
    pub(crate) order: OrderMethod,
    /// The patterns in which no order is valid, and those that are rare.
    pub(crate) patterns: fn(&Timeline) -> Vec<Candidate>,
    pub(crate) rare_patterns: fn(&Timeline) -> Vec<Candidate>,
}

/// The words in which sentences and pages speak of a kind.
pub struct Words {
    /// What is done to a value that an operation puts in, or sets.
    pub put: &'static str,
    /// What is done to one that an operation gives, or shows.
    pub seen: &'static str,
    /// What is done to one that is not there any more after the operation.
    pub taken: &'static str,
    /// When a content is seen that is out of date.
    pub out_of_date: &'static str,
    /// The head of the column that lists contents, and which end of a content is at the left.
    pub content_title: &'static str,
    pub left_end: &'static str,
}

/// A function of a kind: what `:f` names.
pub struct Function {
    /// Its name, as a history writes it after `:f :`.
    pub name: &'static str,
    /// Other names, as other tools write it.
    pub other_names: &'static [&'static str],
    pub kind: Kind,
    pub argument: Shape,
    pub reply: Shape,
    /// What it takes and what it replies, in words.
    pub takes: &'static str,
    pub replies: &'static str,
    /// What a failed call replied that did find out that there was nothing, or another content.
    pub of_nothing: Option<OfNothing>,
    pub does: Does,
}

/// The words for most arguments and replies.
pub(super) const INTEGER: &str = "an integer";
pub(super) const NOTHING: &str = "nil";
pub(super) const CONTENT: &str = "an integer or nil";
pub(super) const WHETHER: &str = "true or false";

/// What a function does to its object, in the words of the family.
pub enum Does {
    /// It puts its argument into a container.
    Puts,
    /// It takes a value out of a container, or finds none.
    Takes,
    /// It looks at a cell, or sets it.
    Accesses(Access),
    /// It acquires the object, or releases it.
    Acquires,
    Releases,
    /// It adds its argument to a number, and tells the number before.
    Adds,
    /// It tells a number.
    Counts,
}

/// What an argument or a reply is. A history has integers alone; other tools also write names.
#[derive(Clone, Copy, Debug, PartialEq, Eq)]
pub enum Shape {
    /// An integer, or a name that becomes one.
    Value,
    /// An integer of 64 bits, since integers are compared by size.
    Number,
    Pair,
    Triple,
    Nothing,
    /// The argument, or that it was done.
    Done,
    Content,
    NumberOrNothing,
    /// Whether it was set.
    Swapped,
    /// Whether it did what it asks for.
    Flag,
    /// Nothing, or what a client notes if the store replied nothing: its argument, or that it was
    /// done.
    Silent,
    /// What a client notes if it has acquired or released a lock: nothing, its owner, or that it
    /// was done.
    Owner,
}

/// The reply of a call that found nothing, or another content.
#[derive(Clone, Copy, Debug, PartialEq, Eq)]
pub enum OfNothing {
    Nil,
    False,
}

impl Room {
    /// Whether values are put into the object and taken out of it.
    pub fn is_container(&self) -> bool {
        matches!(self.family, Family::Container(_))
    }

    /// Which of its values a container gives.
    pub fn gives(&self) -> Option<Gives> {
        match &self.family {
            Family::Container(container) => Some(container.gives),
            Family::Cells(_) | Family::Holdable(_) | Family::Number(_) => None,
        }
    }

    /// Whether the object is one cell.
    pub fn is_lone_cell(&self) -> bool {
        matches!(self.family, Family::Cells(Cells { has_keys: false, .. }))
    }

    /// Whether the object has cells, one for each key or one alone.
    pub fn has_cells(&self) -> bool {
        matches!(self.family, Family::Cells(_))
    }

    /// Whether the object has a cell for each key.
    pub fn has_keys(&self) -> bool {
        matches!(self.family, Family::Cells(Cells { has_keys: true, .. }))
    }

    /// Whether a part can keep some values of one cell.
    pub fn has_values_in_cells(&self) -> bool {
        matches!(self.family, Family::Cells(Cells { has_values: true, .. }))
    }

    /// Whether the object is held by an owner, which its operations name.
    pub fn has_owner(&self) -> bool {
        matches!(self.family, Family::Holdable(Holdable { has_owner: true, .. }))
    }

    /// Whether it can be counted how often a content is set and taken away.
    pub fn is_countable(&self) -> bool {
        match &self.family {
            Family::Container(_) => true,
            Family::Cells(cells) => cells.has_values,
            Family::Holdable(held) => !held.has_owner,
            Family::Number(_) => false,
        }
    }

    /// The name of the first of its functions that satisfies `is_so`, or "".
    fn name_where(&self, is_so: impl Fn(&Function) -> bool) -> &'static str {
        self.functions.iter().find(|function| is_so(function)).map_or("", |function| function.name)
    }

    /// The name of its function that may be refused, because of what the object contains.
    pub fn swap_name(&self) -> &'static str {
        self.name_where(Function::may_be_refused)
    }

    /// The name of its function that puts in, or takes hold.
    pub fn put_name(&self) -> &'static str {
        self.name_where(|function| matches!(function.does, Does::Puts | Does::Acquires))
    }
}

impl PartialEq for Room {
    fn eq(&self, other: &Room) -> bool {
        ptr::eq(self, other)
    }
}

impl Eq for Room {}

impl Debug for Room {
    fn fmt(&self, f: &mut Formatter<'_>) -> fmt::Result {
        f.write_str(self.word)
    }
}

impl Function {
    /// A function that puts its argument into a container.
    pub(super) const fn putting(name: &'static str, kind: Kind) -> Function {
        Function {
            name,
            other_names: &[],
            kind,
            argument: Shape::Value,
            reply: Shape::Done,
            takes: INTEGER,
            replies: INTEGER,
            of_nothing: None,
            does: Does::Puts,
        }
    }

    /// One that takes a value out of a container, or finds none.
    pub(super) const fn taking(name: &'static str, kind: Kind) -> Function {
        Function {
            argument: Shape::Nothing,
            reply: Shape::Content,
            takes: NOTHING,
            replies: CONTENT,
            of_nothing: Some(OfNothing::Nil),
            does: Does::Takes,
            ..Function::putting(name, kind)
        }
    }

    /// One that finds the content of a cell, and does this with it.
    pub(super) const fn finding(name: &'static str, kind: Kind, access: Access) -> Function {
        Function { does: Does::Accesses(access), ..Function::taking(name, kind) }
    }

    /// One that acquires its object, or releases it.
    pub(super) const fn holding(name: &'static str, kind: Kind, does: Does) -> Function {
        Function {
            argument: Shape::Owner,
            reply: Shape::Owner,
            takes: NOTHING,
            replies: NOTHING,
            does,
            ..Function::putting(name, kind)
        }
    }

    /// A function that does this to a cell, and replies nil.
    pub(super) const fn setting_silently(
        name: &'static str,
        kind: Kind,
        access: Access,
    ) -> Function {
        Function {
            reply: Shape::Silent,
            replies: NOTHING,
            does: Does::Accesses(access),
            ..Function::putting(name, kind)
        }
    }

    /// One that replies whether it did this with a cell.
    pub(super) const fn telling_whether(
        name: &'static str,
        kind: Kind,
        access: Access,
    ) -> Function {
        Function {
            reply: Shape::Flag,
            replies: WHETHER,
            of_nothing: Some(OfNothing::False),
            does: Does::Accesses(access),
            ..Function::putting(name, kind)
        }
    }

    /// Whether it only looks at its cell, or tells a number.
    pub fn only_looks(&self) -> bool {
        match &self.does {
            Does::Accesses(access) => (access.effect)(Value::Nil, None).is_none(),
            Does::Counts => true,
            Does::Puts | Does::Takes | Does::Acquires | Does::Releases | Does::Adds => false,
        }
    }

    /// Whether it replaces a value that its argument names, and is refused where another one is
    /// there.
    pub fn may_be_refused(&self) -> bool {
        self.reply == Shape::Swapped || self.argument == Shape::Triple
    }

    /// Whether the object is held after it. `None`: it neither acquires nor releases it.
    pub fn holds(&self) -> Option<bool> {
        match self.does {
            Does::Acquires => Some(true),
            Does::Releases => Some(false),
            Does::Puts | Does::Takes | Does::Accesses(_) | Does::Adds | Does::Counts => None,
        }
    }

    /// Its operation with this argument, if the argument has its shape.
    pub fn with(&'static self, argument: Value) -> Option<Op> {
        let fits = match self.argument {
            Shape::Nothing | Shape::Owner => argument == Value::Nil,
            Shape::Pair => matches!(argument, Value::Pair(..)),
            Shape::Triple => matches!(argument, Value::Triple(..)),
            Shape::Value | Shape::Number => matches!(argument, Value::Int(_)),
            Shape::Done | Shape::Content | Shape::NumberOrNothing | Shape::Swapped => false,
            Shape::Flag | Shape::Silent => false,
        };
        fits.then_some(Op { function: self, argument })
    }

    /// The reply that this value is, if it has the shape of one.
    pub fn reply(&self, value: Value) -> Option<Reply> {
        match (self.reply, value) {
            (Shape::Swapped, Value::Pair(expected, new)) => Some(Reply::Swapped(expected, new)),
            (Shape::Swapped, Value::False) => Some(Reply::NotSwapped),
            (Shape::Flag, Value::True) => Some(Reply::Flag(true)),
            (Shape::Flag, Value::False) => Some(Reply::Flag(false)),
            (
                Shape::Done | Shape::Content | Shape::NumberOrNothing | Shape::Number,
                Value::Int(value),
            ) => Some(Reply::Value(Some(value))),
            (
                Shape::Content | Shape::NumberOrNothing | Shape::Owner | Shape::Silent,
                Value::Nil,
            ) => Some(Reply::Value(None)),
            _ => None,
        }
    }
}

impl PartialEq for Function {
    fn eq(&self, other: &Function) -> bool {
        ptr::eq(self, other)
    }
}

impl Eq for Function {}

impl Debug for Function {
    fn fmt(&self, f: &mut Formatter<'_>) -> fmt::Result {
        f.write_str(self.name)
    }
}
