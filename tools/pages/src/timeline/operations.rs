//! The operations of an object, with what a drawing needs of them.

use finder::{Does, Need, Op, Reply};
use finder::{End, History, ObjectHistory, Operation};

/// What became of an operation.
#[derive(Clone, Copy, PartialEq, Eq)]
pub enum State {
    /// It returned.
    Done,
    /// It did not happen.
    Failed,
    /// It may have happened, or not.
    Pending,
}

/// What an operation does to what the object contains.
#[derive(Clone, Copy, PartialEq, Eq)]
pub enum Role {
    /// It puts in, or sets.
    Put,
    /// It takes out.
    Take,
    Read,
    /// It compares, and sets.
    Swap,
}

/// An operation of an object, its object and process, and the number of its completion; none where
/// it has none.
#[derive(Clone, Copy)]
pub struct DrawnOperation {
    pub invocation: Operation,
    pub object: u32,
    pub process: u64,
    pub ended: Option<u32>,
}

impl DrawnOperation {
    /// The number of its invocation, by which it is named.
    pub fn number(&self) -> u32 {
        self.invocation.number
    }

    pub fn op(&self) -> Op {
        self.invocation.op
    }

    pub fn state(&self) -> State {
        match self.invocation.end {
            End::Returned { .. } => State::Done,
            End::Failed => State::Failed,
            End::Pending => State::Pending,
        }
    }

    /// The number of its return; none if it did not return.
    pub fn returned(&self) -> Option<u32> {
        self.invocation.returned()
    }

    /// Its reply; none if it did not return.
    pub fn reply(&self) -> Option<Reply> {
        self.invocation.reply()
    }

    /// The number at which its bar ends; none if the bar stays open.
    pub fn closed(&self) -> Option<u32> {
        match self.invocation.end {
            End::Returned { at, .. } => Some(at),
            End::Failed => self.ended,
            End::Pending => None,
        }
    }

    pub fn role(&self) -> Role {
        let op = self.op();
        match (&op.function.does, op.effect(None).map(|effect| (effect.need, effect.sets))) {
            (Does::Puts | Does::Acquires | Does::Adds, _) => Role::Put,
            (Does::Takes | Does::Releases, _) => Role::Take,
            (Does::Counts, _) | (Does::Accesses(_), None | Some((_, None))) => Role::Read,
            (Does::Accesses(_), Some((_, Some(None)))) => Role::Take,
            (Does::Accesses(_), Some((Need::Any, Some(Some(_))))) => Role::Put,
            (Does::Accesses(_), Some((Need::Is(_) | Need::IsNot(_), Some(Some(_))))) => Role::Swap,
        }
    }
}

/// The operations of an object of the history, failed ones too, in rising number.
pub fn operations_of(history: &History, object: &ObjectHistory) -> Vec<DrawnOperation> {
    let mut runs = history.runs.iter();
    let operation = |invocation: &Operation| {
        let run = runs.find(|run| run.number == invocation.number)?;
        Some(DrawnOperation {
            invocation: *invocation,
            object: object.object,
            process: run.process,
            ended: run.completed,
        })
    };
    object.ops.iter().filter_map(operation).collect()
}

/// The operation with this number.
pub fn operation_at(operations: &[DrawnOperation], number: i64) -> Option<DrawnOperation> {
    let number = u32::try_from(number).ok()?;
    let place = operations.binary_search_by_key(&number, DrawnOperation::number).ok()?;
    Some(operations[place])
}
