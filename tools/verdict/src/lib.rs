//! What the verifier said of the texts, read from its lines. Nothing else reads them.

mod line;
mod verdict;

pub use line::{Line, OperationLine};
pub use verdict::{
    Answer, Asked, Fault, FormFaultKind, MapFaultKind, OrderFault, Refusal, TextFaultKind, Verdict,
    Which, can_begin,
};
