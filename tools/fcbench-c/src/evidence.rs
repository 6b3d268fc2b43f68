//! The evidence for a history, as a text.

use finder::{Evidence, Options, decide, read_history};
use std::panic::{self, AssertUnwindSafe, catch_unwind};
use std::sync::Once;

/// A line for each object of a history, and whether each of them is an order.
pub struct Found {
    pub lines: String,
    pub are_orders: bool,
}

/// A fault of the finder says nothing on standard error. The hook is that of this library's own
/// copy of Rust's runtime, and no other code's.
fn fail_in_silence() {
    static ONCE: Once = Once::new();
    ONCE.call_once(|| panic::set_hook(Box::new(|_| {})));
}

fn found_of(text: &[u8], steps: Option<u64>) -> Option<Found> {
    let history = read_history(text)?;
    let decisions = decide(&history, Options { steps, workers: 1 });
    Some(Found {
        lines: decisions.iter().map(|decision| format!("{decision}\n")).collect(),
        are_orders: decisions.iter().all(|it| matches!(it.evidence, Evidence::Order(_))),
    })
}

/// What is found of a history. `None`: the text is malformed, or the finder failed.
pub fn find(text: &[u8], steps: Option<u64>) -> Option<Found> {
    fail_in_silence();
    catch_unwind(AssertUnwindSafe(|| found_of(text, steps))).ok().flatten()
}

#[cfg(test)]
mod tests {
    use super::*;

    const PENDING: &[u8] = b"{:process 0, :type :invoke, :f :enqueue, :value 1}";

    #[test]
    fn finds_an_order_for_each_object() {
        let found = find(PENDING, None).expect("a history");
        assert_eq!(found.lines, "{:object 0, :order []}\n");
        assert!(found.are_orders);
    }

    #[test]
    fn finds_nothing_in_a_malformed_text() {
        assert!(find(b"{:process 0", None).is_none());
    }
}
