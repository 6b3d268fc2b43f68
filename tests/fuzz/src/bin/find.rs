//! The finder on a history, and on a table of places after it: two readers agree, and each object
//! is decided.
#![no_main]

use finder::{
    Evidence, Options, Places, Statistics, decide, read_history, read_history_from, warnings,
};
use fuzz::{input, texts};
use std::io::Cursor;

/// # Safety
///
/// As of `fuzz::input`.
#[unsafe(no_mangle)]
pub unsafe extern "C" fn LLVMFuzzerTestOneInput(data: *const u8, length: usize) -> i32 {
    // SAFETY: libFuzzer calls it.
    let all = texts(unsafe { input(data, length) });
    let whole = read_history(all[0]);
    let in_pieces = read_history_from(Cursor::new(all[0]), 1).expect("bytes in memory are read");
    assert_eq!(whole.is_some(), in_pieces.is_some(), "two readers differ");
    let (Some(whole), Some(in_pieces)) = (whole, in_pieces) else { return 0 };
    let placed = all
        .get(1)
        .map(|table| Places::read(table).and_then(|places| in_pieces.with_places(&places)));
    let history = placed.and_then(Result::ok).unwrap_or(whole);
    for decision in decide(&history, Options { steps: Some(2000), workers: 1 }) {
        assert!(!matches!(decision.evidence, Evidence::Open), "the finder failed");
        let _ = decision.to_string();
    }
    let _ = Statistics::of(&history).to_string();
    let _ = warnings(&history);
    0
}
