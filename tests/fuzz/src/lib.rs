//! What the targets have in common.

use std::panic;
use std::process;
use std::slice;
use std::sync::Once;

/// Lets each panic end the program, also one that the tools would catch.
fn abort_at_panics() {
    static ONCE: Once = Once::new();
    ONCE.call_once(|| {
        let usual = panic::take_hook();
        panic::set_hook(Box::new(move |info| {
            usual(info);
            process::abort();
        }));
    });
}

/// The input of libFuzzer.
///
/// # Safety
///
/// As libFuzzer promises, `length` bytes are at `data`, and stay there while they are used.
pub unsafe fn input<'a>(data: *const u8, length: usize) -> &'a [u8] {
    abort_at_panics();
    // SAFETY: see above. Without bytes `data` may be null.
    if length == 0 { &[] } else { unsafe { slice::from_raw_parts(data, length) } }
}

/// The texts of an input: between them is a byte that is in no UTF-8.
pub fn texts(input: &[u8]) -> Vec<&[u8]> {
    input.split(|byte| *byte == 0xfe).collect()
}

/// A text of an input, if it is there and is UTF-8.
pub fn text<'a>(texts: &[&'a [u8]], place: usize) -> Option<&'a str> {
    str::from_utf8(texts.get(place)?).ok()
}
