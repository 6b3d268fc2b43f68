//! The functions that C calls, and those of the proved half. This is the only file of this
//! crate with unsafe code.
#![allow(unsafe_code)]

use crate::evidence::find;
use crate::status::{BROKEN, MALFORMED, UNDECIDED, YES, fits};
use std::slice;

/// `FCBENCH_STEPS`: as many steps as the program takes where it is given none.
const PROGRAM_STEPS: u32 = u32::MAX;

// The proved half. Of each text it gets the bytes alone.
unsafe extern "C" {
    fn fcbench_check(
        history: *const u8,
        history_length: usize,
        certificates: *const u8,
        certificates_length: usize,
        out: *mut u8,
        capacity: usize,
        needed: *mut usize,
    ) -> u32;

    fn fcbench_verify(
        history: *const u8,
        history_length: usize,
        evidence: *const u8,
        evidence_length: usize,
        steps: u32,
        out: *mut u8,
        capacity: usize,
        needed: *mut usize,
    ) -> u32;
}

/// The caller's buffer.
struct Lines {
    out: *mut u8,
    capacity: usize,
    needed: *mut usize,
}

impl Lines {
    /// Writes the lines, or as much of them as there is room for, and says how long they are.
    ///
    /// # Safety
    ///
    /// `out` is of `capacity` bytes, or there are none, and `needed` can be written.
    unsafe fn write(&self, lines: &[u8]) {
        let given = lines.len().min(self.capacity);
        if given > 0 {
            // SAFETY: the buffer has this many bytes, and overlaps nothing of ours.
            unsafe { self.out.copy_from_nonoverlapping(lines.as_ptr(), given) };
        }
        // SAFETY: it can be written.
        unsafe { self.needed.write(lines.len()) };
    }

    /// What the proved half makes of the evidence, if its lines fit the status, as far as there is
    /// room for them.
    ///
    /// # Safety
    ///
    /// As for [`Lines::write`].
    unsafe fn verify(&self, history: &[u8], evidence: &[u8], steps: u32) -> u32 {
        // SAFETY: each text is lent for the call, and the buffer is as the caller promises.
        let status = unsafe {
            fcbench_verify(
                history.as_ptr(),
                history.len(),
                evidence.as_ptr(),
                evidence.len(),
                steps,
                self.out,
                self.capacity,
                self.needed,
            )
        };
        // SAFETY: the caller's, and it was written.
        let needed = unsafe { *self.needed };
        // SAFETY: the buffer has this many bytes, which the proved half wrote.
        let lines = unsafe { text(self.out, needed.min(self.capacity)) };
        if fits(status, lines, needed) {
            return status;
        }
        // SAFETY: as the caller promises.
        unsafe { self.write(b"") };
        BROKEN
    }
}

/// Whether the proved half accepts the certificates.
fn are_accepted(history: &[u8], certificates: &[u8]) -> bool {
    let (mut out, mut needed) = ([0; 64], 0);
    // SAFETY: each text is lent for the call, and the buffer is one.
    let status = unsafe {
        fcbench_check(
            history.as_ptr(),
            history.len(),
            certificates.as_ptr(),
            certificates.len(),
            out.as_mut_ptr(),
            out.len(),
            &mut needed,
        )
    };
    status == YES && fits(status, &out[..needed.min(out.len())], needed)
}

/// A text of the caller. With the length 0 the pointer may be NULL.
///
/// # Safety
///
/// The pointer is to that many bytes, which no thread writes while they are lent.
unsafe fn text<'a>(bytes: *const u8, length: usize) -> &'a [u8] {
    if length == 0 {
        return &[];
    }
    // SAFETY: as the caller promises.
    unsafe { slice::from_raw_parts(bytes, length) }
}

/// # Safety
///
/// The caller keeps the rules of include/fcbench.h.
#[unsafe(no_mangle)]
pub unsafe extern "C" fn fcbench_judge(
    history: *const u8,
    history_length: usize,
    steps: u32,
    out: *mut u8,
    capacity: usize,
    needed: *mut usize,
) -> u32 {
    // SAFETY: the caller keeps the rules.
    let history = unsafe { text(history, history_length) };
    let own = (steps != PROGRAM_STEPS).then_some(u64::from(steps));
    let evidence = find(history, own).map_or_else(String::new, |found| found.lines);
    let lines = Lines { out, capacity, needed };
    // SAFETY: the caller keeps the rules.
    unsafe { lines.verify(history, evidence.as_bytes(), steps) }
}

/// # Safety
///
/// The caller keeps the rules of include/fcbench.h.
#[unsafe(no_mangle)]
pub unsafe extern "C" fn fcbench_find(
    history: *const u8,
    history_length: usize,
    out: *mut u8,
    capacity: usize,
    needed: *mut usize,
) -> u32 {
    // SAFETY: the caller keeps the rules.
    let history = unsafe { text(history, history_length) };
    let lines = Lines { out, capacity, needed };
    let Some(found) = find(history, None) else {
        // What is wrong with a text the proved half says. If nothing is, the finder failed.
        // SAFETY: the caller keeps the rules.
        let status = unsafe { lines.verify(history, &[], 0) };
        if status == MALFORMED || status == BROKEN {
            return status;
        }
        // SAFETY: the caller keeps the rules.
        unsafe { lines.write(b"") };
        return UNDECIDED;
    };
    let is_yes = found.are_orders && are_accepted(history, found.lines.as_bytes());
    // SAFETY: the caller keeps the rules.
    unsafe { lines.write(found.lines.as_bytes()) };
    if is_yes { YES } else { UNDECIDED }
}
