//! What std does not have: signals, as SIGTERM, by which a program is asked to end, by `kill` or
//! by `timeout`, which sends it to a program and to those that it started; and whether a program
//! began with its standard output closed. This file is the only one of the program with unsafe
//! code: std links the C library, which has these functions.
#![allow(unsafe_code)]

use std::ffi::c_int;
use std::io;
use std::os::unix::process::CommandExt;
use std::process::{Child, Command};
use std::sync::atomic::{AtomicBool, Ordering};

unsafe extern "C" {
    /// ISO C. The handler is a function, or one of the numbers below.
    fn signal(number: c_int, handler: usize) -> usize;
    /// POSIX.
    fn kill(process: c_int, number: c_int) -> c_int;
    #[cfg(target_os = "linux")]
    fn fcntl(file: c_int, command: c_int, ...) -> c_int;
    #[cfg(target_os = "linux")]
    fn getppid() -> c_int;
    #[cfg(target_os = "linux")]
    fn prctl(option: c_int, ...) -> c_int;
}

/// POSIX gives these signals these numbers in `kill -9` and `kill -15`.
const SIGTERM: c_int = 15;
#[cfg(target_os = "linux")]
const SIGKILL: c_int = 9;
/// These are the same in the C libraries of Linux, macOS and the BSDs.
const SIG_IGN: usize = 1;
const SIG_ERR: usize = usize::MAX;
/// Linux: the signal that a process gets when the one that started it ends.
#[cfg(target_os = "linux")]
const PR_SET_PDEATHSIG: c_int = 1;

static IS_ASKED: AtomicBool = AtomicBool::new(false);

extern "C" fn note(_: c_int) {
    IS_ASKED.store(true, Ordering::Relaxed);
}

/// From now on SIGTERM does not end this program: `got_sigterm` says whether it came.
pub fn catch_sigterm() {
    // Sound: the handler has the type that the C library calls, and does nothing but an atomic
    // store, which is allowed at any moment. If the C library refuses it, SIGTERM ends the program
    // as before.
    unsafe { signal(SIGTERM, note as *const () as usize) };
}

/// Whether SIGTERM came.
pub fn got_sigterm() -> bool {
    IS_ASKED.load(Ordering::Relaxed)
}

/// SIGTERM will not end the program of this command.
pub fn ignore_sigterm(command: &mut Command) -> &mut Command {
    let ignore = || match unsafe { signal(SIGTERM, SIG_IGN) } {
        SIG_ERR => Err(io::Error::last_os_error()),
        _ => Ok(()),
    };
    // Sound: the closure runs in the new process before its program, where nothing may be called
    // that takes a lock or allocates. `signal` does neither, and an error of the system is a
    // number.
    unsafe { command.pre_exec(ignore) }
}

/// On Linux the program of this command is killed when this one ends, however that ends. The
/// thread that starts it must be the one that runs `main`, since the end of that thread counts.
#[cfg(target_os = "linux")]
pub fn tie(command: &mut Command) -> &mut Command {
    let own = c_int::try_from(std::process::id()).unwrap_or(0);
    let tie = move || {
        let is_tied = unsafe { prctl(PR_SET_PDEATHSIG, SIGKILL) } == 0;
        // If this program ended before that, the new one has got another parent.
        if is_tied && unsafe { getppid() } == own {
            Ok(())
        } else {
            Err(io::Error::last_os_error())
        }
    };
    // Sound: as above, of `prctl` and `getppid`.
    unsafe { command.pre_exec(tie) }
}

/// Other systems have no such tie.
#[cfg(not(target_os = "linux"))]
pub fn tie(command: &mut Command) -> &mut Command {
    command
}

/// Sends SIGTERM to a program that was started. Whether it was still running.
pub fn send_sigterm(child: &mut Child) -> bool {
    let is_running = matches!(child.try_wait(), Ok(None));
    if is_running && let Ok(process) = c_int::try_from(child.id()) {
        // Sound: two numbers are handed over. The process is this child, and no other that got its
        // number, since it was not waited for to its end.
        unsafe { kill(process, SIGTERM) };
    }
    is_running
}

static BEGAN_CLOSED: AtomicBool = AtomicBool::new(false);

#[cfg(target_os = "linux")]
extern "C" fn note_closed_output() {
    const STANDARD_OUTPUT: c_int = 1;
    const F_GETFD: c_int = 1;
    // Sound: two numbers are handed over.
    let is_closed = unsafe { fcntl(STANDARD_OUTPUT, F_GETFD) } == -1;
    BEGAN_CLOSED.store(is_closed, Ordering::Relaxed);
}

/// Rust's runtime opens /dev/null where standard output is closed, so that must be seen before the
/// runtime begins. The system calls the functions in this section first.
#[cfg(target_os = "linux")]
#[used]
#[unsafe(link_section = ".init_array")]
static BEFORE_MAIN: extern "C" fn() = note_closed_output;

/// Whether this program was started with its standard output closed, as by `>&-`.
pub fn is_output_closed() -> bool {
    BEGAN_CLOSED.load(Ordering::Relaxed)
}
