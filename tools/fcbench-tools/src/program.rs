//! The verifier.

use crate::status::Status;
use crate::system::{is_output_closed, tie};
use import::visible;
use std::env;
use std::fs::{self, File, Metadata};
use std::io::{self, IsTerminal, Write};
use std::os::unix::fs::{FileTypeExt, MetadataExt};
use std::path::PathBuf;
use std::process::{Child, Command, Stdio};

const NAME: &str = "fcbench-verifier";

/// Where the verifier is: the file that the environment variable FCBENCH names, otherwise the one
/// next to this program. It is never looked for on the PATH, where another program may have its
/// name.
fn path() -> io::Result<PathBuf> {
    let path = match env::var_os("FCBENCH") {
        Some(named) => PathBuf::from(named),
        None => env::current_exe()?.with_file_name(NAME),
    };
    fs::canonicalize(&path)
        .map_err(|error| io::Error::new(error.kind(), format!("{}: {error}", path.display())))
}

/// The verifier with these arguments. On Linux it is killed when this program ends.
pub fn proved(words: &[&str]) -> io::Result<Command> {
    let mut command = Command::new(path()?);
    command.args(words);
    tie(&mut command);
    Ok(command)
}

/// `fcbench verify` of a history by this many workers, which reads evidence from its standard
/// input.
pub fn verifier(history: &str, steps: Option<u64>, workers: usize) -> io::Result<Command> {
    let workers = workers.to_string();
    let mut verifier = proved(&["verify", history, "/dev/stdin", "--workers", &workers])?;
    if let Some(steps) = steps {
        verifier.args(["--steps", &steps.to_string()]);
    }
    Ok(verifier)
}

/// Starts the verifier with a pipe for its input and one for its output, or reports why it cannot.
pub fn start(verifier: io::Result<Command>) -> Result<Child, Status> {
    let started = verifier
        .and_then(|mut verifier| verifier.stdin(Stdio::piped()).stdout(Stdio::piped()).spawn());
    started.map_err(|error| {
        say(format_args!("the verifier cannot be started: {error}"));
        Status::BROKEN
    })
}

/// The path of a file that leads nowhere else in another program, as /dev/stdin and links to it do:
/// the given one, if it has no links, or the one without links. `None`: the file has none, since it
/// was removed, or its name is no text.
fn lasting_path(given: &str, of: &Metadata) -> Option<String> {
    let path = fs::canonicalize(given).ok()?;
    let found = fs::metadata(&path).ok()?;
    if (found.dev(), found.ino()) != (of.dev(), of.ino()) {
        return None;
    }
    if fs::canonicalize(".").is_ok_and(|folder| folder.join(given) == path) {
        // Otherwise the verifier takes it for an option.
        let before = if given.starts_with('-') { "./" } else { "" };
        return Some(format!("{before}{given}"));
    }
    path.into_os_string().into_string().ok()
}

/// Returns a path by which both programs can read a history. Refuses what only one of them could
/// read: a pipe, a terminal, - for standard input, and an open file without a name.
pub fn path_for_both(history: &str) -> Result<String, Status> {
    let refuse = |why| {
        say(format_args!("cannot read {history}: it is read twice, so it must be {why}"));
        Err(Status::FAILED)
    };
    let found = fs::metadata(history);
    let is_pipe = |it: &Metadata| it.file_type().is_fifo() || it.file_type().is_socket();
    let is_terminal = || File::open(history).is_ok_and(|file| file.is_terminal());
    if history == "-" || found.as_ref().is_ok_and(is_pipe) || is_terminal() {
        return refuse("a file and not a pipe");
    }
    match found.map(|found| lasting_path(history, &found)) {
        // A file that cannot be found is reported when it is opened.
        Err(_) => Ok(history.to_owned()),
        Ok(Some(path)) => Ok(path),
        Ok(None) => refuse("a file that has a name"),
    }
}

/// Reports that the output failed, and returns that status.
pub fn output_failed(error: io::Error) -> Status {
    say(format_args!("the output failed: {error}"));
    Status::FAILED
}

/// Standard output, unless this program was started without one.
pub fn output() -> io::Result<impl Write> {
    if is_output_closed() {
        return Err(io::Error::other("standard output is closed"));
    }
    Ok(io::stdout().lock())
}

/// Writes a text to standard output, or reports why it cannot.
pub fn put_out(text: &str) -> Result<(), Status> {
    let written = output().and_then(|mut out| {
        out.write_all(text.as_bytes())?;
        out.flush()
    });
    written.map_err(output_failed)
}

/// Writes a line to standard error. If that fails, the command goes on without it.
pub fn note(line: std::fmt::Arguments<'_>) {
    let _ = writeln!(io::stderr(), "{line}");
}

/// Reports on standard error what went wrong. A name of a file may have any characters: those that
/// a terminal does not show are escaped.
pub fn say(what: std::fmt::Arguments<'_>) {
    note(format_args!("fcbench: {}", visible(what.to_string().as_bytes())));
}
