//! The file of a table of names, as it is written. It may replace a table, and no other file.

use crate::program::say;
use crate::status::Status;
use ::import::Names;
use finder::LONGEST;
use std::fs::{self, File, Metadata};
use std::io::{self, Read, Write};
use std::os::unix::fs::MetadataExt;
use std::path::{Path, PathBuf};
use std::process;

fn is_same(one: &Metadata, other: &Metadata) -> bool {
    (one.dev(), one.ino()) == (other.dev(), other.ino())
}

/// Whether a file is empty, or a table of names.
fn is_table(file: File) -> io::Result<bool> {
    let mut bytes = Vec::new();
    file.take(LONGEST + 1).read_to_end(&mut bytes)?;
    let names = str::from_utf8(&bytes).ok().and_then(|text| Names::read(text).ok());
    Ok(bytes.is_empty() || names.is_some_and(|names| names != Names::default()))
}

/// Where the table is to be, if nothing else is there: a link is followed.
fn place_of(path: &str, history: &str) -> io::Result<PathBuf> {
    if fs::symlink_metadata(path).is_err_and(|error| error.kind() == io::ErrorKind::NotFound) {
        return Ok(path.into());
    }
    let there = fs::metadata(path)?;
    let is_of = |other| fs::metadata(other).is_ok_and(|it| is_same(&it, &there));
    let history = if history == "-" { "/dev/stdin" } else { history };
    let why = if is_of(history) {
        "it is the history"
    } else if is_of("/dev/stdout") {
        "it is the output"
    } else if !there.is_file() {
        "it is no file"
    } else if !is_table(File::open(path)?)? {
        "it is there, and is no table of names"
    } else {
        return fs::canonicalize(path);
    };
    Err(io::Error::other(why))
}

/// Writes a new file beside this one, and puts it in its place.
fn replace(path: &Path, text: &str) -> io::Result<()> {
    let new = path.with_file_name(format!(".fcbench-names-{}", process::id()));
    let mut file = File::create_new(&new)?;
    let written = file.write_all(text.as_bytes()).and_then(|()| fs::rename(&new, path));
    if written.is_err() {
        let _ = fs::remove_file(&new);
    }
    written
}

/// Writes a table of names to a file.
pub fn write_names(path: &str, history: &str, table: &str) -> Result<(), Status> {
    place_of(path, history).and_then(|place| replace(&place, table)).map_err(|error| {
        say(format_args!("cannot write {path}: {error}"));
        Status::FAILED
    })
}
