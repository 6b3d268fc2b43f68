//! The command that imports, and the names that are used in an answer.

use crate::command_line::Import;
use crate::find::read_with;
use crate::names_file::write_names;
use crate::program::{put_out, say};
use crate::status::Status;
use ::import::{Imported, Names};
use finder::LONGEST;
use std::fs::File;
use std::io::{self, Read};

/// What a text that gzip has made begins with.
pub const GZIP: [u8; 2] = [0x1f, 0x8b];

/// The bytes of the longest history that is imported: 4 GiB. It may be longer than a text that is
/// judged, since `split` divides what is written.
const LONGEST_ORIGINAL: u64 = 1 << 32;

/// Reads a text. One that has more bytes than this is an error.
fn read_text(file: impl Read, most: u64) -> io::Result<String> {
    let mut bytes = Vec::new();
    let length = file.take(most + 1).read_to_end(&mut bytes)?;
    if length as u64 > most {
        return Err(io::Error::other(format!("it has more than {most} bytes")));
    }
    if bytes.starts_with(&GZIP) {
        return Err(io::Error::other("the file is compressed: decompress it with zcat first"));
    }
    String::from_utf8(bytes).map_err(|_| io::Error::other("it is not UTF-8"))
}

/// Reads the text of a file. One that says that it is longer is not read.
fn text_in(file: File, most: u64) -> io::Result<String> {
    if file.metadata()?.len() > most {
        return Err(io::Error::other(format!("it has more than {most} bytes")));
    }
    read_text(file, most)
}

/// Reads the text of a file, or reports why it cannot.
fn text_of(path: &str, most: u64) -> Result<String, Status> {
    read_with(path, |file| text_in(file, most))
}

fn imported(command: &Import) -> Result<Imported, Status> {
    let path = &command.history;
    let text = text_of(path, LONGEST_ORIGINAL)?;
    ::import::import(&text, &command.options).map_err(|refused| {
        say(format_args!("{path}, {refused}"));
        Status::MALFORMED
    })
}

/// The text of a table, which is the one that is read of it.
fn table_of(names: &Names) -> Result<String, Status> {
    let table = names.to_string();
    match Names::read(&table) {
        Ok(read) if read.to_string() == table => Ok(table),
        _ => {
            say(format_args!("the table of names cannot be read back"));
            Err(Status::FAILED)
        }
    }
}

/// Refuses a history with warnings, if they are strict.
fn refuse_warnings(warnings: &[String], is_strict: bool) -> Result<(), Status> {
    if is_strict && !warnings.is_empty() {
        say(format_args!("nothing is written, since there is a warning and --strict is given"));
        return Err(Status::MALFORMED);
    }
    Ok(())
}

/// The text of the table for its file, if one is asked for. A long one is warned of.
fn table_for(
    command: &Import,
    names: &Names,
    warnings: &mut Vec<String>,
) -> Result<Option<String>, Status> {
    let Some(path) = &command.names else { return Ok(None) };
    let table = table_of(names)?;
    if table.len() as u64 > LONGEST {
        warnings.push(format!(
            "{path} has more than {LONGEST} bytes, so judge and draw do not read it"
        ));
    }
    Ok(Some(table))
}

/// Writes the text of a history to standard output, and the table of names to its file.
fn try_import(command: &Import) -> Result<(), Status> {
    let Imported { text, names, mut warnings, notes, .. } = imported(command)?;
    let table = table_for(command, &names, &mut warnings)?;
    warnings.iter().for_each(|it| say(format_args!("warning: {it}")));
    notes.iter().for_each(|it| say(format_args!("{it}")));
    refuse_warnings(&warnings, command.is_strict)?;
    if let (Some(path), Some(table)) = (&command.names, table) {
        write_names(path, &command.history, &table)?;
    }
    put_out(&text)
}

/// Imports a history.
pub fn import(command: &Import) -> Status {
    try_import(command).map_or_else(|status| status, |()| Status::YES)
}

/// Reads the table of names in a file.
pub fn names_in(path: &str) -> Result<Names, Status> {
    Names::read(&text_of(path, LONGEST)?).map_err(|refused| {
        say(format_args!("{path}, {refused}"));
        Status::MALFORMED
    })
}

#[cfg(test)]
mod tests {
    use super::*;

    #[test]
    fn a_text_has_a_limit() {
        let read = |text: &str| read_text(text.as_bytes(), 4).map_err(|it| it.to_string());
        assert_eq!(read("1234"), Ok("1234".to_owned()));
        assert_eq!(read("12345"), Err("it has more than 4 bytes".to_owned()));
        assert!(read_text(io::repeat(b' '), 4).is_err());
    }
}
