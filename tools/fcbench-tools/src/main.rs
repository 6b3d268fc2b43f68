//! Commands around the verifier, `fcbench`, which alone decides what is true.
//!
//! - `find HISTORY` writes evidence for a history: for each object an order of its operations, a
//!   reason why there is none, or the search that is to decide.
//! - `judge HISTORY` passes this evidence to `fcbench verify`, and prints its answer. The
//!   environment variable FCBENCH_FINDER can name another finder.
//! - `draw HISTORY` puts the answer on a page of HTML; `draw HISTORY CERTS` that of
//!   `fcbench check`.
//! - `import HISTORY` makes a text that these commands read from a history that another tool wrote.

mod answer;
mod command_line;
mod draw;
mod find;
mod finder_process;
mod import;
mod judge;
mod limit;
mod message;
mod names_file;
mod program;
mod status;
mod system;
mod terminal;

use command_line::Command;
use program::{note, put_out, say};
use status::Status;
use std::env;
use std::ffi::OsString;
use std::process::ExitCode;

fn main() -> ExitCode {
    let words = env::args_os().skip(1).map(OsString::into_string);
    let Ok(words) = words.collect::<Result<Vec<_>, _>>() else {
        say(format_args!("an argument is not UTF-8"));
        return Status::USAGE.into();
    };
    let status = match Command::parse(words) {
        Ok(Command::Find(command)) => find::find(&command),
        Ok(Command::Judge(command)) => judge::judge(&command),
        Ok(Command::Draw(command)) => draw::draw(&command),
        Ok(Command::Import(command)) => import::import(&command),
        Ok(Command::Help(text)) => put_out(&text).map_or_else(|status| status, |()| Status::YES),
        Err(refused) => {
            note(format_args!("{refused}"));
            Status::USAGE
        }
    };
    status.into()
}
