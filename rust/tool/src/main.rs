//! The command `razgwilh`: transcripts from files, judged by the proved library, their marking
//! sheets, and transcripts written by it from assignments. `HELP` says what it prints and what of
//! it is proved.

mod arguments;
mod assignment;
mod explain;
mod files;
mod judge;
mod lines;
mod pool;
mod sheet;
mod write;

use arguments::{Command, HELP};
use std::env;
use std::io::{self, Write};
use std::process::ExitCode;

/// The exit status, the worst one last.
#[derive(Clone, Copy, Debug, PartialEq, Eq, PartialOrd, Ord)]
pub enum Status {
    Done = 0,
    Refused = 1,
    Failed = 2,
}

impl From<Status> for ExitCode {
    fn from(status: Status) -> ExitCode {
        ExitCode::from(status as u8)
    }
}

fn main() -> ExitCode {
    match arguments::command(env::args_os().skip(1)) {
        Ok(command) => run(command).unwrap_or_else(|error| {
            complain(&format!("standard output: {error}"));
            Status::Failed.into()
        }),
        Err(wrong) => {
            complain(&format!("{wrong}\n{}", arguments::usage()));
            Status::Failed.into()
        }
    }
}

/// Fails where standard output cannot be written.
fn run(command: Command) -> io::Result<ExitCode> {
    match command {
        Command::Judge(request) => judge::judge(&request).map(ExitCode::from),
        Command::Sheet(file) => sheet::sheet(&file).map(ExitCode::from),
        Command::Write(request) => Ok(write::write(&request).into()),
        Command::Help => print(HELP),
        Command::Version => print(concat!("razgwilh ", env!("CARGO_PKG_VERSION"), "\n")),
    }
}

fn print(text: &str) -> io::Result<ExitCode> {
    files::print(text.as_bytes()).map(|()| ExitCode::SUCCESS)
}

/// Says on standard error what went wrong. Where that cannot be written either, the exit status
/// tells.
fn complain(what: &str) {
    let _ = writeln!(io::stderr(), "razgwilh: {what}");
}
