//! What the command is asked for.

use crate::files::STANDARD;
use crate::lines::shown;
use std::ffi::{OsStr, OsString};
use std::num::NonZero;
use std::path::Path;
use std::thread;

pub const HELP: &str = include_str!("help.txt");

/// The first paragraph of the help.
pub fn usage() -> &'static str {
    HELP.split("\n\n").next().unwrap_or(HELP)
}

pub enum Command {
    Judge(Request),
    /// Of this file.
    Sheet(OsString),
    Write(Writing),
    Help,
    Version,
}

pub struct Request {
    pub files: Vec<OsString>,
    pub explain: bool,
    pub jobs: usize,
}

pub struct Writing {
    pub assignment: OsString,
    pub out: OsString,
    /// Whether a file that is there is written over.
    pub force: bool,
}

/// The command that the arguments ask for, or what is wrong with them.
pub fn command(mut arguments: impl Iterator<Item = OsString>) -> Result<Command, String> {
    let name = arguments.next().ok_or("no command")?;
    match name.to_str() {
        Some("judge") => to_judge(arguments),
        Some("sheet") => to_sheet(arguments),
        Some("write") => to_write(arguments),
        Some("--help" | "-h") => Ok(Command::Help),
        Some("--version" | "-V") => Ok(Command::Version),
        _ => Err(format!("no such command: {}", shown(&name))),
    }
}

fn to_judge(arguments: impl Iterator<Item = OsString>) -> Result<Command, String> {
    let (mut explain, mut jobs) = (false, cores());
    let names = names(arguments, |option, rest| {
        match option {
            "--explain" => explain = true,
            "--jobs" => jobs = number_of_jobs(rest.next().as_deref())?,
            _ => return Ok(false),
        }
        Ok(true)
    })?;
    let Some(files) = names else { return Ok(Command::Help) };
    match files.iter().filter(|file| *file == STANDARD).count() {
        _ if files.is_empty() => Err("no file".to_string()),
        0 | 1 => Ok(Command::Judge(Request { files, explain, jobs })),
        _ => Err("standard input can be read only once".to_string()),
    }
}

fn to_sheet(arguments: impl Iterator<Item = OsString>) -> Result<Command, String> {
    let Some(names) = names(arguments, |_, _| Ok(false))? else { return Ok(Command::Help) };
    let [file] = exactly(names, "sheet takes one name, FILE")?;
    Ok(Command::Sheet(file))
}

fn to_write(arguments: impl Iterator<Item = OsString>) -> Result<Command, String> {
    let mut force = false;
    let names = names(arguments, |option, _| {
        force |= option == "--force";
        Ok(option == "--force")
    })?;
    let Some(names) = names else { return Ok(Command::Help) };
    let [assignment, out] = exactly(names, "write takes two names, ASSIGNMENT and OUT")?;
    Ok(Command::Write(Writing { assignment, out, force }))
}

/// The names among a command's arguments, or nothing where help is asked for. `option` is handed
/// each option that not all commands have, with what follows it, and says whether it is one.
fn names<I: Iterator<Item = OsString>>(
    mut arguments: I,
    mut option: impl FnMut(&str, &mut I) -> Result<bool, String>,
) -> Result<Option<Vec<OsString>>, String> {
    let mut names = Vec::new();
    while let Some(argument) = arguments.next() {
        if !argument.as_encoded_bytes().starts_with(b"-") {
            names.push(argument);
            continue;
        }
        unless_a_file(&argument)?;
        match argument.to_str() {
            Some("--help" | "-h") => return Ok(None),
            Some("--") => names.extend(&mut arguments),
            Some(STANDARD) => names.push(argument),
            Some(name) if option(name, &mut arguments)? => {}
            _ => return Err(format!("no such option: {}", shown(&argument))),
        }
    }
    Ok(Some(names))
}

/// As many names as there are to be, or how many were given.
fn exactly<const N: usize>(names: Vec<OsString>, due: &str) -> Result<[OsString; N], String> {
    names.try_into().map_err(|names: Vec<_>| format!("{due}; given: {}", names.len()))
}

/// An option that is also the name of a file may come from a pattern like `*`: the file would go
/// unjudged, and the exit status speak of the others alone.
fn unless_a_file(option: &OsStr) -> Result<(), String> {
    match Path::new(option).symlink_metadata() {
        Ok(_) => Err(format!("there is a file of this name: write ./{}", shown(option))),
        Err(_) => Ok(()),
    }
}

fn number_of_jobs(argument: Option<&OsStr>) -> Result<usize, String> {
    argument
        .and_then(|number| number.to_str()?.parse().ok())
        .filter(|number| (1..=256).contains(number))
        .ok_or("--jobs takes a number from 1 to 256".to_string())
}

fn cores() -> usize {
    thread::available_parallelism().map_or(1, NonZero::get)
}

#[cfg(test)]
mod tests {
    use super::*;
    use crate::{assignment, files};

    #[test]
    fn the_help_names_what_is_read() {
        for most in [files::LONGEST + 1, assignment::LONGEST] {
            assert!(HELP.replace(',', "").contains(&format!("at most {most} bytes")), "{most}");
        }
    }
}
