//! `razgwilh sheet`: the marking sheet of a transcript.

use crate::lines::shown;
use crate::{complain, explain, files, Status};
use razgwilh::{judge_transcript, Cause, Refusal};
use std::ffi::OsStr;
use std::io;

/// Prints the lines and gives the status of the verdict. Where there are none, standard error says
/// why. Fails where standard output cannot be written.
pub fn sheet(file: &OsStr) -> io::Result<Status> {
    match lines(file) {
        Ok((status, lines)) => files::print(&lines).map(|()| status),
        Err((status, why)) => {
            complain(&format!("{}: {why}", shown(file)));
            Ok(status)
        }
    }
}

/// The lines with the status of the verdict, or why there are none.
fn lines(file: &OsStr) -> Result<(Status, Vec<u8>), (Status, String)> {
    let mut bytes = Vec::new();
    files::read(file, files::LONGEST + 1, &mut bytes)
        .map_err(|error| (Status::Failed, error.to_string()))?;
    let status = match judge_transcript(&bytes) {
        Ok(_) => Status::Done,
        Err(Refusal { cause: Cause::RoundCheckFails, .. }) => Status::Refused,
        Err(refusal) => {
            let next = explain::after_refusal(refusal.cause);
            return Err((Status::Refused, format!("no lines: {refusal}\n    {next}")));
        }
    };
    Ok((status, razgwilh::sheet(&bytes)))
}
