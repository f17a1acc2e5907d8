//! `razgwilh write`: the transcript of an assignment.

use crate::arguments::Writing;
use crate::assignment::{self, Assignment, Given, Name};
use crate::files::{self, STANDARD};
use crate::lines::shown;
use crate::{complain, explain, Status};
use razgwilh::{encode, prove, rounds, write_transcript, Cause, Refusal, Run};
use std::borrow::Cow;
use std::ffi::OsStr;
use std::fs::{self, File, Metadata, OpenOptions};
use std::io::{self, ErrorKind, Write};
use std::os::unix::fs::MetadataExt;

/// Proves an assignment and writes its transcript. What goes wrong is said on standard error,
/// and no transcript is left then.
pub fn write(request: &Writing) -> Status {
    match written(request) {
        Ok(()) => Status::Done,
        Err((status, what)) => {
            complain(&what);
            status
        }
    }
}

fn written(request: &Writing) -> Result<(), (Status, String)> {
    let name = shown(&request.assignment);
    let assignment =
        read(&request.assignment).map_err(|what| (Status::Failed, format!("{name}: {what}")))?;
    let transcript = transcript(&assignment)
        .map_err(|refusal| (Status::Refused, told(&name, &assignment, &refusal)))?;
    put(request, &transcript).map_err(|what| (Status::Failed, what))
}

fn read(file: &OsStr) -> Result<Assignment, String> {
    let mut bytes = Vec::new();
    files::read(file, assignment::LONGEST + 1, &mut bytes).map_err(|error| error.to_string())?;
    Assignment::read(&bytes).map_err(|mistake| mistake.to_string())
}

fn transcript(assignment: &Assignment) -> Result<Vec<u8>, Refusal> {
    let Assignment { k, rate, step, offset, ref basis, ref challenges, ref queries, .. } =
        *assignment;
    let word = &word(assignment)?;
    let run = Run { k, rate, step, offset, basis, challenges, word };
    let (mut store, mut last) = (vec![0; run.store_length()], vec![0; run.last_length()]);
    prove(run, &mut store, &mut last)?;
    let mut bytes = vec![0; run.transcript_length(queries.len())];
    write_transcript(run, queries, &store, &last, &mut bytes)?;
    Ok(bytes)
}

/// The word; an empty one where the prover refuses parameters or basis before it looks at it.
fn word(assignment: &Assignment) -> Result<Cow<'_, [u64]>, Refusal> {
    let Assignment { k, rate, step, offset, ref basis, .. } = *assignment;
    match &assignment.given {
        Given::Word(word) => Ok(word.into()),
        Given::Coefficients(_) if rounds(k, rate, step) == 0 || basis.len() != k => {
            Ok(Cow::default())
        }
        Given::Coefficients(coefficients) => {
            let mut values = vec![0; 1 << k];
            encode(offset, basis, coefficients, &mut values)?;
            Ok(values.into())
        }
    }
}

/// A refusal with the line that it speaks of, and what to do next.
fn told(name: &str, assignment: &Assignment, refusal: &Refusal) -> String {
    let line = spoken_of(refusal).and_then(|name| assignment.line(name));
    let line = line.map_or(String::new(), |line| format!("line {line}: "));
    let more = more(assignment, refusal);
    format!("{name}: {line}{refusal}{more}\n    {}", explain::after_refusal(refusal.cause))
}

/// What number and place do not tell: the length of a list and the one due; that the encoder,
/// which was given good parameters, takes fewer points than the prover.
fn more(assignment: &Assignment, refusal: &Refusal) -> String {
    let Assignment { k, rate, step, ref basis, ref challenges, ref given, .. } = *assignment;
    let rounds = rounds(k, rate, step);
    match (refusal.cause, refusal.place, given) {
        (Cause::WrongLength, Some(1), _) => format!(" has length {}, not {k}", basis.len()),
        (Cause::WrongLength, Some(2), _) => {
            format!(" has length {}, not {rounds}", challenges.len())
        }
        (Cause::WrongLength, Some(3), Given::Word(word)) => {
            format!(" has length {}, not {}", word.len(), 1 << k)
        }
        (Cause::WrongLength, Some(3), Given::Coefficients(coefficients)) => {
            format!(" has length {}, over {}", coefficients.len(), 1 << k)
        }
        _ => String::new(),
    }
}

fn spoken_of(refusal: &Refusal) -> Option<Name> {
    match (refusal.cause, refusal.place) {
        (Cause::DimensionOutOfRange | Cause::DimensionTooSmall, _) => Some(Name::K),
        (Cause::RateOutOfRange, _) => Some(Name::Rate),
        (Cause::StepOutOfRange, _) => Some(Name::Step),
        (Cause::WrongLength, Some(1)) | (Cause::BasisDependent, _) => Some(Name::Basis),
        (Cause::WrongLength, Some(2)) => Some(Name::Challenges),
        (Cause::WrongLength, Some(3)) | (Cause::DegreeTooLarge, _) => Some(Name::Word),
        (Cause::QueryCountOutOfRange | Cause::QueryOutOfRange | Cause::CosetShared, _) => {
            Some(Name::Queries)
        }
        _ => None,
    }
}

fn put(request: &Writing, transcript: &[u8]) -> Result<(), String> {
    if request.out == STANDARD {
        return files::print(transcript).map_err(|error| format!("standard output: {error}"));
    }
    let named = |what: &str| format!("{}: {what}", shown(&request.out));
    if is_assignment(request) {
        return Err(named("this is the assignment"));
    }
    let file = open(&request.out, request.force).map_err(|error| match error.kind() {
        ErrorKind::AlreadyExists => named("there is a file of this name: --force writes over it"),
        _ => named(&error.to_string()),
    })?;
    fill(&file, transcript).map_err(|error| {
        discard(&request.out, &file);
        named(&error.to_string())
    })
}

/// Whether OUT is the file that the assignment was read from, by any name or as standard input.
fn is_assignment(request: &Writing) -> bool {
    let assignment = match request.assignment == STANDARD {
        true => files::descriptor(io::stdin()).and_then(|file| file.metadata()),
        false => fs::metadata(&request.assignment),
    };
    let identity = |found: Metadata| (found.dev(), found.ino());
    match (assignment, fs::metadata(&request.out)) {
        (Ok(one), Ok(other)) => identity(one) == identity(other),
        _ => false,
    }
}

fn open(out: &OsStr, force: bool) -> io::Result<File> {
    OpenOptions::new().write(true).create(true).create_new(!force).truncate(force).open(out)
}

fn fill(mut file: &File, transcript: &[u8]) -> io::Result<()> {
    file.write_all(transcript)?;
    if file.metadata()?.is_file() {
        // That a disk is full may not be known before.
        file.sync_all()?;
    }
    Ok(())
}

/// Leaves no part of a transcript behind, where it went into a file and not into a device.
fn discard(out: &OsStr, file: &File) {
    if file.metadata().is_ok_and(|found| found.is_file()) {
        // Its name may be one that cannot be removed.
        let _ = file.set_len(0);
        let _ = fs::canonicalize(out).and_then(fs::remove_file);
    }
}

#[cfg(test)]
mod tests {
    use super::*;
    use razgwilh::judge_transcript;

    /// Case K with any byte made any other: most are no assignment, or are refused.
    #[test]
    fn what_is_written_is_accepted() {
        let case_k = include_bytes!("../../../examples/k.assignment");
        let (mut refused, mut accepted) = (0, 0);
        for place in 0..case_k.len() {
            for byte in 0..=u8::MAX {
                let mut bytes = case_k.to_vec();
                bytes[place] = byte;
                let Ok(assignment) = Assignment::read(&bytes) else { continue };
                match transcript(&assignment) {
                    Ok(transcript) => {
                        assert!(judge_transcript(&transcript).is_ok(), "{place}, {byte}");
                        accepted += 1;
                    }
                    Err(refusal) => {
                        assert!(spoken_of(&refusal).is_some(), "{refusal}");
                        refused += 1;
                    }
                }
            }
        }
        assert!(refused > 50 && accepted > 50, "{refused} refused, {accepted} accepted");
    }
}
