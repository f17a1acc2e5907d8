//! `razgwilh judge`: a line for each file.

use crate::arguments::Request;
use crate::lines::{line, shown, Verdict, HEADER};
use crate::{complain, explain, files, pool, Status};
use std::ffi::{OsStr, OsString};
use std::io::{self, IsTerminal, LineWriter, Write};

/// Judges all files and gives the worst status. Fails where standard output cannot be written;
/// a file that cannot be read does not keep the others from being judged.
pub fn judge(request: &Request) -> io::Result<Status> {
    let mut out = LineWriter::new(files::descriptor(io::stdout())?);
    let mut progress = Progress::of(request.files.len());
    let mut worst = Status::Done;
    writeln!(out, "{HEADER}")?;
    progress.show();
    pool::in_order(&request.files, request.jobs, verdict, |file, verdict| {
        progress.clear();
        worst = worst.max(report(file, verdict, request.explain, &mut out)?);
        progress.judged += 1;
        progress.show();
        io::Result::Ok(())
    })?;
    progress.clear();
    out.flush()?;
    Ok(worst)
}

fn verdict(file: &OsString, buffer: &mut Vec<u8>) -> io::Result<Verdict> {
    files::read(file, files::LONGEST + 1, buffer)?;
    Ok(razgwilh::judge_transcript(buffer))
}

fn report(
    file: &OsStr,
    verdict: io::Result<Verdict>,
    explained: bool,
    out: &mut impl Write,
) -> io::Result<Status> {
    let verdict = match verdict {
        Ok(verdict) => verdict,
        Err(error) => {
            complain(&format!("{}: {error}", shown(file)));
            return Ok(Status::Failed);
        }
    };
    writeln!(out, "{}", line(&verdict, file))?;
    if explained {
        writeln!(out, "{}", explain::text(&verdict))?;
    }
    Ok(if verdict.is_ok() { Status::Done } else { Status::Refused })
}

/// A line on standard error that says how far the judging is, where that is a terminal.
struct Progress {
    judged: usize,
    files: usize,
    shown: bool,
}

impl Progress {
    fn of(files: usize) -> Progress {
        Progress { judged: 0, files, shown: io::stderr().is_terminal() }
    }

    fn show(&self) {
        if self.shown {
            let _ = write!(io::stderr(), "{} of {} files", self.judged, self.files);
        }
    }

    /// Back to the start of the line, and all of it erased.
    fn clear(&self) {
        if self.shown {
            let _ = write!(io::stderr(), "\r\x1b[K");
        }
    }
}
