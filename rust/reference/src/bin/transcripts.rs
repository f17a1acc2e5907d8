//! Writes transcripts, the lines of the verdict on each and the sheets that they have into the
//! folder that is given.

use reference::examples;
use std::path::Path;
use std::process::ExitCode;

fn main() -> ExitCode {
    let arguments: Vec<_> = std::env::args_os().skip(1).collect();
    let [folder] = &arguments[..] else {
        eprintln!("usage: transcripts FOLDER");
        return ExitCode::FAILURE;
    };
    match examples::write_to(Path::new(folder)) {
        Ok(()) => ExitCode::SUCCESS,
        Err(error) => {
            eprintln!("transcripts: {error}");
            ExitCode::FAILURE
        }
    }
}
