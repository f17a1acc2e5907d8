//! Checks what the documents print, and draws their pictures.

mod assignment;
mod commands;
mod coset;
mod counts;
mod course;
mod markdown;
mod orders;
mod pictures;
mod words;

use std::path::Path;
use std::process::ExitCode;

/// What a check says: in a line what it has looked at, or what is wrong.
type Checked = Result<String, String>;

type Check = fn(&Path) -> Checked;

/// The checks, by the name that their lines begin with.
const CHECKS: [(&str, Check); 6] = [
    ("words", words::check),
    ("counts", counts::check),
    ("orders", orders::check),
    ("commands", commands::check),
    ("course", course::check),
    ("pictures", pictures::check),
];

fn main() -> ExitCode {
    let root = Path::new(concat!(env!("CARGO_MANIFEST_DIR"), "/../.."));
    let arguments: Vec<String> = std::env::args().skip(1).collect();
    match arguments.iter().map(String::as_str).collect::<Vec<_>>()[..] {
        [] => check(root),
        ["draw"] => draw(root),
        _ => {
            eprintln!("usage: documents [draw]");
            ExitCode::from(2)
        }
    }
}

fn check(root: &Path) -> ExitCode {
    let mut status = ExitCode::SUCCESS;
    for (name, check) in CHECKS {
        match check(root) {
            Ok(said) => println!("documents: {name}: {said}"),
            Err(wrong) => {
                println!("documents: {name}: failed: {wrong}");
                status = ExitCode::FAILURE;
            }
        }
    }
    status
}

fn draw(root: &Path) -> ExitCode {
    match pictures::draw(root) {
        Ok(()) => ExitCode::SUCCESS,
        Err(wrong) => {
            eprintln!("documents: {wrong}");
            ExitCode::FAILURE
        }
    }
}
